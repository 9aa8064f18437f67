"""Contracts: how a clause is laid out, and what the clauses of a format share."""
from __future__ import annotations

import re

from describing import model as m
from describing.layout import Format, Line


def clauses(code: str) -> str:
    """Returns the text of the contracts of some code."""
    found = []
    for it in re.finditer(r"\b(?:ensures|requires|ghost)\b[^{\n]*\{", code):
        depth, end = 1, it.end()
        while depth:
            depth += (code[end] == "{") - (code[end] == "}")
            end += 1
        found.append(code[it.end() : end - 1])
    return "\n".join(found)


def clause(name: str, facts: list[str], says: str) -> list[str]:
    """Returns a clause, broken at its arrows."""
    lines = [f"        ensures {name} {{ {facts[0]}"]
    for it in [*facts[1:], f"{says} }}"]:
        fits = len(lines[-1]) + len(it) + 3 <= 100
        lines[-1:] = [f"{lines[-1]} → {it}"] if fits else [lines[-1], f"            → {it}"]
    return lines


def first_of(piece: tuple[Line, ...]) -> str:
    """Returns the name of the first field of some lines."""
    return next((it.name for it in piece if it.is_field), m.label(piece[0].kind))


def rejections(f: Format) -> str:
    """Returns the cases of the error, for a comment: `A`, `B` or `C`."""
    cases = [f"`{it}`" for it in dict.fromkeys(case for it in f.tests for case, _ in m.refusals(it.kind))]
    return " or ".join([", ".join(cases[:-1]), *cases[-1:]]) if len(cases) > 1 else "".join(cases)


def memory(f: Format) -> str:
    """Returns the parameter for the memory of the lists."""
    return ", alloc: Global" * f.grows


def in_order(f: Format) -> list[str]:
    """Returns the premise of the reads of a format with sizes: the reader has the order of the format."""
    return [f"        requires {{ R.source.order ≡ {f.o} }}"] * f.ordered


def of_reader(f: Format, error: str) -> str:
    """Returns an error of the reader as an error of the format, in code."""
    return f"Reader({error})" if f.error else error


def or_refused(f: Format, fact: str, reached: str = "") -> str:
    """Returns a fact of a clause, or that an allocation failed if the format has lists."""
    lacks = f"result ≡ Err {f'({f.error}.Reader OutOfMemory)' if f.error else 'OutOfMemory'}"
    lacks = f"({lacks})\n            × {reached}" if reached else lacks
    return f"({fact})\n            ⊎ ({lacks})" if f.grows else fact
