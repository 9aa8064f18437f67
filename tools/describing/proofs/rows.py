"""The test vectors of a description, which the prover computes."""
from __future__ import annotations

import re
from typing import Iterator, assert_never

from describing import model as m
from describing.examples import vectors
from describing.input import Input, ReadError, Value
from describing.layout import Format, Line
from describing.names import Table, merged, modules_of, spec_of
from describing.proofs.unfolds import of_lines
from describing.read import record_reader, value_of
from describing.specs.terms import called, handed

# ---- values


def term(line: Line, value: Value, within: str = "") -> str:
    """Returns a value in terms of specs. The cases of the enums of a part begin with `within`."""
    kind = line.kind
    match kind:
        case m.NonZero():
            return f"non_zero_{kind.integer.base} {number(value) - 1}"
        case m.MaybeNonZero():
            return "None" if value is None else f"Some (non_zero_{kind.integer.base} {number(value) - 1})"
        case m.Array() | m.List() | m.Until() | m.Rest():
            return list_term(line, kind.item, value, within)
        case m.Fill() | m.UpToLast():
            return list_term(line, kind.use, value, within)
        case m.Blocks():
            assert isinstance(value, list)
            return "".join(f"({list_term(line, m.Octet(), it, within)}) ∷ " for it in value) + "[]"
        case m.Sized(item=m.Octet() as octet):
            return list_term(line, octet, value, within)
        case m.Enum():
            return case_term(line, value, within)
        case m.Part() | m.Sized():
            return record_term(line, value)
        case m.Choose():
            return choice_term(line, kind, value, within)
        case m.Optional() | m.If():
            return "None" if value is None else f"Some ({record_term(line, value)})"
        case m.Number() | m.Groups():
            return number_term(value, kind.integer.signed)
        case m.Golomb():
            return number_term(value, kind.signed)
    return str(value).lower() if isinstance(value, bool) else number_term(value, False)


def number(value: Value) -> int:
    """Returns a value that is a number."""
    assert isinstance(value, int)
    return value


def number_term(value: Value, signed: bool) -> str:
    """Returns a number."""
    found = number(value)
    if not signed:
        return str(found)
    return f"pos {found}" if found >= 0 else f"negsuc {-found - 1}"


def case_term(line: Line, value: Value, within: str) -> str:
    """Returns a case."""
    if isinstance(value, dict):
        return "".join(f"{within}{called(line, case)} {number(held)}" for case, held in value.items())
    return f"{within}{called(line, str(value))}"


def record_term(line: Line, value: Value) -> str:
    """Returns a part."""
    assert line.use and isinstance(value, dict)
    inner = (f"{it.name} = {term(it, value[it.name], line.use.name)}" for it in line.inner if it.is_field)
    return f"record {{ {'; '.join(inner)} }}"


def choice_term(line: Line, kind: m.Choose, value: Value, within: str) -> str:
    """Returns the case of a choice."""
    if isinstance(value, str):
        return f"{within}{kind.type}{value}"
    assert isinstance(value, dict)
    case, held = next(iter(value.items()))
    part = next(part for arm, part in line.arms if arm.case == case)
    if isinstance(held, dict) and not part:
        octets = "".join(f"{it} ∷ " for it in bytes_in(held["bytes"]))
        return f"{within}{kind.type}{case} (record {{ number = {number(held['number'])}; bytes = {octets}[] }})"
    return f"{within}{kind.type}{case} " + (f"({record_term(part, held)})" if part else str(number(held)))


def bytes_in(value: Value) -> bytes:
    """Returns a value that is bytes."""
    assert isinstance(value, bytes)
    return value


def list_term(line: Line, item: m.Item, value: Value, within: str) -> str:
    """Returns a list."""
    assert isinstance(value, list | bytes)
    return "".join(f"{item_term(line, item, it, within)} ∷ " for it in value) + "[]"


def item_term(line: Line, item: m.Item, value: Value, within: str) -> str:
    """Returns an item of a list."""
    match item:
        case m.Octet():
            return number_term(value, False)
        case m.Integer():
            return number_term(value, item.signed)
        case m.EnumType():
            return f"({case_term(line, value, within)})"
        case m.Use():
            return f"({record_term(line, value)})"
    assert_never(item)


# ---- rows


def row(
    f: Format, k: int, data: bytes, said: dict[str, Value] | str, given: dict[str, Value], unfolds: list[str]
) -> list[str]:
    """Returns the bytes of a test vector, and that they have its fields, or its error."""
    known = [f"row_{k} : List ℕ", f"row_{k} = {''.join(f'{it} ∷ ' for it in data)}[]", ""]
    if isinstance(said, str):
        parts = " ".join(f"({record_term(it, given[it.name])})" for it in f.handed)
        inside = is_inside(f, data, said, given)
        return [*known, *refused_row(f, k, len(data), said, inside, parts, unfolds)]
    return [*known, *value_row(f, k, len(data), said, unfolds)]


def is_inside(f: Format, data: bytes, said: str, given: dict[str, Value]) -> bool:
    """Returns true if parts that are read over their own bytes return an error of the reader."""
    try:
        value_of(record_reader(f.description, given)(Input(data, f.order)))
    except ReadError as it:
        name = re.split(r"[.\[]", it.path)[0]
        line = next((line for line in f.lines if line.name == name and line.measured), None)
        return line is not None and (said != "EndOfInput" or line.size is None)
    return False


def refused_row(f: Format, k: int, size: int, said: str, inside: bool, parts: str, unfolds: list[str]) -> list[str]:
    """Returns that the bytes are refused with an error."""
    own = any(case == said for it in f.tests for case, _ in m.refusals(it.kind))
    answer = f"Ok (Err {said})" if own else f"Err {said}"
    if inside and not own:
        answer = f"Ok (Err (Reader {said}))" if f.error else f"Ok (Err {said})"
    decoder = f.decoder(f.o, f"{parts} {max(size - f.head, 0) if f.rest else ''}".strip())
    return [
        f"refused_{k} : sure_answer (({decoder}).reads 0 (bits {f.o} row_{k})) ≡ {answer}",
        f"unfolding row_{k} {' '.join(unfolds)}",
        f"refused_{k} = refl",
        "",
    ]


def value_row(f: Format, k: int, size: int, said: dict[str, Value], unfolds: list[str]) -> list[str]:
    """Returns that the fields are written to the bytes, and read from them."""
    ok = f"(Ok (Ok value_{k}))" if f.own else f"(Ok value_{k})"
    decoder = f.decoder(f.o, f"{handed(f, f'value_{k}.')} {size - f.head if f.rest else ''}".strip())
    return [
        f"value_{k} : {f.type}",
        f"value_{k} = record {{",
        *[f"  {it.name} = {term(it, said[it.name])};" for it in f.fields],
        "}",
        "",
        f"written_{k} : (write_sequence ({f.m}_writes {f.o} value_{k} ++ align ∷ []) 0 ≡ bits {f.o} row_{k})",
        f"    × (({decoder}).reads 0 (bits {f.o} row_{k})",
        f"    ≡ Done (length (write_sequence ({f.m}_writes {f.o} value_{k}) 0)) {ok})",
        f"unfolding row_{k} value_{k} {' '.join(unfolds)}",
        f"written_{k} = (refl, refl)",
        "",
    ]


def rows(f: Format) -> tuple[list[str], Table]:
    """Returns the rows, and where the names come from that they compute through and that their parts have."""
    wanted = {"and_then", "digits", "digits_number"} | set(of_lines((*f.handed, *f.lines)))
    found = modules_of(wanted)
    unfolds = [it for names in found.values() for it in names.split()] + sorted(it for it in wanted if it[:4] == "lib.")
    unfolds += dict.fromkeys(paddings(f, f.lines, ""))
    out = [line for k, it in enumerate(vectors(f.description)) for line in row(f, k, *it, unfolds)]
    return out, merged(found, *[part_names(f, it) for it in (*f.handed, *f.lines)])


def paddings(f: Format, lines: tuple[Line, ...], path: str) -> Iterator[str]:
    """Returns the definitions of the numbers of zeros up to a multiple of bits, those of parts by their paths."""
    for it in lines:
        if isinstance(it.kind, m.Pad):
            yield f"{path}{it.kind.counted}"
        for part in it.parts:
            if part.use:
                yield from paddings(f, part.inner, f"Rattle.{f.crate}.specs.{spec_of(part.use.module)}.")


def part_names(f: Format, line: Line) -> Table:
    """Returns where the cases of the enums of a part come from, under the names that the rows use."""
    found: Table = {}
    for it in line.inner if line.use else ():
        if line.use and it.enum:
            path = f"Rattle.{f.crate}.specs.declared.{line.use.module}.{it.enum.name}.TheVariants"
            found[path] = " ".join(f"{case}={line.use.name}{called(it, case)}" for case in it.enum.names())
        if line.use and isinstance(it.kind, m.Choose):
            path = f"Rattle.{f.crate}.specs.declared.{line.use.module}.{it.kind.type}.TheVariants"
            found[path] = " ".join(f"{arm.case}={line.use.name}{it.kind.type}{arm.case}" for arm in it.kind.arms)
        found = merged(found, part_names(f, it))
    return merged(found, *[part_names(f, it) for _, it in line.arms if it])
