"""The answers of the conversion of the error of a part, and of the function that writes an optional part."""
from __future__ import annotations

from describing import model as m
from describing.imports import part_cases
from describing.layout import Format, Line
from describing.model import snake

Answers = dict[str, list[str]]


def answers(f: Format, line: Line, use: m.Use) -> Answers:
    """Returns the answers of the functions of a part."""
    found = error_answers(f, use) if use.description.error and f.is_first(line) else {}
    if isinstance(line.kind, m.Optional | m.If) and f.is_first_optional(line):
        found |= write_answers(f, use)
    return found


def error_answers(f: Format, use: m.Use) -> Answers:
    """Returns the answers of the conversion of the error of a part."""
    path = f"{f.error}From{use.description.error}"
    out = [f"use {f.goals}.{path}.from.Goals as goal"]
    for case in ("Reader", *[case for case, _ in part_cases(use)]):
        out += ["", f"pub returns-in-{case} : goal.returns-in-{case}"]
        out += [f"returns-in-{case} c = rw c.in-{case}.is refl"]
    return {f"{path}/from": out}


def write_answers(f: Format, use: m.Use) -> Answers:
    """Returns the answers of the function that writes an optional part."""
    path = f"write_{snake(use.name)}_if"
    goal = f"use {f.goals}.{path}.Goals as goal"
    none = ["pub returns-in-None : goal.returns-in-None", "returns-in-None g c = rw c.in-None.is (all_none _ _)"]
    return {path: [goal, "", *none]}
