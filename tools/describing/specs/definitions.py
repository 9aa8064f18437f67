"""The definitions that one line adds to the specs of a format: a constant, an enum, a choice, or a part with errors."""
from __future__ import annotations

from describing import model as m
from describing.imports import part_cases
from describing.layout import Format, Line, enum_bits, is_open
from describing.model import snake
from describing.specs import asked, choices, last, sizes
from describing.specs.padding import padding_specs
from describing.specs.values import array_value, choice_values, enum_laws, enum_value
from describing.specs.terms import called


def definitions(f: Format, line: Line) -> list[str]:
    """Returns the definitions of a line."""
    if isinstance(line.kind, m.Const):
        return const_at(f, line, line.kind) if f.sized else []
    if isinstance(line.kind, m.Pad):
        return padding_specs(f.description, line.kind)
    if line.enum:
        laws = enum_value(f, line, line.enum)
        if isinstance(line.kind, m.Array):
            laws = enum_laws(line, line.enum) + array_value(f, line, line.enum, line.kind.count)
        return [] if line.repeats else [*case_specs(f, line, line.enum), *read_specs(f, line, line.enum), *laws]
    parts = [it for it in line.parts if it.use and f.mapped(it.kind) and f.is_first(it)]
    found = [said for it in parts if it.use for said in mapped_specs(f, it, it.use)]
    found += choices.definitions(f, line, line.kind) if isinstance(line.kind, m.Choose) else []
    found += last.definitions(line.kind) if isinstance(line.kind, m.UpToLast) else []
    found += asked.due_specs(f, line.kind) if isinstance(line.kind, m.If) and line.kind.due else []
    if isinstance(line.kind, m.Sized) and line.error and not line.measured:
        found += sizes.stated_specs(f, line, line.kind)
    found += sizes.definitions(f, line, line.measured) if line.measured else []
    return found + (choice_values(f, line) if f.valued else [])


def const_at(f: Format, line: Line, kind: m.Const) -> list[str]:
    """Returns the definition of the bits at the place of a constant."""
    return [
        f"-- the {kind.width} bits at {line.at}, which are {kind.value}",
        f"abbrev pub const_at_{line.at} : List Bool → ℕ",
        f"const_at_{line.at} bits = number {f.o} (bits_at {line.at} {kind.width} bits)",
        "",
    ]


def answer_type(f: Format, line: Line, specs: str) -> str:
    """Returns the type of what numbers of an enum say: cases, or the refusal of a number."""
    return f"(Result {specs} {f.error})" if line.error else specs


def case_specs(f: Format, line: Line, enum: m.EnumType) -> list[str]:
    """Returns the definitions from a number to its case, and back."""
    s, strict = snake(enum.name), line.error
    cases = [(it, called(line, case)) for it, case in enum.cases]
    tested = cases[: len(enum.tested)]
    tests = "".join(f"if n == {it} then {f'Ok {case}' if strict else case} else " for it, case in tested)
    last = cases[-1][1] if enum.total else f"{called(line, enum.other)} n"
    out = ["-- the case of a number", f"abbrev pub {s}_of : ℕ → {answer_type(f, line, enum.name)}"]
    out += [f"{s}_of n = {tests}{f'Err {strict}' if strict else last}", ""]
    out += ["-- the number of a case", f"abbrev pub {s}_number : {enum.name} → ℕ"]
    out += [f"{s}_number {case} = {value}" for value, case in cases]
    out += [f"{s}_number ({called(line, enum.other)} n) = n"] if enum.other else []
    return [*out, ""]


def read_specs(f: Format, line: Line, enum: m.EnumType) -> list[str]:
    """Returns the definition of the read of a number, or of an array of numbers."""
    if isinstance(line.kind, m.Array):
        return array_specs(f, line, enum, line.kind.count)
    s = snake(enum.name)
    head = f"abbrev pub {s}_read : Order → Decoder {answer_type(f, line, enum.name)}"
    read = f"and_then (unsigned_decoder o {enum_bits(enum)} {enum.width}) (λ v. pure ({s}_of v))"
    return ["-- the read of a case", head, f"{s}_read o = {read}", ""]


def array_specs(f: Format, line: Line, enum: m.EnumType, count: int) -> list[str]:
    """Returns the definitions of the cases of an array of numbers, and of their read."""
    s = snake(enum.name)
    each, answer = f"map {s}_of numbers", answer_type(f, line, f"(List {enum.name})")
    read = f"items_decoder (unsigned_decoder o {enum_bits(enum)} {enum.width}) {count}"
    return [
        "-- the cases of numbers",
        f"abbrev pub {s}_each : List ℕ → {answer}",
        f"{s}_each numbers = {f'all_ok ({each})' if line.error else each}",
        "",
        f"-- the read of {count} numbers",
        f"abbrev pub {s}_read_each : Order → Decoder {answer}",
        f"{s}_read_each o = and_then ({read}) (λ v. pure ({s}_each v))",
        "",
    ]


def mapped_specs(f: Format, line: Line, use: m.Use) -> list[str]:
    """Returns the definitions from the errors of a part to those of the format."""
    own, part, module = use.description.error, use.name, use.module
    theirs = own or "Error"
    out = [f"-- an error of a `{part}`, as an error of the type"]
    out += [f"abbrev pub {module}_error : {theirs} → {f.error}"]
    out += [f"{module}_error {f'({part}Reader error)' if own else 'error'} = Reader error"]
    for case, held in part_cases(use):
        said = f"({part}{case} error)" if held else f"{part}{case}"
        out.append(f"{module}_error {said} = {use.error} {said}")
    answers = f"Result {part} {theirs} → Result {part} {f.error}"
    out += ["", "-- a result with these errors", f"abbrev pub {module}_answer : {answers}"]
    out += [f"{module}_answer = error_of {module}_error"]
    out += ["", f"-- the reads of a `{part}`, with the errors of the type"]
    rest, n = ("ℕ → ", " n") if is_open(use) else ("", "")
    out += [f"abbrev pub {module}_here : Order → {rest}Decoder (Result {part} {f.error})"]
    here = f"and_then ({module}_decoder o{n}) (λ answer. pure ({module}_answer answer))"
    return [*out, f"{module}_here o{n} = {here}", ""]
