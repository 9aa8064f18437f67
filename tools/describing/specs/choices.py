"""The definitions of a choice: the number of each case, and what is read, what is written and what fits behind it."""
from __future__ import annotations

from describing import model as m
from describing.layout import Format, Line, by_size, is_open, rest_given
from describing.model import snake
from describing.specs.terms import here


def definitions(f: Format, line: Line, kind: m.Choose) -> list[str]:
    """Returns the definitions of a choice."""
    out = number_specs(line, kind) + unnamed_specs(f, kind) + read_specs(f, line, kind)
    return [*out, *written_specs(line, kind), *fits_specs(line, kind)]


def unnamed_specs(f: Format, kind: m.Choose) -> list[str]:
    """Returns the definition of the read of another number, with the bytes after it."""
    if not kind.unnamed:
        return []
    s, record = snake(kind.unnamed), "record { number = n; bytes = bytes }"
    return [
        "-- the reads of k bytes after another number",
        f"abbrev pub {s}_read : Order → ℕ → ℕ → Decoder (Result {kind.unnamed} {f.error})",
        f"{s}_read o n k = and_then (vec_decoder o k) (λ bytes. pure (Ok ({record})))",
        "",
    ]


def number_of(arm: m.Arm) -> str:
    """Returns the number of a case, of what its pattern holds."""
    return str(arm.number) if arm.number is not None else "it.number" if arm.held else "n"


def called(kind: m.Choose, arm: m.Arm) -> str:
    """Returns the name of a case in specs, which begins with the name of its type."""
    return f"{kind.type}{arm.case}"


def pattern(kind: m.Choose, arm: m.Arm) -> str:
    """Returns the pattern of a case: it holds a part `it`, another number `n`, or nothing."""
    held = "it" if arm.held else "n" if arm.number is None else ""
    return f"({called(kind, arm)} {held})" if held else called(kind, arm)


def number_specs(line: Line, kind: m.Choose) -> list[str]:
    """Returns the definition of the number of a case."""
    s = snake(kind.type)
    head = [f"-- the number of the case of a `{kind.type}`", f"abbrev pub {s}_number : {kind.type} → ℕ"]
    numbers = (f"{s}_number {pattern(kind, it)} = {number_of(it)}" for it in kind.arms)
    return [*head, *numbers, ""]


def made(f: Format, line: Line, kind: m.Choose, arm: m.Arm, part: Line | None) -> str:
    """Returns the read of a case."""
    if arm.held and not part:
        said = f"{called(kind, arm)} it"
        return f"and_then ({snake(kind.unnamed)}_read o n k) (part_then (λ it. pure (Ok ({said}))))"
    case = f"{called(kind, arm)}{' it' if part else ' n' if arm.number is None else ''}"
    answer = f"pure (Ok ({case}))" if line.stops else f"pure ({case})"
    if not part:
        return answer
    behind = f"(part_then (λ it. {answer}))" if part.stops else f"(λ it. {answer})"
    given = f" {rest_given(part.use, 'k')}" if part.use and is_open(part.use) else ""
    return f"and_then ({here(f, part)}{given}) {behind}"


def read_specs(f: Format, line: Line, kind: m.Choose) -> list[str]:
    """Returns the definition of the reads behind a number."""
    s, result = snake(kind.type), f"(Result {kind.type} {f.e})" if line.stops else kind.type
    cases = [(arm, made(f, line, kind, arm, part)) for arm, part in line.arms]
    tests = "".join(f"if n == {arm.number} then {read} else " for arm, read in cases[: len(kind.tested)])
    last = f"pure (Err {kind.unknown})" if kind.unknown else cases[-1][1]
    more, k = ("ℕ → ", " k") if by_size(kind) else ("", "")
    head = ["-- the reads of the case with the number n", f"abbrev pub {s}_read : Order → ℕ → {more}Decoder {result}"]
    return [*head, f"{s}_read o n{k} = {tests}{last}", ""]


def written_specs(line: Line, kind: m.Choose) -> list[str]:
    """Returns the definitions of the writes behind the number, and of their bits."""
    s = snake(kind.type)
    out = ["-- the writes behind the number", f"abbrev pub {s}_writes : Order → {kind.type} → List Encoder"]
    for arm, part in line.arms:
        out.append(f"{s}_writes o {pattern(kind, arm)} = {arm_writes(arm, part)}")
    out += ["", "-- the number of their bits", f"abbrev pub {s}_size : Order → {kind.type} → ℕ"]
    for arm, part in line.arms:
        out.append(f"{s}_size o {pattern(kind, arm)} = {arm_size(arm, part)}")
    return [*out, ""]


def arm_writes(arm: m.Arm, part: Line | None) -> str:
    """Returns what a case writes behind its number."""
    return f"{module(part)}_writes o it" if part else "buffer o it.bytes ∷ []" if arm.held else "[]"


def arm_size(arm: m.Arm, part: Line | None) -> str:
    """Returns the number of bits of a case."""
    return f"{module(part)}_size o it" if part else "8 * length it.bytes" if arm.held else "0"


def module(part: Line) -> str:
    """Returns the module of the part that a case holds."""
    return part.use.module if part.use else ""


def fits_specs(line: Line, kind: m.Choose) -> list[str]:
    """Returns the definition that a case fits its bits: another number is that of no other case."""
    s = snake(kind.type)
    n, octets = ("it.number", ["(All (λ b. b < 256) it.bytes)"]) if kind.unnamed else ("n", [])
    others = " × ".join([f"({n} < 2 ^ {kind.width})", *(f"({n} ≢ {arm.number})" for arm in kind.tested), *octets])
    out = ["-- the case fits its bits", f"abbrev pub {s}_fits : {kind.type} → Type 0"]
    for arm, part in line.arms:
        fits = f"{part.use.name}Fits it" if part and part.use else others if arm.number is None else "⊤"
        out.append(f"{s}_fits {pattern(kind, arm)} = {fits}")
    return [*out, ""]
