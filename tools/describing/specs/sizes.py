"""The definitions of a part of a stated size: its errors inside these bytes, and its reads."""
from __future__ import annotations

from describing import model as m
from describing.layout import Format, Line, is_octets
from describing.specs.terms import inside, measured_name


def definitions(f: Format, line: Line, kind: m.Measured) -> list[str]:
    """Returns the definitions of a part of a stated size."""
    return [*ended_specs(f, kind), *sized_specs(f, line, kind), *stated_specs(f, line, kind)]


def stated_specs(f: Format, line: Line, kind: m.Measured) -> list[str]:
    """Returns the definition of the reads of a part, or of bytes, by the number that states its size in units."""
    if not line.units:
        return []
    chosen, name = isinstance(kind, m.Choose), f"{kind.name}_stated"
    sized = "sized_bytes" if is_octets(kind) else f"{kind.name}_sized"
    decoder = f"(λ o n. {sized} o number n)" if chosen else sized
    result = f"Decoder (Result {sized_type(kind)} {f.error})"
    return [
        f"-- the reads of `{kind.name}` by the number that states its size",
        f"abbrev pub {name} : Order → {'ℕ → ' * chosen}ℕ → {result}",
        f"{name} o{' number' * chosen} stored = stated_decoder {line.units} {overrun(kind)} {decoder} o stored",
        "",
    ]


def sized_type(kind: m.Measured) -> str:
    """Returns the type of the value."""
    return "(List ℕ)" if is_octets(kind) else measured_name(kind)


def overrun(kind: m.Measured) -> str:
    """Returns the case of the error for a part that does not fill its size."""
    error = kind.overrun if isinstance(kind, m.Choose) else kind.error
    return error or ("EndOfInput" if is_plain(kind) else "(Reader EndOfInput)")


def is_plain(kind: m.Measured) -> bool:
    """Returns true for a rest of a format that has no error of its own."""
    return isinstance(kind, m.Fill) and kind.plain


def reader_error(kind: m.Measured) -> str:
    """Returns the function from an error of the reader to one of the format."""
    return "(λ error. error)" if is_plain(kind) else "(λ error. Reader error)"


def error_cases(f: Format) -> list[tuple[str, str]]:
    """Returns the cases of the error of a format, except the reader's, each with the type that it holds."""
    return list(dict(one for it in f.tests for one in m.refusals(it.kind)).items())


def ended_specs(f: Format, kind: m.Measured) -> list[str]:
    """Returns the definition of an error inside the bytes of a size."""
    name, wrong = f"{kind.name}_ended", overrun(kind)
    out = [
        f"-- an error inside the bytes of `{kind.name}`: their end is `{wrong.strip('()')}`",
        f"abbrev pub {name} : {f.e} → {f.e}",
    ]
    if is_plain(kind):
        return [*out, f"{name} error = error", ""]
    out += [f"{name} (Reader error) = if is_end error then {wrong.strip('()')} else Reader error"]
    for case, held in error_cases(f):
        said = f"({case} error)" if held else case
        out.append(f"{name} {said} = {said.strip('()')}")
    return [*out, ""]


def sized_specs(f: Format, line: Line, kind: m.Measured) -> list[str]:
    """Returns the definition of the reads of a part of n bytes."""
    chosen = isinstance(kind, m.Choose)
    head = f"abbrev pub {kind.name}_sized : Order → {'ℕ → ' * chosen}ℕ → Decoder (Result {measured_name(kind)} {f.e})"
    inner = inside(f, line, "o", "n")
    decoder = "filled_decoder" if isinstance(kind, m.Fill) else "sized_decoder"
    read = f"{decoder} (λ o. {inner}) {overrun(kind)} {reader_error(kind)} {kind.name}_ended o n"
    said = f"{kind.name}_sized o{' number' * chosen} n = {read}"
    return [f"-- the reads of `{kind.name}`, of n bytes, over these bytes alone", head, said, ""]
