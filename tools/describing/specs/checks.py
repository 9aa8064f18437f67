"""The terms of specs for a checksum: its number, of the values that were read or of the fields of the record."""
from __future__ import annotations

from typing import Sequence

from describing import model as m
from describing.model import snake


def octets(kind: m.Kind, term: str) -> str:
    """Returns the bytes of a field: of a number or a case the highest first."""
    match kind:
        case m.Number(integer=whole):
            return f"bytes{whole.width // 8} {term}"
        case m.Enum(enum=enum):
            return f"bytes{enum.width // 8} ({snake(enum.name)}_number {term})"
    return term


def octets_of(covers: Sequence[m.Kind], before: str = "", behind: str = "") -> str:
    """Returns the bytes of all fields, whose names stand between two texts."""
    return " ++ ".join(octets(it, f"{before}{m.label(it)}{behind}") for it in covers)


def stored(kind: m.Check, value: str) -> str:
    """Returns the stored number of the lines of a record."""
    if isinstance(kind, m.Computed) and kind.units:
        return f"{kind.name}_number {value}"
    return f"{kind.word}_sum {value}"


def read_sum(kind: m.Check, covers: Sequence[m.Kind], fields: Sequence[str]) -> str:
    """Returns the checksum of the values that were read, of the record with these fields."""
    if kind.lines:
        return stored(kind, f"(record {{ {'; '.join(f'{it} = {it}' for it in fields)} }})")
    return f"{kind.word} ({octets_of(covers)})"


def written_sum(kind: m.Check, covers: Sequence[m.Kind]) -> str:
    """Returns the checksum of the fields of the record."""
    return stored(kind, "value") if kind.lines else f"{kind.word} ({octets_of(covers, 'value.')})"


def small_sum(kind: m.Check, covers: Sequence[m.Kind]) -> str:
    """Returns the term that the checksum of the fields of the record fits its bits."""
    if isinstance(kind, m.Computed):
        return f"fits.{m.label(kind)}"
    if kind.lines:
        return f"(lines_sum-small {kind.function} _ _ {kind.width} {kind.function}-small)"
    return f"({kind.word}-small ({octets_of(covers, 'value.')}))"


def fits(kind: m.Check) -> list[tuple[str, str]]:
    """Returns the fact that a computed number fits its bits."""
    if not isinstance(kind, m.Computed):
        return []
    return [(m.label(kind), f"{stored(kind, 'value')} < 2 ^ {kind.width}")]


def shape(kind: m.Check) -> str:
    """Returns the order, the bits of the type and the bits of a checksum."""
    return f"o {kind.type_bits} {kind.width}"
