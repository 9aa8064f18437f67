"""Numbers with a greatest value: what is written of them, and their lines as values."""
from __future__ import annotations

from describing import model as m
from describing.layout import Line, is_part_size
from describing.specs.measured import measured_written
from describing.specs.terms import measured_writes, number_counted, number_stored, shape, stated_number, word

# The number of bits of some writes, or the first error.
COUNTED = "FormatBits 18446744073709551615 ({}) 0"


def limited_part(line: Line, kind: m.Limited, part: str) -> str:
    """Returns a line with a greatest value as a part, of the part that it is without one."""
    if not m.is_capped(kind):
        return f"own_bounded {kind.limit} {kind.error} ({part})"
    if not is_part_size(line):
        return f"own_limited {kind.limit} {kind.error} ({part})"
    assert isinstance(kind, m.Size) and line.measures
    written, get = measured_written(line.measures), f"(λ s. s.{kind.target})"
    bits = f"({written}.size s.{kind.target})"
    few = f"size-most {kind.width} {bits} refl facts.0"
    if kind.units:
        few = f"stored-most {kind.width} {kind.units} {bits} refl refl facts.0"
    known = f"(λ s. refl) (λ s facts. (facts.1, {few}))"
    return f"own_limited_size {kind.limit} {kind.error} {number_of_bits(kind)} {written} {get} ({part}) {known}"


def number_of_bits(kind: m.Size) -> str:
    """Returns the function from the number of bits of a part to the number that states its size."""
    return f"(λ n. {stated_number(kind, 'n / 8')})"


# ---- writes


def written(line: Line) -> str:
    """Returns the write of a line of the record `value`, or the list of its writes."""
    kind = line.kind
    if not m.is_capped(kind):
        return word(line)
    if is_part_size(line):
        assert isinstance(kind, m.Size)
        return size_writes(line, kind, f"value.{kind.target}")
    match kind:
        case m.Number():
            number = f"value.{kind.name}"
        case m.Count():
            number = f"({number_counted(kind)})"
        case m.Size():
            number = f"({number_stored(line, kind)})"
    return number_writes(kind, number)


def size_writes(line: Line, kind: m.Size, value: str) -> str:
    """Returns the writes of the size of a part, of a term for the part."""
    assert line.measures
    counted = f"({COUNTED.format(measured_writes(line.measures, 'High'))})"
    writes = f"within_counted {kind.limit} {number_of_bits(kind)} {counted} o ({word(line)} ∷ [])"
    return writes.replace(f"value.{kind.target}", value)


def number_writes(kind: m.Capped, number: str) -> str:
    """Returns the writes of a number."""
    match kind:
        case m.Number():
            writes = f"unsigned {shape(kind.integer)} {number} ∷ []"
        case m.Count(golomb=True):
            writes = f"ue_writes o {number}"
        case m.Size(varint=True):
            writes = f"varint_writes o {number}"
        case _:
            writes = f"unsigned o 64 {kind.width} {number} ∷ []"
    return f"within_most {kind.limit} {number} o ({writes})"
