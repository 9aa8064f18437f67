"""Faster readers for records of whole bytes whose lines are all simple: one load, and a shift for each field."""
from __future__ import annotations

from typing import Callable, Literal, TypeAlias

from describing import model as m
from describing.input import Input, Value
from describing.read import Node, case_of

Made: TypeAlias = Callable[[int], Value] | None
Flat: TypeAlias = Callable[[Input], dict[str, Value] | None]
CHUNK = 1 << 16
FlatNodes: TypeAlias = Callable[[Input], list[Node] | None]


def made(kind: m.Kind) -> tuple[bool, Made]:
    """Returns true if a line is simple, and the function that makes its value of its number."""
    match kind:
        case _ if m.own_order(kind):
            return False, None
        case m.Bool():
            return True, bool
        case m.Number(integer=whole) if whole.signed:
            return True, lambda it: it - (it >> (whole.width - 1) << whole.width)
        case m.Number() | m.Const() | m.Skip():
            return not m.is_limited(kind), None
        case m.NonZero():
            return True, lambda it: it + 1
        case m.MaybeNonZero():
            return True, lambda it: it or None
        case m.Enum(enum=enum) if not enum.error:
            return True, lambda it: case_of(enum, it)
        case m.Array(item=m.Octet(), count=count):
            return True, lambda it: it.to_bytes(count, "big")
    return False, None


class Plan:
    """The lines of such a format: each with its first bit, its shift, the mask of its bits, and what makes its value.

    The bits of `mask` are those of constants, which must be those of `fixed`.
    """

    def __init__(self, description: m.Description, bits: int) -> None:
        self.lines: list[tuple[m.Kind, int, int, int, Made]] = []
        self.size, self.big = bits // 8, description.order == "BE"
        self.endian: Literal["big", "little"] = "big" if self.big else "little"
        self.mask = self.fixed = at = 0
        for kind in description.kinds:
            width = m.bits(kind) or 0
            shift = bits - at - width if self.big else at
            self.lines.append((kind, at, shift, (1 << width) - 1, made(kind)[1]))
            if isinstance(kind, m.Const):
                self.mask |= ((1 << width) - 1) << shift
                self.fixed |= kind.value << shift
            at += width

    def word(self, row: Input) -> int | None:
        """Takes the number of a record, or returns None if the record is refused or torn."""
        to = row.at + 8 * self.size
        if to > row.end and not row.reach(to):
            return None
        first = (row.at >> 3) - row.base
        word = int.from_bytes(row.data[first : first + self.size], self.endian)
        if word & self.mask != self.fixed:
            return None
        row.at = to
        return word

    def words(self, row: Input, skip: int, most: int) -> list[int]:
        """Takes the numbers of the records that were fetched, `skip` bytes apart, up to one that is refused or torn."""
        step, size, order = self.size + skip, self.size, self.endian
        if row.at + 8 * size > row.end and not row.reach(row.at + 8 * size):
            return []
        first = (row.at >> 3) - row.base
        data = bytes(row.data[first : first + step * min(most, CHUNK // step + 1)])
        found = [int.from_bytes(data[k : k + size], order) for k in range(0, len(data) - size + 1, step)]
        if self.mask:
            mask, fixed = self.mask, self.fixed
            wrong = next((k for k, it in enumerate(found) if it & mask != fixed), len(found))
            del found[wrong:]
        if found:
            row.at += 8 * (step * (len(found) - 1) + size)
        return found


def planned(description: m.Description) -> Plan | None:
    """Returns the plan of such a format, or None if it is none."""
    bits, little = description.bits, description.order == "LE"
    if bits is None or bits % 8 or m.given(description) or not all(made(kind)[0] for kind in description.kinds):
        return None
    if little and any(isinstance(kind, m.Array) for kind in description.kinds):
        return None
    return Plan(description, bits)


def flat(description: m.Description) -> Flat | None:
    """Returns the reader of such a format, or None. The reader returns None where the record is refused or torn."""
    plan = planned(description)
    if plan is None:
        return None
    take = plan.word
    fields = [(kind.name, shift, most, make) for kind, _, shift, most, make in plan.lines if m.is_field(kind)]

    def read(row: Input) -> dict[str, Value] | None:
        word = take(row)
        if word is None:
            return None
        return {
            name: (word >> shift) & most if make is None else make((word >> shift) & most)
            for name, shift, most, make in fields
        }

    return read


def flat_nodes(description: m.Description) -> FlatNodes | None:
    """Returns the reader of the lines of such a format, each with its position, or None."""
    plan = planned(description)
    if plan is None:
        return None
    take = plan.word
    lines = [
        (
            "" if isinstance(kind, m.Const | m.Skip) else m.title(kind),
            kind,
            at,
            at + most.bit_length(),
            shift,
            most,
            make,
        )
        for kind, at, shift, most, make in plan.lines
    ]

    def read(row: Input) -> list[Node] | None:
        start = row.at
        word = take(row)
        if word is None:
            return None
        return [
            Node(
                name,
                kind,
                start + at,
                start + to,
                (word >> shift) & most if make is None else make((word >> shift) & most),
                [],
            )
            for name, kind, at, to, shift, most, make in lines
        ]

    return read
