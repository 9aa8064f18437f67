"""A format as the back ends print it: its lines with their places, and what follows from them for the whole."""
from __future__ import annotations

from dataclasses import dataclass, replace
from typing import Iterable, Iterator, TypeGuard

from describing import model as m
from describing.model import Refused, snake
from describing.names import TAKEN, spec_of

ORDERS = {"BE": "High", "LE": "Low"}
# The reads and writes of more than LONG lines are split into functions of EACH lines: twice the calls in one function
# take about eight times as long to prove.
LONG, EACH = 16, 8
MOST_BYTES = 1 << 60  # of a size: their bits have a number of 64 bits
UNPRINTED = "`--show` and `--pack` know this line, but no code is printed for it yet"
OVERFLOW = ("VariableWidthOverflow", "if a number of variable width has more bits than its type")
UNENDED = ("RunTooLong", "if what ends bytes is not among the first 2^32")
ENDLESS = ("RunTooLong", "if the last part is not among the first 2^32")
REDUNDANT = ("RedundantGroup", "if a number ends in a group of 0 behind others")


@dataclass(frozen=True, eq=False)
class Line:
    """A line of a format.

    `at` is the number of bits before it, or None if that is not a constant. `clause` names the clause of its refusal.
    `repeats` is true if an earlier line defines its enum. `inner` are the lines of a part, `shared` the cases of its
    enum whose names something else has in specs. `arms` are the cases of a choice, each with the line of the part that it
    holds; `choice` is the choice whose tag it is, `measures` the line whose size it is, and `size` the line that has its
    own size. `covers` are the fields of a checksum of fields of whole bytes.
    """

    kind: m.Printed
    index: int
    at: int | None
    clause: str
    repeats: bool
    inner: tuple[Line, ...]
    shared: frozenset[str] = frozenset()
    arms: tuple[tuple[m.Arm, Line | None], ...] = ()
    choice: m.Choose | None = None
    measures: m.Measured | None = None
    size: m.Size | None = None
    covers: tuple[m.Kind, ...] = ()

    @property
    def name(self) -> str:
        """The name of its value, or an empty text."""
        return "" if isinstance(self.kind, m.Const | m.Skip | m.Verify) else m.label(self.kind)

    @property
    def is_field(self) -> bool:
        """True if the record has a field for it."""
        return m.is_field(self.kind)

    @property
    def bits(self) -> int | None:
        """The number of bits, or None if it is not a constant."""
        return m.bits(self.kind)

    @property
    def wide(self) -> int:
        """The number of bits of a line that has a constant number."""
        return self.bits or 0

    @property
    def error(self) -> str:
        """The case of the error for bits that it refuses, or an empty text."""
        return m.error(self.kind)

    @property
    def use(self) -> m.Use | None:
        """The part that it has one or many of."""
        item = m.held_item(self.kind)
        return item if isinstance(item, m.Use) else None

    @property
    def enum(self) -> m.EnumType | None:
        """The enum that it has one or many of."""
        item = m.held_item(self.kind)
        return item if isinstance(item, m.EnumType) else None

    @property
    def stops(self) -> bool:
        """True if its read may return an error of the format's own, after which nothing is read."""
        if self.measured:
            return True
        return self.own or isinstance(self.kind, m.Part | m.Choose) and m.allocates(self.kind)

    @property
    def own(self) -> bool:
        """True if it may be rejected, or if it is a list or an optional part whose parts allocate: its read has own errors."""
        many = isinstance(self.kind, m.List | m.Optional | m.If) and self.use
        return bool(self.error or many and m.allocating(many)) or isinstance(self.kind, m.UpToLast)

    @property
    def measured(self) -> m.Measured | None:
        """The kind of the line, if an earlier line has its size."""
        return self.kind if m.is_measured(self.kind) else None

    @property
    def units(self) -> str:
        """The units of its size and what this adds, or an empty text if its size is a number of bytes."""
        return self.size.units if self.size else ""

    @property
    def parts(self) -> list[Line]:
        """The line itself if it has one part or many of one, or else the lines of the parts of its cases."""
        return [self] if self.use else [part for _, part in self.arms if part]

    @property
    def many(self) -> bool:
        """True if it is written by a list of writes, and not by one."""
        match self.kind:
            case m.Array() | m.List() | m.Sized() | m.Rest():
                return not isinstance(self.kind.item, m.Octet)
        return (
            m.is_varint(self.kind)
            or m.is_golomb(self.kind)
            or m.is_capped(self.kind)
            or isinstance(
                self.kind, m.Golomb | m.Part | m.Optional | m.If | m.Choose | m.Fill | m.Until | m.UpToLast | m.Blocks
            )
        )

    def least(self, at: int = 0) -> int:
        """Returns the number of bytes that have all its bits."""
        return -(-((self.at or 0) + at + self.wide) // 8)


def enum_bits(enum: m.EnumType) -> int:
    """Returns the bits of the number type that holds a number of an enum."""
    return next(it for it in (8, 16, 32) if it >= enum.width)


def all_fit(kinds: Iterable[m.Kind]) -> bool:
    """Returns true if values fit their bits whenever all writes are accepted."""
    return all(fits_if_accepted(it) for it in kinds)


def fits_if_accepted(kind: m.Kind) -> bool:
    """Returns true if the value of a line fits its bits whenever its write is accepted."""
    match kind:
        case m.Enum():
            return not kind.enum.other
        case m.List():
            item = kind.item
            return not kind.computed and isinstance(item, m.Integer) or isinstance(item, m.EnumType) and not item.other
        case m.Part():
            return all_fit(kind.use.description.kinds)
    plain = isinstance(kind, m.Number | m.NonZero | m.MaybeNonZero | m.Bool | m.Const | m.Skip | m.Flag | m.Count)
    return plain and not m.is_limited(kind) and not m.is_golomb(kind) and not m.own_order(kind)


def all_values(kinds: Iterable[m.Kind]) -> bool:
    """Returns true if each line is a value with its laws, of which those of the format are projections."""
    return all(is_value(it) for it in kinds)


def is_value(kind: m.Kind) -> bool:
    """Returns true if a line is a value with its laws."""
    numbers = (m.Number, m.NonZero, m.MaybeNonZero, m.Enum, m.Unary, m.Groups, m.Golomb, m.Varint)
    given = (m.Const, m.Pad, m.Skip, m.Flag, m.Count, m.Tag, m.Size)
    many = (m.Array, m.List, m.Part, m.Optional, m.If, m.Choose, m.Sized, m.Fill, m.Until, m.UpToLast, m.Blocks, m.Rest)
    parts = all(all_values(use.description.kinds) for use in m.uses(kind))
    return isinstance(kind, (m.Bool, *numbers, *given, *many)) and parts


def reader_errors(kinds: Iterable[m.Kind]) -> Iterator[tuple[str, str]]:
    """Returns the errors of the reader besides `EndOfInput` that lines may return, each with its condition."""
    for line in kinds:
        it = m.grouped(line)
        if isinstance(it, m.Groups | m.Golomb) or m.is_golomb(it):
            yield OVERFLOW
        if isinstance(it, m.Groups) and not it.any:
            yield REDUNDANT
        if isinstance(it, m.Until | m.Blocks):
            yield UNENDED
        if isinstance(it, m.UpToLast):
            yield ENDLESS
        for use in m.uses(it):
            yield from reader_errors(use.description.kinds)


# ---- the lines of a description


def lines_of(description: m.Description) -> tuple[Line, ...]:
    """Returns the lines of a description, each with its place."""
    at: int | None = 0
    found: list[Line] = []
    shared, seen = shared_cases(description), set[int]()
    for index, kind in enumerate(it for it in description.kinds if not isinstance(it, m.Given)):
        check_printed(description, kind)
        if isinstance(kind, m.Rest) and isinstance(kind.item, m.Use):
            kind = m.Fill(kind.at, kind.doc, kind.name, kind.item, "", not description.error)
        enum, error, width = m.held_item(kind), m.error(kind), m.bits(kind)
        again = f"_{at}" if error in [it.error for it in found] else ""
        repeats = id(enum) in seen
        names = frozenset(enum.names()) & shared if isinstance(enum, m.EnumType) else frozenset[str]()
        clause, choice, measures = snake(error) + again, chosen_by(description, kind), measured_by(description, kind)
        arms, inner, size = arm_lines(kind, index), inner_lines(kind), size_of(description, kind)
        covers = covered(description, kind)
        found.append(Line(kind, index, at, clause, repeats, inner, names, arms, choice, measures, size, covers))
        seen.add(id(enum) if isinstance(enum, m.EnumType) else 0)
        at = None if at is None or width is None else at + width
    return tuple(found)


def given_line(kind: m.Rest | m.Choose) -> Line:
    """Returns a line for the number of bytes of the rest, which a read is given."""
    return Line(m.Size(kind.at, "", kind.name, 64, 1, 0), -1, None, "", False, ())


def handed_line(kind: m.Given) -> Line:
    """Returns a line for a part that a read is given."""
    part = m.Part(kind.at, kind.doc, kind.name, kind.use)
    return Line(part, -1, None, "", False, inner_lines(part))


def inner_lines(kind: m.Printed) -> tuple[Line, ...]:
    """Returns the lines of a part; a refusal has the position of the part."""
    item = m.held_item(kind)
    return part_lines(item, kind.at) if isinstance(item, m.Use) else ()


def part_lines(use: m.Use, at: m.Position) -> tuple[Line, ...]:
    """Returns the lines of a part at a position."""
    try:
        return lines_of(use.description)
    except Refused as why:
        raise Refused(f"`{use.module}`: {why}", at) from None


def arm_lines(kind: m.Printed, index: int) -> tuple[tuple[m.Arm, Line | None], ...]:
    """Returns the cases of a choice, each with a line for the part that it holds: its value is called `it`."""
    arms = kind.arms if isinstance(kind, m.Choose) else ()
    found = [(arm, m.Part(kind.at, kind.doc, "it", arm.held) if isinstance(arm.held, m.Use) else None) for arm in arms]
    return tuple((arm, Line(it, index, None, "", False, inner_lines(it)) if it else None) for arm, it in found)


def measured_by(description: m.Description, kind: m.Printed) -> m.Measured | None:
    """Returns the line whose size a line has."""
    return next((it for it in description.kinds if size_of(description, it) is kind and has_size(it)), None)


def is_octets(kind: m.Kind | None) -> bool:
    """Returns true for bytes whose size an earlier line has."""
    return isinstance(kind, m.Sized) and isinstance(kind.item, m.Octet)


def is_part_size(line: Line) -> bool:
    """Returns true for the size of another line than bytes."""
    return isinstance(line.kind, m.Size) and not is_octets(line.measures)


def states_choice(description: m.Description, kind: m.Size, groups: m.Groups) -> bool:
    """Returns true for the size of a choice in strict groups of 8 bits."""
    return groups.group == 8 and not groups.any and isinstance(measured_by(description, kind), m.Choose)


def is_bounded(description: m.Description, kind: m.Kind, use: m.Use) -> bool:
    """Returns true for a part that ends with a rest, without a checksum, in a choice of a stated size or of a size in units."""
    size = size_of(description, kind) if isinstance(kind, m.Sized) else None
    alone = bool(size and size.units) or isinstance(kind, m.Choose) and kind.sized
    known = all_values(use.description.kinds) and not any(map(is_some_bytes, use.description.kinds))
    return alone and is_open(use) and known


def has_size(kind: m.Kind) -> TypeGuard[m.Measured]:
    """Returns true for a line whose size an earlier line has."""
    return isinstance(kind, m.Sized | m.Fill) or isinstance(kind, m.Choose) and kind.sized


def size_of(description: m.Description, kind: m.Kind) -> m.Size | None:
    """Returns the line that has the size of a line."""
    sizes = (it for it in description.kinds if isinstance(it, m.Size))
    return next((it for it in sizes if has_size(kind) and kind.name == it.target), None)


def check_printed(description: m.Description, kind: m.Printed) -> None:
    """Refuses what only `--show` and `--pack` know of a line."""
    tags = [it.name for it in description.kinds if isinstance(it, m.Tag)]
    match kind:
        case m.If(asked=asked) if set(asked) & set(tags):
            raise Refused(UNPRINTED, kind.at)
        case m.Until(item=m.Integer() as item) if item.signed or item.width != 8 or item.base != "u8":
            raise Refused(f"{UNPRINTED}: in code bytes end at a terminator, `until {kind.name} bytes STOP`", kind.at)
        case m.Sized(item=m.Octet()):
            check_octets(kind, size_of(description, kind))
        case m.Fill(use=use) if least_bits(use) < 8:
            raise Refused("an item that fills a size has at least 8 bits of constant width", kind.at)
        case m.Choose() if m.any_octets(kind) and not kind.sized:
            raise Refused(f"{UNPRINTED}: a case holds bytes in code if a `size` line says how many", kind.at)
        case m.Choose() if any(it.number is not None and isinstance(it.held, m.Octet) for it in kind.arms):
            raise Refused(f"{UNPRINTED}: in code only the case for other numbers holds bytes", kind.at)
        case m.Number() if m.is_limited(kind) and description.bits is not None:
            why = "in code a number has a greatest value in a format without a constant width"
            raise Refused(f"{UNPRINTED}: {why}", kind.at)
        case m.Size(groups=m.Groups() as groups) if not states_choice(description, kind, groups):
            raise Refused(f"{UNPRINTED}: in code only a choice has a size in groups, strict ones of 8 bits", kind.at)
        case m.Size(varint=True):
            if not is_octets(measured_by(description, kind)):
                raise Refused(f"{UNPRINTED}: a size by `varint quic` is printed for bytes", kind.at)
        case m.Pad():
            check_padding(description, kind)
        case m.Size() if replace(kind, limit=None).most >= MOST_BYTES:
            raise Refused(f"{UNPRINTED}: a size of fewer than 2^60 bytes is printed", kind.at)
    if m.is_rest(kind):
        check_rest(description, kind)
    for use in m.uses(kind):
        if m.open_ended(use.description) and not is_bounded(description, kind, use):
            raise Refused(f"{UNPRINTED}: `{use.module}` reads to the end of the bytes", kind.at)
        if m.ordered(use.description) and use.description.order != description.order:
            raise Refused(f"`{use.module}` has sizes, so its order must be {description.order} as here", kind.at)


def padded(description: m.Description, kind: m.Pad) -> m.Kind:
    """Returns the line behind which zeros stand up to a multiple of bits."""
    return next(it for it in description.kinds if m.label(it) == kind.target)


def check_padding(description: m.Description, kind: m.Pad) -> None:
    """Refuses zeros behind other lines of variable width than one list of parts that are read from just their bits."""
    before = description.kinds[: description.kinds.index(kind)]
    varies = [it for it in before if m.bits(it) is None]
    if len(varies) > 1 or not is_parts(varies[0]):
        raise Refused(f"{UNPRINTED}: in code one list of parts, and lines of constant width, stand before it", kind.at)
    if any(is_loose(it) for use in m.uses(varies[0]) for it in use.description.kinds):
        raise Refused(f"{UNPRINTED}: in code no number before it has several encodings", kind.at)


def is_parts(kind: m.Kind) -> bool:
    """Returns true for parts up to the last one, and for a list of parts."""
    return isinstance(kind, m.UpToLast) or isinstance(kind, m.List) and isinstance(kind.item, m.Use)


def is_loose(kind: m.Kind) -> bool:
    """Returns true for a number, also in a part, that is read from more bits than are written of it."""
    number = m.grouped(kind)
    own = isinstance(number, m.Groups) and number.any or m.is_varint(kind)
    return own or any(is_loose(it) for use in m.uses(kind) for it in use.description.kinds)


def check_rest(description: m.Description, kind: m.Rest | m.Choose) -> None:
    """Refuses a rest that is no bytes or parts, a second one, and one whose bytes are not known by their number."""
    head = tuple(it for it in description.kinds if it is not kind and not isinstance(it, m.Verify))
    if isinstance(kind, m.Rest):
        check_rest_item(description, kind)
    if m.total(tuple(it for it in head if not varies(it))) is None:
        why = "in code only bytes of variable length, and optional parts or choices of constant sizes, stand before the rest"
        raise Refused(f"{UNPRINTED}: {why}", kind.at)
    if head_bits(description) % 8:
        raise Refused(f"{UNPRINTED}: in code the lines around the rest have whole bytes together", kind.at)
    if any(varies(it) for it in head) and m.given(description):
        why = "no part is given to a format with a rest after bytes of variable length, an optional part or a choice"
        raise Refused(f"{UNPRINTED}: {why}", kind.at)


def check_rest_item(description: m.Description, kind: m.Rest) -> None:
    """Refuses a rest of other items than bytes and parts of at least a byte."""
    if not isinstance(kind.item, m.Octet | m.Use):
        raise Refused(f"{UNPRINTED}: in code the rest is bytes or parts", kind.at)
    if isinstance(kind.item, m.Use) and not description.error and m.allocating(kind.item):
        raise Refused(f"{UNPRINTED}: in code a rest of parts with lists stands in a format with an `error`", kind.at)
    if isinstance(kind.item, m.Use) and least_bits(kind.item) < 8:
        raise Refused("a part of the rest has at least 8 bits of constant width", kind.at)


def is_length(kind: m.Kind) -> bool:
    """Returns true for bytes whose number an earlier line has."""
    return is_octets(kind) or isinstance(kind, m.List) and isinstance(kind.item, m.Octet)


def is_some_bytes(kind: m.Kind) -> TypeGuard[m.Optional | m.If | m.Choose]:
    """Returns true for an optional part of a constant number of bytes, and for a choice without a size of such parts."""
    if isinstance(kind, m.Choose) and (kind.sized or m.any_octets(kind)):
        return False
    whole = all((it.description.bits or 1) % 8 == 0 for it in m.uses(kind))
    return isinstance(kind, m.Optional | m.If | m.Choose) and whole


def varies(kind: m.Kind) -> bool:
    """Returns true for a line that may stand before a rest though it has no constant width."""
    return is_length(kind) or is_some_bytes(kind)


def head_bits(description: m.Description) -> int:
    """Returns the number of bits of the lines of constant width."""
    return sum(m.bits(it) or 0 for it in description.kinds)


def is_open(use: m.Use) -> bool:
    """Returns true for a part with a rest."""
    return any(map(m.is_rest, use.description.kinds))


def by_size(kind: m.Kind) -> bool:
    """Returns true for a line whose read takes the number of its bytes: what it reads depends on it."""
    open_parts = any(is_open(use) for use in m.uses(kind))
    return open_parts or isinstance(kind, m.Choose) and bool(kind.unnamed)


def rest_given(use: m.Use, size: str) -> str:
    """Returns the term for the number that the read of a part with a rest takes, of the number of its bytes."""
    head = head_bits(use.description) // 8
    return f"({size} - {head})" if head else size


def covered(description: m.Description, kind: m.Kind) -> tuple[m.Kind, ...]:
    """Returns the fields of a checksum, in its order, if they have whole bytes; for one of other lines no field."""
    check = kind.check if isinstance(kind, m.Verify) else kind
    return tuple(m.covered(description.kinds, check)) if isinstance(check, m.Check) and not check.lines else ()


def least_bits(use: m.Use) -> int:
    """Returns the number of bits of the lines of a part that have a constant width."""
    return sum(m.bits(it) or 0 for it in use.description.kinds)


def check_octets(kind: m.Sized, size: m.Size | None) -> None:
    """Refuses bytes whose size may be below what it counts too, if no error is named for it; and an error without use."""
    least = max(size.plus, 0) if size else 0
    if least and not kind.error:
        raise Refused(f"the size may be below {least}: name an error for it, `sized {kind.name} bytes ERROR`", kind.at)
    if kind.error and not least:
        raise Refused(f"each size is right, so there is no `{kind.error}`: leave it out", kind.at)


def chosen_by(description: m.Description, kind: m.Printed) -> m.Choose | None:
    """Returns the choice whose case a tag selects."""
    if not isinstance(kind, m.Tag):
        return None
    return next(it for it in description.kinds if isinstance(it, m.Choose) and it.by == kind.name)


def shared_cases(description: m.Description) -> set[str]:
    """Returns the names of cases that something else has in specs, too."""
    names = [description.name, description.error]
    uses = [use.name for kind in description.kinds for use in m.uses(kind)]
    names += [*dict.fromkeys(uses), *dict.fromkeys(filter(None, map(m.error, description.kinds)))]
    enums = {id(it): it for kind in description.kinds if isinstance(it := m.held_item(kind), m.EnumType)}
    cases = [case for it in enums.values() for case in it.names()]
    names += [it.name for it in enums.values()] + cases
    return {it for it in cases if it in TAKEN or names.count(it) > 1}


def in_pieces(lines: tuple[Line, ...]) -> list[tuple[Line, ...]]:
    """Splits lines into those of each function."""
    each = EACH if len(lines) > LONG else len(lines)
    return [lines[k : k + each] for k in range(0, len(lines), each)]


# ---- the whole format


class Format:
    """A format of a crate: its description, its lines, and what all back ends derive from them."""

    def __init__(self, crate: str, module: str, description: m.Description, path: str) -> None:
        self.crate, self.m, self.description, self.path = crate, module, description, path
        self.lines = lines_of(description)
        self.made = f"Made by `./format` from {path}: edit that file and make this one anew."
        self.type, self.doc, self.error = description.name, description.doc, description.error
        self.order, self.o = description.order, ORDERS[description.order]
        self.checks = [it.kind for it in self.lines if isinstance(it.kind, m.Check)]
        self.summed = [it for it in self.checks if it.lines]
        self.total = description.bits if description.whole and not self.checks else None
        self.rest = next((it for it in description.kinds if m.is_rest(it)), None)
        self.handed = [handed_line(it) for it in m.given(description)]  # the parts that a read is given
        rests = [given_line(self.rest)] if self.rest else []
        self.given = [*self.handed, *rests]
        self.grows = any(m.allocates(it.kind) for it in self.lines)  # the read allocates memory
        self.ordered = m.ordered(description)  # code reads it in its own order alone
        self.own, self.sized, self.e = bool(self.error) or self.grows, self.total is not None, self.error or "Error"
        self.becomes_name = f"becomes_{module}" if self.error else "same_error"
        self.fields = [*self.handed, *(it for it in self.lines if it.is_field)]
        self.parts = [part for it in self.lines for part in it.parts]
        self.tests = [it for it in self.lines if it.error]
        self.fitting = all_fit(description.kinds)
        self.valued = all_values(description.kinds)  # its laws are projections of a value
        self.result = f"(Result {self.type} {self.e})" if self.own else self.type
        self.spec = spec_of(module)
        self.declared = f"Rattle.{crate}.specs.declared.{module}"
        self.goals = f"Rattle.{crate}.proofs.{module}"
        self.specs_path = f"Rattle.{crate}.specs.{self.spec}"
        self.lemmas_path = f"Rattle.{crate}.proofs.{self.spec}Lemmas"

    @property
    def head(self) -> int:
        """The number of bytes of the lines of constant width before the rest."""
        return sum(it.wide for it in self.lines) // 8

    @property
    def before_rest(self) -> list[Line]:
        """The lines before the rest, of bytes, optional parts or choices, whose number of bytes is no constant."""
        return [it for it in self.lines if self.rest and varies(it.kind)]

    @property
    def rest_line(self) -> Line | None:
        """The line of the rest, or None if there is none."""
        return next((it for it in self.lines if self.rest and it.name == self.rest.name), None)

    def decoder(self, order: str, given: str) -> str:
        """Returns the reads, with the terms for what they are given."""
        return f"{self.m}_decoder {order} {given}".strip()

    @property
    def given_names(self) -> str:
        """The names of what the reads are given."""
        return " ".join(it.name for it in self.given)

    @property
    def written(self) -> list[Line]:
        """The lines that are written: all but the tests of checksums."""
        return [it for it in self.lines if not isinstance(it.kind, m.Verify)]

    @property
    def bytes(self) -> int:
        """The number of bytes of a format that has a constant number."""
        return (self.total or 0) // 8

    def gives(self) -> str:
        """Returns the record of what was read."""
        return "record { " + "; ".join(f"{it.name} = {it.name}" for it in self.fields) + " }"

    def pieces(self) -> list[tuple[Line, ...]]:
        """Returns the lines that each function reads and writes."""
        head = self.lines[: len(self.lines) - len(self.summed)]
        *found, last = in_pieces(head)
        return [*found, last + self.lines[len(head) :]]

    def covered(self, check: m.Check) -> list[tuple[Line, ...]]:
        """Returns the lines of a checksum, in its order, that each function writes; zeros stand for itself."""
        of = {it.kind.at: it for it in [*self.handed, *self.written]}
        zeros = Line(m.Skip(check.at, "", check.width, False), -1, None, "", False, ())
        covers = m.covered(self.description.kinds, check)
        return in_pieces(tuple(zeros if it.at == check.at else of[it.at] for it in covers))

    def entry_parts(self) -> list[list[Line]]:
        """Returns the lines of each definition of the reads: one ends with a piece, or after a line that stops."""
        parts: list[list[Line]] = [[]]
        ends = [it[-1] for it in self.pieces()[:-1]]
        for it in self.lines:
            parts[-1].append(it)
            if it in ends or it.stops and not self.valued:
                parts.append([])
        return parts

    def entry_at(self, line: Line) -> tuple[str, list[Line]]:
        """Returns the definition of the reads that begins with a line, and the earlier lines whose values it takes."""
        k = next(k for k, part in enumerate(self.entry_parts()) if part[:1] == [line])
        seen = self.given + [it for it in self.lines[: line.index] if it.name]
        return (f"{self.m}_decoder_{k}" if k else f"{self.m}_decoder"), seen

    def mapped(self, kind: m.Printed) -> bool:
        """Returns true if errors of a part become errors of the format."""
        for use in m.uses(kind):
            return bool(use.description.error or m.allocating(use) and self.error)
        return False

    def is_first(self, line: Line) -> bool:
        """Returns true if no earlier line has the same part."""
        return next(it for it in self.parts if it.use and line.use and it.use.module == line.use.module) is line

    def is_first_optional(self, line: Line) -> bool:
        """Returns true if no earlier line has the same optional part."""
        optional = [it for it in self.lines if isinstance(it.kind, m.Optional | m.If)]
        return next(it for it in optional if it.use and line.use and it.use.name == line.use.name) is line
