"""The model of a description: one frozen class for each kind of line. Nothing here belongs to a back end."""
from __future__ import annotations

import re
from dataclasses import dataclass, field
from typing import Mapping, TypeAlias, TypeGuard


@dataclass(frozen=True, slots=True)
class Position:
    """A line and a column of a description, both counted from 1."""

    line: int
    column: int


class Refused(Exception):
    """The reason why a description, or an option of a command, is refused, with its position if it has one.

    `path` is the file of the description, if it is not the one that a command names first.
    """

    def __init__(self, why: str, at: Position | None = None, path: str = "") -> None:
        super().__init__(why)
        self.why, self.at, self.path = why, at, path

    def __str__(self) -> str:
        return f"line {self.at.line}, column {self.at.column}: {self.why}" if self.at else self.why

    def message(self, path: str) -> str:
        """Returns the message of a command whose description is in the file `path`.

        It is `FILE:LINE:COLUMN: REASON`, as editors read it, or `format: FILE: REASON`.
        """
        path = self.path or path
        return f"{path}:{self.at.line}:{self.at.column}: {self.why}" if self.at else f"format: {path}: {self.why}"


@dataclass(frozen=True, slots=True)
class Line:
    """The position of a line, and its comment."""

    at: Position
    doc: str


@dataclass(frozen=True, slots=True)
class Field(Line):
    """A line that describes a field of the record."""

    name: str


@dataclass(frozen=True, slots=True)
class Integer:
    """A number of `width` bits, held by the Rust type `base`."""

    base: str
    width: int

    @property
    def signed(self) -> bool:
        """True for a type `i8` to `i128`."""
        return self.base[0] == "i"

    @property
    def least(self) -> int:
        """The least number of `width` bits."""
        return -(1 << (self.width - 1)) if self.signed else 0

    @property
    def most(self) -> int:
        """The greatest number of `width` bits."""
        return (1 << (self.width - self.signed)) - 1


@dataclass(frozen=True, slots=True)
class EnumType:
    """The cases of an enum. `other` names the case of all other numbers; if it is empty, they are refused, if any is left."""

    name: str
    width: int
    cases: tuple[tuple[int, str], ...]
    other: str

    @property
    def error(self) -> str:
        """The case of the error for other numbers, if they are refused."""
        return "" if self.other or self.total else f"No{self.name}"

    @property
    def total(self) -> bool:
        """True if each number is that of a case."""
        return not self.other and len(self.cases) == 1 << self.width

    @property
    def tested(self) -> tuple[tuple[int, str], ...]:
        """The cases whose numbers are compared: if each number is that of a case, the last case is the one left."""
        return self.cases[:-1] if self.total else self.cases

    def names(self) -> list[str]:
        """Returns the names of all cases."""
        return [case for _, case in self.cases] + [self.other] * bool(self.other)

    def number(self, case: str) -> int | None:
        """Returns the number of a case, or None if there is no such case or it has no number."""
        return next((number for number, name in self.cases if name == case), None)


@dataclass(frozen=True, slots=True)
class Use:
    """A reference to the description of another module."""

    name: str
    module: str
    description: Description

    @property
    def error(self) -> str:
        """The case of the error that holds an error of the part, if it has any."""
        return f"In{self.name}" * bool(self.description.error)


@dataclass(frozen=True, slots=True)
class Octet:
    """A byte."""

    width: int = 8


Item: TypeAlias = Integer | EnumType | Use | Octet


@dataclass(frozen=True, slots=True)
class Bool(Field):
    """NAME bool"""


@dataclass(frozen=True, slots=True)
class Number(Field):
    """NAME TYPE BITS [max N ERROR]: a number above N, the `limit`, is the error.

    NAME TYPE BITS BE, NAME TYPE BITS LE: its bytes are in an order of their own, `order`, and it has no limit.
    """

    integer: Integer
    limit: int | None = None
    error: str = ""
    order: str = ""


@dataclass(frozen=True, slots=True)
class NonZero(Field):
    """NAME nonzero TYPE BITS: the value less 1 is stored."""

    integer: Integer


@dataclass(frozen=True, slots=True)
class MaybeNonZero(Field):
    """NAME option TYPE BITS: 0 is stored for `None`."""

    integer: Integer


@dataclass(frozen=True, slots=True)
class Enum(Field):
    """NAME enum TYPE BITS: .."""

    enum: EnumType
    repeats: bool


@dataclass(frozen=True, slots=True)
class Array(Field):
    """NAME TYPE BITS x COUNT, NAME bytes COUNT, NAME enum TYPE BITS x COUNT: .."""

    item: Integer | EnumType | Octet
    count: int


@dataclass(frozen=True, slots=True)
class Const(Line):
    """const BITS VALUE ERROR, zeros BITS ERROR: `digits` is VALUE as it is spelled."""

    width: int
    value: int
    error: str
    digits: str = ""

    def spelled(self, number: int) -> str:
        """Returns a number in the notation of VALUE."""
        base, digits = self.digits[:2], self.digits[2:].replace("_", "")
        if base.lower() not in ("0x", "0o", "0b"):
            return str(number)
        text = format(number, f"0{len(digits)}{base[1].lower()}")
        return base + (text.upper() if digits == digits.upper() else text)


@dataclass(frozen=True, slots=True)
class Pad(Line):
    """zeros to UNIT ERROR: zeros up to a multiple of `unit` bits, counted from the first line.

    Before it are `before` bits of constant width, and the field `target`, if the number of bits is no constant. Another
    number than `limit`, which is 0, is the error.
    """

    unit: int
    error: str
    before: int
    target: str
    limit: int | None = 0

    @property
    def counted(self) -> str:
        """The name of the function that returns the number of zeros."""
        return f"{self.target}_padding"


@dataclass(frozen=True, slots=True)
class Skip(Line):
    """any BITS, align"""

    width: int
    align: bool


@dataclass(frozen=True, slots=True)
class Unary(Field):
    """NAME unary STOP"""

    stop: int


@dataclass(frozen=True, slots=True)
class Groups(Field):
    """NAME vbr BITS TYPE [any], NAME leb128 TYPE"""

    integer: Integer
    group: int
    any: bool


@dataclass(frozen=True, slots=True)
class Golomb(Field):
    """NAME ue, NAME se"""

    signed: bool


@dataclass(frozen=True, slots=True)
class Varint(Field):
    """NAME varint quic: two bits state whether 6, 14, 30 or 62 bits follow."""


@dataclass(frozen=True, slots=True)
class Part(Field):
    """NAME TYPE of MODULE"""

    use: Use


@dataclass(frozen=True, slots=True)
class Flag(Line):
    """flag NAME"""

    target: str


@dataclass(frozen=True, slots=True)
class Optional(Field):
    """option NAME TYPE of MODULE"""

    use: Use


def compared(number: int, how: str, value: int) -> bool:
    """Returns true if a number compares with a value as `how` states."""
    match how:
        case "!=":
            return number != value
        case "<":
            return number < value
        case ">=":
            return number >= value
    return number == value


@dataclass(frozen=True, slots=True)
class Test:
    """FIELD, not FIELD, FIELD == VALUE, empty FIELD: a test of a field.

    `asked` is VALUE as it is spelled, a number or the name of a case, and `how` compares it: `==`, `!=`, `<`, `>=`, or
    `empty`. For a field that is a bit `how` is an empty text or `not`, and `value` is 1 or 0. `inner` is the tested field of the part
    that a case of the choice `field` holds, if the test is spelled `empty FIELD.FIELD`.
    """

    field: str
    how: str
    value: int = 1
    asked: str = ""
    inner: str = ""

    @property
    def condition(self) -> str:
        """The test as it is spelled."""
        if self.how == "empty":
            return f"empty {self.field}{f'.{self.inner}' * bool(self.inner)}"
        if self.how == "not":
            return f"not {self.field}"
        return f"{self.field} {self.how} {self.asked}".strip()

    def holds(self, number: int) -> bool:
        """Returns true if the number of the field passes the test."""
        return compared(number, self.how, self.value)


@dataclass(frozen=True, slots=True)
class If(Field):
    """if TEST [and TEST] NAME TYPE of MODULE, if TEST or TEST NAME TYPE of MODULE: a part, if all or some tests hold."""

    use: Use
    tests: tuple[Test, ...]
    joined: str = "and"

    @property
    def condition(self) -> str:
        """The condition as it is spelled."""
        return f" {self.joined} ".join(it.condition for it in self.tests)

    def holds(self, numbers: Mapping[str, int]) -> bool:
        """Returns true if the condition holds for the numbers of the fields."""
        found = [it.holds(numbers[it.field]) for it in self.tests]
        return all(found) if self.joined == "and" else any(found)

    @property
    def asked(self) -> tuple[str, ...]:
        """The fields that are tested, each once."""
        return tuple(dict.fromkeys(it.field for it in self.tests))

    @property
    def due(self) -> str:
        """The name of the definition of a condition of several tests, or an empty text for one test."""
        return f"{self.name}_due" * (len(self.tests) > 1)


@dataclass(frozen=True, slots=True)
class UpToLast(Field):
    """until NAME TYPE of MODULE if TEST [or TEST]: parts up to the first that passes a test, which is the last one."""

    use: Use
    tests: tuple[Test, ...]

    @property
    def condition(self) -> str:
        """The condition of the last part, as it is spelled."""
        return " or ".join(it.condition for it in self.tests)


@dataclass(frozen=True, slots=True)
class Count(Line):
    """count LIST BITS [less N] [max N ERROR], count LIST ue [less N] [max N ERROR]: stores the number of items - `less`.

    With `ue` the number is an Exp-Golomb one, and `golomb` is true. A number above N, the `limit`, is the error.
    """

    target: str
    width: int
    limit: int | None = None
    error: str = ""
    less: int = 0
    golomb: bool = False

    @property
    def most(self) -> int:
        """The greatest number that is stored."""
        return self.limit if self.limit is not None else (1 << self.width) - 1 - self.golomb

    @property
    def most_items(self) -> int:
        """The greatest number of items."""
        return self.most + self.less


@dataclass(frozen=True, slots=True)
class Power:
    """power FIELD [plus N] [if BIT]: 2^(FIELD + N) items, or none if the bit is not set. Without `if`, `there` is empty."""

    field: str
    plus: int
    there: str

    def count(self, number: int, there: bool) -> int:
        """Returns the number of items."""
        return 1 << number + self.plus if there else 0

    @property
    def spelled(self) -> str:
        """The number of items, as a formula."""
        return f"2^{f'({self.field} + {self.plus})' if self.plus else self.field}"


@dataclass(frozen=True, slots=True)
class List(Field):
    """list NAME ITEM: its `count` line has the number of items. list NAME ITEM power ..: so many items."""

    item: Item
    power: Power | None = None
    count: Count | None = None

    @property
    def less(self) -> int:
        """The number of items that its `count` line does not count."""
        return self.count.less if self.count else 0

    @property
    def computed(self) -> bool:
        """True if the number of items is not the number that was read: then it is a fact of `Fits`."""
        return bool(self.power or self.less)


@dataclass(frozen=True, slots=True)
class Tag(Line):
    """tag NAME BITS: the number of the case of a later choice."""

    name: str
    width: int


@dataclass(frozen=True, slots=True)
class Size(Line):
    """size NAME BITS [plus N | less N] [by N] [max N ERROR], size NAME varint quic [max N ERROR]: stores (bytes + `plus`) / `unit`.

    size NAME vbr BITS TYPE [any] [max N ERROR], size NAME leb128 TYPE [max N ERROR]: `groups` are those of the number, if it is
    stored in groups of bits. A stored number above N, the `limit`, is the error.
    """

    target: str
    width: int
    unit: int
    plus: int
    varint: bool = False
    groups: Groups | None = None
    limit: int | None = None
    error: str = ""

    @property
    def units(self) -> str:
        """The unit, the bytes that the number counts too and those that it does not, or an empty text for plain bytes."""
        return f"{self.unit} {max(self.plus, 0)} {max(-self.plus, 0)}" if self.unit != 1 or self.plus else ""

    @property
    def bytes(self) -> str:
        """The number of bytes, as a formula of the stored number."""
        units = f"{self.unit} * " * (self.unit != 1)
        more = f" {'-' if self.plus > 0 else '+'} {abs(self.plus)}" if self.plus else ""
        return f"{units}{self.target}_bytes{more}"

    def stored(self, size: int) -> int:
        """Returns the number that states `size` bytes, which some number does."""
        return (size + self.plus) // self.unit

    @property
    def most(self) -> int:
        """The greatest number of bytes."""
        return ((1 << self.width) - 1 if self.limit is None else self.limit) * self.unit - self.plus


@dataclass(frozen=True, slots=True)
class Sized(Field):
    """sized NAME TYPE of MODULE ERROR, sized NAME bytes [ERROR]: one part, or bytes, of exactly the size."""

    item: Use | Octet
    error: str


@dataclass(frozen=True, slots=True)
class Fill(Field):
    """fill NAME TYPE of MODULE ERROR: parts up to the end of the size.

    Back ends have the parts of a `rest` as such a line without an error: the number of bytes is given to the read. `plain` is
    true of such a line in a format that has no error of its own.
    """

    use: Use
    error: str
    plain: bool = False

    @property
    def item(self) -> Use:
        """The item."""
        return self.use


@dataclass(frozen=True, slots=True)
class Arm:
    """A case of a choice, and what it holds. The case without a number takes all other numbers."""

    number: int | None
    case: str
    held: Use | Octet | None


@dataclass(frozen=True, slots=True)
class Choose(Field):
    """choose NAME TYPE [by FIELD] [sized ERROR | rest ERROR]: ARM, ..; DOC

    `overrun` is the error of a wrong size, and `width` the number of bits of the number that selects a case. `sized` is also
    true of a choice `to_end`, whose size is that of the bytes to the end, or up to the `after` bits of the lines after it.
    """

    type: str
    by: str
    sized: bool
    overrun: str
    arms: tuple[Arm, ...]
    width: int = 32
    to_end: bool = False
    after: int = 0

    @property
    def other(self) -> Arm | None:
        """The case of all other numbers, or None if there is none."""
        return self.arms[-1] if self.arms[-1].number is None else None

    @property
    def total(self) -> bool:
        """True if each number is that of a case."""
        return not self.other and len(self.arms) == 1 << self.width

    @property
    def unknown(self) -> str:
        """The case of the error for a number of no case, or an empty text."""
        return "" if self.other or self.total else f"No{self.type}"

    @property
    def unnamed(self) -> str:
        """The type of another number with the bytes after it, or an empty text."""
        return f"{self.other.case}{self.type}" if self.other and isinstance(self.other.held, Octet) else ""

    @property
    def tested(self) -> tuple[Arm, ...]:
        """The cases whose numbers are compared: all but the case that is left."""
        return self.arms[:-1] if self.other or self.total else self.arms

    def arm(self, number: int) -> Arm | None:
        """Returns the case that a number selects, or None if the number is refused."""
        return next((it for it in self.arms if it.number in (number, None)), None)


@dataclass(frozen=True, slots=True)
class Rest(Field):
    """rest NAME ITEM: items up to the end of the bytes, or of the size around them; but for the `after` bits of later lines."""

    item: Item
    after: int = 0


@dataclass(frozen=True, slots=True)
class Until(Field):
    """until NAME bytes STOP, until NAME TYPE BITS STOP: items up to the first STOP, which is not an item."""

    item: Integer | Octet
    stop: int


@dataclass(frozen=True, slots=True)
class Blocks(Field):
    """blocks NAME: bytes in blocks, each behind its size in 8 bits, up to an empty one, which is no item."""


# The name of each order in specs.
ORDERS = {"BE": "High", "LE": "Low"}
# The bits of each checksum.
SUMS = {
    "sum16": 16,
    "sum16-udp": 16,
    "crc32": 32,
    "crc32-mpeg": 32,
    "crc24-adsb": 24,
    "crc16-ccitt": 16,
    "crc16-x25": 16,
    "crc16-kermit": 16,
}


@dataclass(frozen=True, slots=True)
class Check(Line):
    """check SUM over FIELD.. ERROR: the checksum of the bytes of these fields, which may stand behind this line.

    check SUM over all [to LAST] ERROR, check SUM over FIRST to LAST ERROR: of the bytes of all lines from FIRST, or the
    first one, to LAST, or to this one. Then `over` has FIRST and LAST, or empty texts, and `span` is true. If it stands
    among them itself, it counts as zeros. `lines` is true for a checksum of the bits of its lines, of any kind: it is
    tested behind the last line of the description. After SUM stands `BE` or `LE` if the bytes of the checksum are in an
    order of their own, `order`.
    """

    sum: str
    over: tuple[str, ...]
    error: str
    span: bool = False
    lines: bool = False
    order: str = ""

    @property
    def width(self) -> int:
        """The number of bits."""
        return SUMS[self.sum]

    @property
    def word(self) -> str:
        """The name of the checksum in code."""
        return self.sum.replace("-", "_")

    @property
    def function(self) -> str:
        """The name of the function from bytes to their checksum in specs."""
        return self.word

    @property
    def called(self) -> str:
        """The name of the function that returns the stored number of the fields."""
        return self.word if self.lines else f"{self.word}_of"

    @property
    def type(self) -> str:
        """The name of the checksum as a type."""
        return self.sum.title().replace("-", "")

    @property
    def type_bits(self) -> int:
        """The bits of the type that holds the number that was read in code."""
        return 64 if self.lines and not self.order else self.width


@dataclass(frozen=True, slots=True)
class Computed(Check):
    """computed NAME BITS [plus N | less N] [by N] over LINES ERROR: the number of bytes of lines, as LINES of a `check`.

    It stores (bytes + `plus`) / `unit`, as a `Size`, and limits no line.
    """

    name: str = ""
    bits: int = 0
    unit: int = 1
    plus: int = 0

    @property
    def width(self) -> int:
        """The number of bits."""
        return self.bits

    @property
    def word(self) -> str:
        """The name of the number of bytes in code."""
        return f"{self.name}_bytes"

    @property
    def function(self) -> str:
        """The name of the function that counts bytes in specs."""
        return "byte_count"

    @property
    def called(self) -> str:
        """The name of the function that returns the stored number of the fields."""
        return f"{self.name}_number" if self.units else self.word

    @property
    def type(self) -> str:
        """The name of the count as a type."""
        return "ByteCount"

    @property
    def units(self) -> str:
        """The unit, the bytes that the number counts too and those that it does not, or an empty text for plain bytes."""
        return f"{self.unit} {max(self.plus, 0)} {max(-self.plus, 0)}" if self.unit != 1 or self.plus else ""


@dataclass(frozen=True, slots=True)
class Verify(Line):
    """The test of a `check`, which has no bits: the parser puts it behind the last field of the check, or at the end."""

    check: Check


@dataclass(frozen=True, slots=True)
class Given(Field):
    """given NAME TYPE of MODULE: a part that the caller gives to the read. It has no bits here: checksums cover it."""

    use: Use


Described: TypeAlias = (
    Bool | Number | NonZero | MaybeNonZero | Enum | Array | Unary | Groups | Golomb | Varint | Part | Optional | If | List
    | Sized | Fill | Choose | Rest | Until | UpToLast | Blocks | Given
)  # fmt: skip
Hidden: TypeAlias = Const | Pad | Skip | Flag | Count | Tag | Size | Check | Verify
Kind: TypeAlias = Described | Hidden
# The kinds of which code is printed.
Printed: TypeAlias = (
    Bool | Number | NonZero | MaybeNonZero | Enum | Array | Unary | Groups | Golomb | Varint | Part | Optional | If | List
    | Const | Pad | Skip | Flag | Count | Tag | Choose | Size | Sized | Fill | Until | UpToLast | Rest | Blocks | Check | Verify
)  # fmt: skip
Measured: TypeAlias = Sized | Choose | Fill


def covered(kinds: tuple[Kind, ...], check: Check) -> list[Kind]:
    """Returns the lines of a checksum, in its order; zeros stand for the checksum itself."""
    if not check.span:
        return [next(it for it in kinds if is_field(it) and it.name == name) for name in check.over]
    named = {it.name: index for index, it in enumerate(kinds) if is_field(it)}
    own = next(index for index, it in enumerate(kinds) if isinstance(it, Check) and it.at == check.at)
    first, last = check.over
    found = kinds[named[first] if first else 0 : named[last] + 1 if last else own]
    return [
        Skip(it.at, "", check.width, False) if it is kinds[own] else it for it in found if not isinstance(it, Verify)
    ]


def is_whole(kind: Kind) -> bool:
    """Returns true for an unsigned number, or a case, that has all bits of a type of 8, 16 or 32 bits."""
    match kind:
        case Number(integer=whole):
            return whole.base == f"u{whole.width}" and whole.width <= 32 and not kind.order
        case Enum(enum=enum):
            return enum.width in (8, 16, 32)
    return False


def sums_below(kinds: tuple[Kind, ...], check: Check) -> list[Check]:
    """Returns the checksums that a checksum covers, and those that these cover, the innermost first."""
    found: list[Check] = []
    seen: list[Check] = []

    def add(it: Check) -> None:
        for one in covered(kinds, it):
            if isinstance(one, Check) and one not in seen:
                seen.append(one)
                add(one)
                found.append(one)

    add(check)
    return found


def is_any(kind: Kind) -> bool:
    """Returns true for a line of which each value fits its bits, and whose bits are never refused."""
    match kind:
        case Number(integer=whole):
            return int(whole.base[1:]) == whole.width
        case Array(item=Integer() as item):
            return int(item.base[1:]) == item.width
        case Array(item=Octet()) | Bool() | Skip():
            return True
        case Part(use=use):
            return all(map(is_any, use.description.kinds))
    return False


def given(description: Description) -> list[Given]:
    """Returns the parts that the caller gives to the read."""
    return [it for it in description.kinds if isinstance(it, Given)]


def is_bytes(kind: Kind) -> bool:
    """Returns true for a field that is bytes."""
    return isinstance(kind, Array | List | Sized | Until | Rest) and isinstance(kind.item, Octet)


def is_field(kind: Kind) -> TypeGuard[Described]:
    """Returns true if the record has a field for this line."""
    return isinstance(kind, Field)


@dataclass(frozen=True, slots=True)
class Example:
    """A test vector: bytes in hex, and the text of their fields or of the error."""

    at: Position
    digits: str
    answer: str


@dataclass(frozen=True, slots=True)
class Description:
    """A format: its type, the order of its bits, its error, and its lines in order."""

    name: str
    doc: str
    order: str
    error: str
    kinds: tuple[Kind, ...]
    heads: Mapping[str, Position] = field(default_factory=dict)
    examples: tuple[Example, ...] = ()
    whole: bool = True  # whether it has whole bytes if its number of bits is constant
    places: Mapping[tuple[int, str], Position] = field(default_factory=dict, compare=False)  # of the words of each line

    def place(self, at: Position, word: str) -> Position:
        """Returns the position of a word of a line that begins at a position, or that position if the word is not there."""
        return self.places.get((at.line, word), at)

    @property
    def fields(self) -> list[Described]:
        """The lines that describe a field."""
        return [it for it in self.kinds if is_field(it)]

    @property
    def bits(self) -> int | None:
        """The number of bits, or None if it is not a constant or a part has an error."""
        return total(self.kinds)


# ---- properties of a line that several back ends need


def total(kinds: tuple[Kind, ...] | list[Kind]) -> int | None:
    """Returns the number of bits of some lines, or None if it is not a constant."""
    found = 0
    for it in kinds:
        width = bits(it)
        if width is None:
            return None
        found += width
    return found


def bits(kind: Kind) -> int | None:
    """Returns the number of bits of a line, or None if it is not a constant or belongs to a part with an error."""
    match kind:
        case Bool() | Flag():
            return 1
        case Number() | NonZero() | MaybeNonZero():
            return kind.integer.width
        case Enum():
            return kind.enum.width
        case Array():
            return kind.item.width * kind.count
        case Size(groups=Groups()) | Count(golomb=True) | Pad():
            return None
        case Const() | Skip() | Count() | Tag() | Check() | Size() if not is_varint(kind):
            return kind.width
        case Verify() | Given():
            return 0
        case Part() if not kind.use.description.error:
            return kind.use.description.bits
    return None


Limited: TypeAlias = Number | Count | Size | Pad


def is_limited(kind: Kind) -> TypeGuard[Limited]:
    """Returns true for a number with a greatest value of its own."""
    return isinstance(kind, Number | Count | Size | Pad) and kind.limit is not None


Capped: TypeAlias = Number | Count | Size


def is_capped(kind: Kind) -> TypeGuard[Capped]:
    """Returns true for a number of the record with a greatest value of its own: a greater one is not written."""
    return is_limited(kind) and not isinstance(kind, Pad)


def own_order(kind: Kind) -> str:
    """Returns the order of the bytes of a line if it is not that of the format, or an empty text."""
    return kind.order if isinstance(kind, Number | Check) else ""


def grouped(kind: Kind) -> Kind:
    """Returns the number in groups by which a size is stored, or the line itself."""
    return kind.groups if isinstance(kind, Size) and kind.groups else kind


def is_varint(kind: Kind) -> bool:
    """Returns true for a number whose first two bits state its length."""
    return isinstance(kind, Varint) or isinstance(kind, Size) and kind.varint


def is_golomb(kind: Kind) -> TypeGuard[Count]:
    """Returns true for a count that is an Exp-Golomb number."""
    return isinstance(kind, Count) and kind.golomb


def case_named(number: int, enum: EnumType) -> str | None:
    """Returns the case of a number, or None if it is the number of no case."""
    return next((name for value, name in enum.cases if value == number), None)


def fixed_bits(description: Description) -> int | None:
    """Returns the number of bits of every record, also of one that is refused, or None if it is not a constant."""
    found = 0
    for it in description.kinds:
        width = fixed_bits(it.use.description) if isinstance(it, Part) else bits(it)
        if width is None:
            return None
        found += width
    return found


def open_ended(description: Description) -> bool:
    """Returns true if a record reads up to the end of the bytes."""
    for it in description.kinds:
        if is_rest(it) or isinstance(it, Choose) and not it.sized and any_octets(it):
            return True
        limited = isinstance(it, Sized | Fill) or isinstance(it, Choose) and it.sized
        if not limited and any(open_ended(use.description) for use in uses(it)):
            return True
    return False


def is_rest(kind: Kind) -> TypeGuard[Rest | Choose]:
    """Returns true for a line that reads to the end of the bytes."""
    return isinstance(kind, Rest) or isinstance(kind, Choose) and kind.to_end


def end_text(kind: Rest | Choose) -> str:
    """Returns the text of where the bytes of a line end that reads to the end of the bytes, or to the lines after it."""
    if not kind.after:
        return "to the end"
    return f"up to the last {f'{kind.after // 8} bytes' if kind.after % 8 == 0 else f'{kind.after} bits'}"


def any_octets(kind: Choose) -> bool:
    """Returns true if a case of a choice holds bytes."""
    return any(isinstance(it.held, Octet) for it in kind.arms)


def uses(kind: Kind) -> list[Use]:
    """Returns the other descriptions that a line refers to."""
    if isinstance(kind, Choose):
        return [it.held for it in kind.arms if isinstance(it.held, Use)]
    item = held_item(kind)
    return [item] if isinstance(item, Use) else []


def held_item(kind: Kind) -> Item | None:
    """Returns the item that a line has one or many of, or None if its value has no items."""
    match kind:
        case Enum():
            return kind.enum
        case Array() | List() | Rest() | Until() | Sized():
            return kind.item
        case Part() | Optional() | If() | Fill() | UpToLast() | Given():
            return kind.use
    return None


def error(kind: Kind) -> str:
    """Returns the first case of the error for bits that a line refuses, or an empty text if it refuses none."""
    return next((case for case, _ in refusals(kind)), "")


def refusals(kind: Kind) -> list[tuple[str, str]]:
    """Returns the cases of the error for bits that a line refuses, each with the error of a part that it holds."""
    own = [(it.error, it.description.error) for it in uses(kind) if it.error]
    match kind:
        case Const() | Sized() | Fill() | Number() | Count() | Size() | Pad():
            own = [(kind.error, ""), *own]
        case Verify():
            own = [(kind.check.error, "")]
        case Choose():
            own = [(kind.unknown, ""), (kind.overrun, ""), *own]
        case _ if isinstance(item := held_item(kind), EnumType):
            own = [(item.error, "")]
    return list({case: held for case, held in own if case}.items())


def grows(kind: Kind) -> bool:
    """Returns true if the value of a line allocates memory."""
    if isinstance(kind, List | Fill | Rest | Until | UpToLast | Blocks):
        return True
    if isinstance(kind, Choose):
        return any(isinstance(it.held, Octet) or isinstance(it.held, Use) and has_list(it.held) for it in kind.arms)
    item = held_item(kind)
    return isinstance(kind, Sized) and isinstance(item, Octet) or isinstance(item, Use) and has_list(item)


def has_list(use: Use) -> bool:
    """Returns true if a part has a list."""
    return any(grows(it) for it in use.description.kinds)


def is_measured(kind: Kind) -> TypeGuard[Measured]:
    """Returns true if this line has parts whose size an earlier line has: they are read over their bytes alone."""
    if isinstance(kind, Sized):
        return isinstance(kind.item, Use)
    return isinstance(kind, Fill) or isinstance(kind, Choose) and kind.sized


def ordered(description: Description) -> bool:
    """Returns true if a description, or a part of it, has sizes: code reads it in its own order of bits alone."""
    parts_to_end = any(isinstance(it, Rest) and isinstance(it.item, Use) for it in description.kinds)
    return parts_to_end or any(
        is_measured(it) or any(ordered(use.description) for use in uses(it)) for it in description.kinds
    )


def allocates(kind: Kind) -> bool:
    """Returns true if the read of a line asks for memory: for its value, or for the bytes of its size."""
    return grows(kind) or is_measured(kind) or any(allocating(it) for it in uses(kind))


def allocating(use: Use) -> bool:
    """Returns true if the read of a part asks for memory."""
    return any(allocates(it) for it in use.description.kinds)


def item_type(item: Item) -> str:
    """Returns the Rust type of an item."""
    match item:
        case Integer():
            return item.base
        case Octet():
            return "u8"
    return item.name


def rust_type(kind: Described) -> str:
    """Returns the Rust type of a field."""
    match kind:
        case Bool():
            return "bool"
        case Number() | Groups():
            return kind.integer.base
        case NonZero():
            return f"NonZero<{kind.integer.base}>"
        case MaybeNonZero():
            return f"Option<NonZero<{kind.integer.base}>>"
        case Array():
            return f"[{item_type(kind.item)}; {kind.count}]"
        case Unary():
            return "u32"
        case Varint():
            return "u64"
        case Golomb():
            return "i32" if kind.signed else "u32"
        case Enum():
            return kind.enum.name
        case Part() | Given():
            return kind.use.name
        case Optional() | If():
            return f"Option<{kind.use.name}>"
        case Choose():
            return kind.type
        case Sized():
            return kind.item.name if isinstance(kind.item, Use) else "Vec<u8>"
        case Fill() | UpToLast():
            return f"Vec<{kind.use.name}>"
        case List() | Rest() | Until():
            return f"Vec<{item_type(kind.item)}>"
        case Blocks():
            return "Vec<Block>"


def span(item: Item) -> tuple[int, int] | None:
    """Returns the least and the greatest number of an item, or None if it is not a number."""
    match item:
        case Integer():
            return item.least, item.most
        case Octet():
            return 0, 255
    return None


def range_of(kind: Kind) -> tuple[int, int] | None:
    """Returns the least and the greatest value of a number, or of each number of a list."""
    match kind:
        case Number(limit=int() as limit):
            return 0, limit
        case Number() | Groups():
            return kind.integer.least, kind.integer.most
        case NonZero():
            return 1, kind.integer.most + 1
        case MaybeNonZero():
            return 0, kind.integer.most
        case Unary():
            return 0, (1 << 32) - 1
        case Varint():
            return 0, (1 << 62) - 1
        case Golomb():
            return (-(1 << 31) + 1, (1 << 31) - 1) if kind.signed else (0, (1 << 32) - 2)
        case Array() | List() | Rest() | Until():
            return span(kind.item)
    return None


def label(kind: Kind) -> str:
    """Returns the text of a line in a picture, which is also the name of its value."""
    match kind:
        case Const():
            return f"={kind.spelled(kind.value)}"
        case Skip():
            return "0"
        case Pad():
            return f"{kind.target}_zeros"
        case Flag():
            return f"has_{kind.target}"
        case Count():
            return f"{kind.target}_count"
        case Size():
            return f"{kind.target}_bytes"
        case Tag():
            return f"{kind.name}_tag"
        case Check():
            return f"stored_{kind.word}"
        case Verify():
            return ""
    return kind.name


def title(kind: Kind) -> str:
    """Returns the name of a line for a reader: that of the description for a checksum or a computed number."""
    if isinstance(kind, Check):
        return kind.name if isinstance(kind, Computed) else kind.sum
    return label(kind)


def snake(name: str) -> str:
    """Returns the name of a type in snake case."""
    return re.sub(r"(?<!^)(?=[A-Z])", "_", name).lower()
