"""Writes records by a description: the bytes that are read back as the values."""
from __future__ import annotations

import json
import re
from typing import Callable, TypeAlias, assert_never

from describing import model as m
from describing.input import Value
from describing.sums import checksum


# The greatest number below which JSON holds every whole number exactly.
EXACT = (1 << 53) - 1


class Unfit(Exception):
    """The reason why a value cannot be written, with its path."""


class Bits:
    """Bits that are written in an order; whole bytes move from `word` to `done`, so a long record takes linear time."""

    def __init__(self, order: str) -> None:
        self.big, self.done, self.word, self.left = order == "BE", bytearray(), 0, 0

    @property
    def count(self) -> int:
        """The number of bits."""
        return 8 * len(self.done) + self.left

    def put(self, number: int, count: int) -> None:
        """Appends the lowest `count` bits of a number that has no more."""
        if self.big:
            self.word = self.word << count | number
        else:
            self.word |= number << self.left
        self.left += count
        if self.left >= 1024:
            self.move()

    def move(self) -> None:
        """Moves the whole bytes of `word`."""
        size, rest = divmod(self.left, 8)
        if self.big:
            self.done += (self.word >> rest).to_bytes(size, "big")
            self.word &= (1 << rest) - 1
        else:
            self.done += (self.word & ((1 << 8 * size) - 1)).to_bytes(size, "little")
            self.word >>= 8 * size
        self.left = rest

    def bytes(self) -> bytes:
        """Returns the bytes, the last one filled with zeros."""
        size = -(-self.left // 8)
        word = self.word << (8 * size - self.left) if self.big else self.word
        return bytes(self.done) + word.to_bytes(size, "big" if self.big else "little")


Record: TypeAlias = dict[str, Value]


def unfit(name: str, value: Value, what: str, join: str = ": ") -> Unfit:
    """Returns the refusal of a value; `what` says what is written there, or what is wrong."""
    said = json.dumps(value, default=bytes.hex, ensure_ascii=False)
    return Unfit(f"`{name}` is {said if len(said) < 60 else said[:57] + '...'}{join}{what}")


def number(name: str, value: Value, least: int, most: int, null: bool = False) -> int:
    """Returns a number in a range, where also `null` may stand if it is true.

    A number that JSON does not hold exactly may be a string of its decimal digits.
    """
    found = value
    if isinstance(value, str) and most > EXACT and re.fullmatch(r"-?(0|[1-9]\d*)", value):
        found = int(value)
    if isinstance(found, bool) or not isinstance(found, int) or not least <= found <= most:
        if null:
            raise unfit(name, value, f"must be null, or in {least}..={most}")
        raise unfit(name, value, f"not in {least}..={most}", ", and ")
    return found


def raw(name: str, value: Value) -> bytes:
    """Returns bytes, which are hex in JSON."""
    if isinstance(value, bytes):
        return value
    try:
        if isinstance(value, str):
            return bytes.fromhex(value)
    except ValueError:
        pass
    raise unfit(name, value, "bytes in hex")


def record(name: str, value: Value) -> Record:
    """Returns the fields of a record."""
    if not isinstance(value, dict):
        raise unfit(name, value, "an object")
    return value


def items(name: str, value: Value) -> list[Value]:
    """Returns the items of a list."""
    if not isinstance(value, list):
        raise unfit(name, value, "a list")
    return value


def put_integer(bits: Bits, name: str, whole: m.Integer, value: Value) -> None:
    """Writes a number."""
    found = number(name, value, whole.least, whole.most)
    bits.put(found & ((1 << whole.width) - 1), whole.width)


def swapped(number: int, width: int, order: str, big: bool) -> int:
    """Returns a number of whole bytes with its bytes reversed, if `order` is not the order of the bits: BE for `big`."""
    if big == (order == "BE"):
        return number
    return int.from_bytes(number.to_bytes(width // 8, "big"), "little")


def put_in_order(bits: Bits, number: int, width: int, order: str) -> None:
    """Writes a number of whole bytes in a byte order of its own."""
    bits.put(swapped(number & ((1 << width) - 1), width, order, bits.big), width)


def enum_number(name: str, enum: m.EnumType, value: Value) -> int:
    """Returns the number of a case."""
    if isinstance(value, str) and (found := enum.number(value)) is not None:
        return found
    if enum.other and isinstance(value, dict) and list(value) == [enum.other]:
        held = number(f"{name}.{enum.other}", value[enum.other], 0, (1 << enum.width) - 1)
        if m.case_named(held, enum) is None:
            return held
    other = f' or {{"{enum.other}": NUMBER}}' if enum.other else ""
    raise unfit(name, value, f"one of {', '.join(case for _, case in enum.cases)}{other}")


def put_item(bits: Bits, name: str, item: m.Item, value: Value) -> None:
    """Writes an item."""
    match item:
        case m.Integer():
            put_integer(bits, name, item, value)
        case m.Octet():
            bits.put(number(name, value, 0, 255), 8)
        case m.EnumType():
            bits.put(enum_number(name, item, value), item.width)
        case m.Use():
            put_record(bits, item.description, record(name, value), name)


def put_items(bits: Bits, name: str, item: m.Item, value: Value, count: int | None) -> None:
    """Writes items, of which there must be `count` if it is not None."""
    if isinstance(item, m.Octet):
        data = raw(name, value)
        bits.put(int.from_bytes(data, "big" if bits.big else "little"), 8 * len(data))
        found = len(data)
    else:
        found = len(items(name, value))
        for index, it in enumerate(items(name, value)):
            put_item(bits, f"{name}[{index}]", item, it)
    if count not in (None, found):
        raise unfit(name, value, f"{count} items, and not {found}")


def put_groups(bits: Bits, name: str, kind: m.Groups, value: Value) -> None:
    """Writes a number in the fewest groups of bits."""
    whole, digits = kind.integer, kind.group - 1
    left = number(name, value, whole.least, whole.most)
    if whole.signed:
        left = left * 2 if left >= 0 else -left * 2 - 1
    while left >> digits:
        bits.put(left & ((1 << digits) - 1) | 1 << digits, kind.group)
        left >>= digits
    bits.put(left, kind.group)


def put_unary(bits: Bits, count: int, stop: int) -> None:
    """Writes `count` bits that are not `stop`, and then `stop`."""
    while count:
        some = min(count, 1024)
        bits.put(0 if stop else (1 << some) - 1, some)
        count -= some
    bits.put(stop, 1)


def put_golomb(bits: Bits, name: str, signed: bool, value: Value) -> None:
    """Writes an Exp-Golomb number."""
    found = number(name, value, -(1 << 31) + 1 if signed else 0, (1 << 31) - 1 if signed else (1 << 32) - 2)
    if signed:
        found = 2 * found - 1 if found > 0 else -2 * found
    zeros = (found + 1).bit_length() - 1
    put_unary(bits, zeros, 1)
    bits.put(found + 1 - (1 << zeros), zeros)


def put_varint(bits: Bits, name: str, value: Value) -> None:
    """Writes a number after the two bits that state its length."""
    found = number(name, value, 0, (1 << 62) - 1)
    length = sum(found >= 1 << most for most in (6, 14, 30))
    bits.put(length, 2)
    bits.put(found, 8 * (1 << length) - 2)


def put_until(bits: Bits, name: str, kind: m.Until, value: Value) -> None:
    """Writes items, none of which ends them, and what ends them."""
    octets = isinstance(kind.item, m.Octet)
    found = [*raw(name, value)] if octets else items(name, value)
    if kind.stop in found:
        raise unfit(name, value, f"{kind.stop} ends it, and is no item")
    put_items(bits, name, kind.item, value, None)
    put_integer(bits, name, kind.item if isinstance(kind.item, m.Integer) else m.Integer("u8", 8), kind.stop)


def put_blocks(bits: Bits, name: str, value: Value) -> None:
    """Writes blocks of bytes, none of which is empty, and an empty one."""
    for index, it in enumerate(items(name, value)):
        inner = f"{name}[{index}]"
        size = len(raw(inner, it))
        if not 0 < size < 256:
            raise unfit(inner, it, f"a block has 1 to 255 bytes, and not {size}")
        bits.put(size, 8)
        put_items(bits, inner, m.Octet(), it, None)
    bits.put(0, 8)


def put_field(bits: Bits, kind: m.Described, value: Value, whole: Record, name: str) -> None:
    """Writes a field."""
    match kind:
        case m.Bool():
            if not isinstance(value, bool):
                raise unfit(name, value, "true or false")
            bits.put(value, 1)
        case m.Number():
            if kind.limit is not None:
                number(name, value, 0, kind.limit)
            if kind.order:
                found = number(name, value, kind.integer.least, kind.integer.most)
                return put_in_order(bits, found, kind.integer.width, kind.order)
            put_integer(bits, name, kind.integer, value)
        case m.NonZero(integer=it):
            bits.put(number(name, value, 1, it.most + 1) - 1, it.width)
        case m.MaybeNonZero(integer=it):
            bits.put(0 if value is None else number(name, value, 1, it.most, null=True), it.width)
        case m.Unary():
            put_unary(bits, number(name, value, 0, (1 << 32) - 1), kind.stop)
        case m.Groups():
            put_groups(bits, name, kind, value)
        case m.Golomb():
            put_golomb(bits, name, kind.signed, value)
        case m.Varint():
            put_varint(bits, name, value)
        case m.Until():
            put_until(bits, name, kind, value)
        case m.Blocks():
            put_blocks(bits, name, value)
        case _:
            put_parts(bits, kind, value, whole, name)


Composed: TypeAlias = (
    m.Enum | m.Array | m.Part | m.Optional | m.If | m.List | m.Rest | m.Fill | m.UpToLast | m.Sized | m.Choose | m.Given
)


def put_parts(bits: Bits, kind: Composed, value: Value, whole: Record, name: str) -> None:
    """Writes a field that has parts."""
    match kind:
        case m.Enum():
            bits.put(enum_number(name, kind.enum, value), kind.enum.width)
        case m.Array():
            put_items(bits, name, kind.item, value, kind.count)
        case m.Part() | m.Given():
            put_item(bits, name, kind.use, value)
        case m.Optional() | m.If():
            check_there(kind, value, whole, name)
            if value is not None:
                put_item(bits, name, kind.use, value)
        case m.List() | m.Rest():
            power = kind.power if isinstance(kind, m.List) else None
            put_items(bits, name, kind.item, value, power_count(power, whole) if power else None)
        case m.Fill():
            put_items(bits, name, kind.use, value, None)
        case m.UpToLast():
            check_last(kind, value, name)
            put_items(bits, name, kind.use, value, None)
        case m.Sized():
            if isinstance(kind.item, m.Octet):
                put_items(bits, name, kind.item, value, None)
            else:
                put_item(bits, name, kind.item, value)
        case m.Choose():
            put_choice(bits, kind, value, name)
        case _:
            assert_never(kind)


def power_count(power: m.Power, whole: Record) -> int:
    """Returns the number of items of a list whose number of items is a power of two."""
    there = not power.there or whole.get(power.there) is True
    return power.count(number(power.field, whole.get(power.field), 0, 31), there)


def check_there(kind: m.Optional | m.If, value: Value, whole: Record, name: str) -> None:
    """Refuses an optional part that its condition contradicts."""
    if isinstance(kind, m.If):
        found = [holds(it, whole.get(it.field)) for it in kind.tests]
        there = all(found) if kind.joined == "and" else any(found)
        if there != (value is not None):
            raise unfit(name, value, f"it is there if, and only if, {kind.condition}")


def holds(test: m.Test, asked: Value) -> bool:
    """Returns true if the value of a field passes a test."""
    if isinstance(asked, str) and not re.fullmatch(r"\d+", asked):  # a case
        return (asked == test.asked) == (test.how == "==")
    if isinstance(asked, dict):  # a case for other numbers
        return test.how == "!="
    return test.holds(int(asked) if isinstance(asked, int | str) else -1)


def check_last(kind: m.UpToLast, value: Value, name: str) -> None:
    """Refuses parts whose last one, or another one, contradicts the condition."""
    found = [is_last(kind, record(f"{name}[{index}]", it)) for index, it in enumerate(items(name, value))]
    if True not in found or found.index(True) + 1 < len(found):
        raise unfit(name, value, f"the last part, and no other one, has {kind.condition}")


def is_last(kind: m.UpToLast, part: Record) -> bool:
    """Returns true if a part meets the condition of the last one."""
    return any(passes(it, kind.use.description, part) for it in kind.tests)


def passes(test: m.Test, description: m.Description, part: Record) -> bool:
    """Returns true if a part passes a test."""
    value = part.get(test.field)
    if test.inner:
        held = next(iter(value.values())) if isinstance(value, dict) else None
        value = held.get(test.inner) if isinstance(held, dict) else None
    if test.how == "empty":
        return isinstance(value, list | bytes | str) and len(value) == 0
    if not test.how:
        return value is True
    asked = field_of(description, lambda it: it.name == test.field)
    if isinstance(asked, m.Choose):
        found = arm_number(asked, value, test.field)
    else:
        found = enum_number(test.field, asked.enum, value) if isinstance(asked, m.Enum) else int(str(value))
    return m.compared(found, test.how, test.value)


def arm_of(kind: m.Choose, value: Value, name: str) -> tuple[m.Arm, Value]:
    """Returns the case of a choice, and what it holds."""
    case = value if isinstance(value, str) else next(iter(value)) if isinstance(value, dict) and len(value) == 1 else ""
    for it in kind.arms:
        if it.case == case and isinstance(value, dict) == (it.held is not None or it.number is None):
            return it, value.get(case) if isinstance(value, dict) else None
    raise unfit(name, value, f"one of {', '.join(arm_form(it) for it in kind.arms)}")


def arm_form(arm: m.Arm) -> str:
    """Returns how JSON has a case of a choice."""
    if isinstance(arm.held, m.Use):
        return f'{{"{arm.case}": {{..}}}}'
    if isinstance(arm.held, m.Octet):
        held = '"HEX"' if arm.number is not None else '{"number": N, "bytes": "HEX"}'
        return f'{{"{arm.case}": {held}}}'
    return f'"{arm.case}"' if arm.number is not None else f'{{"{arm.case}": N}}'


def other_of(held: Value, name: str) -> tuple[Value, Value]:
    """Returns the number and the bytes of a case for other numbers."""
    if not isinstance(held, dict) or set(held) != {"number", "bytes"}:
        raise unfit(name, held, 'an object with "number" and "bytes"')
    return held["number"], held["bytes"]


def arm_number(kind: m.Choose, value: Value, name: str) -> int:
    """Returns the number that selects a case."""
    arm, held = arm_of(kind, value, name)
    if arm.number is not None:
        return arm.number
    said = other_of(held, f"{name}.{arm.case}")[0] if arm.held else held
    found = number(name, said, 0, (1 << 128) - 1)
    if kind.arm(found) is not arm:
        raise unfit(name, value, "the number of another case")
    return found


def put_choice(bits: Bits, kind: m.Choose, value: Value, name: str) -> None:
    """Writes what a case holds."""
    arm, held = arm_of(kind, value, name)
    inner, start = f"{name}.{arm.case}", bits.count
    if isinstance(arm.held, m.Use):
        put_item(bits, inner, arm.held, held)
    elif isinstance(arm.held, m.Octet):
        put_items(bits, inner, arm.held, other_of(held, inner)[1] if arm.number is None else held, None)
    if kind.to_end and (bits.count - start) % 8:
        raise Unfit(f"`{name}` has {bits.count - start} bits, which are no whole bytes")


def check_selected(kind: m.Choose, description: m.Description, whole: Record, path: str) -> None:
    """Refuses a choice whose case is not selected by the earlier field that it names."""
    for it in description.fields:
        if it.name == kind.by and isinstance(it, m.Number | m.Enum):
            name, said = joined(path, kind.name), whole[it.name]
            selects = enum_number(it.name, it.enum, said) if isinstance(it, m.Enum) else said
            if arm_number(kind, whole[kind.name], name) != selects:
                raise unfit(name, whole[kind.name], f"not the case that `{it.name}` selects")


def length(name: str, value: Value, octets: bool) -> int:
    """Returns the number of items, or of bytes."""
    return len(raw(name, value)) if octets else len(items(name, value))


def put_hidden(bits: Bits, kind: m.Hidden, description: m.Description, whole: Record, path: str) -> None:
    """Writes a line that the record has no field for; its number is computed from the fields."""
    match kind:
        case m.Const():
            bits.put(kind.value, kind.width)
        case m.Skip():
            bits.put(0, kind.width)
        case m.Pad():
            bits.put(0, -bits_before(kind, description, whole, path) % kind.unit)
        case m.Flag():
            bits.put(whole.get(kind.target) is not None, 1)
        case m.Count(target=counted):
            target = field_of(description, lambda it: it.name == counted)
            octets = isinstance(m.held_item(target), m.Octet)
            found = number(
                m.label(kind), length(kind.target, whole.get(kind.target), octets), kind.less, kind.most_items
            )
            if kind.golomb:
                return put_golomb(bits, m.label(kind), False, found - kind.less)
            bits.put(found - kind.less, kind.width)
        case m.Tag(name=tag):
            target = field_of(description, lambda it: isinstance(it, m.Choose) and it.by == tag)
            assert isinstance(target, m.Choose)
            found = arm_number(target, whole.get(target.name), joined(path, target.name))
            bits.put(number(kind.name, found, 0, (1 << kind.width) - 1), kind.width)
        case m.Size():
            put_size(bits, kind, description, whole, path)
        case m.Check():
            found = number(m.title(kind), checksum_of(kind, description, whole, path), 0, (1 << kind.width) - 1)
            put_in_order(bits, found, kind.width, kind.order or ("BE" if bits.big else "LE"))


def bits_before(kind: m.Pad, description: m.Description, whole: Record, path: str) -> int:
    """Returns the number of bits of the lines before zeros up to a multiple of bits."""
    inside, asked = Bits(description.order), whole | tags(description, whole, path)
    for it in description.kinds[: description.kinds.index(kind)]:
        put_line(inside, it, description, whole, asked, path)
    return inside.count


def checksum_of(kind: m.Check, description: m.Description, whole: Record, path: str = "") -> int:
    """Returns the checksum of the bytes of some lines, as they are written."""
    inside, asked = Bits(description.order), whole | tags(description, whole, path)
    for it in m.covered(description.kinds, kind):
        put_line(inside, it, description, whole, asked, path)
    if not isinstance(kind, m.Computed):
        return checksum(kind.sum, inside.bytes())
    found, left = divmod(len(inside.bytes()) + kind.plus, kind.unit)
    if left or found < 0:
        raise Unfit(f"`{joined(path, m.title(kind))}` has no number for {len(inside.bytes())} bytes")
    return found


def put_line(bits: Bits, kind: m.Kind, description: m.Description, whole: Record, asked: Record, path: str) -> None:
    """Writes a line; `asked` has the numbers of the tags, too."""
    if m.is_field(kind):
        put_field(bits, kind, whole.get(kind.name), asked, joined(path, kind.name))
    elif isinstance(kind, m.Const | m.Pad | m.Skip | m.Flag | m.Count | m.Tag | m.Size | m.Check):
        put_hidden(bits, kind, description, whole, path)


def put_size(bits: Bits, kind: m.Size, description: m.Description, whole: Record, path: str) -> None:
    """Writes the size of a field."""
    target = field_of(description, lambda it: it.name == kind.target)
    inside = Bits("BE" if bits.big else "LE")
    put_field(inside, target, whole.get(kind.target), whole, joined(path, kind.target))
    size, left = divmod(inside.count, 8)
    found, more = divmod(size + kind.plus, kind.unit)
    if left or more:
        raise Unfit(f"`{joined(path, kind.target)}` has {inside.count} bits, which its size cannot say")
    number(m.label(kind), found, 0, most_stored(kind))
    if kind.varint:
        return put_varint(bits, m.label(kind), found)
    if kind.groups:
        return put_groups(bits, m.label(kind), kind.groups, found)
    bits.put(found, kind.width)


def most_stored(kind: m.Size) -> int:
    """Returns the greatest number that a line stores."""
    return (1 << kind.width) - 1 if kind.limit is None else kind.limit


def field_of(description: m.Description, asks: Callable[[m.Described], bool]) -> m.Described:
    """Returns the first field with a property."""
    return next(it for it in description.fields if asks(it))


def joined(path: str, name: str) -> str:
    """Returns a path with one name more at its end."""
    return f"{path}.{name}" if path else name


def tags(description: m.Description, whole: Record, path: str) -> Record:
    """Returns the numbers of the tags, which conditions may ask for."""
    found: Record = {}
    for it in description.fields:
        if isinstance(it, m.Choose) and it.name in whole:
            found[it.by] = arm_number(it, whole[it.name], joined(path, it.name))
    named = {it.name for it in description.kinds if isinstance(it, m.Tag)}
    return {name: number_ for name, number_ in found.items() if name in named}


def put_record(bits: Bits, description: m.Description, whole: Record, path: str = "") -> None:
    """Writes all lines."""
    unknown = set(whole) - {it.name for it in description.fields}
    if unknown:
        raise Unfit(f"`{joined(path, min(unknown))}` is no field of {description.name}")
    asked = whole | tags(description, whole, path)
    for it in description.kinds:
        if m.is_field(it):
            if it.name not in whole:
                raise Unfit(f"`{joined(path, it.name)}` is missing")
            if isinstance(it, m.Choose):
                check_selected(it, description, whole, path)
        if not isinstance(it, m.Given):
            put_line(bits, it, description, whole, asked, path)


def packed(description: m.Description, whole: Record) -> bytes:
    """Returns the bytes of a record."""
    bits = Bits(description.order)
    put_record(bits, description, whole)
    return bits.bytes()
