"""Reads records by a description: a tree of values, each with its position in bits."""
from __future__ import annotations

from dataclasses import dataclass
from typing import Callable, Mapping, TypeAlias

from describing import model as m
from describing.input import Input, ReadError, Value
from describing.write import Unfit, checksum_of, is_last, swapped


@dataclass(slots=True)
class Node:
    """The value of one line, read from the bits `start` to `end`; `nodes` are the parts of a record, a list or a case."""

    name: str
    kind: m.Kind | None
    start: int
    end: int
    value: Value
    nodes: list[Node]


OVERFLOW = "The number has more bits than its type."
START = "the first bit of the record"
Scope: TypeAlias = dict[str, int]  # the numbers of the lines so far, and where the record starts
Reader: TypeAlias = Callable[["Input", Scope], Node]
ItemReader: TypeAlias = Callable[["Input"], tuple[Value, list[Node]]]


def case_of(enum: m.EnumType, number: int) -> Value:
    """Returns the case of a number, or the case for other numbers with the number."""
    found = m.case_named(number, enum)
    return found if found is not None else {enum.other: number}


# ---- lines whose values have no parts


def values(kind: m.Kind) -> Callable[[Input], Value] | None:
    """Returns the reader of a line whose value has no parts and depends on no earlier value."""
    match kind:
        case m.Bool() | m.Flag():
            return lambda row: row.number(1) == 1
        case m.Number(integer=whole) if kind.order:
            return of_ordered(whole, kind.order)
        case m.Number(integer=whole):
            return of_integer(whole)
        case m.NonZero(integer=m.Integer(width=width)):
            return lambda row: row.number(width) + 1
        case m.MaybeNonZero(integer=m.Integer(width=width)):
            return lambda row: row.number(width) or None
        case m.Count(golomb=True, less=less):
            return lambda row: golomb(row) + less
        case m.Count(width=width, less=less):
            return lambda row: row.number(width) + less
        case m.Check(width=width, order=order) if order:
            return lambda row: swapped(row.number(width), width, order, row.big)
        case m.Tag(width=width) | m.Check(width=width):
            return lambda row: row.number(width)
        case m.Varint() | m.Size(varint=True):
            return lambda row: row.number(8 * (1 << row.number(2)) - 2)
        case m.Size(groups=m.Groups() as groups):
            return of_groups(groups)
        case m.Size(width=width, unit=unit, plus=plus):
            return lambda row: row.number(width) * unit - plus
        case m.Enum(enum=enum):
            return of_enum(enum)
        case m.Array(item=m.EnumType() as enum, count=count):
            return enum_array(enum, count)
        case m.Array(item=m.Octet(), count=count):
            return lambda row: row.bytes(count)
        case m.Array(item=m.Integer() as whole, count=count):
            one = of_integer(whole)
            return lambda row: [one(row) for _ in range(count)]
        case m.Const():
            return of_const(kind)
        case m.Skip(width=width):
            return lambda row: row.number(width)
        case m.Unary(stop=stop):
            return lambda row: row.unary(stop)
        case m.Groups():
            return of_groups(kind)
        case m.Golomb(signed=signed):
            return of_golomb(signed)
        case m.Until():
            return of_until(kind)
        case m.Blocks():
            return of_blocks
    return None


def of_integer(whole: m.Integer) -> Callable[[Input], int]:
    """Returns the reader of a number."""
    width = whole.width
    return (lambda row: row.signed(width)) if whole.signed else (lambda row: row.number(width))


def of_ordered(whole: m.Integer, order: str) -> Callable[[Input], int]:
    """Returns the reader of a number in a byte order of its own."""
    width = whole.width
    if not whole.signed:
        return lambda row: swapped(row.number(width), width, order, row.big)

    def read(row: Input) -> int:
        found = swapped(row.number(width), width, order, row.big)
        return found - (found >> (width - 1) << width)

    return read


def of_enum(enum: m.EnumType) -> Callable[[Input], Value]:
    """Returns the reader of a case."""
    known, width, strict = dict(enum.cases), enum.width, enum.error

    def read(row: Input) -> Value:
        at, found = row.at, row.number(width)
        if found in known:
            return known[found]
        if strict:
            raise ReadError(strict, at, why=f"{found} is not the number of a case of `{enum.name}`.")
        return {enum.other: found}

    return read


def enum_array(enum: m.EnumType, count: int) -> Callable[[Input], Value]:
    """Returns the reader of an array of cases: all numbers are read before one is refused."""

    def read(row: Input) -> Value:
        at, found = row.at, [row.number(enum.width) for _ in range(count)]
        wrong = next((k for k, it in enumerate(found) if enum.error and m.case_named(it, enum) is None), None)
        if wrong is not None:
            why = f"{found[wrong]} is not the number of a case of `{enum.name}`."
            raise ReadError(enum.error, at + wrong * enum.width, f"[{wrong}]", why)
        return [case_of(enum, it) for it in found]

    return read


def of_const(kind: m.Const) -> Callable[[Input], Value]:
    """Returns the reader of a constant."""

    def read(row: Input) -> Value:
        at, found = row.at, row.number(kind.width)
        if found != kind.value:
            raise ReadError(kind.error, at, why=f"{kind.doc} The number is {kind.spelled(found)}.")
        return found

    return read


def of_groups(kind: m.Groups) -> Callable[[Input], Value]:
    """Returns the reader of a number in groups of bits."""
    digits, width, signed = kind.group - 1, kind.integer.width, kind.integer.signed

    def read(row: Input) -> Value:
        at, found, place = row.at, 0, 0
        while (group := row.number(kind.group)) >> digits:
            found, place = found + (group % 2**digits << place), place + digits
            if place >= width:
                raise ReadError("VariableWidthOverflow", at, why=OVERFLOW)
        found += group << place
        if place and not group and not kind.any:
            raise ReadError("RedundantGroup", at, why="The number ends in a group of zeros.")
        if found >> width:
            raise ReadError("VariableWidthOverflow", at, why=OVERFLOW)
        return found if not signed else -(found // 2) - 1 if found % 2 else found // 2

    return read


def golomb(row: Input) -> int:
    """Takes an Exp-Golomb number without a sign."""
    at, zeros = row.at, row.unary(1)
    if zeros > 31:
        raise ReadError("VariableWidthOverflow", at, why=OVERFLOW)
    return (1 << zeros) - 1 + (row.number(zeros) if zeros else 0)


def of_golomb(signed: bool) -> Callable[[Input], Value]:
    """Returns the reader of an Exp-Golomb number."""

    def read(row: Input) -> Value:
        found = golomb(row)
        return found if not signed else found // 2 + 1 if found % 2 else -(found // 2)

    return read


def of_until(kind: m.Until) -> Callable[[Input], Value]:
    """Returns the reader of numbers, or of bytes, up to one that ends them."""
    octets = isinstance(kind.item, m.Octet)
    one = of_integer(kind.item) if isinstance(kind.item, m.Integer) else lambda row: row.number(8)

    def read(row: Input) -> Value:
        start, found = row.at, list[int]()
        while (it := one(row)) != kind.stop:
            found.append(it)
            if len(found) == 1 << 32:
                raise ReadError("RunTooLong", start, why=f"{kind.stop} is not among the first 2^32 items.")
        return bytes(found) if octets else [*found]

    return read


def of_blocks(row: Input) -> Value:
    """Reads blocks of bytes up to an empty one."""
    start, found = row.at, list[Value]()
    while size := row.number(8):
        found.append(row.bytes(size))
        if len(found) == 1 << 32:
            raise ReadError("RunTooLong", start, why="None of the first 2^32 blocks is empty.")
    return found


# ---- lines whose values have parts


def item_reader(item: m.Item) -> Callable[[Input], tuple[Value, list[Node]]]:
    """Returns the reader of an item."""
    match item:
        case m.Integer():
            number = of_integer(item)
            return lambda row: (number(row), [])
        case m.Octet():
            return lambda row: (row.number(8), [])
        case m.EnumType():
            case = of_enum(item)
            return lambda row: (case(row), [])
    return part_reader(item)


def part_reader(use: m.Use) -> ItemReader:
    """Returns the reader of a part. An error of the part becomes one of the outer format."""
    record = record_reader(use.description)
    theirs = {case for it in use.description.kinds for case, _ in m.refusals(it)}

    def read(row: Input) -> tuple[Value, list[Node]]:
        try:
            nodes = record(row)
        except ReadError as it:
            if it.answer not in theirs:
                raise
            raise ReadError(use.error, it.place, it.path, it.why, it.case) from None
        return value_of(nodes), nodes

    return read


def value_of(nodes: list[Node]) -> dict[str, Value]:
    """Returns the fields of a record."""
    return {it.name: it.value for it in nodes if it.kind is not None and m.is_field(it.kind)}


def many(row: Input, one: ItemReader, go_on: Callable[[list[Value]], bool]) -> tuple[Value, list[Node]]:
    """Reads items while `go_on` returns true for those that were read."""
    found: list[Value] = []
    nodes: list[Node] = []
    while go_on(found):
        start = row.at
        try:
            value, inner = one(row)
        except ReadError as it:
            raise it.inside(f"[{len(found)}]") from None
        if row.at == start:
            raise ReadError("EmptyItem", start, f"[{len(found)}]", "An item without bits would be repeated forever.")
        found.append(value)
        nodes.append(Node(f"[{len(found) - 1}]", None, start, row.at, value, inner))
    return found, nodes


Composite: TypeAlias = Callable[[Input, Scope], tuple[Value, list[Node]]]


def composite(kind: m.Kind) -> Composite:
    """Returns the reader of a line that has parts or depends on an earlier value."""
    match kind:
        case m.Part(use=use):
            part = part_reader(use)
            return lambda row, scope: part(row)
        case m.Optional(name=name, use=use):
            return there_reader(use, lambda scope: scope[f"has_{name}"] == 1)
        case m.If(use=use, holds=holds):
            return there_reader(use, holds)
        case m.Pad():
            return padding(kind)
        case m.List(item=item, power=m.Power() as power):
            return powered(power, item)
        case m.List(item=item, name=name):
            return counted(name, item)
        case m.Rest():
            return resting(kind)
        case m.Sized():
            return sized(kind)
        case m.Fill():
            return filling(kind)
        case m.UpToLast():
            return up_to_last(kind)
        case m.Choose():
            return choice(kind)
    raise AssertionError(kind)


def there_reader(use: m.Use, asks: Callable[[Scope], bool]) -> Composite:
    """Returns the reader of a part that is there or not."""
    part = part_reader(use)
    return lambda row, scope: part(row) if asks(scope) else (None, [])


def padding(kind: m.Pad) -> Composite:
    """Returns the reader of zeros up to a multiple of bits."""

    def read(row: Input, scope: Scope) -> tuple[Value, list[Node]]:
        at = row.at
        found = row.number(-(at - scope[START]) % kind.unit)
        if found:
            raise ReadError(kind.error, at, why=f"{kind.doc} The number is {found}.")
        return found, []

    return read


def counted(name: str, item: m.Item) -> Composite:
    """Returns the reader of a list whose count was read before."""
    if isinstance(item, m.Octet):
        return lambda row, scope: (row.bytes(scope[f"{name}_count"]), [])
    one = item_reader(item)

    def read(row: Input, scope: Scope) -> tuple[Value, list[Node]]:
        count = scope[f"{name}_count"]
        return many(row, one, lambda found: len(found) < count)

    return read


def powered(power: m.Power, item: m.Item) -> Composite:
    """Returns the reader of a list whose number of items is a power of two."""
    one = item_reader(item)

    def read(row: Input, scope: Scope) -> tuple[Value, list[Node]]:
        count = power.count(scope[power.field], not power.there or scope[power.there] == 1)
        return many(row, one, lambda found: len(found) < count)

    return read


def up_to_end(item: m.Item) -> Composite:
    """Returns the reader of items up to the end of the bytes, or of the size around them."""
    if isinstance(item, m.Octet):
        return lambda row, scope: (remaining(row), [])
    one = item_reader(item)
    return lambda row, scope: many(row, one, lambda found: row.reach(row.at + 1))


def resting(kind: m.Rest) -> Composite:
    """Returns the reader of items up to the end of the bytes, or up to the lines after them."""
    fill = up_to_end(kind.item)
    if not kind.after:
        return fill

    def read(row: Input, scope: Scope) -> tuple[Value, list[Node]]:
        size = bytes_left(row, kind.after)
        end, row.end = row.end, row.at + 8 * size
        try:
            return fill(row, scope)
        finally:
            row.end = end

    return read


def up_to_last(kind: m.UpToLast) -> Composite:
    """Returns the reader of parts up to the last one."""
    one = part_reader(kind.use)

    def go_on(found: list[Value]) -> bool:
        part = found[-1] if found else None
        return not (isinstance(part, dict) and is_last(kind, part))

    return lambda row, scope: many(row, one, go_on)


def remaining(row: Input) -> bytes:
    """Takes all bytes up to the end."""
    return row.bytes(bytes_left(row))


def bytes_left(row: Input, after: int = 0) -> int:
    """Returns the number of bytes up to the end, or up to the last `after` bits."""
    row.finish()
    return max(row.end - row.at - after, 0) // 8


def bytes_text(count: int) -> str:
    """Returns the text of a number of bytes."""
    return f"{count} byte{'s' * (count != 1)}"


def within(
    row: Input, kind: m.Measured, size: int, error: str, read: Callable[[], tuple[Value, list[Node]]]
) -> tuple[Value, list[Node]]:
    """Runs a reader on exactly `size` bytes: no bit after them is read, and none may be left."""
    start = row.at
    if size < 0:
        raise ReadError(error or "SizeTooSmall", start, why=f"The size would be {bytes_text(size)}.")
    if not row.reach(start + 8 * size):
        raise ReadError("EndOfInput", start, why=f"The size of `{kind.name}` is {bytes_text(size)}.")
    end, fetch = row.end, row.fetch
    row.end, row.fetch = start + 8 * size, None
    try:
        found = read()
        if row.at != row.end:
            left = (row.end - row.at + 7) // 8
            raise ReadError(error, row.at, why=f"{bytes_text(left)} of the size {'is' if left == 1 else 'are'} left.")
    except ReadError as it:
        if it.answer != "EndOfInput":
            raise
        why = f"The size of `{kind.name}`, {bytes_text(size)}, ends here. {it.why}".strip()
        raise ReadError(error, it.place, it.path, why) from None
    finally:
        row.end, row.fetch = end, fetch
    return found


def sized(kind: m.Sized) -> Composite:
    """Returns the reader of one part, or of bytes, whose size was read before."""
    one, key = item_reader(kind.item), f"{kind.name}_bytes"
    if isinstance(kind.item, m.Octet):
        return lambda row, scope: within(row, kind, scope[key], kind.error, lambda: (row.bytes(scope[key]), []))
    return lambda row, scope: within(row, kind, scope[key], kind.error, lambda: one(row))


def filling(kind: m.Fill) -> Composite:
    """Returns the reader of parts up to the end of a size."""
    fill, key = up_to_end(kind.use), f"{kind.name}_bytes"
    return lambda row, scope: within(row, kind, scope[key], kind.error, lambda: fill(row, scope))


def choice(kind: m.Choose) -> Composite:
    """Returns the reader of a choice by an earlier number."""
    parts = {it.case: item_reader(it.held) for it in kind.arms if isinstance(it.held, m.Use)}

    def held(row: Input, number: int) -> tuple[Value, list[Node]]:
        arm = kind.arm(number)
        if arm is None:
            raise ReadError(f"No{kind.type}", row.at, why=f"{number} is not the number of a case of `{kind.type}`.")
        if arm.case in parts:
            value, nodes = parts[arm.case](row)
            return {arm.case: value}, nodes
        if arm.held is None:
            return ({arm.case: number} if arm.number is None else arm.case), []
        more = remaining(row)
        return {arm.case: {"number": number, "bytes": more} if arm.number is None else more}, []

    def read(row: Input, scope: Scope) -> tuple[Value, list[Node]]:
        number = scope[kind.by]
        if not kind.sized:
            return held(row, number)
        size = bytes_left(row, kind.after) if kind.to_end else scope[f"{kind.name}_bytes"]
        return within(row, kind, size, kind.overrun, lambda: held(row, number))

    return read


# ---- whole records


def reader_of(kind: m.Kind) -> Reader:
    """Returns the reader of a line."""
    simple = limited(kind, values(kind))
    return composite_reader(kind, composite(kind)) if simple is None else simple_reader(kind, simple)


def limited(kind: m.Kind, simple: Callable[[Input], Value] | None) -> Callable[[Input], Value] | None:
    """Returns a reader that also refuses a number above the greatest value of its line."""
    if simple is None or not m.is_limited(kind):
        return simple
    one, error = simple, kind.error
    most = kind.most_items if isinstance(kind, m.Count) else kind.limit or 0

    def read(row: Input) -> Value:
        at, found = row.at, one(row)
        number = kind.stored(number_in(found)) if isinstance(kind, m.Size) else number_in(found)
        if number > most:
            raise ReadError(error, at, why=f"The number is {number}, and the greatest one is {most}.")
        return found

    return read


def composite_reader(kind: m.Kind, parts: Composite) -> Reader:
    """Returns the reader of a line whose value has parts."""
    name = m.title(kind)

    def read(row: Input, scope: Scope) -> Node:
        start = row.at
        try:
            value, nodes = parts(row, scope)
        except ReadError as it:
            raise it.inside(name) from None
        return Node(name, kind, start, row.at, value, nodes)

    return read


def simple_reader(kind: m.Kind, simple: Callable[[Input], Value]) -> Reader:
    """Returns the reader of a line whose value has no parts; later lines may depend on its number."""
    name = "" if isinstance(kind, m.Const | m.Skip) else m.title(kind)
    known = kind.enum if isinstance(kind, m.Enum) else None
    key = kind.name if isinstance(kind, m.Tag) else name

    def read(row: Input, scope: Scope) -> Node:
        start = row.at
        try:
            value = simple(row)
        except ReadError as it:
            raise it.inside(m.title(kind)) from None
        if isinstance(value, int):
            scope[key] = value
        elif known and isinstance(value, str):
            scope[key] = known.number(value) or 0
        elif known and isinstance(value, dict):
            scope[key] = number_in(value[known.other])
        return Node(name, kind, start, row.at, value, [])

    return read


def number_in(value: Value) -> int:
    """Returns the number that a case for other numbers holds."""
    return value if isinstance(value, int) else 0


def verify(check: m.Check, nodes: list[Node], description: m.Description) -> None:
    """Refuses a record whose checksum is not that of its lines, as they are written."""
    values = {it.name: it.value for it in nodes if it.kind is not None and m.is_field(it.kind)}
    stored = next(it for it in nodes if it.kind == check)
    try:
        found = checksum_of(check, description, values)
    except Unfit as it:
        raise ReadError(check.error, stored.start, m.title(check), str(it)) from None
    if stored.value == found:
        return
    form = "{}" if isinstance(check, m.Computed) else "{:#x}"
    why = f"{check.doc} The number is {form.format(number_in(stored.value))}, and {form.format(found)} is right."
    raise ReadError(check.error, stored.start, m.title(check), why)


def given_node(kind: m.Given, given: Mapping[str, Value], row: Input) -> Node:
    """Returns the node of a given part, which has no bits."""
    return Node(kind.name, kind, row.at, row.at, given.get(kind.name), [])


def record_reader(description: m.Description, given: Mapping[str, Value] = {}) -> Callable[[Input], list[Node]]:
    """Returns the reader of all lines of a description, in order, with the parts that it is given.

    A checksum of a part that is not given is not tested.
    """
    readers: list[m.Verify | m.Given | Reader] = []
    missing = [it for it in m.given(description) if it.name not in given]
    for kind in description.kinds:
        if isinstance(kind, m.Verify) and any(it in missing for it in m.covered(description.kinds, kind.check)):
            continue
        readers.append(kind if isinstance(kind, m.Verify | m.Given) else reader_of(kind))

    def read(row: Input) -> list[Node]:
        scope: Scope = {START: row.at}
        found: list[Node] = []
        for one in readers:
            if isinstance(one, m.Verify):
                verify(one.check, found, description)
            elif isinstance(one, m.Given):
                found.append(given_node(one, given, row))
            else:
                found.append(one(row, scope))
        return found

    return read
