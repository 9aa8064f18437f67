"""The terms of specs for one line: its read, its write, its size, what fits it, and its place among known bits.

In the terms `o` is the order of bits, and `value` the record that is written.
"""
from __future__ import annotations

import re
from typing import Callable, TypeAlias, assert_never

from describing import model as m
from describing.layout import Format, Line, by_size, enum_bits, is_octets, is_some_bytes, rest_given
from describing.model import snake
from describing.specs import checks


# A function from the name of an earlier value to its term.
Of: TypeAlias = Callable[[Format, str], str]


def as_read(f: Format, name: str) -> str:
    """Returns the variable that a read binds to a value."""
    return name


def value(line: Line) -> str:
    """Returns the field of a line."""
    return f"value.{line.name}"


def spec_type(kind: m.Printed) -> str:
    """Returns the type of the value of a line."""
    match kind:
        case m.Bool() | m.Flag():
            return "Bool"
        case m.Number() | m.Groups():
            return number_type(kind.integer.signed)
        case m.Golomb():
            return number_type(kind.signed)
        case m.Array() | m.List():
            return f"List {item_type(kind.item)}"
        case m.NonZero():
            return f"NonZero{kind.integer.base.upper()}"
        case m.MaybeNonZero():
            return f"Option NonZero{kind.integer.base.upper()}"
        case m.Enum():
            return kind.enum.name
        case m.Part():
            return kind.use.name
        case m.Optional() | m.If():
            return f"Option {kind.use.name}"
        case m.Choose():
            return kind.type
        case m.Until() | m.Rest() | m.Sized(item=m.Octet()):
            return "List ℕ"
        case m.Blocks():
            return "List (List ℕ)"
        case m.Sized():
            return item_type(kind.item)
        case m.Fill() | m.UpToLast():
            return f"List {kind.use.name}"
        case m.Unary() | m.Varint() | m.Count() | m.Tag() | m.Size() | m.Check() | m.Const() | m.Pad() | m.Skip() | m.Verify():
            return "ℕ"
    assert_never(kind)


def number_type(signed: bool) -> str:
    """Returns the type of a number."""
    return "ℤ" if signed else "ℕ"


def item_type(item: m.Item) -> str:
    """Returns the type of an item."""
    match item:
        case m.Integer():
            return number_type(item.signed)
        case m.Octet():
            return "ℕ"
        case m.EnumType() | m.Use():
            return item.name
    assert_never(item)


def seen(kind: m.Printed) -> str:
    """Returns the suffix after a value of code for what contracts see of it."""
    many = isinstance(kind, m.List | m.Fill | m.Until | m.UpToLast | m.Rest | m.Blocks)
    return ".items" if many or is_octets(kind) else ""


def placed(text: str, order: str) -> str:
    """Returns a term for an order that is not the variable `o`."""
    return re.sub(r"(?<![\w'.-])o(?![\w'-])", order, text)


def bit(stop: int) -> str:
    """Returns a bit."""
    return ("false", "true")[stop]


# ---- numbers


def width(integer: m.Integer) -> int:
    """Returns the bits of the type of a number."""
    return int(integer.base[1:])


def shape(integer: m.Integer) -> str:
    """Returns the order, the bits of the type and the bits of a number."""
    return f"o {width(integer)} {integer.width}"


def in_bytes(kind: m.Number) -> str:
    """Returns the first word of the names for a number in a byte order of its own."""
    return f"{'signed_' * kind.integer.signed}in_bytes"


def byte_shape(order: str, width: int) -> str:
    """Returns the order and the number of the bytes of a number."""
    return f"{m.ORDERS[order]} {width // 8}"


def sign(integer: m.Integer) -> str:
    """Returns the name of the write of a number."""
    return "signed" if integer.signed else "unsigned"


def non_zero(kind: m.NonZero) -> str:
    """Returns the number of a `NonZero`."""
    return f"non_zero_{kind.integer.base}_get value.{kind.name}"


def or_zero(kind: m.MaybeNonZero) -> str:
    """Returns the number of an optional `NonZero`, 0 for `None`."""
    return f"number_or_zero non_zero_{kind.integer.base}_get value.{kind.name}"


def groups_call(kind: m.Groups) -> str:
    """Returns the name of the read of a number in groups."""
    return f"{'any_' * kind.any}{'signed_' * kind.integer.signed}vbr"


def groups_number(kind: m.Groups) -> str:
    """Returns the number whose groups are written."""
    return f"(zig value.{kind.name})" if kind.integer.signed else f"value.{kind.name}"


def short(kind: m.Golomb) -> str:
    """Returns the name of an Exp-Golomb code."""
    return "se" if kind.signed else "ue"


# ---- enums


def enum_number(enum: m.EnumType, term: str) -> str:
    """Returns the number of a case."""
    return f"{snake(enum.name)}_number {term}"


def enum_shape(enum: m.EnumType) -> str:
    """Returns the order, the bits of the type and the bits of the number of an enum."""
    return f"o {enum_bits(enum)} {enum.width}"


def called(line: Line, case: str) -> str:
    """Returns the name of a case in specs: after the name of its enum if something else has the name, too."""
    return (line.enum.name if line.enum and case in line.shared else "") + case


# ---- parts of a stated size


def measured_module(kind: m.Measured) -> str:
    """Returns the first word of the definitions of what a line writes."""
    if isinstance(kind, m.Choose):
        return snake(kind.type)
    use = m.held_item(kind)
    return use.module if isinstance(use, m.Use) else ""


def measured_name(kind: m.Measured) -> str:
    """Returns the type of the value."""
    if isinstance(kind, m.Choose):
        return kind.type
    return f"(List {kind.use.name})" if isinstance(kind, m.Fill) else item_type(kind.item)


def measured_writes(kind: m.Measured, order: str) -> str:
    """Returns what a line writes, in an order of bits."""
    if isinstance(kind, m.Fill):
        return f"flat_map ({kind.use.module}_writes {order}) value.{kind.name}"
    return f"{measured_module(kind)}_writes {order} value.{kind.name}"


def measured_size(kind: m.Measured, order: str) -> str:
    """Returns the number of bits, in an order of bits."""
    if isinstance(kind, m.Fill):
        return f"parts_size ({kind.use.module}_size {order}) value.{kind.name}"
    return f"{measured_module(kind)}_size {order} value.{kind.name}"


def stated_number(kind: m.Size, size: str) -> str:
    """Returns the number that a line stores for a number of bytes."""
    return f"stored_size {kind.units} ({size})" if kind.units else size


def number_stored(line: Line, kind: m.Size) -> str:
    """Returns the number that a line stores for the value of another line."""
    assert line.measures
    if is_octets(line.measures):
        return stated_number(kind, f"length value.{kind.target}")
    return stated_number(kind, f"{measured_size(line.measures, 'High')} / 8")


def sized_bytes(line: Line, number: str) -> str:
    """Returns the number of bytes that a number states, for a line that each number states a size of."""
    if not (line.size and line.units):
        return number
    unit, _, less = line.units.split()
    return f"(size_in_units {unit} {less} {number})"


def inside(f: Format, line: Line, order: str, size: str = "size") -> str:
    """Returns the read of a part over the bytes of its size; `number` selects the case of a choice."""
    if isinstance(line.kind, m.Choose):
        return f"{snake(line.kind.type)}_read {order} number" + f" {size}" * by_size(line.kind)
    read = placed(here(f, line), order)
    if by_size(line.kind) and line.use:
        read += f" {rest_given(line.use, size)}"
    return read if f.mapped(line.kind) else f"plain_reads ({read})"


def rest_count(f: Format) -> str:
    """Returns the number that the read takes for a record with a rest, or an empty text if there is no rest."""
    line = f.rest_line
    if not line:
        return ""
    last = f"{measured_size(line.measured, 'High')} / 8" if line.measured else f"length {value(line)}"
    return f"({''.join(f'{bytes_taken(it, value(it))} + ' for it in f.before_rest)}{last})"


def bytes_taken(line: Line, term: str) -> str:
    """Returns the number of bytes of a line before a rest, of the term for its value."""
    return f"{some_bits(line.kind, term)} / 8" if is_some_bytes(line.kind) else f"length {term}"


def some_bits(kind: m.Optional | m.If | m.Choose, term: str) -> str:
    """Returns the number of bits of an optional part, or of a choice without a size."""
    if isinstance(kind, m.Choose):
        return f"{snake(kind.type)}_size High {term}"
    return f"optional_size ({kind.use.module}_size High) {term}"


def bytes_name(kind: m.Optional | m.If | m.Choose) -> str:
    """Returns the name of the function that counts the bytes of an optional part, or of a choice without a size."""
    return f"bytes_of_{snake(kind.type if isinstance(kind, m.Choose) else kind.use.name)}"


def rest_left(f: Format, name: str, of: Of = as_read) -> str:
    """Returns the number of bytes of the rest: of those that the read is given, the ones after bytes before it."""
    given = of(f, f"{name}_bytes")
    taken = "".join(f" - {bytes_taken(it, of(f, it.name))}" for it in f.before_rest)
    return f"({given}{taken})" if taken else given


def handed(f: Format, before: str = "value.") -> str:
    """Returns the parts of a record that a read is given."""
    return " ".join(f"{before}{it.name}" for it in f.handed)


def of_value(f: Format) -> str:
    """Returns what a read is given, of a record."""
    return f"{handed(f)} {rest_count(f)}".strip()


# ---- choices


def tag_bits(width: int) -> int:
    """Returns the bits of the number type that holds the number of a case."""
    return next(it for it in (8, 16, 32, 64, 128) if it >= width)


def tag_shape(kind: m.Tag) -> str:
    """Returns the order, the bits of the type and the bits of a tag."""
    return f"o {tag_bits(kind.width)} {kind.width}"


def tag_number(line: Line) -> str:
    """Returns the number of the case that a tag selects."""
    assert line.choice
    return f"{snake(line.choice.type)}_number value.{line.choice.name}"


def tag_of(f: Format, kind: m.Choose) -> m.Tag | None:
    """Returns the tag that selects the case of a choice, or None if a field selects it."""
    return next((it.kind for it in f.lines if isinstance(it.kind, m.Tag) and it.kind.name == kind.by), None)


def by_enum(f: Format, kind: m.Choose) -> m.EnumType | None:
    """Returns the enum whose number selects the case of a choice, or None if a plain number does."""
    return next((it.kind.enum for it in f.lines if isinstance(it.kind, m.Enum) and it.name == kind.by), None)


def by_number(f: Format, kind: m.Choose, term: str) -> str:
    """Returns the number of a field that selects a case, of a term for the field."""
    enum = by_enum(f, kind)
    return f"({enum_number(enum, term)})" if enum else term


def selected(f: Format, kind: m.Choose, of: Of = as_read) -> str:
    """Returns the number that selects a case, of the values that were read."""
    tag = tag_of(f, kind)
    return of(f, m.label(tag)) if tag else by_number(f, kind, of(f, kind.by))


# ---- reads


def entry(f: Format, line: Line) -> str:
    """Returns the read of a line that binds its value."""
    kind = line.kind
    match kind:
        case m.Bool() | m.Flag():
            return "bit_decoder"
        case m.Number():
            return number_decoder(kind)
        case m.NonZero():
            return f"non_zero_{kind.integer.base}_decoder o {kind.integer.width}"
        case m.MaybeNonZero():
            return f"option_decoder non_zero_{kind.integer.base} {shape(kind.integer)}"
        case m.Enum():
            return f"{snake(kind.enum.name)}_read o"
        case m.Array():
            return array_decoder(kind)
        case m.Unary():
            return f"unary_decoder {bit(kind.stop)}"
        case m.Groups():
            return groups_decoder(kind)
        case m.Size(groups=m.Groups() as groups):
            return groups_decoder(groups)
        case m.Golomb():
            return f"{short(kind)}_decoder o"
        case m.Varint() | m.Size(varint=True):
            return "varint_decoder o"
        case m.Until():
            return f"until_decoder o {kind.stop}"
        case m.Blocks():
            return "blocks_decoder o"
        case m.UpToLast():
            return f"up_to_last_decoder ({own_decoder(f, line)}) {kind.name}_last"
        case m.Rest():
            return f"vec_decoder o {rest_left(f, kind.name)}"
        case m.Count(golomb=True):
            return "ue_decoder o"
        case m.Count():
            return f"unsigned_decoder o 64 {kind.width}"
        case m.Tag():
            return f"unsigned_decoder {tag_shape(kind)}"
        case m.Check():
            own = f"in_bytes_decoder o {byte_shape(kind.order, kind.width)}" if kind.order else ""
            return own or f"unsigned_decoder {checks.shape(kind)}"
        case m.Size():
            return f"unsigned_decoder o 64 {kind.width}"
        case m.Sized() | m.Fill():
            if is_octets(kind) and not kind.error:
                return f"vec_decoder o {sized_bytes(line, f'{kind.name}_bytes')}"
            return f"{measured_read(line)} o {f'{kind.name}_bytes' if line.size else rest_left(f, kind.name)}"
        case m.Choose():
            read = measured_read(line) if kind.sized else f"{snake(kind.type)}_read"
            size = rest_left(f, kind.name) if kind.to_end else f"{kind.name}_bytes"
            return f"{read} o {selected(f, kind)}" + f" {size}" * kind.sized
        case m.Part():
            return here(f, line)
        case m.Optional() | m.If():
            return if_there(f, line, when(f, kind))
        case m.List():
            return list_decoder(f, line, kind)
        case m.Const():
            return f"const_decoder o {kind.width} {kind.value}"
        case m.Pad():
            return f"unsigned_decoder o 64 ({kind.counted} {kind.target})"
        case m.Skip():
            return f"skip_decoder {kind.width}"
        case m.Verify():
            raise AssertionError(kind)
    assert_never(kind)


def number_decoder(kind: m.Number) -> str:
    """Returns the read of a number."""
    if kind.order:
        return f"{in_bytes(kind)}_decoder o {byte_shape(kind.order, kind.integer.width)}"
    return f"{sign(kind.integer)}_decoder {shape(kind.integer)}"


def groups_decoder(kind: m.Groups) -> str:
    """Returns the read of a number in groups."""
    limit = "" if kind.integer.signed else f" (2 ^ {kind.integer.width})"
    return f"{groups_call(kind)}_decoder o {kind.group} {kind.integer.width}{limit}"


def measured_read(line: Line) -> str:
    """Returns the name of the read of a part whose size an earlier line has."""
    return f"{line.name}_{'stated' if line.units else 'sized'}"


def array_decoder(kind: m.Array) -> str:
    """Returns the read of an array."""
    item = kind.item
    match item:
        case m.Integer():
            return f"items_decoder ({sign(item)}_decoder {shape(item)}) {kind.count}"
        case m.EnumType():
            return f"{snake(item.name)}_read_each o"
        case m.Octet():
            return f"bytes_decoder o {kind.count}"
    assert_never(item)


def item_decoder(f: Format, line: Line, item: m.Item) -> str:
    """Returns the read of an item of a list."""
    match item:
        case m.Integer():
            return f"{sign(item)}_decoder {shape(item)}"
        case m.EnumType():
            return f"{snake(item.name)}_read o"
        case m.Use():
            return here(f, line)
        case m.Octet():
            return "unsigned_decoder o 8 8"
    assert_never(item)


def all_items(line: Line) -> str:
    """Returns the read of a list: of items that may be refused, or of others."""
    return "parts_decoder" if line.own else "items_decoder"


def stored(f: Format, line: Line, kind: m.List) -> str:
    """Returns the read of an item as the read of a list takes it."""
    one = item_decoder(f, line, kind.item)
    return one if line.own else f"list_item ({one})"


def list_decoder(f: Format, line: Line, kind: m.List) -> str:
    """Returns the read of a list."""
    if isinstance(kind.item, m.Octet):
        return f"vec_decoder o {kind.name}_count"
    return f"{all_items(line)} ({stored(f, line, kind)}) {list_count(f, kind)}"


def list_count(f: Format, kind: m.List, of: Of = as_read) -> str:
    """Returns the number of items of a list, of the values before it."""
    if not kind.power:
        count = of(f, f"{kind.name}_count")
        return f"(size_in_units 1 {kind.less} {count})" if kind.less else count
    there = of(f, kind.power.there) if kind.power.there else "true"
    return f"(power_count {there} {of(f, kind.power.field)} {kind.power.plus})"


def here(f: Format, line: Line) -> str:
    """Returns the read of a part, with the errors of the format if there are any."""
    module = line.use.module if line.use else ""
    return f"{module}_{'here' if f.mapped(line.kind) else 'decoder'} o"


def own_decoder(f: Format, line: Line) -> str:
    """Returns the read of a part as one that has errors of its own."""
    plain = not f.mapped(line.kind) and not (line.use and m.allocating(line.use))
    return f"plain_reads ({here(f, line)})" if plain else here(f, line)


def if_there(f: Format, line: Line, there: str) -> str:
    """Returns the read of an optional part; `there` is the term that it is there."""
    own = "own_" * line.own
    return f"{own}optional {there} ({here(f, line)})"


def asked_enum(f: Format, asked: m.Test) -> m.EnumType | None:
    """Returns the enum that a test asks for, or None if it asks for a number."""
    return next((it.kind.enum for it in f.lines if isinstance(it.kind, m.Enum) and it.name == asked.field), None)


def asked_enums(f: Format, kind: m.Kind) -> int:
    """Returns the number of enums that a condition asks for in code, where a function tests several fields."""
    return sum(bool(asked_enum(f, it)) for it in kind.tests) if isinstance(kind, m.If) and not kind.due else 0


def test(f: Format, asked: m.Test, term: str) -> str:
    """Returns a test, of a term for the field that it asks for."""
    enum = asked_enum(f, asked)
    number = enum_number(enum, term) if enum else term
    match asked.how:
        case "":
            return term
        case "not":
            return f"(not {term})"
        case "!=":
            return f"(not ({number} == {asked.value}))"
        case "<":
            return f"(nat_lt {number} {asked.value})"
        case ">=":
            return f"(nat_le {asked.value} {number})"
    return f"({number} == {asked.value})"


def condition(f: Format, kind: m.If, terms: list[str]) -> str:
    """Returns the condition of an optional part, of a term for each field that it asks for."""
    if kind.due:
        return f"({kind.due} {' '.join(terms)})"
    return test(f, kind.tests[0], terms[0])


def when(f: Format, kind: m.Optional | m.If, of: Of = as_read) -> str:
    """Returns the term that an optional part is there, of the values that were read."""
    return condition(f, kind, [of(f, it) for it in kind.asked]) if isinstance(kind, m.If) else of(f, f"has_{kind.name}")


def known(f: Format, kind: m.Optional | m.If) -> str:
    """Returns the term that an optional part is there, of the fields of the record."""
    if isinstance(kind, m.If):
        return condition(f, kind, [f"value.{it}" for it in kind.asked])
    return f"(is_some value.{kind.name})"


def binds(f: Format, line: Line, behind: str) -> str:
    """Returns the line of a `do` block that reads a line; `behind` is the read of the lines after it."""
    kind = line.kind
    if isinstance(kind, m.Const):
        test_ = f"if is_{line.index} then {behind} else pure (Err {kind.error})"
        return f"  is_{line.index} ← {entry(f, line)}\n  {test_}"
    if isinstance(kind, m.Skip):
        return f"  skipped_{line.index} ← {entry(f, line)}"
    if isinstance(kind, m.Verify):
        test_ = f"{m.label(kind.check)} == {checks.read_sum(kind.check, line.covers, [it.name for it in f.fields])}"
        return f"  if {test_} then {behind} else pure (Err {line.error})"
    if m.is_limited(kind):
        name, test_ = line.name, f"if nat_le {line.name} {kind.limit} then {behind} else pure (Err {kind.error})"
        return f"  {name} ← {entry(f, line)}\n  {test_}"
    if line.stops:
        return f"  and_then ({entry(f, line)}) (part_then (λ {line.name}. {behind}))"
    return f"  {line.name} ← {entry(f, line)}"


# ---- writes


def word(line: Line) -> str:
    """Returns the write of a line, or the list of its writes."""
    kind, term = line.kind, value(line)
    match kind:
        case m.Bool():
            return f"bit {term}"
        case m.Number():
            own = f"{in_bytes(kind)}_word o {byte_shape(kind.order, kind.integer.width)}" if kind.order else ""
            return f"{own or f'{sign(kind.integer)} {shape(kind.integer)}'} {term}"
        case m.NonZero():
            return f"non_zero {shape(kind.integer)} ({non_zero(kind)})"
        case m.MaybeNonZero():
            return f"unsigned {shape(kind.integer)} ({or_zero(kind)})"
        case m.Enum():
            return f"unsigned {enum_shape(kind.enum)} ({enum_number(kind.enum, term)})"
        case m.Unary():
            return f"unary_word {bit(kind.stop)} {term}"
        case m.Groups():
            return f"{'signed_' * kind.integer.signed}vbr o {kind.group} {term}"
        case m.Golomb():
            return f"{short(kind)}_writes o {term}"
        case m.Varint():
            return f"varint_writes o {term}"
        case m.Until():
            return f"until_writes o {kind.stop} {term}"
        case m.Blocks():
            return f"blocks_writes o {term}"
        case m.UpToLast():
            return f"flat_map ({item_writes(kind.use)}) {term}"
        case m.Const():
            return f"plain (word o {kind.width} {kind.value})"
        case m.Skip():
            return f"zeros {kind.width}"
        case m.Pad():
            return f"unsigned o 64 ({kind.counted} value.{kind.target}) 0"
        case m.Flag():
            return f"bit (is_some value.{kind.target})"
        case m.Count(golomb=True):
            return f"ue_writes o ({number_counted(kind)})"
        case m.Count():
            return f"unsigned o 64 {kind.width} ({number_counted(kind)})"
        case m.Tag():
            return f"unsigned {tag_shape(kind)} ({tag_number(line)})"
        case m.Check():
            own = f"in_bytes_word o {byte_shape(kind.order, kind.width)}" if kind.order else ""
            return f"{own or f'unsigned {checks.shape(kind)}'} ({checks.written_sum(kind, line.covers)})"
        case m.Verify():
            raise AssertionError(kind)
        case m.Size():
            assert line.measures
            if kind.varint:
                return f"varint_writes o ({number_stored(line, kind)})"
            if kind.groups:
                return grouped_word(line, kind, kind.groups)
            if is_octets(line.measures):
                return f"unsigned o 64 {kind.width} ({number_stored(line, kind)})"
            encoder = f"stored_encoder o {kind.width} {kind.units}" if kind.units else f"size_encoder o {kind.width}"
            return f"{encoder} ({measured_writes(line.measures, 'High')})"
        case m.Rest() | m.Sized(item=m.Octet()):
            return f"buffer o {term}"
        case m.Choose() | m.Sized() | m.Fill():
            return measured_writes(kind, "o")
        case m.Array() | m.List():
            if isinstance(kind.item, m.Octet):
                return f"buffer o {term}"
            return f"flat_map ({item_writes(kind.item)}) {term}"
        case m.Part():
            return f"{kind.use.module}_writes o {term}"
        case m.Optional() | m.If():
            return f"optional_writes ({kind.use.module}_writes o) {term}"
    assert_never(kind)


def number_counted(kind: m.Count, record: str = "value") -> str:
    """Returns the number that a line stores for the items of a list."""
    items = f"length {record}.{kind.target}"
    return f"stored_size 1 0 {kind.less} ({items})" if kind.less else items


def count_bound(kind: m.Count) -> str:
    """Returns the number that each stored number is below."""
    return "2 ^ 32 - 1" if kind.golomb else f"2 ^ {kind.width}"


def grouped_word(line: Line, kind: m.Size, groups: m.Groups) -> str:
    """Returns the write of a size in groups."""
    assert line.measures
    if is_octets(line.measures):
        return f"vbr o {groups.group} ({number_stored(line, kind)})"
    return f"grouped_encoder o ({measured_writes(line.measures, 'High')})"


def item_writes(item: m.Item) -> str:
    """Returns the function from an item to its writes."""
    match item:
        case m.Integer():
            return f"λ x. {sign(item)} {shape(item)} x ∷ []"
        case m.EnumType():
            return f"λ x. unsigned {enum_shape(item)} ({enum_number(item, 'x')}) ∷ []"
        case m.Use():
            return f"{item.module}_writes o"
        case m.Octet():
            return "λ x. unsigned o 8 8 x ∷ []"
    assert_never(item)


def size(line: Line) -> str:
    """Returns the number of bits."""
    kind, term = line.kind, value(line)
    if line.bits is not None:
        return str(line.bits)
    match kind:
        case m.Unary():
            return f"length (unary {bit(kind.stop)} {term})"
        case m.Groups():
            return f"length (vbr_word High {kind.group} {groups_number(kind)})"
        case m.Golomb():
            return f"{short(kind)}_size {term}"
        case m.Pad():
            return f"{kind.counted} value.{kind.target}"
        case m.Count():
            return f"ue_size ({number_counted(kind)})"
        case m.Varint():
            return f"varint_size {term}"
        case m.Until():
            return f"until_size {term}"
        case m.Blocks():
            return f"blocks_size {term}"
        case m.UpToLast():
            return f"parts_size ({kind.use.module}_size o) {term}"
        case m.Size(groups=m.Groups(group=group)):
            return f"length (vbr_word High {group} ({number_stored(line, kind)}))"
        case m.Size():
            return f"varint_size ({number_stored(line, kind)})"
        case m.Part():
            return f"{kind.use.module}_size o {term}"
        case m.Rest() | m.Sized(item=m.Octet()):
            return f"8 * length {term}"
        case m.Choose() | m.Sized() | m.Fill():
            return measured_size(kind, "o")
        case m.Optional() | m.If():
            return f"optional_size ({kind.use.module}_size o) {term}"
        case m.List():
            return list_size(kind)
    raise AssertionError(kind)


def list_size(kind: m.List) -> str:
    """Returns the number of bits of a list."""
    item, term = kind.item, f"value.{kind.name}"
    match item:
        case m.Use():
            return f"parts_size ({item.module}_size o) {term}"
        case m.Octet():
            return f"8 * length {term}"
        case m.Integer() | m.EnumType():
            return f"length {term} * {item.width}"
    assert_never(item)


# ---- values that fit


def fits(f: Format, line: Line) -> list[tuple[str, str]]:
    """Returns the fields of `Fits` for a line."""
    kind, term = line.kind, value(line)
    match kind:
        case m.Check():
            return checks.fits(kind)
        case m.Bool() | m.Const() | m.Pad() | m.Skip() | m.Flag() | m.Tag() | m.Verify():
            return []
        case m.Size():
            return limited_fits(line, number_stored(line, kind), kind, f"< 2 ^ {kind.width}")
        case m.Rest(item=item) | m.Sized(item=m.Octet() as item):
            return items_fit(kind.name, item, term)
        case m.Sized():
            return [(kind.name, f"{measured_name(kind)}Fits {term}"), whole_fits(kind)]
        case m.Fill():
            return [(kind.name, f"All {kind.use.name}Fits {term}"), whole_fits(kind)]
        case m.Choose():
            return choice_fits(f, kind) + [whole_fits(kind)] * kind.sized
        case m.Number(limit=int()):
            return limited_fits(line, term, kind, f"< 2 ^ {kind.integer.width}")
        case m.Number():
            return [(kind.name, number_fits(kind.integer, term))]
        case m.NonZero():
            return [(kind.name, f"{non_zero(kind)} - 1 < 2 ^ {kind.integer.width}")]
        case m.MaybeNonZero():
            return [(kind.name, f"{or_zero(kind)} < 2 ^ {kind.integer.width}")]
        case m.Enum():
            return enum_fits(kind, term)
        case m.Unary():
            return [(kind.name, f"{term} < 2 ^ 32")]
        case m.Groups():
            return [(kind.name, number_fits(kind.integer, term))]
        case m.Varint():
            return [(kind.name, f"{term} < 2 ^ 62")]
        case m.Blocks():
            return [(kind.name, f"All IsBlock {term}"), (f"{kind.name}_most", f"length {term} < 2 ^ 32")]
        case m.UpToLast():
            once = (f"{kind.name}_once", f"EndsOnce {kind.name}_last {term}")
            most = (f"{kind.name}_most", f"length {term} ≤ 2 ^ 32")
            return [(kind.name, f"All {kind.use.name}Fits {term}"), once, most]
        case m.Until():
            return [(kind.name, f"IsUnended {kind.stop} {term}"), (f"{kind.name}_most", f"length {term} < 2 ^ 32")]
        case m.Golomb():
            return [(kind.name, f"unsigned_abs {term} < 2 ^ 31" if kind.signed else f"{term} < 2 ^ 32 - 1")]
        case m.Count():
            return limited_fits(line, number_counted(kind), kind, f"< {count_bound(kind)}")
        case m.Array():
            return [(f"{kind.name}_count", f"length {term} ≡ {kind.count}"), *items_fit(kind.name, kind.item, term)]
        case m.List():
            counted = f"length {term} ≡ {list_count(f, kind, lambda f, name: f'value.{name}')}"
            return items_fit(kind.name, kind.item, term) + [(f"{kind.name}_count", counted)] * bool(kind.power)
        case m.Part():
            return [(kind.name, f"{kind.use.name}Fits {term}")]
        case m.Optional():
            return [(kind.name, f"ForSome {term} {kind.use.name}Fits")]
        case m.If():
            there = (f"{kind.name}_there", f"is_some {term} ≡ {known(f, kind)}")
            return [(kind.name, f"ForSome {term} {kind.use.name}Fits"), there]
    assert_never(kind)


def limited_fits(line: Line, term: str, kind: m.Limited, bits: str) -> list[tuple[str, str]]:
    """Returns the facts that a number fits its bits, and is not above its greatest value if it has one."""
    most = [(f"{line.name}_most", f"{term} ≤ {kind.limit}")] * m.is_limited(kind)
    return [(line.name, f"{term} {bits}"), *most]


def choice_fits(f: Format, kind: m.Choose) -> list[tuple[str, str]]:
    """Returns the facts that a case of a choice fits, and that the field that selects it has its number."""
    s, term, by = snake(kind.type), f"value.{kind.name}", by_number(f, kind, f"value.{kind.by}")
    found = [(kind.name, f"{s}_fits {term}")]
    return found + [(f"{kind.name}_tag", f"{s}_number {term} ≡ {by}")] * (tag_of(f, kind) is None)


def whole_fits(kind: m.Measured) -> tuple[str, str]:
    """Returns the fact that a part has whole bytes, as many in either order of bits."""
    return f"{kind.name}_whole", f"(o : Order) → {measured_size(kind, 'o')} ≡ 8 * ({measured_size(kind, 'High')} / 8)"


def number_fits(integer: m.Integer, term: str) -> str:
    """Returns the fact that a number fits its bits."""
    return f"FitsSignedBits {integer.width} {term}" if integer.signed else f"{term} < 2 ^ {integer.width}"


def enum_fits(kind: m.Enum, term: str) -> list[tuple[str, str]]:
    """Returns the facts that the number of a case fits its bits and belongs to no other case."""
    if not kind.enum.other:
        return []
    number = enum_number(kind.enum, term)
    again = (f"{kind.name}_again", f"{snake(kind.enum.name)}_of ({number}) ≡ {term}")
    return [(kind.name, f"{number} < 2 ^ {kind.enum.width}"), again]


def items_fit(name: str, item: m.Item, term: str) -> list[tuple[str, str]]:
    """Returns the fact that each item fits its bits."""
    match item:
        case m.Integer():
            says = f"FitsSignedBits {item.width}" if item.signed else f"λ x. x < 2 ^ {item.width}"
            return [(name, f"All ({says}) {term}")]
        case m.Octet():
            return [(name, f"All (λ b. b < 256) {term}")]
        case m.Use():
            return [(name, f"All {item.name}Fits {term}")]
        case m.EnumType():
            number = enum_number(item, "x")
            again = f"{snake(item.name)}_of ({number}) ≡ x"
            says = f"All (λ x. ({number} < 2 ^ {item.width}) × ({again})) {term}"
            return [(name, says)] if item.other else []
    assert_never(item)


# ---- values among known bits, for a format of a constant number of bits


def place(line: Line, bits: str, order: str, base: int = 0) -> str:
    """Returns the value of a line among bits, of which the format begins after `base`."""
    at = base + (line.at or 0)
    if isinstance(line.kind, m.Part):
        inner = (f"{it.name} = {place(it, bits, order, at)}" for it in line.inner if it.is_field)
        return f"record {{ {'; '.join(inner)} }}"
    return value_of(line, f"bits_at {at} {line.wide} {bits}", order)


def value_of(line: Line, bits: str, order: str) -> str:
    """Returns the value of a line of its own bits."""
    kind = line.kind
    match kind:
        case m.Number():
            own = f"{in_bytes(kind)}_number {order} {byte_shape(kind.order, kind.integer.width)}" if kind.order else ""
            signed = "signed_" * kind.integer.signed
            return f"{own or f'{signed}number {order}'} ({bits})"
        case m.Bool() | m.Flag():
            return f"first_bit ({bits})"
        case m.NonZero():
            return f"non_zero_{kind.integer.base} (number {order} ({bits}))"
        case m.MaybeNonZero():
            return f"if_any non_zero_{kind.integer.base} (number {order} ({bits}))"
        case m.Enum() | m.Array(item=m.EnumType()):
            return line.name if line.error else made(line, bits, order)
        case m.Array(item=m.Octet()):
            return f"bytes_of {order} {kind.count} ({bits})"
        case m.Array(item=m.Integer() as item):
            return f"map ({'signed_' * item.signed}number {order}) (words {item.width} {kind.count} ({bits}))"
    raise AssertionError(kind)


def made(line: Line, bits: str, order: str) -> str:
    """Returns the case of an enum, or the cases of an array, of their bits; or the refusal of these."""
    assert line.enum
    name = snake(line.enum.name)
    if isinstance(line.kind, m.Array):
        return f"{name}_each (map (number {order}) (words {line.enum.width} {line.kind.count} ({bits})))"
    return f"{name}_of (number {order} ({bits}))"


def holds(f: Format, line: Line, bits: str) -> tuple[str, list[str]]:
    """Returns the fact that bits of a line are not refused, and the names of what is known then."""
    if isinstance(line.kind, m.Const):
        return f"const_at_{line.at} ({bits}) ≡ {line.kind.value}", [f"is_{line.index}"]
    answer = made(line, f"bits_at {line.at} {line.wide} ({bits})", f.o)
    return f"{answer} ≡ Ok {line.name}", [line.name, f"is_{line.index}"]


def fails(f: Format, line: Line, bits: str) -> str:
    """Returns the fact that bits of a line are refused."""
    if isinstance(line.kind, m.Const):
        return f"const_at_{line.at} ({bits}) ≢ {line.kind.value}"
    return f"{made(line, f'bits_at {line.at} {line.wide} ({bits})', f.o)} ≡ Err {line.error}"


def known_of(f: Format, tests: list[Line], bits: str) -> list[str]:
    """Returns the premises that tests hold, after the cases of their enums."""
    kinds = " ".join(f"({it.name} : {spec_type(it.kind)})" for it in tests if it.is_field)
    return [kinds] * bool(kinds) + [holds(f, it, bits)[0] for it in tests]


def at_bits(f: Format, bits: str) -> str:
    """Returns the record of bits by their places, after the cases of the enums that may be refused."""
    return " ".join([f"{f.m}_at", *[it.name for it in f.tests if it.is_field], f"({bits})"])


def only_constants(f: Format) -> bool:
    """Returns true if each line that may be refused is a constant: then it is decided whether it is there."""
    return not any(it.is_field for it in f.tests)
