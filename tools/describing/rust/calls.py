"""The code for one line: the call that reads it, the call that writes it, and what its comments say."""
from __future__ import annotations

import re
from typing import assert_never

from describing import model as m
from describing.layout import Format, Line, enum_bits, is_octets, is_part_size, is_some_bytes
from describing.model import snake
from describing.rust.asked import test
from describing.rust.checks import arguments
from describing.specs.terms import by_enum, bytes_name, in_bytes, short, tag_bits, tag_of, width
from describing.text import article


def comment(line: Line) -> str:
    """Returns the comment of a field."""
    return f"{line.kind.doc or f'The field `{line.name}`.'} {limits(line)}".strip()


def integer_range(integer: m.Integer) -> str:
    """Returns the range of a number that has fewer bits than its type, in lower case, or an empty text."""
    if integer.width == width(integer):
        return ""
    return f"from {integer.least} to {integer.most}" if integer.signed else f"below 2^{integer.width}"


def limits(line: Line) -> str:
    """Returns the sentence about the range of a field, or an empty text."""
    kind = line.kind
    match kind:
        case m.Number(limit=int() as most):
            return f"At most {most}."
        case m.Number():
            said = integer_range(kind.integer)
            return f"{said.capitalize()}." if said else ""
        case m.Array(item=m.Integer() as item):
            said = integer_range(item)
            return f"Each {said}." if said else ""
        case m.NonZero():
            return f"At most 2^{kind.integer.width}."
        case m.MaybeNonZero():
            return f"Below 2^{kind.integer.width}; 0 means `None`."
        case m.Varint():
            return "Below 2^62."
        case m.Until():
            return f"No byte is {kind.stop}, which ends it."
        case m.Blocks():
            return "Each has 1 to 255 bytes."
        case m.UpToLast():
            return f"The last one, and no other one, has `{kind.condition}`."
        case m.Golomb():
            return "From -2^31 + 1 on." if kind.signed else "Below 2^32 - 1."
    return ""


def list_limits(f: Format, line: Line, kind: m.List) -> str:
    """Returns the sentence about the number of items of a list, and their range."""
    said = integer_range(kind.item) if isinstance(kind.item, m.Integer) else ""
    if kind.power:
        there = f" if `{kind.power.there}` is set, and else none" * bool(kind.power.there)
        return f"{kind.power.spelled} items{there}{f', each {said}' if said else ''}."
    assert kind.count
    many = f"Fewer than 2^{kind.count.width}" if kind.count.limit is None else f"At most {kind.count.limit}"
    if kind.less or kind.count.golomb:
        many = f"From {kind.less} to {kind.count.most_items} items"
    return f"{many}{f', each {said}' if said else ''}."


def field_comment(f: Format, line: Line) -> str:
    """Returns the comment of a field, with its range."""
    if isinstance(line.kind, m.List):
        return f"{comment(line)} {list_limits(f, line, line.kind)}"
    return comment(line)


def imports(line: Line) -> list[str]:
    """Returns the paths that the code of a line uses."""
    kind, found = line.kind, list[str]()
    if isinstance(kind, m.NonZero | m.MaybeNonZero):
        found.append("std::num::NonZero")
    if isinstance(kind, m.Blocks):
        found.append("bitstream_format::blocks::{Block, read_blocks, write_blocks}")
    if isinstance(kind, m.Golomb) or m.is_golomb(kind):
        code = short(kind) if isinstance(kind, m.Golomb) else "ue"
        found.append(f"bitstream_io::golomb::{{read_{code}, write_{code}}}")
    if isinstance(kind, m.Check) and kind.lines:
        found.append(f"bitstream_format::checksums::{kind.type}")
    for use in m.uses(kind):
        names = [use.name, *[use.description.error] * bool(use.description.error), *tested_types(kind)]
        several = "{" + ", ".join(names) + "}"
        found.append(f"crate::{use.module}::{several if names[1:] else use.name}")
    return found


def tested_types(kind: m.Printed) -> list[str]:
    """Returns the types of the choices of a part in whose cases the test of the last part looks."""
    tests = kind.tests if isinstance(kind, m.UpToLast) else ()
    fields = {it.name: it for use in m.uses(kind) for it in use.description.fields}
    found = [fields[it.field] for it in tests if it.inner]
    return sorted({it.type for it in found if isinstance(it, m.Choose)})


# ---- errors


def shown(sentence: str) -> str:
    """Returns a comment as the text of an error: it begins in lower case, and has no full stop at its end.

    A first word with another capital or a digit (`MPEG`, `H.264`) stays. Quotes, backslashes and braces are escaped.
    """
    text = sentence.strip().removesuffix(".")
    if not re.search(r"[A-Z0-9]", text[1:].split(" ")[0]):
        text = text[:1].lower() + text[1:]
    return re.sub(r'["\\]', r"\\\g<0>", text).replace("{", "{{").replace("}", "}}")


def refusal(line: Line) -> str:
    """Returns the comment of the case of the error for a line."""
    if line.use:
        return f"An error of {article(line.use.name)} that is not the reader's."
    if m.is_limited(line.kind) and not isinstance(line.kind, m.Pad):
        return limit_text(line.kind)
    if isinstance(line.kind, m.Sized):
        least = line.size.plus if line.size else 0
        return f"The size of `{line.name}` is below the {least} bytes that it counts too."
    if line.enum:
        what = f"`{line.name}`" if isinstance(line.kind, m.Enum) else f"An item of `{line.name}`"
        return f"{what} is not the number of a case of `{line.enum.name}`."
    return line.kind.doc


def limit_text(kind: m.Number | m.Count | m.Size) -> str:
    """Returns the comment of the case of the error for a number above its greatest value."""
    name = limit_name(kind)
    return f"{name[0].upper()}{name[1:]} is above {kind.limit}."


def limit_name(kind: m.Number | m.Count | m.Size) -> str:
    """Returns what comments call a number with a greatest value."""
    if isinstance(kind, m.Number):
        return f"`{kind.name}`"
    what = "number of items" if isinstance(kind, m.Count) else "size"
    what = "number for the size" if isinstance(kind, m.Size) and kind.units else what
    less = f", less {kind.less}," if isinstance(kind, m.Count) and kind.less else ""
    return f"the {what} of `{kind.target}`{less}"


def error_cases(line: Line) -> dict[str, list[str]]:
    """Returns the cases of the error for a line, each with its text."""
    kind = line.kind
    if isinstance(kind, m.Sized) and not line.measured:
        return {kind.error: small_case(line, kind)} if kind.error else {}
    if isinstance(kind, m.Sized | m.Fill):
        inner = {it: error_case(line) for it, held in m.refusals(kind) if held}
        return (overrun_case(kind.name, kind.error) if kind.error else {}) | inner
    if not isinstance(kind, m.Choose):
        return {line.error: error_case(line)} if line.error else {}
    why = f"`{kind.type}` has no case for the number before `{kind.name}`."
    if kind.by != kind.name:
        why = f"`{kind.type}` has no case for `{kind.by}`."
    own = {kind.unknown: [f"    /// {why}", f'    #[error("{shown(why)}")]', f"    {kind.unknown},"]}
    own = (own if kind.unknown else {}) | (overrun_case(kind.name, kind.overrun, ending(kind)) if kind.sized else {})
    return own | {it.error: error_case(it) for it in line.parts if it.error}


def ending(kind: m.Choose) -> str:
    """Returns the text of which bytes a choice fills."""
    return m.end_text(kind) if kind.to_end else "that its size states"


def overrun_case(name: str, error: str, which: str = "that its size states") -> dict[str, list[str]]:
    """Returns the case of the error for a part that does not fill its size, or the bytes to the end."""
    why = f"`{name}` does not fill the bytes {which}."
    return {error: [f"    /// {why}", f'    #[error("{shown(why)}")]', f"    {error},"]}


def small_case(line: Line, kind: m.Sized) -> list[str]:
    """Returns the case of the error for a size that is too small."""
    why = refusal(line)
    return [f"    /// {why}", f'    #[error("{shown(why)}")]', f"    {kind.error},"]


def error_case(line: Line) -> list[str]:
    """Returns the case of the error for a line: its comment, its text, and what it holds."""
    held, text = "", shown(refusal(line))
    error = line.error
    if line.use:
        held, text = f"({line.use.description.error})", f"in {article(line.use.name)}: {{0}}"
        error = line.use.error
    return [f"    /// {refusal(line)}", f'    #[error("{text}")]', f"    {error}{held},"]


# ---- reads


def reads(f: Format, line: Line) -> str:
    """Returns the statement that reads a line."""
    kind = line.kind
    if isinstance(kind, m.Const):
        call = f"reader.read_const::<Bits<{kind.width}>, Bits<{kind.value}>, {f.e}>({f.e}::{kind.error})"
        return f"{call}?;"
    if isinstance(kind, m.Skip):
        return f"reader.skip({kind.width})?;"
    if isinstance(kind, m.Verify):
        return verify(f, line, kind.check)
    text = f"let {line.name} = {read(f, line)}?;"
    if m.is_limited(kind):
        test = f"let is_{line.name} = {line.name} <= {kind.limit};"
        refuse = f"if !is_{line.name} {{\n            return Err({f.error}::{kind.error});\n        }}"
        return f"{text}\n        {test}\n        {refuse}"
    return text


def verify(f: Format, line: Line, kind: m.Check) -> str:
    """Returns the statements that compare a checksum."""
    name = f"is_{kind.word}"
    found = f"value.{kind.called}()" if kind.lines else f"{kind.word}_of({arguments(line.covers)})"
    wide = " as u64" * (kind.lines and bool(kind.order))
    test = f"let {name} = {m.label(kind)}{wide} == {found};"
    return f"{test}\n        if !{name} {{\n            return Err({f.error}::{line.error});\n        }}"


def read(f: Format, line: Line) -> str:
    """Returns the call that reads the value of a line."""
    kind = line.kind
    match kind:
        case m.Bool() | m.Flag():
            return "reader.read_bit()"
        case m.Number() | m.NonZero() | m.MaybeNonZero():
            if isinstance(kind, m.Number) and kind.order:
                return f"read_{in_bytes(kind)}::<{kind.order}, {kind.integer.base}, R>(reader)"
            return f"reader.read::<Bits<{kind.integer.width}>, {m.rust_type(kind)}>()"
        case m.Enum():
            return f"{kind.enum.name}::read(reader)"
        case m.Array():
            return read_array(kind)
        case m.Unary():
            return f"reader.read_unary::<Bits<{kind.stop}>>()"
        case m.Groups():
            any_call = f"read_{'signed' if kind.integer.signed else 'unsigned'}_vbr_any"
            return f"reader.{any_call if kind.any else 'read_vbr'}::<Bits<{kind.group}>, {kind.integer.base}>()"
        case m.Golomb():
            return f"read_{short(kind)}(reader)"
        case m.Varint() | m.Size(varint=True):
            return "read_varint(reader)"
        case m.Until():
            return f"read_until(reader, alloc, {kind.stop})"
        case m.Blocks():
            return "read_blocks(reader, alloc)"
        case m.UpToLast():
            return f"read_{kind.name}(reader, alloc)"
        case m.Rest():
            return f"reader.read_to_vec(alloc, {rest_bytes(f, kind.name)} as usize)"
        case m.Pad():
            return f"reader.read_var::<u64>({kind.counted}(&{kind.target}))"
        case m.Count(golomb=True):
            return "read_ue(reader)"
        case m.Count():
            return f"reader.read::<Bits<{kind.width}>, u64>()"
        case m.Tag() | m.Check():
            if isinstance(kind, m.Check) and kind.order:
                return f"read_in_bytes::<{kind.order}, {value_type(kind)}, R>(reader)"
            return f"reader.read::<Bits<{kind.width}>, {value_type(kind)}>()"
        case m.Size(groups=m.Groups() as groups):
            any_call = "read_unsigned_vbr_any" if groups.any else "read_vbr"
            return f"reader.{any_call}::<Bits<{groups.group}>, {groups.integer.base}>()"
        case m.Size():
            return f"reader.read::<Bits<{kind.width}>, u64>()"
        case m.Sized() | m.Fill():
            if is_octets(kind) and not kind.error:
                return f"reader.read_to_vec(alloc, {octets_count(line)} as usize)"
            size = bytes_read(line) if line.size else rest_bytes(f, kind.name)
            return f"read_{'stated_' * bool(line.units)}{kind.name}(reader, alloc, {size})"
        case m.Choose():
            if kind.sized:
                selects = selecting(f, kind)
                size = rest_bytes(f, kind.name) if kind.to_end else bytes_read(line)
                return f"read_{'stated_' * bool(line.units)}{kind.name}(reader, alloc, {selects}, {size})"
            return f"{kind.type}::read(reader{', alloc' * m.allocates(kind)}, {selecting(f, kind)})"
        case m.Part():
            return f"{kind.use.name}::read(reader{', alloc' * m.allocating(kind.use)})"
        case m.Optional() | m.If():
            return f"read_{snake(kind.use.name)}_if(reader{', alloc' * m.allocating(kind.use)}, {there(f, kind)})"
        case m.List():
            if isinstance(kind.item, m.Octet):
                return f"reader.read_to_vec(alloc, {kind.name}_count as usize)"
            return f"read_{kind.name}(reader, alloc, {items_count(kind)})"
        case m.Const() | m.Skip() | m.Verify():
            raise AssertionError(kind)
    assert_never(kind)


def bytes_read(line: Line) -> str:
    """Returns the number that states the size of a part, as a `u64`."""
    return f"{line.name}_bytes{' as u64' * bool(line.size and line.size.groups)}"


def rest_bytes(f: Format, name: str) -> str:
    """Returns the number of bytes of the rest: of those that the read is given, the ones after bytes before it."""
    given = f"{name}_bytes"
    for it in f.before_rest:
        some = f"bytes_after({given}, {bytes_name(it.kind)}({it.name}))" if is_some_bytes(it.kind) else ""
        given = some or f"rest_after({given}, &{it.name})"
    return given


def items_count(kind: m.List) -> str:
    """Returns the number of items of a list."""
    if not kind.power:
        count = f"{kind.name}_count{' as u64' * bool(kind.count and kind.count.golomb)}"
        return f"size_in_units({count}, 1, {kind.less})" if kind.less else count
    return f"power_count({kind.power.there or 'true'}, {kind.power.field}, {kind.power.plus})"


def octets_count(line: Line) -> str:
    """Returns the number of bytes that a number states, if each number states one."""
    if not line.units:
        return f"{line.name}_bytes"
    unit, _, less = line.units.split()
    return f"size_in_units({line.name}_bytes, {unit}, {less})"


def selecting(f: Format, kind: m.Choose) -> str:
    """Returns the number that selects a case."""
    tag = tag_of(f, kind)
    return m.label(tag) if tag else f"{kind.by}{'.number()' if by_enum(f, kind) else ''}"


def number_type(f: Format, kind: m.Choose) -> str:
    """Returns the type of the number that selects a case."""
    selects = next(it.kind for it in f.lines if it.name in (kind.by, f"{kind.by}_tag"))
    return f"u{enum_bits(selects.enum)}" if isinstance(selects, m.Enum) else value_type(selects)


def read_array(kind: m.Array) -> str:
    """Returns the call that reads an array."""
    match kind.item:
        case m.Integer():
            return f"reader.read::<Bits<{kind.item.width}>, {m.rust_type(kind)}>()"
        case m.EnumType():
            return f"{kind.item.name}::read_each(reader)"
    return f"reader.read_to_bytes::<{m.rust_type(kind)}>()"


def there(f: Format, kind: m.Optional | m.If) -> str:
    """Returns the condition of an optional part."""
    if isinstance(kind, m.Optional):
        return f"has_{kind.name}"
    return f"is_{kind.due}({', '.join(kind.asked)})" if kind.due else test(f, kind.tests[0])


def read_item(item: m.Item) -> str:
    """Returns the call that reads an item of a list."""
    if isinstance(item, m.Integer):
        return f"reader.read::<Bits<{item.width}>, {item.base}>()"
    allocates = isinstance(item, m.Use) and m.allocating(item)
    return f"{m.item_type(item)}::read(reader{', alloc' * allocates})"


# ---- writes


def write(line: Line) -> str:
    """Returns the call that writes a line."""
    kind, target = line.kind, line.choice.name if line.choice else ""
    if m.is_capped(kind):
        given = f"&self.{kind.target}" if isinstance(kind, m.Size) and is_part_size(line) else ""
        return f"write_{line.name}(writer, {given or number_written(line, kind)})"
    match kind:
        case m.Bool():
            return f"writer.write_bit(self.{kind.name})"
        case m.Number() | m.Count() | m.Size():
            if isinstance(kind, m.Number) and kind.order:
                return f"{in_bytes_write(kind)}::<{kind.order}, {kind.integer.base}, W>(writer, self.{kind.name})"
            return write_number(line, kind, number_written(line, kind))
        case m.NonZero() | m.MaybeNonZero():
            return f"writer.write::<Bits<{kind.integer.width}>, {m.rust_type(kind)}>(self.{kind.name})"
        case m.Enum():
            return f"writer.write::<Bits<{kind.enum.width}>, u{enum_bits(kind.enum)}>(self.{kind.name}.number())"
        case m.Array(item=m.Integer() as item):
            return f"writer.write::<Bits<{item.width}>, {m.rust_type(kind)}>(self.{kind.name})"
        case m.Array() | m.List() | m.Rest() | m.Sized(item=m.Octet()):
            if isinstance(kind.item, m.Octet):
                return f"writer.write_bytes(&self.{kind.name})"
            return f"write_{kind.name}(writer, &self.{kind.name})"
        case m.Unary():
            return f"writer.write_unary::<Bits<{kind.stop}>>(self.{kind.name})"
        case m.Groups():
            return f"writer.write_vbr::<Bits<{kind.group}>, {kind.integer.base}>(self.{kind.name})"
        case m.Golomb():
            return f"write_{short(kind)}(writer, self.{kind.name})"
        case m.Varint():
            return f"write_varint(writer, self.{kind.name})"
        case m.Until():
            return f"write_until(writer, &self.{kind.name}, {kind.stop})"
        case m.Blocks():
            return f"write_blocks(writer, &self.{kind.name})"
        case m.Const():
            return f"writer.write_const::<Bits<{kind.width}>, Bits<{kind.value}>>()"
        case m.Skip():
            return f"writer.pad({kind.width})"
        case m.Pad():
            return f"writer.write_var::<u64>({kind.counted}(&self.{kind.target}), 0)"
        case m.Flag():
            return f"writer.write_bit(self.{kind.target}.is_some())"
        case m.Tag():
            return f"writer.write::<Bits<{kind.width}>, {value_type(kind)}>(self.{target}.number())"
        case m.Check():
            number = f"{kind.word}_of({arguments(line.covers, 'self.')})"
            number = f"self.{kind.called}()" if kind.lines else number
            if kind.order:
                type_ = f", u{kind.width}" * (not kind.lines)
                return f"{sum_write(kind)}::<{kind.order}{type_}, W>(writer, {number})"
            return f"writer.write::<Bits<{kind.width}>, {value_type(kind)}>({number})"
        case m.Verify():
            raise AssertionError(kind)
        case m.Fill() | m.UpToLast():
            return f"write_{kind.name}(writer, &self.{kind.name})"
        case m.Choose() | m.Part() | m.Sized():
            return f"self.{kind.name}.write(writer)"
        case m.Optional() | m.If():
            return f"write_{snake(kind.use.name)}_if(writer, {'&' * m.allocating(kind.use)}self.{kind.name})"
    assert_never(kind)


def in_bytes_write(kind: m.Number) -> str:
    """Returns the name of the function that writes a number in a byte order of its own."""
    return f"write_{in_bytes(kind)}"


def sum_write(kind: m.Check) -> str:
    """Returns the name of the function that writes a checksum in a byte order of its own."""
    return {16: "write_two_bytes", 32: "write_four_bytes"}[kind.width] if kind.lines else "write_in_bytes"


def number_written(line: Line, kind: m.Number | m.Count | m.Size) -> str:
    """Returns the number that a line writes, or the number of bits of the part whose size it writes."""
    if isinstance(kind, m.Number):
        return f"self.{kind.name}"
    length = f"self.{kind.target}.len() as u64"
    if isinstance(kind, m.Count):
        return f"stored_size({length}, 1, 0, {kind.less})" if kind.less else length
    if line.measures and is_octets(line.measures):
        return stored_number(kind, length)
    return bits_written(line, kind, f"self.{kind.target}", "&")


def bits_written(line: Line, kind: m.Size, value: str, borrowed: str = "") -> str:
    """Returns the number of bits of a value whose size a line has."""
    return f"count_{kind.target}({borrowed}{value})" if isinstance(line.measures, m.Fill) else f"{value}.bits::<u64>()"


def stored_number(kind: m.Size, size: str) -> str:
    """Returns the number that states a number of bytes."""
    return f"stored_size({size}, {', '.join(kind.units.split())})" if kind.units else size


def write_number(line: Line, kind: m.Number | m.Count | m.Size, number: str) -> str:
    """Returns the call that writes a number, or the size of a part of a number of bits, whatever its greatest value is."""
    match kind:
        case m.Number():
            return f"writer.write::<Bits<{kind.integer.width}>, {m.rust_type(kind)}>({number})"
        case m.Count(golomb=True) if kind.limit is None:
            return f"write_{kind.target}_count(writer, {number})"
        case m.Count(golomb=True):
            return f"write_ue(writer, {number} as u32)"
        case m.Size(varint=True):
            return f"write_varint(writer, {number})"
        case m.Size() if not (line.measures and is_octets(line.measures)):
            return write_size(kind, number)
        case m.Size(groups=m.Groups() as groups):
            return f"writer.write_vbr::<Bits<{groups.group}>, u64>({number})"
    return f"writer.write::<Bits<{kind.width}>, u64>({number})"


def write_size(kind: m.Size, bits: str) -> str:
    """Returns the call that writes the size of a part of a number of bits."""
    if kind.groups:
        return f"write_size_in_groups(writer, {bits})"
    units = "".join(f", {it}" for it in kind.units.split())
    return f"write_{'stored_' * bool(units)}size(writer, {kind.width}, {bits}{units})"


def write_item(item: m.Item) -> str:
    """Returns the call that writes an item of a list or an array."""
    match item:
        case m.EnumType():
            return f"writer.write::<Bits<{item.width}>, u{enum_bits(item)}>(item.number())"
        case m.Use():
            return "item.write(writer)"
    return f"writer.write::<Bits<{item.width}>, {m.item_type(item)}>(*item)"


def value_type(kind: m.Printed) -> str:
    """Returns the type of the value of a line in code, also of one that is not a field."""
    match kind:
        case m.Flag():
            return "bool"
        case m.Size(groups=m.Groups() as groups):
            return groups.integer.base
        case m.Count(golomb=True):
            return "u32"
        case m.Count() | m.Size() | m.Pad():
            return "u64"
        case m.Tag():
            return f"u{tag_bits(kind.width)}"
        case m.Check():
            return f"u{kind.type_bits}"
        case m.Const() | m.Skip() | m.Verify():
            raise AssertionError(kind)
    return m.rust_type(kind)
