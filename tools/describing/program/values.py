"""The text of the module that prints the records of a description as JSON, and reads them from JSON."""
from __future__ import annotations

from typing import Iterator, TypeAlias, TypeGuard, assert_never, get_args

from describing import model as m
from describing.checks import new_enums
from describing.layout import enum_bits
from describing.model import Refused, snake
from describing.write import EXACT

# The greatest number of fields that one function reads: the time of its proof grows much faster than that number.
GROUP = 8
# The fields whose values a program prints and reads.
Shown: TypeAlias = (
    m.Bool | m.Number | m.NonZero | m.MaybeNonZero | m.Enum | m.Array | m.Unary | m.Groups | m.Golomb | m.Varint
    | m.Part | m.Optional | m.If | m.List
)  # fmt: skip


def is_shown(kind: m.Kind) -> TypeGuard[Shown]:
    """Returns true if a program prints and reads the field of a line."""
    return isinstance(kind, get_args(Shown))


def check(it: m.Description) -> None:
    """Refuses a description of which no program is printed."""
    for kind in it.kinds:
        known = is_shown(kind) or isinstance(kind, m.Const | m.Skip | m.Flag | m.Count)
        if not known or m.is_limited(kind) or m.is_golomb(kind) or isinstance(kind, m.List) and kind.computed:
            raise Refused(f"`{m.label(kind)}`: no program is printed for it yet", kind.at)
        for use in m.uses(kind):
            try:
                check(use.description)
            except Refused as why:
                raise Refused(f"`{use.module}`: {why}", kind.at) from None


def most_bits(it: m.Description) -> int | None:
    """Returns the greatest number of bits of a record, or None if it is known only when it is written."""
    found = 0
    for kind in it.kinds:
        parts = [most_bits(use.description) for use in m.uses(kind)]
        bits = m.bits(kind) if not parts or isinstance(kind, m.List) else parts[0]
        if bits is None:
            return None
        found += bits
    return found


def has_list(it: m.Description) -> bool:
    """Returns true if a record has a list, so that reading it takes memory."""
    return any(m.grows(kind) for kind in it.kinds)


def shown(it: m.Description) -> list[Shown]:
    """Returns the fields of a description that was checked."""
    return [kind for kind in it.kinds if is_shown(kind)]


def all_uses(it: m.Description) -> Iterator[m.Use]:
    """Returns the parts of a description, and their parts, each module once and after those that it uses."""
    found: dict[str, m.Use] = {}
    for kind in it.kinds:
        for use in m.uses(kind):
            found |= {one.module: one for one in all_uses(use.description)} | {use.module: use}
    yield from found.values()


# ---- values to JSON


def printed_number(whole: m.Integer, value: str) -> str:
    """Returns the statement that prints a number."""
    if max(-whole.least, whole.most) <= EXACT:
        return f'write!(out, "{{}}", {value})?;'
    if whole.signed:
        return f"put_wide_signed({value} as i128, out)?;"
    return f"put_wide({value} as u128, out)?;"


def printed_item(item: m.Item, value: str) -> str:
    """Returns the statement that prints an item of an array or a list."""
    if isinstance(item, m.Integer):
        return printed_number(item, f"*{value}")
    return f"print_{snake(m.item_type(item))}({'' if isinstance(item, m.Use) else '*'}{value}, out)?;"


def printed_value(kind: Shown) -> list[str]:
    """Returns the statements that print a value."""
    value = f"record.{kind.name}"
    match kind:
        case m.Bool():
            return [f'write!(out, "{{}}", {value})?;']
        case m.Unary() | m.Golomb() | m.Varint():
            return [f'write!(out, "{{}}", {value})?;']
        case m.Number(integer=whole) | m.Groups(integer=whole):
            return [printed_number(whole, value)]
        case m.NonZero(integer=whole):
            return [printed_number(m.Integer(whole.base, whole.width + 1), f"{value}.get()")]
        case m.MaybeNonZero(integer=whole):
            return [f"match {value} {{", f"Some(number) => {{ {printed_number(whole, 'number.get()')} }}", *NULL]
        case m.Enum(enum=enum):
            return [f"print_{snake(enum.name)}({value}, out)?;"]
        case m.Array(item=m.Octet()):
            return [f"put_octets(&{value}, out)?;"]
        case m.List(item=m.Octet()):
            return [f"put_octets({value}.as_slice(), out)?;"]
        case m.Array(item=item) | m.List(item=item):
            comma = 'if place > 0 { out.write_all(b", ")?; }'
            items = f"{value}{'.as_slice()' if isinstance(kind, m.List) else ''}"
            loop = f"for (place, item) in {items}.iter().enumerate() {{"
            return ['out.write_all(b"[")?;', loop, comma, printed_item(item, "item"), "}", 'out.write_all(b"]")?;']
        case m.Part(use=use):
            return [f"print_{snake(use.name)}(&{value}, out)?;"]
        case m.Optional(use=use) | m.If(use=use):
            held, part = (f"&{value}", "part") if m.allocating(use) else (value, "&part")
            return [f"match {held} {{", f"Some(part) => print_{snake(use.name)}({part}, out)?,", *NULL]
    assert_never(kind)


NULL = ['None => out.write_all(b"null")?,', "}"]


def print_record(it: m.Description) -> list[str]:
    """Returns the function that prints a record."""
    body: list[str] = []
    for place, kind in enumerate(shown(it)):
        name = f'{"{" if place == 0 else ", "}\\"{kind.name}\\": '
        body += [f'out.write_all(b"{name}")?;', *printed_value(kind)]
    return [
        "/// Prints a record as an object.",
        f"pub fn print_{snake(it.name)}<W: Write>(record: &{it.name}, out: &mut W) -> io::Result<()> {{",
        *body,
        'out.write_all(b"}")',
        "}",
        "",
    ]


def print_enum(enum: m.EnumType) -> list[str]:
    """Returns the function that prints a case."""
    arms = [f'{enum.name}::{case} => out.write_all(b"\\"{case}\\""),' for _, case in enum.cases]
    if enum.other:
        text = f'{{{{\\"{enum.other}\\": {{number}}}}}}'
        arms.append(f'{enum.name}::{enum.other}(number) => write!(out, "{text}"),')
    head = f"fn print_{snake(enum.name)}<W: Write>(value: {enum.name}, out: &mut W) -> io::Result<()> {{"
    return ["/// Prints a case.", head, "match value {", *arms, "}", "}", ""]


# ---- JSON to values


def read_number(whole: m.Integer, name: str, value: str) -> str:
    """Returns the expression of a number; an error leaves the function."""
    wide = max(-whole.least, whole.most) > EXACT
    call = f"{'wide_' * wide}{'signed' if whole.signed else 'unsigned'}"
    return f"{call}(alloc, {name}, {value}, {whole.least}, {whole.most})"


def read_value(it: m.Description, kind: Shown) -> str:
    """Returns the expression of a field."""
    name, value = f'"{kind.name}"', f'field(alloc, object, "{kind.name}")?'
    match kind:
        case m.Bool():
            return f"boolean(alloc, {name}, {value})?"
        case m.Number(integer=whole) | m.Groups(integer=whole):
            return f"{read_number(whole, name, value)}? as {whole.base}"
        case m.Unary() | m.Golomb() | m.Varint():
            least, most = m.range_of(kind) or (0, 0)
            call = "signed" if least else "unsigned"
            return f"{call}(alloc, {name}, {value}, {least}, {most})? as {m.rust_type(kind)}"
        case m.Enum(enum=enum):
            return f"{snake(enum.name)}_of(alloc, {name}, {value})?"
        case m.List(item=m.Octet()):
            return f"octets(alloc, {name}, {value}, {most_items(it, kind)})?"
        case m.Part(use=use):
            return f"{{ let value = {value}; {read_part(use, name)} }}"
        case m.NonZero() | m.MaybeNonZero() | m.Optional() | m.If() | m.Array() | m.List():
            return f"read_{kind.name}(alloc, {value})?"
    assert_never(kind)


def read_branch(kind: Shown) -> list[str]:
    """Returns the function that makes a field of JSON whose value asks for a branch, or no lines."""
    name = f'"{kind.name}"'
    match kind:
        case m.NonZero(integer=whole):
            made = non_zero(whole, name)
        case m.MaybeNonZero(integer=whole):
            made = non_zero_or_null(whole, name)
        case m.Optional(use=use) | m.If(use=use):
            made = ["if value.is_null() {", "return Ok(None);", "}", f"Ok(Some({{ {read_part(use, name)} }}))"]
        case _:
            return []
    return [
        f"/// Returns the field `{kind.name}`.",
        f"fn read_{kind.name}(alloc: Global, value: &Value) -> Result<{m.rust_type(kind)}, Unfit> {{",
        *made,
        "}",
        "",
    ]


def non_zero(whole: m.Integer, name: str) -> list[str]:
    """Returns the body of a function that makes a number that is not 0."""
    most = whole.most + 1
    call = "wide_unsigned" if most > EXACT else "unsigned"
    number = f"NonZero::<{whole.base}>::new({call}(alloc, {name}, value, 1, {most})? as {whole.base})"
    refused = f'misfit(alloc, {name}, value, ", and not in 1..={most}")'
    return [f"match {number} {{", "Some(number) => Ok(number),", f"None => {refused},", "}"]


def non_zero_or_null(whole: m.Integer, name: str) -> list[str]:
    """Returns the body of a function that makes a number that is not 0, or `None` of null."""
    call = "wide_unsigned_or_null" if whole.most > EXACT else "unsigned_or_null"
    some = f"Some(number) => Ok(NonZero::<{whole.base}>::new(number as {whole.base})),"
    return [f"match {call}(alloc, {name}, value, {whole.most})? {{", some, "None => Ok(None),", "}"]


def read_part(use: m.Use, name: str) -> str:
    """Returns the expression of a part, of the JSON `value`."""
    return f"check_object(alloc, {name}, value)?; inside(alloc, {name}, {snake(use.name)}_of(alloc, value))?"


def most_items(it: m.Description, kind: m.List) -> int:
    """Returns the greatest number of items of a list, which its `count` line holds."""
    return next((1 << line.width) - 1 for line in it.kinds if isinstance(line, m.Count) and line.target == kind.name)


def read_list(it: m.Description, kind: m.List) -> list[str]:
    """Returns the function that makes a list of JSON."""
    name, item = f'"{kind.name}"', kind.item
    match item:
        case m.Octet():
            return []
        case m.Integer():
            one = f"at_item(alloc, place, {read_number(item, name, 'item')})? as {item.base}"
        case m.EnumType():
            one = f"at_item(alloc, place, {snake(item.name)}_of(alloc, {name}, item))?"
        case m.Use():
            one = f"part_item(alloc, {name}, place, {snake(item.name)}_of(alloc, item))?"
    checked = [f"at_item(alloc, place, check_object(alloc, {name}, item))?;"] * isinstance(item, m.Use)
    return [
        f"/// Returns the list `{kind.name}`.",
        f"fn read_{kind.name}(alloc: Global, value: &Value) -> Result<{m.rust_type(kind)}, Unfit> {{",
        "let mut found = Vec::new(alloc);",
        f"for (place, item) in list(alloc, {name}, value, {most_items(it, kind)})?.iter().enumerate() {{",
        *checked,
        f"found.push({one})?;",
        "}",
        "Ok(found)",
        "}",
        "",
    ]


def read_array(kind: m.Array) -> list[str]:
    """Returns the function that makes an array of JSON."""
    name, item = f'"{kind.name}"', kind.item
    head = [
        f"/// Returns the array `{kind.name}`.",
        f"fn read_{kind.name}(alloc: Global, value: &Value) -> Result<{m.rust_type(kind)}, Unfit> {{",
    ]
    match item:
        case m.Octet():
            fill, first = [f"fill_octets(alloc, {name}, value, &mut found)?;"], "0"
        case m.Integer():
            one, first = f"at_item(alloc, place, {read_number(item, name, 'item')})? as {item.base}", "0"
        case m.EnumType():
            one = f"at_item(alloc, place, {snake(item.name)}_of(alloc, {name}, item))?"
            first = f"{item.name}::{item.cases[0][1]}"
    if not isinstance(item, m.Octet):
        both = f"items(alloc, {name}, value, {kind.count})?.iter().zip(found.iter_mut()).enumerate()"
        fill = [f"for (place, (item, room)) in {both} {{", f"*room = {one};", "}"]
    return [*head, f"let mut found = [{first}; {kind.count}];", *fill, "Ok(found)", "}", ""]


def test(asked: m.Test) -> str:
    """Returns the expression of a test of the record."""
    if asked.how == "not":
        return f"!record.{asked.field}"
    number = f"record.{asked.field}{'' if asked.asked[:1].isdigit() else '.number()'}"
    return f"{number} {asked.how} {asked.value}" if asked.how else f"record.{asked.field}"


def check_there(kind: m.If) -> list[str]:
    """Returns the statements that refuse a part that its condition contradicts."""
    joined = " && " if kind.joined == "and" else " || "
    asked = joined.join(test(it) for it in kind.tests)
    what = f": it is there if, and only if, {kind.condition}"
    return [
        f"if record.{kind.name}.is_some() != ({asked}) {{",
        f'return misfit(alloc, "{kind.name}", field(alloc, object, "{kind.name}")?, "{what}");',
        "}",
    ]


def groups(it: m.Description) -> list[list[Shown]]:
    """Returns the fields in groups, each of which a function of its own reads; none if one function reads all."""
    fields = shown(it)
    return [fields[k : k + GROUP] for k in range(0, len(fields), GROUP)] if len(fields) > GROUP else []


def read_group(it: m.Description, number: int, group: list[Shown]) -> list[str]:
    """Returns the function that makes the fields of a group of an object."""
    types = ", ".join(m.rust_type(kind) for kind in group)
    comma = "," * (len(group) == 1)
    return [
        f"/// Returns the fields `{group[0].name}` to `{group[-1].name}` of an object.",
        f"fn {snake(it.name)}_{number}(alloc: Global, object: &Value) -> Result<({types}{comma}), Unfit> {{",
        "Ok((",
        *(f"{read_value(it, kind)}," for kind in group),
        "))",
        "}",
        "",
    ]


def read_record(it: m.Description) -> list[str]:
    """Returns the function that makes a record of an object."""
    names = ", ".join(f'"{kind.name}"' for kind in it.fields)
    values = [f"{kind.name}: {read_value(it, kind)}," for kind in shown(it)]
    checks = [line for kind in it.fields if isinstance(kind, m.If) for line in check_there(kind)]
    parts = list(enumerate(groups(it), 1))
    calls = list[str]()
    for number, group in parts:
        found = ", ".join(f"{kind.name}_found" for kind in group) + "," * (len(group) == 1)
        calls.append(f"let ({found}) = {snake(it.name)}_{number}(alloc, object)?;")
    if parts:
        values = [f"{kind.name}: {kind.name}_found," for kind in shown(it)]
    made = [*calls, f"Ok({it.name} {{", *values, "})"]
    if checks:
        made = [*calls, f"let record = {it.name} {{", *values, "};", *checks, "Ok(record)"]
    return [
        *(line for number, group in parts for line in read_group(it, number, group)),
        "/// Returns the record of an object.",
        f"pub fn {snake(it.name)}_of(alloc: Global, object: &Value) -> Result<{it.name}, Unfit> {{",
        f'check_names(alloc, object, "{it.name}", &[{names}])?;',
        *made,
        "}",
        "",
        *(line for kind in shown(it) for line in read_branch(kind)),
        *(line for kind in it.fields if isinstance(kind, m.Array) for line in read_array(kind)),
        *(line for kind in it.fields if isinstance(kind, m.List) for line in read_list(it, kind)),
    ]


def read_enum(enum: m.EnumType) -> list[str]:
    """Returns the function that makes a case of JSON."""
    arms = [f'Some("{case}") => Ok({enum.name}::{case}),' for _, case in enum.cases]
    what = f": one of {', '.join(case for _, case in enum.cases)}"
    if enum.other:
        what += f' or {{\\"{enum.other}\\": NUMBER}}'
    refused = f'misfit(alloc, name, value, "{what}")'
    head = f"fn {snake(enum.name)}_of(alloc: Global, name: &str, value: &Value) -> Result<{enum.name}, Unfit> {{"
    body = ["match value.as_str() {", *arms, f"_ => {refused},", "}"]
    if enum.other:
        known = " | ".join(str(number) for number, _ in enum.cases)
        said = f'other_case(value, "{enum.other}", {(1 << enum.width) - 1})'
        other = f"Some(number) => Ok({enum.name}::{enum.other}(number as u{enum_bits(enum)})),"
        inner = [f"_ => match {said} {{", f"None | Some({known}) => {refused},", other, "},"]
        body = ["match value.as_str() {", *arms, *inner, "}"]
    return ["/// Returns the case of JSON.", head, *body, "}", ""]


# ---- numbers by their paths


def number_arm(kind: Shown) -> list[str]:
    """Returns the arm that gives the number of a field, if it is one."""
    value = f"record.{kind.name}"
    match kind:
        case m.Number() | m.Groups():
            base = kind.integer.base
        case m.NonZero() | m.MaybeNonZero():
            base = kind.integer.base
            value += ".get()" if isinstance(kind, m.NonZero) else "?.get()"
        case m.Unary() | m.Golomb() | m.Varint():
            base = m.rust_type(kind)
        case _:
            return []
    value += ".min(i128::MAX as u128)" * (base == "u128")
    return [f'"{kind.name}" => Some({value} as i128),']


def part_arm(kind: Shown) -> list[str]:
    """Returns the arm that gives a number of a part, if a field is one."""
    match kind:
        case m.Part(use=use):
            return [f'"{kind.name}" => {snake(use.name)}_number(&record.{kind.name}, inner),']
        case m.Optional(use=use) | m.If(use=use):
            part = f"record.{kind.name}.as_ref()?" if m.allocating(use) else f"&record.{kind.name}?"
            return [f'"{kind.name}" => {snake(use.name)}_number({part}, inner),']
    return []


def number_of(it: m.Description) -> list[str]:
    """Returns the function that gives a number of a record by its path."""
    numbers = [line for kind in shown(it) for line in number_arm(kind)]
    parts = [line for kind in shown(it) for line in part_arm(kind)]
    body = ["None"]
    if parts:
        split = "let Some((name, inner)) = path.split_once('.') else { return None; };"
        body = [split, "match name {", *parts, "_ => None,", "}"]
    if numbers:
        inner = ["_ => {", *body, "}"] if parts else ["_ => None,"]
        body = ["match path {", *numbers, *inner, "}"]
    record, path = "record" if numbers or parts else "_record", "path" if numbers or parts else "_path"
    return [
        "/// Returns a number of a record by its path, whose names have dots between them.",
        f"pub fn {snake(it.name)}_number({record}: &{it.name}, {path}: &str) -> Option<i128> {{",
        *body,
        "}",
        "",
    ]


def functions(it: m.Description) -> list[str]:
    """Returns the functions of a description."""
    enums = [enum for _, enum in new_enums(it)]
    out = [*print_record(it), *(line for enum in enums for line in print_enum(enum))]
    out += [*read_record(it), *(line for enum in enums for line in read_enum(enum))]
    return [*out, *number_of(it)]
