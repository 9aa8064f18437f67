"""The Rattle module of a format for C: its structs, the conversions, and the two functions with their contracts."""
from __future__ import annotations

import re
from typing import assert_never

from describing import model as m
from describing.c import choices, cross, decided, fills, lists, optional, part_lists, sums, untils, varying
from describing.c.cross import Crossed, Listed, Member, base, enums, fields, is_narrow, is_partial, members, parts
from describing.c.imports import ghost_uses
from describing.c.status import DOES_NOT_FIT, END_OF_INPUT, NO_ROOM, own
from describing.c.target import Target
from describing.layout import Format, enum_bits
from describing.rust import parts as parts_code
from describing.rust.reads import places_code

INLINE = "#[inline(always)]"
EXPORT = "#[unsafe(no_mangle)]"


def code(t: Target) -> str:
    """Returns the text of the module."""
    f = t.f
    body = [*struct_code(f), *parsed_code(f), *conversions(f), *helpers(f), *fills.tests_code(f), *fit_code(f)]
    text = "\n".join([*body, *calls_code(f)]).rstrip("\n")
    head = [f"//! {t.made}", "//!", f"//! `{f.type}` for C.", *ghost_uses(t, text), "", *uses(f, text), ""]
    return "\n".join([*head, text]) + "\n"


def calls_code(f: Format) -> list[str]:
    """Returns the two functions for C, and what they call: a `part` has none."""
    if not f.description.whole:
        return []
    if cross.lists(f.description):
        return lists_code(f)
    if f.sized:
        return [*answer_code(f), *parse_code(f), *put_code(f), *pack_code(f)]
    return [*varying.code(f), *pack_code(f)]


def lists_code(f: Format) -> list[str]:
    """Returns the functions of a format with lists."""
    kinds = cross.lists(f.description)
    out = [line for it in {base(it): it for it in kinds}.values() for line in lists.keep_code(f, it)]
    out += [line for it in kinds for line in lists.read_list_code(f, it)] + untils.read_code(f)
    out += [line for it in f.lines for line in lists.stated_code(f, it)]
    found = [it for it in f.lines if isinstance(it.kind, m.Optional | m.If)]
    out += [line for it in found if it.use for line in parts_code.optional_code(f, it, it.use)]
    out += [line for it in f.lines if isinstance(it.kind, m.Choose) for line in parts_code.size_code(f, it)]
    if sums.check_of(f):
        out += [
            *sums.found_code(f),
            *sums.read_code(f),
            *sums.answer_code(f, to_c),
            *sums.parse_code(f),
            *sums.sum_code(f),
        ]
    else:
        out += [*lists.read_code(f, to_c), *lists.answer_code(f), *lists.parse_code(f)]
    return [*out, *lists.writing_code(f), *varying.size_code(f), *varying.put_code(f), *lists.pack_code(f)]


def uses(f: Format, text: str) -> list[str]:
    """Returns the imports of the code."""
    whole = f.description.whole
    names = sorted(
        {
            *[f.type] * (not cross.lists(f.description)),
            *[f.error] * bool(f.error and whole),
            *[it.name for it in enums(f.description) if f"{it.name}::" in text],
            *[it.type for it in cross.choices(f.description)],
        }
    )
    out = ["use crate::shared::{Packed, refused, write_first};"] * whole
    out += ["use crate::status::reader_status;"] * ("reader_status(" in text)
    out += [f"use crate::{it.module}::{{self, {it.name}C}};" for it in parts(f.description)]
    out += [f"use {f.crate}::{f.m}::{{{', '.join(names)}}};"] * bool(names)
    library = [f.order, *["Error"] * (not f.error)] if f.sized else varying.uses(f)
    library = library if whole else []
    if cross.lists(f.description):
        library = lists.uses(f)
        out += [f"use {path};" for path in lists.paths(f, text)]
    else:
        out += [f"use {f.crate}::{it.module}::{it.name};" for it in optional.uses(f)]
    out += [f"use bitstream_io::{{{', '.join(sorted(library))}}};"] * bool(library)
    return out + ["use std::num::NonZero;"] * ("NonZero<" in text)


def struct_code(f: Format) -> list[str]:
    """Returns the struct of C."""
    out = [f"/// `struct {f.m}` of C.", "#[repr(C)]", "#[derive(Clone, Copy)]", f"pub struct {f.type}C {{"]
    for it in members(f.description):
        said = f"The number of items of `{it.name}`." if it.item else it.comment
        out += [f"    /// {said}", f"    pub {it.name}: {it.rust},"]
    return [*out, "}", ""]


def parsed_code(f: Format) -> list[str]:
    """Returns the result of a parse: a `part` has none."""
    if not f.description.whole:
        return []
    return [
        "/// The result of a parse.",
        "#[repr(C)]",
        "#[derive(Clone, Copy)]",
        f"pub struct {f.type}Parsed {{",
        "    /// The status.",
        "    pub status: i32,",
        *[
            "    /// The number of bytes that were taken, or of the items of a list without room for them.",
            "    pub taken: usize,",
        ]
        * (not f.sized),
        "    /// The fields, if the status is 0.",
        f"    pub value: {f.type}C,",
        "}",
        "",
    ]


# ---- conversions


def to_c(kind: Crossed) -> dict[str, str]:
    """Returns the members of C for a field."""
    if isinstance(kind, m.Optional | m.If):
        return optional.to_c(kind)
    if isinstance(kind, m.Choose):
        return choices.to_c(kind)
    return {kind.name: one_to_c(kind)}


def one_to_c(kind: Crossed) -> str:
    """Returns the member of C for a field that has one."""
    v = f"value.{kind.name}"
    match kind:
        case m.Bool():
            return f"{v} as u8"
        case m.Number() | m.Array() | m.Unary() | m.Groups() | m.Golomb() | m.Varint():
            return v
        case m.NonZero():
            return f"{v}.get()"
        case m.MaybeNonZero():
            return f"number_{base(kind)}({v})"
        case m.Enum():
            return f"{v}.number()"
        case m.Part() | m.Given():
            return f"{kind.use.name}C::new(&{v})"
    raise AssertionError(kind)


def from_c(kind: Crossed) -> str:
    """Returns the field for a field of C; the value of a partial one has its name already."""
    v = f"self.{kind.name}"
    match kind:
        case m.Bool():
            return f"{v} != 0"
        case m.Number() | m.Array() | m.Unary() | m.Groups() | m.Golomb() | m.Varint():
            return v
        case m.NonZero():
            return f"option_{base(kind)}({v})"
        case m.MaybeNonZero():
            return f"option_{base(kind)}({v})"
        case m.Enum():
            return f"{m.snake(kind.enum.name)}_from({v})" if is_narrow(kind.enum) else f"{kind.enum.name}::of({v})"
        case m.Part() | m.Given():
            return f"{v}.fields()"
        case m.Optional() | m.If():
            return optional.from_c(kind)
        case m.Choose():
            return choices.from_c(kind)
        case m.List(item=m.Use() as use) | m.Fill(use=use):
            return f"{use.module}_items({kind.name}_items)"
        case m.List(item=m.EnumType() as enum):
            return f"{m.snake(enum.name)}_items({kind.name}_items)"
    raise AssertionError(kind)


def zero(member: Member) -> str:
    """Returns a member of C after an error."""
    if member.module:
        return f"{member.module}::zero()"
    return "0" if member.count is None else f"[0; {member.count}]"


def conversions(f: Format) -> list[str]:
    """Returns the functions from the fields to the struct of C and back."""
    if cross.lists(f.description):
        return [*lists.given_code(f), *lists.fields_code(f, from_c, let_code), *zero_code(f)]
    t, all_fields = f.type, fields(f.description)
    return [
        f"impl {t}C {{",
        "    /// Returns the struct of C with these fields.",
        f"    {INLINE}",
        f"    pub(crate) fn new(value: &{t}) -> {t}C",
        f"        ensures {{ result ≡ {f.m}_to_c value.now }}",
        "    {",
        f"        {t}C {{",
        *[f"            {name}: {value}," for it in all_fields for name, value in to_c(it).items()],
        "        }",
        "    }",
        "",
        "    /// Returns the fields, or `None` if a number of C is not a value of its field.",
        f"    {INLINE}",
        f"    pub(crate) fn fields(&self) -> Option<{t}>",
        f"        ensures {{ result ≡ {f.m}_from_c self.now }}",
        "    {",
        *[line for it in all_fields if is_partial(it) for line in let_code(it)],
        f"        Some({t} {{",
        *[f"            {it.name}{'' if is_partial(it) else f': {from_c(it)}'}," for it in all_fields],
        "        })",
        "    }",
        "}",
        "",
        *zero_code(f),
    ]


def zero_code(f: Format) -> list[str]:
    """Returns the function that makes the struct of C after an error."""
    t = f.type
    return [
        "/// Returns the struct of C after an error.",
        INLINE,
        f"pub(crate) fn zero() -> {t}C",
        f"    ensures {{ result ≡ {f.m}_zero }}",
        "{",
        f"    {t}C {{",
        *[f"        {it.name}: {zero(it)}," for it in members(f.description)],
        "    }",
        "}",
        "",
    ]


def let_code(kind: Crossed) -> list[str]:
    """Returns the statement that returns `None` unless a number of C is a value."""
    case = "Ok" if isinstance(kind, m.Enum) and not is_narrow(kind.enum) else "Some"
    return [f"        let {case}({kind.name}) = {from_c(kind)} else {{", "            return None;", "        };"]


# ---- the functions that some fields need


def helpers(f: Format) -> list[str]:
    """Returns the functions that the conversions and the tests of the fields call, each once."""
    found: dict[str, list[str]] = {}
    for it in fields(f.description):
        if isinstance(it, m.NonZero | m.MaybeNonZero):
            found[f"option_{base(it)}"] = option_code(base(it))
        if isinstance(it, m.MaybeNonZero):
            found[f"number_{base(it)}"] = number_code(base(it))
        if isinstance(enum := m.held_item(it), m.EnumType) and is_narrow(enum):
            found[enum.name] = narrow_code(f, enum)
        if isinstance(it, m.Until):
            found[untils.test_name(it)] = untils.test_code(it)
        elif isinstance(it, m.Array) or cross.is_listed(it) and not cross.is_mapped(it):
            found[items_name(it)] = items_code(it)
    return [line for it in found.values() for line in it] + optional.code(f) + choices.code(f) + part_lists.code(f)


def narrow_code(f: Format, enum: m.EnumType) -> list[str]:
    """Returns the function from a number of C to a case, for an enum of which each number of its bits is a case."""
    name = m.snake(enum.name)
    return [
        f"/// Returns the case of a number, or `None` for a number of more than {enum.width} bits.",
        f"fn {name}_from(number: u{enum_bits(enum)}) -> Option<{enum.name}>",
        f"    ensures {{ result ≡ {f.m}_{name}_from number }}",
        "{",
        f"    if number > {2**enum.width - 1} {{",
        "        return None;",
        "    }",
        f"    Some({enum.name}::of(number))",
        "}",
        "",
    ]


def option_code(number: str) -> list[str]:
    """Returns the function from a number to a `NonZero`."""
    return [
        "/// Returns the `NonZero` of a number, `None` for 0.",
        f"fn option_{number}(number: {number}) -> Option<NonZero<{number}>>",
        f"    ensures {{ result ≡ if_any non_zero_{number} number }}",
        "{",
        f"    NonZero::<{number}>::new(number)",
        "}",
        "",
    ]


def number_code(number: str) -> list[str]:
    """Returns the function from an optional `NonZero` to its number."""
    return [
        "/// Returns the number of an `Option`, 0 for `None`.",
        f"fn number_{number}(value: Option<NonZero<{number}>>) -> {number}",
        f"    ensures {{ result ≡ number_or_zero non_zero_{number}_get value }}",
        "{",
        "    match value {",
        "        None => 0,",
        "        Some(value) => value.get(),",
        "    }",
        "}",
        "",
    ]


def items_name(kind: m.Array | Listed) -> str:
    """Returns the name of the function that tests the items of an array or a list."""
    width = kind.item.width if not isinstance(kind.item, m.Use) else 0
    return f"all_fit_{base(kind)}_{width}" if isinstance(kind.item, m.Integer) else "all_bytes"


def items_code(kind: m.Array | Listed) -> list[str]:
    """Returns the function that tests the items of an array or a list."""
    item, says, test = kind.item, "λ b. b < 256", "u16::from(*x) < 256"
    if isinstance(item, m.Integer) and item.signed:
        says, test = f"FitsSignedBits {item.width}", f"*x >= {item.least} && *x <= {item.most}"
    elif isinstance(item, m.Integer):
        says, test = f"λ x. x < 2 ^ {item.width}", f"*x <= {item.most}"
    return [
        "/// Returns true if each item fits its bits.",
        f"fn {items_name(kind)}(items: &[{base(kind)}]) -> bool",
        f"    ensures {{ IsTrue result ↔ All ({says}) items.now }}",
        "{",
        f"    items.iter().all(|x| {test})",
        "}",
        "",
    ]


def tests(f: Format, kind: Crossed) -> list[str]:
    """Returns the tests that a field fits its bits."""
    v = f"value.{kind.name}"
    match kind:
        case m.Bool() | m.Given():
            return []
        case m.Unary():
            return [f"{v} <= {2**32 - 1}"]
        case m.Varint():
            return [f"{v} <= {2**62 - 1}"]
        case m.Golomb():
            return [f"{v} > {-(2**31)}" if kind.signed else f"{v} < {2**32 - 1}"]
        case m.Number(limit=int() as limit):
            return [f"{v} <= {limit}"]
        case m.Number() | m.Groups():
            return [f"{v} >= {kind.integer.least}"] * kind.integer.signed + [f"{v} <= {kind.integer.most}"]
        case m.NonZero():
            return [f"{v}.get() - 1 <= {kind.integer.most}"]
        case m.MaybeNonZero():
            return [f"number_{base(kind)}({v}) <= {kind.integer.most}"]
        case m.Enum():
            again = [f"{v}.number() <= {2**kind.enum.width - 1}", f"{kind.enum.name}::of({v}.number()) == {v}"]
            return again if kind.enum.other else []
        case m.Array():
            return [f"{items_name(kind)}(&{v})"]
        case m.Part():
            return [f"{kind.use.module}::is_fit(&{v})"]
        case m.Optional() | m.If():
            return optional.tests(f, kind)
        case m.Choose():
            return choices.tests(f, kind)
        case m.List() | m.Sized() | m.Fill() | m.Rest() | m.Until():
            return lists.tests(f, kind)
    assert_never(kind)


# The most tests in one expression: a search proves some more.
MOST_TESTS = 11


def apart(f: Format) -> dict[str, str]:
    """Returns the tests that call a function, each with the name of its result, if a format has many tests."""
    found = [(test, it.name) for it in fields(f.description) for test in tests(f, it)]
    calls = {test: f"{name}_is_fit" for test, name in found if re.fullmatch(r"[\w:]+\(&?value\.\w+\)", test)}
    return calls if len(found) > MOST_TESTS else {}


def fit_code(f: Format) -> list[str]:
    """Returns the function that tests whether all fields fit their bits."""
    firsts = apart(f) | {f"{it.use.module}_fits(&value.{it.name})": f"{it.name}_fit" for it in optional.listed(f)}
    firsts |= fills.firsts(f)
    found = [test for it in fields(f.description) for test in tests(f, it) if test not in firsts] + sums.tests_of(f)
    found = found or ["true"]
    body = ["    " + "\n        && ".join(found)]
    if firsts:
        body = [f"    let rest_fits ={body[0][3:]};"]
        for test, name in firsts.items():
            body += [f"    let {name} = {test};", f"    if !{name} {{", "        return false;", "    }"]
        body += ["    rest_fits"]
    return [
        "/// Returns true if each field fits its bits.",
        INLINE,
        f"pub(crate) fn is_fit(value: &{varying.given(f)}) -> bool",
        f"    ensures {{ IsTrue result ↔ Fits {varying.value_of(f, 'value.now')} }}",
        "{",
        *body,
        "}",
        "",
    ]


# ---- parse


def answer_code(f: Format) -> list[str]:
    """Returns the functions that make the result of a parse."""
    t, cases = f.type, [(f"{f.error}::Reader(_)" if f.error else "_", END_OF_INPUT)]
    cases += [(f"{f.error}::{it.case}", it.number) for it in own(f)]
    return [
        "/// Returns the result of a parse for C.",
        INLINE,
        f"fn parsed(answer: Result<{t}, {f.e}>) -> {t}Parsed",
        f"    ensures {{ result ≡ {f.m}_parsed answer }}",
        "{",
        "    match answer {",
        f"        Ok(value) => {t}Parsed {{",
        "            status: 0,",
        f"            value: {t}C::new(&value),",
        "        },",
        *[f"        Err({case}) => failed({number})," for case, number in cases],
        "    }",
        "}",
        "",
        "/// Returns the result of a parse that failed.",
        INLINE,
        f"fn failed(status: i32) -> {t}Parsed",
        f"    ensures {{ result ≡ record {{ status = status; value = {f.m}_zero }} }}",
        "{",
        f"    {t}Parsed {{",
        "        status,",
        "        value: zero(),",
        "    }",
        "}",
        "",
    ]


def parse_code(f: Format) -> list[str]:
    """Returns the function that parses bytes."""
    answer = f"{f.m}_answer (sure_answer (({f.m}_decoder {f.o}).reads 0 (bits {f.o} bytes.now)))"
    return [
        "/// Parses the fields at the start of `bytes`.",
        EXPORT,
        f'pub extern "C" fn proved_{f.m}_parse(bytes: &[u8]) -> {f.type}Parsed',
        f"    ensures answer {{ result ≡ {answer} }}",
        *decided.clause(f),
        *[told(f, it)[4:] for it in places_code(f)],
        f"    ensures round_trip {{ (value : {f.type}) → Fits value",
        f"        → bits {f.o} (take {f.bytes} bytes.now) ≡ {f.m}_bits value → result ≡ {f.m}_parsed (Ok value) }}",
        "{",
        f"    parsed({f.type}::parse(bytes))",
        "}",
        "",
    ]


def told(f: Format, line: str) -> str:
    """Returns a line of a clause of the format's `parse` for the result that C gets."""
    line = line.replace("packet.now", "bytes.now")
    if f.error:
        line = line.replace(f"Err ({f.error}.", "Err (")
    line = re.sub(r"Err \((\w+)\) }$", r"Err \1 }", line)
    return re.sub(r"result ≡ (.*) }$", rf"result ≡ {f.m}_parsed (\1) }}", line)


# ---- pack


def put_code(f: Format) -> list[str]:
    """Returns the function that packs fields."""
    n = f.bytes
    return [
        "/// Writes the fields to the first bytes of a buffer.",
        INLINE,
        f"fn put(fields: &{f.type}, buffer: &mut [u8]) -> Packed",
        f"    ensures {{ PacksInto (Fits fields.now) {f.o} {n} ({f.m}_bits fields.now) buffer.old result buffer.new }}",
        "{",
        "    if !is_fit(fields) {",
        f"        return refused({DOES_NOT_FIT});",
        "    }",
        f"    if buffer.len() < {n} {{",
        f"        return refused({NO_ROOM});",
        "    }",
        f"    write_first::<{f.order}, {f.type}>(fields, buffer);",
        "    Packed {",
        "        status: 0,",
        f"        written: {n},",
        "    }",
        "}",
        "",
    ]


def pack_code(f: Format) -> list[str]:
    """Returns the function that packs the struct of C."""
    c = f"({f.m}_from_c value.now)"
    n = f.bytes if f.sized else f"({f.m}_room {c})"
    return [
        "/// Writes the fields to the first bytes of a buffer.",
        EXPORT,
        f'pub extern "C" fn proved_{f.m}_pack(value: &{f.type}C, buffer: &mut [u8]) -> Packed',
        f"    ensures {{ PacksInto (IsSomeAnd {c} Fits) {f.o} {n} ({f.m}_held {c}) buffer.old result buffer.new }}",
        "{",
        "    match value.fields() {",
        "        Some(fields) => put(&fields, buffer),",
        f"        None => refused({DOES_NOT_FIT}),",
        "    }",
        "}",
    ]
