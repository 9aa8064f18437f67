"""The module for Rust of a format: its types, and safe functions over the proved ones."""
from __future__ import annotations

from typing import assert_never

from describing import model as m
from describing.c import misfit
from describing.c.cross import (
    Crossed,
    Listed,
    Member,
    base,
    choice_members,
    choices,
    comment,
    enums,
    fields,
    givens,
    is_listed,
    is_mapped,
    layout,
    limits,
    list_comment,
    lists,
    members,
    parts,
    rest,
    said_of_enum,
)
from describing.c.rests import which_bytes
from describing.c.status import DOES_NOT_FIT, END_OF_INPUT, Status, numbers, own, refused, rooms, unless_refused
from describing.c.target import Target
from describing.c.words import doc, drawn, quoted
from describing.layout import enum_bits

DERIVES = "#[derive(Clone, Copy, Debug, PartialEq, Eq, Hash)]"
OWNING = "#[derive(Clone, Debug, PartialEq, Eq, Hash)]"  # of a type with lists


def module(t: Target) -> str:
    """Returns the module."""
    f = t.f
    body = [*struct_code(t), *[line for it in enums(f.description) for line in enum_code(t, it)]]
    body += [line for it in choices(f.description) for line in choice_code(t, it)]
    whole = f.description.whole
    body += [*(error_code(t) if whole else []), *crossing_code(t), *(proved_code(t) if whole else [])]
    body += [*layout_code(t), *(calls_code(t) if whole else [])]
    text = "\n".join(body).rstrip("\n")
    out = [f"//! {t.made}", "//!", f"//! {f.doc}", "//!", "//! ```text", *[f"//! {it}" for it in drawn(f.description)]]
    out += ["//! ```", ""]
    out += [f"use crate::{it.module}::{{{it.name}, {it.name}C}};" for it in parts(f.description)]
    out += ["extern crate alloc;", "use alloc::vec;", "use alloc::vec::Vec;"] * (not f.sized and whole)
    out += ["use core::num::NonZero;"] * ("NonZero" in text)
    return "\n".join([*out, *[""] * (out[-1] != ""), text]) + "\n"


def struct_code(t: Target) -> list[str]:
    """Returns the struct of the fields."""
    out = [*doc(t.f.doc), OWNING if lists(t.f.description) else DERIVES, f"pub struct {t.f.type} {{"]
    for it in fields(t.f.description):
        said = it.doc if isinstance(it, m.Enum | m.MaybeNonZero) else comment(it)
        said = f"{said} {limits(it).split(';')[0]}." if isinstance(it, m.MaybeNonZero) else said
        said = list_comment(t.f.description, it) if is_listed(it) else said
        out += [*doc(said, "    "), f"    pub {it.name}: {m.rust_type(it)},"]
    return [*out, "}", ""]


def enum_code(t: Target, enum: m.EnumType) -> list[str]:
    """Returns an enum, with the functions from a number to a case and back."""
    number, name = f"u{enum_bits(enum)}", enum.name
    out = [*doc(said_of_enum(t.f.description, name)), DERIVES, f"pub enum {name} {{"]
    for value, case in enum.cases:
        out += [f"    /// Encoded as {value}.", f"    {case},"]
    said = f"Another number below 2^{enum.width}. With the number of a case above it packs as that case."
    out += [*doc(said, "    "), f"    {enum.other}({number}),"] * bool(enum.other)
    last = f"Some({name}::{enum.other}(number))" if enum.other else "None"
    numbers = [f"            {name}::{case} => {value}," for value, case in enum.cases]
    return [
        *out,
        "}",
        "",
        f"impl {name} {{",
        f"    pub(crate) fn of(number: {number}) -> Option<{name}> {{",
        "        match number {",
        *[f"            {value} => Some({name}::{case})," for value, case in enum.cases],
        f"            _ => {last},",
        "        }",
        "    }",
        "",
        "    /// Returns the number.",
        f"    pub fn number(self) -> {number} {{",
        "        match self {",
        *numbers,
        *[f"            {name}::{enum.other}(number) => number,"] * bool(enum.other),
        "        }",
        "    }",
        "}",
        "",
    ]


def choice_code(t: Target, kind: m.Choose) -> list[str]:
    """Returns the enum of a choice."""
    out = [*doc(kind.doc or f"The field `{kind.name}`."), DERIVES, f"pub enum {kind.type} {{"]
    for it in kind.arms:
        held = f"({it.held.name})" if isinstance(it.held, m.Use) else ""
        said = f"The case of the number {it.number}."
        if it.number is None:
            said = f"Another number below 2^{kind.width}, with nothing after it. No number of a case above fits."
            held = f"({other_type(kind)})"
        out += [*doc(said, "    "), f"    {it.case}{held},"]
    return [*out, "}", ""]


def other_type(kind: m.Choose) -> str:
    """Returns the type of another number."""
    return f"u{next(it for it in (8, 16, 32) if it >= kind.width)}"


def choice_to_c(kind: m.Choose) -> dict[str, str]:
    """Returns the members of the struct that crosses for a choice."""
    v = f"value.{kind.name}"
    rows = []
    for k, it in enumerate(kind.arms):
        rows.append(f"{kind.type}::{it.case}{'(_)' * bool(it.held or it.number is None)} => {k}")
    found = {f"{kind.name}_case": matched(v, rows)}
    for member in choice_members(kind):
        if member.case:
            some = f"{member.base}::new(it)" if member.module else "*it"
            none = f"{member.base}::ZERO" if member.module else "0"
            pattern = f"{kind.type}::{member.case}(it)"
            found[member.name] = f"if let {pattern} = &{v} {{ {some} }} else {{ {none} }}"
    return found


def choice_from_c(kind: m.Choose) -> str:
    """Returns the choice of the struct that crosses."""
    named, rows = {it.case: it for it in choice_members(kind)}, list[str]()
    for k, it in enumerate(kind.arms):
        held = f"(self.{named[it.case].name}{'.fields()?' * bool(it.held)})" if it.case in named else ""
        rows.append(f"{k} => {kind.type}::{it.case}{held}")
    return matched(f"self.{kind.name}_case", [*rows, f"_ => return Err({quoted(kind.name)})"])


def matched(value: str, rows: list[str]) -> str:
    """Returns a `match` as the value of a field."""
    arms = "".join(f"                {it},\n" for it in rows)
    return f"match {value} {{\n{arms}            }}"


def error_name(t: Target) -> str:
    """Returns the name of the error."""
    return t.f.error or f"{t.f.type}Error"


def error_code(t: Target) -> list[str]:
    """Returns the error, with its texts."""
    e, cases = error_name(t), refused(t.f)
    out = [f"/// The reason why no `{t.f.type}` was parsed or packed.", DERIVES, f"pub enum {e} {{"]
    for it in cases:
        held = "(&'static str)" * (it.number == DOES_NOT_FIT)
        said = "The field of this name has a value that the format does not allow." if held else it.text
        out += [*doc(said, "    "), f"    {it.camel}{held},"]
    return [
        *out,
        "}",
        "",
        f"impl core::fmt::Display for {e} {{",
        "    fn fmt(&self, f: &mut core::fmt::Formatter<'_>) -> core::fmt::Result {",
        "        f.write_str(match self {",
        *[f"            {e}::{it.camel} => {quoted(it.short)}," for it in cases if it.number != DOES_NOT_FIT],
        f"            {e}::DoesNotFit(field) => {{",
        '                return write!(f, "`{field}` has a value that the format does not allow")',
        "            }",
        "        })",
        "    }",
        "}",
        "",
        f"impl core::error::Error for {e} {{}}",
        "",
        f"fn done(status: i32) -> Result<(), {e}> {{",
        "    match status {",
        "        0 => Ok(()),",
        *[
            f"        {it.number} => Err({e}::{it.camel}),"
            for it in cases
            if it.number not in (END_OF_INPUT, DOES_NOT_FIT)
        ],
        f"        _ => Err({e}::EndOfInput),",
        "    }",
        "}",
        "",
    ]


# ---- the struct that crosses


def to_c(kind: Crossed) -> dict[str, str]:
    """Returns the members of the struct that crosses for a field."""
    v = f"value.{kind.name}"
    if is_listed(kind):
        return {kind.name: f"{v}.len()"}
    if isinstance(kind, m.Optional | m.If):
        there = f"u8::from({v}.is_some())"
        return {
            f"has_{kind.name}": there,
            kind.name: f"{v}.as_ref().map_or({kind.use.name}C::ZERO, {kind.use.name}C::new)",
        }
    if isinstance(kind, m.Choose):
        return choice_to_c(kind)
    return {kind.name: one_to_c(kind)}


def one_to_c(kind: Crossed) -> str:
    """Returns the member of the struct that crosses for a field that has one."""
    v = f"value.{kind.name}"
    match kind:
        case m.Bool():
            return f"u8::from({v})"
        case m.Number() | m.Array() | m.Unary() | m.Groups() | m.Golomb() | m.Varint():
            return v
        case m.NonZero():
            return f"{v}.get()"
        case m.MaybeNonZero():
            return f"{v}.map_or(0, NonZero::get)"
        case m.Enum():
            return f"{v}.number()"
        case m.Part() | m.Given():
            return f"{kind.use.name}C::new(&{v})"
    raise AssertionError(kind)


def from_c(kind: Crossed) -> str:
    """Returns the field for a field of the struct that crosses."""
    v = f"self.{kind.name}"
    match kind:
        case m.Bool():
            return f"{v} != 0"
        case m.Number() | m.Array() | m.Unary() | m.Groups() | m.Golomb() | m.Varint():
            return v
        case m.NonZero():
            return f"NonZero::<{base(kind)}>::new({v}).ok_or({quoted(kind.name)})?"
        case m.MaybeNonZero():
            return f"NonZero::<{base(kind)}>::new({v})"
        case m.Enum():
            return f"{kind.enum.name}::of({v}).ok_or({quoted(kind.name)})?"
        case m.Part() | m.Given():
            return f"{v}.fields()?"
        case m.Optional() | m.If():
            return f"if self.has_{kind.name} == 0 {{ None }} else {{ Some({v}.fields()?) }}"
        case m.List(item=m.Use() as use) | m.Fill(use=use):
            return f"{kind.name}_items.iter().map({use.name}C::fields).collect::<Result<Vec<_>, _>>()?"
        case m.List(item=m.EnumType() as enum):
            found = f"{kind.name}_items.iter().map(|it| {enum.name}::of(*it)).collect::<Option<Vec<_>>>()"
            return f"{found}.ok_or({quoted(kind.name)})?"
        case m.List() | m.Sized() | m.Rest() | m.Until():
            return f"{kind.name}_items"
        case m.Choose():
            return choice_from_c(kind)
    assert_never(kind)


def crossing_code(t: Target) -> list[str]:
    """Returns the struct that crosses."""
    f = t.f
    name, of_all, of_c = f"{f.type}C", fields(f.description), members(f.description)
    return [
        "#[repr(C)]",
        "#[derive(Clone, Copy)]",
        f"pub(crate) struct {name} {{",
        *[f"    pub(crate) {it.name}: {it.rust}," for it in of_c],
        "}",
        "",
        *["#[allow(dead_code)]"] * (not f.description.whole),
        f"impl {name} {{",
        "    #[allow(dead_code)]",
        f"    pub(crate) const ZERO: {name} = {name} {{",
        *[f"        {it.name}: {zero(it)}," for it in of_c],
        "    };",
        "",
        f"    pub(crate) fn new(value: &{f.type}) -> {name} {{",
        f"        {name} {{",
        *[f"            {name_}: {value}," for it in of_all for name_, value in to_c(it).items()],
        "        }",
        "    }",
        "",
        f"    pub(crate) fn fields(&self{items_parameters(t)}) -> Result<{f.type}, &'static str> {{",
        f"        Ok({f.type} {{",
        *[f"            {it.name}: {from_c(it)}," for it in of_all],
        "        })",
        "    }",
        "}",
        "",
    ]


def proved_code(t: Target) -> list[str]:
    """Returns the results, and the proved functions."""
    f, name = t.f, f"{t.f.type}C"
    return [
        "#[repr(C)]",
        "struct Parsed {",
        "    status: i32,",
        *["    taken: usize,"] * (not f.sized),
        f"    value: {name},",
        "}",
        "",
        "#[repr(C)]",
        "struct Packed {",
        "    status: i32,",
        "    written: usize,",
        "}",
        "",
        'extern "C" {',
        f"    fn proved_{f.m}_parse(bytes: *const u8, length: usize{pointers(t, 'mut')}{given_pointers(t)}) -> Parsed;",
        f"    fn proved_{f.m}_pack(value: &{name}{pointers(t, 'const')}, buffer: *mut u8, length: usize) -> Packed;",
        f"    fn {misfit_name(t)}(value: &{name}{pointers(t, 'const')}) -> *const core::ffi::c_char;",
        "}",
        "",
        "/// Returns the name of a field of C, or an empty text if there is none.",
        "///",
        "/// # Safety",
        "///",
        "/// `name` is null or a text that stays as it is.",
        "unsafe fn named(name: *const core::ffi::c_char) -> &'static str {",
        "    if name.is_null() {",
        '        return "";',
        "    }",
        "    // SAFETY: as above.",
        "    unsafe { core::ffi::CStr::from_ptr(name) }.to_str().unwrap_or_default()",
        "}",
        "",
    ]


def layout_code(t: Target) -> list[str]:
    """Returns the test of the layout of the struct that crosses."""
    name, last = f"{t.f.type}C", members(t.f.description)[-1].name
    size, offset, _ = layout(t.f.description)
    return [
        "// The layout that the proved functions have.",
        f"const _: () = assert!(core::mem::size_of::<{name}>() == {size});",
        f"const _: () = assert!(core::mem::offset_of!({name}, {last}) == {offset});",
        "",
    ]


def zero(member: Member) -> str:
    """Returns a member of the struct that crosses whose members are all 0."""
    if member.module:
        return f"{member.base}::ZERO"
    return "0" if member.count is None else f"[0; {member.count}]"


def items_parameters(t: Target) -> str:
    """Returns the parameters for the items of the lists."""
    return "".join(f", {it.name}_items: Vec<{base(it)}>" for it in lists(t.f.description))


def items_for_c(t: Target) -> list[str]:
    """Returns the statements that make the structs that cross of the parts of lists."""
    kinds = [(it, it.item.name) for it in lists(t.f.description) if isinstance(it.item, m.Use | m.EnumType)]
    return [
        f"        let {it.name}_items: Vec<{base(it)}> = self.{it.name}.iter().map({crossed(it, item)}).collect();"
        for it, item in kinds
    ]


def crossed(kind: Listed, item: str) -> str:
    """Returns the function from an item of a list of parts or of an enum to what crosses."""
    return f"{item}C::new" if isinstance(kind.item, m.Use) else "|it| it.number()"


def pointers(t: Target, how: str) -> str:
    """Returns the parameters for the items of the lists of a proved function."""
    names = [(it.name, base(it)) for it in lists(t.f.description)]
    return "".join(f", {name}_items: *{how} {number}, {name}_count: usize" for name, number in names)


def given_pointers(t: Target) -> str:
    """Returns the parameters for what is given to the proved parse."""
    return "".join(f", {it.name}: &{base(it)}" for it in givens(t.f.description))


def misfit_name(t: Target) -> str:
    """Returns the name of the function of C that names a field that does not fit."""
    apart = lists(t.f.description) or choices(t.f.description)
    return misfit.function_name(t.f.m, f"{t.f.m}_head" if apart else t.f.m)


def calls_code(t: Target) -> list[str]:
    """Returns the functions."""
    f = t.f
    size = ["    /// The bytes that the fields take.", f"    pub const SIZE: usize = {f.bytes};", ""] * f.sized
    return [f"impl {f.type} {{", *size, *parse_code(t), *pack_into_code(t), *pack_code(t), "}"]


def refusals(t: Target) -> str:
    """Returns the errors of a parse."""
    f = t.f
    few = (
        f"`EndOfInput` for fewer than {f.bytes} bytes"
        if f.sized
        else "`EndOfInput` if the bytes end before the fields do"
    )
    cases = ", ".join(f"`{it.camel}`" for it in [*own(f), *numbers(f)])
    return f"The first in the order of the bits: {cases}; {few}{unless_refused(f)}" if cases else few


def parse_code(t: Target) -> list[str]:
    """Returns the parse."""
    if lists(t.f.description):
        return parse_lists_code(t)
    f, e = t.f, error_name(t)
    told = "" if f.sized else ", and returns them with the number of bytes that they take"
    found, value = (f.type, "parsed.value.fields()") if f.sized else (f"({f.type}, usize)", "fields")
    end = f"        {value}.map_err({e}::DoesNotFit)"
    return [
        *doc(f"Parses the fields at the start of `bytes`{told}.", "    "),
        "    ///",
        "    /// # Errors",
        "    ///",
        *doc(f"{refusals(t)}.", "    "),
        f"    pub fn parse(bytes: &[u8]) -> Result<{found}, {e}> {{",
        "        // SAFETY: the pointer and the length are a slice's.",
        f"        let parsed = unsafe {{ proved_{f.m}_parse(bytes.as_ptr(), bytes.len()) }};",
        "        done(parsed.status)?;",
        *["        let fields = parsed.value.fields().map(|it| (it, parsed.taken));"] * (not f.sized),
        end,
        "    }",
        "",
    ]


def parse_lists_code(t: Target) -> list[str]:
    """Returns the parse of a format with lists: it is called again with room for the items that it asks for."""
    f, e, kinds = t.f, error_name(t), lists(t.f.description)
    given = "".join(f", {it.name}_items.as_mut_ptr(), {it.name}_items.len()" for it in kinds)
    handed = givens(f.description)
    given += "".join(f", &{base(it)}::new({it.name})" for it in handed)
    parameters = "".join(f", {it.name}: &{it.use.name}" for it in handed)
    out = [
        *doc(
            f"Parses {which_bytes(f, '`bytes`')}, and returns them with the number of bytes that they take.",
            "    ",
        ),
        "    ///",
        "    /// # Errors",
        "    ///",
        *doc(f"{refusals(t)}.", "    "),
        f"    pub fn parse(bytes: &[u8]{parameters}) -> Result<({f.type}, usize), {e}> {{",
        *[
            f"        let mut {it.name}_items = {'vec![0; bytes.len()]' if it is rest(f.description) else 'Vec::new()'};"
            for it in kinds
        ],
        "        loop {",
        "            // SAFETY: the pointers and the lengths are those of slices, of which the later ones are borrowed mutably.",
        f"            let parsed = unsafe {{ proved_{f.m}_parse(bytes.as_ptr(), bytes.len(){given}) }};",
        "            match parsed.status {",
    ]
    for it, status in zip(kinds, rooms(f)):
        none = f"{base(it)}::ZERO" if isinstance(it.item, m.Use) else "0"
        out.append(f"                {status.number} => {it.name}_items = vec![{none}; parsed.taken],")
    cut = [f"                    {it.name}_items.truncate(parsed.value.{it.name});" for it in kinds]
    names = ", ".join(f"{it.name}_items" for it in kinds)
    return [
        *out,
        "                status => {",
        "                    done(status)?;",
        *cut,
        f"                    let fields = parsed.value.fields({names}).map(|it| (it, parsed.taken));",
        f"                    return fields.map_err({e}::DoesNotFit);",
        "                }",
        "            }",
        "        }",
        "    }",
        "",
    ]


def pack_into_code(t: Target) -> list[str]:
    """Returns the pack into a buffer."""
    f, e = t.f, error_name(t)
    named = [f"{it.name}_items" if is_mapped(it) else f"self.{it.name}" for it in lists(f.description)]
    given = "".join(f", {it}.as_ptr(), {it}.len()" for it in named)
    said = f"Writes the fields to the first {f.bytes} bytes of a buffer, and returns {f.bytes}."
    room = f"`NoRoom` for fewer than {f.bytes} bytes"
    if not f.sized:
        said = "Writes the fields to the first bytes of a buffer, and zeros up to a whole byte, and returns the number of these bytes."
        room = "`NoRoom` if the buffer is too short"
    return [
        *doc(f"{said} The other bytes stay as they were. After an error all bytes are as before.", "    "),
        "    ///",
        "    /// # Errors",
        "    ///",
        *doc(f"`DoesNotFit` if a field has a value that the format does not allow; else {room}.", "    "),
        f"    pub fn pack_into(&self, buffer: &mut [u8]) -> Result<usize, {e}> {{",
        f"        let value = {f.type}C::new(self);",
        *items_for_c(t),
        "        // SAFETY: the pointer and the length are a slice's, which is borrowed mutably.",
        f"        let packed = unsafe {{ proved_{f.m}_pack(&value{given}, buffer.as_mut_ptr(), buffer.len()) }};",
        f"        if packed.status == {DOES_NOT_FIT} {{",
        "            // SAFETY: as above; the name is null or a constant of the library.",
        f"            return Err({e}::DoesNotFit(unsafe {{ named({misfit_name(t)}(&value{given})) }}));",
        "        }",
        "        done(packed.status)?;",
        "        Ok(packed.written)",
        "    }",
        "",
    ]


def pack_code(t: Target) -> list[str]:
    """Returns the pack into bytes of its own."""
    f, e = t.f, error_name(t)
    body = [f"        let mut bytes = [0; {f.bytes}];", "        self.pack_into(&mut bytes)?;", "        Ok(bytes)"]
    if not f.sized:
        body = [
            "        let mut bytes = vec![0; 64];",
            "        loop {",
            "            match self.pack_into(&mut bytes) {",
            f"                Err({e}::NoRoom) => bytes = vec![0; 2 * bytes.len()],",
            "                Err(error) => return Err(error),",
            "                Ok(written) => {",
            "                    bytes.truncate(written);",
            "                    return Ok(bytes);",
            "                }",
            "            }",
            "        }",
        ]
    return [
        f"    /// Returns the {f'{f.bytes} ' if f.sized else ''}bytes of the fields.",
        "    ///",
        "    /// # Errors",
        "    ///",
        "    /// `DoesNotFit` if a field has a value that the format does not allow.",
        f"    pub fn pack(&self) -> Result<{f'[u8; {f.bytes}]' if f.sized else 'Vec<u8>'}, {e}> {{",
        *body,
        "    }",
    ]
