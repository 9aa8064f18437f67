"""The text of the module of a format: its struct, its error, and its impls."""
from __future__ import annotations

import re
import textwrap

from describing import model as m
from describing import picture
from describing.imports import own_specs, types
from describing.layout import Format, Line
from describing.model import snake
from describing.names import SPECS, uses
from describing.rust.asked import due_code
from describing.rust.calls import error_cases, field_comment, imports, number_type, value_type
from describing.rust.checks import check_code
from describing.rust.choices import choice_code
from describing.rust.clauses import clauses
from describing.rust.enums import enum_code
from describing.rust.last import last_code
from describing.rust.limits import limit_code
from describing.rust.lists import (
    count_code as count_writer,
    list_code,
    pushes,
    refused_memory,
    write_code as write_items,
)
from describing.rust.parts import error_code as part_error, optional_code, size_code
from describing.rust.reads import parse_code, read_code
from describing.rust.sizes import count_code, padding_code, sized_code, stated_code
from describing.rust.traits import from_code, law_code, to_code, to_impl
from describing.rust.writes import pack_code, write_code
from describing.specs.terms import seen, value
from describing.text import article

# What a format calls of the crate `bitstream_format`, by its module there.
CALLED = {
    "stated": "size_in_units stated_size stored_size write_stored_size",
    "checks": "crc16_low_more crc16_more crc32_more crc32_mpeg_more octets_of_u16 octets_of_u32 octets_of_u8 sum16_more",
    "in_bytes": "read_in_bytes read_signed_in_bytes write_four_bytes write_in_bytes write_signed_in_bytes write_two_bytes",
    "in_groups": "write_size_in_groups",
    "powers": "power_count",
    "rest": "bytes_after rest_after rest_of",
    "summed": "sum_of summing_writer",
    "until": "read_until write_until",
    "varint": "read_varint write_varint",
    "within": "is_end write_size",
}
LIBRARY = """BE LE BitRead BitReadExt BitReader BitWrite BitWriteExt BitWriter Bits Error FromBitStream
    FromBitStreamUsing BitsWritten SliceMut SliceReader ToBitStream pack_into"""


def files(f: Format) -> dict[str, str]:
    """Returns the text by its place in the crate."""
    return {f"src/{f.m}.rt": code(f)}


def declares(f: Format, line: Line) -> list[str]:
    """Returns the types and functions that one line adds to the module."""
    kind, out = line.kind, list[str]()
    if line.enum and not line.repeats:
        out += enum_code(f, line, line.enum)
    for it in line.parts:
        out += part_error(f, it, it.use) if it.use else []
    if isinstance(kind, m.Choose):
        out += choice_code(f, line, kind, number_type(f, kind))
        out += to_impl(kind.type, f"{snake(kind.type)}_writes") if line.size else []
        out += size_code(f, line)
    if isinstance(kind, m.Fill):
        out += [*refused_memory(f, line), *write_items(kind), *(count_code(kind) if line.size else [])]
    if line.measured:
        number = number_type(f, line.measured) if isinstance(line.measured, m.Choose) else ""
        out += sized_code(f, line, line.measured, number)
    elif isinstance(kind, m.Sized) and kind.error:
        out += stated_code(f, line, kind, "")
    if isinstance(kind, m.Check):
        out += check_code(kind, line.covers)
    if line.use and isinstance(kind, m.Optional | m.If):
        out += optional_code(f, line, line.use)
    if isinstance(kind, m.If) and kind.due:
        out += due_code(f, kind)
    if isinstance(kind, m.Array) and line.enum:
        out += write_items(kind)
    if isinstance(kind, m.List) and not isinstance(kind.item, m.Octet):
        out += list_code(f, line, kind)
    if m.is_capped(kind):
        out += limit_code(line, kind)
    elif m.is_golomb(kind):
        out += count_writer(kind)
    if isinstance(kind, m.Pad):
        out += padding_code(f, kind)
    if isinstance(kind, m.UpToLast):
        out += [*refused_memory(f, line), *last_code(f, line, kind), *write_items(kind)]
    return out


def code(f: Format) -> str:
    """Returns the text of the module."""
    body = [*struct_code(f), *model_code(f), *error_code(f)]
    body += [line for it in f.lines for line in declares(f, it)]
    calls = [*read_code(f), *parse_code(f), *write_code(f), *pack_code(f)]
    body += [f"impl {f.type} {{", *places_code(f), *calls, "}", ""]
    body += [*from_code(f), *to_code(f), *law_code(f)]
    text = "\n".join(body)
    return "\n".join([f"//! {f.doc}", "//!", f"//! {f.made}", *imported(f, text), "", text]) + "\n"


def called(code: str) -> set[str]:
    """Returns the paths of the functions of `bitstream_format` that some code calls."""
    found = set[str]()
    for module, names in CALLED.items():
        named = [it for it in names.split() if re.search(rf"\b{it}(::<[^;]*>)?\(", code)]
        if named:
            found.add(f"bitstream_format::{module}::" + (f"{{{', '.join(named)}}}" if named[1:] else named[0]))
    return found


def imported(f: Format, text: str) -> list[str]:
    """Returns the imports of some code."""
    # but before an order `number` is a parameter there
    said = re.sub(r"\bnumber\b(?! (?:High|Low))", "", clauses(text))
    ghosts = uses(said, own_specs(f), types(f), SPECS, begins="ghost use ", ends=";")
    traits = "BitReadExt " * ("reader.read" in text) + "BitWriteExt " * ("writer.write" in text)
    code = "\n".join(it for it in text.split("\n") if not it.strip().startswith("///"))
    words = set(re.findall(r"\w+", code + traits))
    found = {path for it in (*f.handed, *f.lines) for path in imports(it)} | called(code)
    found |= {"std::alloc::AllocFailed"} if any(pushes(f, it) for it in f.lines) else set()
    paths = sorted(found | {"std::alloc::Global", "std::marker::Model"} if f.grows else found)
    library = f"use bitstream_io::{{{', '.join(it for it in LIBRARY.split() if it in words)}}};"
    mine = [f"use {it};" for it in paths if it.startswith(("crate", "bitstream_"))]
    return [*ghosts, "", *mine, library, *(f"use {it};" for it in paths if it.startswith("std"))]


def struct_code(f: Format) -> list[str]:
    """Returns the struct, with the picture of its bits."""
    drawn = [f"/// {it}".rstrip() for it in picture.text(f.description.kinds, in_code=True)]
    derives = "Debug, Drop" if f.grows else "Clone, Copy, Debug, PartialEq"
    out = [f"/// {f.doc}", *drawn, f"#[derive({derives})]", f"pub struct {f.type} {{"]
    for it in f.fields:
        out += [f"    /// {field_comment(f, it)}", f"    pub {it.name}: {value_type(it.kind)},"]
    return [*out, "}", ""]


def places_code(f: Format) -> list[str]:
    """Returns the constant with the place of each line, if all of them are constant."""
    places = [it.at for it in f.written]
    if None in places:
        return []
    head = f"    pub const PLACES: [u64; {len(places)}] = ["
    whole = f"{head}{', '.join(map(str, places))}];"
    rows = textwrap.wrap(", ".join(map(str, places)) + ",", 92, initial_indent="        ", subsequent_indent="        ")
    said = "    /// The number of bits before each line of the description."
    return [said, *([whole] if len(whole) <= 100 else [head, *rows, "    ];"]), ""]


def model_code(f: Format) -> list[str]:
    """Returns what contracts see of a format with lists: its fields, and the items of the lists."""
    if not f.grows:
        return []
    fields = f"{f.type}Fields"
    fields_seen = [f"        {it.name} = {value(it)}{seen(it.kind)};" for it in f.fields]
    return [
        f"impl Model for {f.type} {{",
        f"    ghost use Rattle.{f.crate}.specs.{f.spec}Fields.{{{fields}}};",
        "",
        f"    ghost Value = {{ {fields} }};",
        "",
        "    ghost view = { λ value. record {",
        *fields_seen,
        "    } };",
        "}",
        "",
    ]


def error_code(f: Format) -> list[str]:
    """Returns the error of the format."""
    if not f.error:
        return []
    e = f.error
    found: dict[str, list[str]] = {}
    for it in f.tests:
        found = error_cases(it) | found
    order = dict.fromkeys(case for it in f.tests for case, _ in m.refusals(it.kind))
    cases = [line for it in order for line in found[it]]
    return [
        f"/// The errors of reading {article(f.type)}.",
        "#[derive(Debug, Drop, thiserror::Error)]",
        f"pub enum {e} {{",
        "    /// An error of the reader.",
        '    #[error("{0}")]',
        "    Reader(Error),",
        *cases,
        "}",
        "",
        f"impl From<Error> for {e} {{",
        f"    ghost from_gives = {{ becomes_{f.m} }};",
        "",
        f"    fn from(error: Error) -> {e} {{",
        f"        {e}::Reader(error)",
        "    }",
        "}",
        "",
    ]
