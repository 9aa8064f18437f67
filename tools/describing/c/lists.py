"""A format with lists for C: the caller has their items, and no call allocates. Code, specs and proofs of the two functions."""
from __future__ import annotations

import re
from typing import Callable, TypeGuard

from describing import model as m
from describing.c import cross, fills, part_lists, rests, untils, varying
from describing.c.cross import Crossed, Listed, base, is_partial, is_stated, lists, spec_item
from describing.c.status import DOES_NOT_FIT, END_OF_INPUT, NO_ROOM, rooms
from describing.layout import Format, Line
from describing.rust import calls as rust
from describing.rust.limits import limit_code
from describing.rust.lists import write_code
from describing.rust.printed import called

Terms = Callable[[Crossed], dict[str, str]]


def given(f: Format) -> str:
    """Returns the name of the struct of the fields, whose lists the caller has."""
    return f"{f.type}Given"


def uses(f: Format) -> list[str]:
    """Returns the names of the library in the code."""
    ends = {"BitRead", "BitReadExt", "BitWrite", "BitWriteExt", "Bits", "Error", "ToBitStream"}
    ends |= {order for it in f.description.kinds if (order := m.own_order(it))}
    return sorted(ends | set(["BitsWritten", "SliceReader"] * bool(fills.fills(f))) | set(varying.uses(f)))


def paths(f: Format, text: str) -> list[str]:
    """Returns the paths of what the code uses of the format's crate and of the library, besides the format itself."""
    names = ("bitstream_io::golomb", "bitstream_format::checksums")
    golomb = {it for line in f.lines for it in rust.imports(line) if it.startswith(names)}
    handed = [it.use for it in cross.givens(f.description)]
    named = [
        it
        for it in cross.parts(f.description)
        if it in handed or f"{it.name}::read(" in text or f"Option<{it.name}>" in text
    ]
    return sorted({f"{f.crate}::{it.module}::{it.name}" for it in named} | golomb | called(text))


# ---- code


def given_code(f: Format) -> list[str]:
    """Returns the struct of the fields."""
    out = [
        "/// The fields, whose lists the caller has.",
        "#[derive(Clone, Copy)]",
        f"pub(crate) struct {given(f)}<'a> {{",
    ]
    for it in cross.fields(f.description):
        kind = f"&'a [{base(it)}]" if cross.is_listed(it) else m.rust_type(it)
        out += [f"    {it.name}: {kind},"]
    return [*out, "}", ""]


def items_parameters(f: Format, how: str) -> list[str]:
    """Returns the parameters for the items of the lists."""
    return [f"{it.name}_items: {how}[{base(it)}]" for it in lists(f.description)]


def items_names(f: Format) -> list[str]:
    """Returns the names of these parameters."""
    return [f"{it.name}_items" for it in lists(f.description)]


def fields_code(f: Format, from_c: Callable[[Crossed], str], let_code: Callable[[Crossed], list[str]]) -> list[str]:
    """Returns the function from the struct of C and the lists to the fields."""
    all_fields, t = cross.fields(f.description), given(f)
    made = list[str]()
    for it in all_fields:
        value = "" if is_partial(it) else f": {it.name}_items" if cross.is_listed(it) else f": {from_c(it)}"
        made.append(f"            {it.name}{value},")
    now = " ".join(f"{it}.now" for it in items_names(f))
    return [
        f"impl {f.type}C {{",
        "    /// Returns the fields with these lists, or `None` if a number of C is no value of its field.",
        f"    fn fields<'a>(&self, {', '.join(items_parameters(f, chr(38) + chr(39) + 'a '))}) -> Option<{t}<'a>>",
        f"        ensures {{ option_map {f.m}_of result ≡ {f.m}_from_c self.now {now} }}",
        "    {",
        *[line for it in all_fields if is_partial(it) for line in let_code(it)],
        f"        Some({t} {{",
        *made,
        "        })",
        "    }",
        "}",
        "",
    ]


def tests(f: Format, kind: Listed) -> list[str]:
    """Returns the tests that a list fits its bits."""
    if isinstance(kind, m.Rest):
        return [f"{items_name(kind)}(value.{kind.name})"]
    if isinstance(kind, m.Until):
        return [f"value.{kind.name}.len() <= {2**32 - 1}", f"{untils.test_name(kind)}(value.{kind.name})"]
    line, count = cross.counted(f.description, kind), f"value.{kind.name}.len()"
    most = cross.most_counted(line)
    if one := part_lists.shape(f, kind):
        return part_lists.tests(f, kind, one)
    if isinstance(line, m.Size) and line.units:
        count = f"stored_size({count} as u64, {', '.join(line.units.split())})"
    return [f"{count} <= {most}", f"{items_name(kind)}(value.{kind.name})"]


def items_name(kind: Listed) -> str:
    """Returns the name of the function that tests the items of a list."""
    return f"all_fit_{base(kind)}_{kind.item.width}" if isinstance(kind.item, m.Integer) else "all_bytes"


def needs_loop(kind: Listed) -> TypeGuard[m.List]:
    """Returns true if a function writes the items of a list one after another."""
    return isinstance(kind, m.List) and isinstance(kind.item, m.Integer)


def decoder(f: Format, kind: Listed, order: str, count: str) -> str:
    """Returns the read of a list."""
    if isinstance(kind.item, m.Octet):
        return f"(vec_decoder {order} {count})"
    assert isinstance(kind.item, m.Integer)
    one = f"{'' if kind.item.signed else 'un'}signed_decoder {order} {kind.item.base[1:]} {kind.item.width}"
    return f"(items_decoder (list_item ({one})) {count})"


def keep_code(f: Format, kind: Listed) -> list[str]:
    """Returns the function that keeps an item of a list."""
    return [
        "/// Puts an item that was read into its place, if there is room for it.",
        f"fn {part_lists.keep(f, kind)}(items: &mut [{base(kind)}], place: u64, item: {base(kind)})",
        f"    ensures {{ (all was : List {spec_item(kind)}) → length all ≡ place → items.old ≡ stored all was",
        "        → items.new ≡ stored (all ++ item ∷ []) was }",
        "{",
        "    if place >= items.len() as u64 {",
        "        return;",
        "    }",
        "    items[place as usize] = item;",
        "}",
        "",
    ]


def read_list_code(f: Format, kind: Listed) -> list[str]:
    """Returns the function that reads a list."""
    if isinstance(kind, m.Until):
        return []
    if one := part_lists.shape(f, kind):
        return fills.read_code(f, kind, one) if isinstance(kind, m.Fill) else part_lists.read_code(f, kind, one)
    number, octets = base(kind), isinstance(kind.item, m.Octet)
    return [
        f"/// Reads `count` items of `{kind.name}`, and keeps those for which there is room.",
        f"fn read_{kind.name}<R: BitRead>(reader: &mut R, items: &mut [{number}], count: u64) -> Result<(), Error>",
        f"    ensures {{ ReadsInto R.source {decoder(f, kind, 'R.source.order', 'count')} count",
        "        reader.old items.old result reader.new items.new }",
        "{",
        *["    let _: u8 = reader.read_unsigned_var(0)?;"] * octets,
        "    for place in 0..count {",
        f"        let item = reader.read::<Bits<{8 if octets else cross.item_width(kind)}>, {number}>()?;",
        f"        keep_{number}(items, place, item);",
        "    }",
        "    Ok(())",
        "}",
        "",
    ]


def read_statement(f: Format, line: Line) -> str:
    """Returns the statement that reads a line."""
    if not cross.is_listed(line.kind):
        return rust.reads(f, line)
    name, count = line.name, count_name(f, line.kind)
    if is_stated(line.kind) or isinstance(line.kind, m.Fill) and line.units:
        return f"let {count} = read_stated_{name}(reader, {name}_items, {name}_bytes)?;"
    if isinstance(line.kind, m.Fill):
        return f"let {count} = read_{name}(reader, {name}_items, {name}_bytes)?;"
    if isinstance(line.kind, m.Until):
        return f"let {count} = {untils.FUNCTION}(reader, {name}_items, {line.kind.stop})?;"
    read = f"read_{name}(reader, {name}_items, {count})?;"
    if isinstance(line.kind, m.Rest):
        before = {it.name: count_name(f, it) for it in lists(f.description)}
        return "\n    ".join([*rests.statements(f, before), read])
    return f"let {count} = {rust.octets_count(line)};\n    {read}" if line.units else read


def count_name(f: Format, kind: Listed) -> str:
    """Returns the name of the number of items of a list in the function that reads it."""
    if isinstance(kind, m.Rest):
        return rests.count(f)
    if isinstance(kind, m.Until):
        return f"{kind.name}_count"
    line = cross.counted(f.description, kind)
    counted = isinstance(kind, m.Fill) or isinstance(line, m.Size) and line.units
    return f"{kind.name}_count" if counted else m.label(line)


def stated_code(f: Format, line: Line) -> list[str]:
    """Returns the function that reads bytes by the number that states their size."""
    kind, name = line.kind, line.name
    if not cross.is_listed(kind) or not is_stated(kind):
        return []
    return [
        f"/// Reads `{name}`, whose size the number `stored` states, keeps the bytes for which there is room, and returns their",
        "/// number.",
        f"fn read_stated_{name}<R: BitRead>(reader: &mut R, items: &mut [u8], stored: u64) -> Result<u64, {f.error}>",
        f"    ensures {{ ReadsStated R.source {f.becomes_name} ({name}_stated R.source.order stored)",
        "        reader.old items.old result reader.new items.new }",
        "{",
        f"    match stated_size(stored, {', '.join(line.units.split())}) {{",
        "        Some(count) => {",
        f"            read_{name}(reader, items, count)?;",
        "            Ok(count)",
        "        }",
        f"        None => Err({f.error}::{line.error}),",
        "    }",
        "}",
        "",
    ]


def read_code(f: Format, to_c: Terms) -> list[str]:
    """Returns the function that reads the fields."""
    old, new = (" ".join(f"{it}.{when}" for it in items_names(f)) for when in ("old", "new"))
    made = list[str]()
    for it in cross.fields(f.description):
        if cross.is_listed(it):
            made.append(f"        {it.name}: {count_name(f, it)} as usize,")
        else:
            made += [f"        {name}: {term.replace('value.', '')}," for name, term in to_c(it).items()]
    return [
        "/// Reads the fields, and keeps the items of lists for which there is room.",
        f"fn read<R: BitRead>(reader: &mut R, {', '.join(items_parameters(f, '&mut '))}{rests.parameter(f)}) -> Result<{f.type}C, {f.e}>",
        *[f"    requires {{ R.source.order ≡ {f.o} }}"] * f.ordered,
        f"    ensures {{ {f.type}Read R.source {f'{rests.given(f)} '.lstrip()}reader.old {old} result reader.new {new} }}",
        "{",
        *[f"    {read_statement(f, it)}" for it in f.lines],
        f"    Ok({f.type}C {{",
        *made,
        "    })",
        "}",
        "",
    ]


def answer_code(f: Format) -> list[str]:
    """Returns the functions that make the result of a parse."""
    t, arms = f.type, varying.arms(f)
    names = [f"{it.name}_room" for it in lists(f.description)]
    out = [
        "/// Returns the result of a parse for C, after a read that took `taken` bytes, with some room for the items of each list.",
        f"fn parsed(answer: Result<{t}C, {f.e}>, taken: usize, {', '.join(f'{it}: usize' for it in names)}) -> {t}Parsed",
        f"    ensures {{ result ≡ {f.m}_parsed taken {' '.join(names)} answer }}",
        "{",
        "    match answer {",
        "        Ok(value) => {",
    ]
    for it, status in zip(lists(f.description), rooms(f)):
        out += [f"            if {it.name}_room < value.{it.name} {{"]
        out += [f"                return short({status.number}, value.{it.name});", "            }"]
    return [
        *out,
        f"            {t}Parsed {{",
        "                status: 0,",
        "                taken,",
        "                value,",
        "            }",
        "        }",
        *[f"        Err({case}) => short({status}, 0)," for case, status in arms],
        "    }",
        "}",
        "",
        *short_code(f),
    ]


def short_code(f: Format) -> list[str]:
    """Returns the function that makes the result of a parse that failed."""
    return [
        "/// Returns the result of a parse that failed, with the number of items of a list without room for them.",
        f"fn short(status: i32, items: usize) -> {f.type}Parsed",
        f"    ensures {{ result ≡ {f.m}_short status items }}",
        "{",
        f"    {f.type}Parsed {{",
        "        status,",
        "        taken: items,",
        "        value: zero(),",
        "    }",
        "}",
        "",
    ]


def parse_code(f: Format) -> list[str]:
    """Returns the function that parses bytes."""
    b, given_ = rests.whole_bits(f), rests.given(f)
    held = " ".join(f"(length {it}.old)" for it in items_names(f))
    reads = f"({rests.decoder(f, f.o, rests.bytes_given(f, 'length bytes.now'))}).reads 0 (bits {f.o} bytes.now)"
    stored = list[str]()
    for it in lists(f.description):
        stored += [
            f"    ensures {it.name}_items {{ (n : ℕ) (value : {f.type}) → {reads} ≡ Done n (Ok (Ok value))",
            f"        → {it.name}_items.new ≡ stored {part_lists.items_of(f, it, 'value')} {it.name}_items.old }}",
        ]
    return [
        f"/// Parses {rests.which_bytes(f, '`bytes`')}, and the items of lists into storage of the caller.",
        "#[unsafe(no_mangle)]",
        f'pub extern "C" fn proved_{f.m}_parse(bytes: &[u8], {", ".join(items_parameters(f, "&mut "))}) -> {f.type}Parsed',
        f"    ensures answer {{ result ≡ {f.m}_answer {held} ({reads}) }}",
        *stored,
        f"    ensures round_trip {{ (value : {f.type}) → Fits value → {b} ≡ {f.m}_bits value",
        f"        → result ≡ {f.m}_parsed ({f.m}_bytes value) {held} (Ok ({f.m}_to_c value)) }}",
        "{",
        f"    let mut reader = BitReader::<_, {f.order}>::over(bytes);",
        *[f"    let {it.name}_room = {it.name}_items.len();" for it in lists(f.description)],
        *rests.begins(f),
        f"    let answer = read(&mut reader, {', '.join([*items_names(f), *[given_] * bool(given_)])});",
        "    let taken = bytes.len().saturating_sub(reader.rest().len());",
        f"    parsed(answer, taken, {', '.join(f'{it.name}_room' for it in lists(f.description))})",
        "}",
        "",
    ]


def borrowed(f: Format, text: str, before: str) -> str:
    """Returns the text of a call whose lists are slices already; `before` stands before the name of a field."""
    for it in lists(f.description):
        text = re.sub(rf"&{re.escape(before)}{it.name}(?![\w\ue000-\ue0ff])", f"{before}{it.name}", text)
    return text


def write_statement(f: Format, line: Line) -> str:
    """Returns the statement that writes a line."""
    written = f"{part_lists.counting(f, line, rust.write(line))}?;"
    if isinstance(line.kind, m.Check):
        return borrowed(f, written, "self.")
    return written.replace("&self.", "self.") if cross.is_listed(line.kind) else written


def writing_code(f: Format) -> list[str]:
    """Returns the functions that write the fields."""
    t = given(f)
    return [
        *[line for it in lists(f.description) if needs_loop(it) for line in write_code(it)],
        *[said for line in f.lines if m.is_capped(line.kind) for said in limit_code(line, line.kind)],
        *part_lists.writing_code(f),
        *fills.writing_code(f),
        f"impl {t}<'_> {{",
        "    /// Writes the fields in order.",
        "    fn write<W: BitWrite>(&self, writer: &mut W) -> Result<(), Error>",
        f"        ensures {{ WritesAll W.sink ({f.m}_writes W.sink.order ({f.m}_of self.now)) writer.old result writer.new }}",
        "    {",
        *[f"        {write_statement(f, it)}" for it in f.written],
        "        Ok(())",
        "    }",
        "}",
        "",
        f"impl ToBitStream for {t}<'_> {{",
        "    type Error = Error;",
        "",
        "    ghost becomes = { same_error };",
        "",
        f"    ghost writes = {{ λ o value. {f.m}_writes o ({f.m}_of value) }};",
        "",
        "    fn to_writer<W: BitWrite>(&self, writer: &mut W) -> Result<(), Error> {",
        "        self.write(writer)",
        "    }",
        "}",
        "",
    ]


def pack_code(f: Format) -> list[str]:
    """Returns the function that packs the struct of C."""
    c = f"({f.m}_from_c value.now {' '.join(f'{it}.now' for it in items_names(f))})"
    says = f"PacksInto (IsSomeAnd {c} {varying.packable(f)}) {f.o} ({f.m}_room {c}) ({f.m}_held {c}) buffer.old result buffer.new"
    return [
        "/// Writes the fields to the first bytes of a buffer.",
        "#[unsafe(no_mangle)]",
        f'pub extern "C" fn proved_{f.m}_pack(',
        f"    value: &{f.type}C,",
        *[f"    {it}," for it in items_parameters(f, "&")],
        "    buffer: &mut [u8],",
        ") -> Packed",
        f"    ensures {{ {says} }}",
        "{",
        f"    match value.fields({', '.join(items_names(f))}) {{",
        "        Some(fields) => put(&fields, buffer),",
        f"        None => refused({DOES_NOT_FIT}),",
        "    }",
        "}",
    ]


# ---- specs


def of_specs(f: Format) -> list[str]:
    """Returns the definition of the fields that contracts see of those whose lists the caller has."""
    return [
        "-- the fields that a value holds",
        f"abbrev pub {f.m}_of : {given(f)} → {f.type}",
        f"{f.m}_of value = record {{",
        *[f"  {it.name} = {part_lists.value_of(f, it)};" for it in cross.fields(f.description)],
        "}",
        "",
    ]


def short_specs(f: Format) -> list[str]:
    """Returns the definitions of the result of a parse that failed."""
    return [
        "-- the result of a parse that failed, with a number of items that there is no room for",
        f"abbrev pub {f.m}_short : ℤ → ℕ → {f.type}Parsed",
        f"{f.m}_short status items = record {{ status = status; taken = items; value = {f.m}_zero }}",
        "",
        "-- the same without such a number",
        f"abbrev pub {f.m}_failed : ℤ → {f.type}Parsed",
        f"{f.m}_failed status = {f.m}_short status 0",
        "",
    ]


def specs(f: Format) -> list[str]:
    """Returns the definitions of what C gets for the result of a parse, and of what a read says."""
    t, parsed, failed = f.type, f"{f.m}_parsed", f"{f.m}_failed"
    names = [f"{it.name}_room" for it in lists(f.description)]
    count, said = len(names), " ".join(names)
    errors = varying.spec_errors(f)
    test = ""
    for it, status in zip(lists(f.description), rooms(f)):
        test += f"if nat_lt {it.name}_room c.{it.name} then {f.m}_short (pos {status.number}) c.{it.name} else "
    return [
        *of_specs(f),
        *varying.bytes_specs(f),
        *varying.packable_specs(f),
        *short_specs(f),
        "-- the result of a parse for C: 0, the number of bytes that were taken and the fields, or a list that has more items",
        "-- than there is room for, with their number, or which error",
        f"abbrev pub {parsed} : ℕ → {'ℕ → ' * count}Result {t}C {f.e} → {t}Parsed",
        f"{parsed} taken {said} (Ok c) = {test}record {{ status = pos 0; taken = taken; value = c }}",
        *[f"{parsed} taken {said} (Err {case}) = {failed} {number}" for case, number in errors],
        "",
        "-- the same for what the decoder says of all bits: too few, or its result after the first n",
        f"abbrev pub {f.m}_answer : {'ℕ → ' * count}Prefix {f.result} → {t}Parsed",
        f"{f.m}_answer {said} Incomplete = {failed} (pos {END_OF_INPUT})",
        f"{f.m}_answer {said} (Done n (Ok x)) = {parsed} ((n + 7) / 8) {said} (result_map {f.m}_to_c x)",
        f"{f.m}_answer {said} (Done n (Err e)) = {failed} {errors[0][1]}",
        "",
        *read_specs(f),
    ]


def list_arguments(f: Format) -> tuple[str, str]:
    """Returns the parameters of a relation for the items of the lists, before and after a read."""
    names = [it.name for it in lists(f.description)]
    return " ".join(f"{it}_was" for it in names), " ".join(f"{it}_now" for it in names)


def read_specs(f: Format) -> list[str]:
    """Returns the definition of what a read says."""
    was, now = (
        " ".join(f"({it.name}_{when} : List {spec_item(it)})" for it in lists(f.description)) for when in ("was", "now")
    )
    number = f"({rests.given(f)} : ℕ) " * bool(rests.given(f))
    out = [
        "-- A read whose lists are stored: `found` is what the decoder says, and the slices hold the items of its lists.",
        f"pub record {f.type}Read {{R : Type 0}} (K : BitSource R) {number}(old : R) {was}",
        f"    (result : Result {f.type}C {f.e}) (new : R) {now} : Type 0 where",
        f"  pub found : Result {f.type} {f.e}",
        f"  pub reads : ReadsOwn K {f.becomes_name} ({rests.decoder(f, 'K.order', rests.given(f))}) old found new",
        f"  pub told : result ≡ result_map {f.m}_to_c found",
    ]
    for it in lists(f.description):
        stored = f"{it.name}_now ≡ stored {part_lists.items_of(f, it, 'value')} {it.name}_was"
        out.append(f"  pub {it.name}_items : (value : {f.type}) → found ≡ Ok value → {stored}")
    return [*out, ""]


# ---- proofs


def lemmas(f: Format) -> str:
    """Returns the lemmas of a format: when a parse succeeds, and what a read says."""
    mod, t = f.m, f.type
    was, now = list_arguments(f)
    given_ = " ".join(
        f"{{{it.name}_{when} : List {spec_item(it)}}}" for when in ("was", "now") for it in lists(f.description)
    )
    names = " ".join(f"{it.name}_room" for it in lists(f.description))
    result = f"Result {t} {f.e}"
    number, reads = rests.given(f), f"ReadsOwn K {f.becomes_name} ({rests.decoder(f, 'K.order', rests.given(f))}) old"
    given_, read = f"{{{number} : ℕ}} {given_}" if number else given_, f"{t}Read K {number}".strip()
    kept = "".join(
        f"\n    → {it.name}_now ≡ stored {part_lists.items_of(f, it, 'value')} {it.name}_was"
        for it in lists(f.description)
    )
    facts = " ".join(f"{it.name}_kept" for it in lists(f.description))
    implicits = "} {".join(f"{it} = {it}" for it in f"{was} {now}".split())
    none = "".join(f" {it.name}_items = λ value no. cc;" for it in lists(f.description))
    some = "".join(
        f"\n  {it.name}_items = λ v is. subst (λ (x : {t}). {it.name}_now ≡ stored {part_lists.items_of(f, it, 'x')} {it.name}_was)"
        f" (value_is is) {it.name}_kept;"
        for it in lists(f.description)
    )
    return f"""-- what C gets is decided by what the decoder says
answered : (plain : Result ({result}) Error) (found : {result}) (taken n {names} : ℕ)
    → OwnAnswer {f.becomes_name} (λ y. y) plain found → taken ≡ (n + 7) / 8
    → {mod}_parsed taken {names} (result_map {mod}_to_c found) ≡ {mod}_answer {names} (Done n plain)
answered (Ok x) found taken n {names} is count =
    ap₂ (λ k r. {mod}_parsed k {names} (result_map {mod}_to_c r)) count is
answered (Err e) found taken n {names} is count =
    ap (λ r. {mod}_parsed taken {names} (result_map {mod}_to_c r)) (is_error found {varying.reader_error(f)} is)

pub decided : (prefix : Prefix ({result})) (plain : Result ({result}) Error) (found : {result}) (taken {names} : ℕ)
    → IsDecided prefix taken plain → OwnAnswer {f.becomes_name} (λ y. y) plain found
    → {mod}_parsed taken {names} (result_map {mod}_to_c found) ≡ {mod}_answer {names} prefix
decided Incomplete plain found taken {names} is own =
    ap (λ r. {mod}_parsed taken {names} (result_map {mod}_to_c r))
    (is_error found {varying.reader_error(f).replace(' e', ' EndOfInput') if f.error else 'EndOfInput'}
    (subst (λ x. OwnAnswer {f.becomes_name} (λ y. y) x found) is own))
decided (Done n x) plain found taken {names} is own =
    answered x found taken n {names} (subst (λ y. OwnAnswer {f.becomes_name} (λ z. z) y found) is.0 own) is.1

-- a read that found fields
pub found_is : (prefix : Prefix ({result})) (plain : Result ({result}) Error) (found : {result}) (taken n : ℕ)
    (value : {t}) → IsDecided prefix taken plain → OwnAnswer {f.becomes_name} (λ y. y) plain found
    → prefix ≡ Done n (Ok (Ok value)) → found ≡ Ok value
found_is prefix plain found taken n value is own done =
    let both = subst (λ p. IsDecided p taken plain) done is in
    subst (λ x. OwnAnswer {f.becomes_name} (λ y. y) x found) both.0 own

abbrev ok_of : {t} → {result}
ok_of x = Ok x

value_is : {{x y : {t}}} → ok_of x ≡ ok_of y → x ≡ y
value_is is = cc

-- a read whose error a `?` returned
pub stopped : {{R : Type 0}} {{K : BitSource R}} {{old new : R}} {given_} {{P : {f.e} → Type 0}}
    (r : Result {t}C {f.e}) → IsErrAnd r P → ((s : {result}) → IsErrAnd s P → {reads} s new)
    → {read} old {was} r new {now}
stopped (Ok c) bad reads = absurd bad
stopped (Err e) is reads = record {{ found = Err e; reads = reads (Err e) is; told = refl;{none} }}

{refused_lemma(f, reads, given_, was, now, none)}-- a read of all fields
pub read_done : {{R : Type 0}} {{K : BitSource R}} {{old new : R}} {given_} {{value : {t}}}
    {{r : Result {t}C {f.e}}} → {reads} (Ok value) new → r ≡ Ok ({mod}_to_c value){kept}
    → {read} old {was} r new {now}
read_done {{{implicits}}} {{value = value}} reads says {facts} = record {{
  found = Ok value;
  reads = reads;
  told = says;{some}
}}

{rests.packed_lemma(f, names) if number else packed_lemma(f, names)}{varying.most_lemma(f)}"""


def packed_lemma(f: Format, names: str) -> str:
    """Returns the lemma that packed bytes are parsed again."""
    mod, t = f.m, f.type
    return f"""-- packed bytes are parsed again
pub packed : (value : {t}) (bytes : List ℕ) ({names} : ℕ) → Fits value
    → bits {f.o} (take ({mod}_bytes value) bytes) ≡ {mod}_bits value
    → {mod}_answer {names} (({mod}_decoder {f.o}).reads 0 (bits {f.o} bytes))
    ≡ {mod}_parsed ({mod}_bytes value) {names} (Ok ({mod}_to_c value))
packed value bytes {names} fits is =
    let all = {mod}_packs {f.o} value fits in
    let parts = padded {f.o} ({mod}_writes {f.o} value) ({mod}_bytes value) bytes _ (told value) is in
    ap (λ b. {mod}_answer {names} (({mod}_decoder {f.o}).reads 0 b)) parts
    ∙ ap ({mod}_answer {names}) (({mod}_goes {f.o} value fits).back 0 0 _)
    ∙ ap (λ k. {mod}_answer {names} (Done k (Ok (Ok value)))) (all.size 0)
"""


def refused_lemma(f: Format, reads: str, given_: str, was: str, now: str, none: str) -> str:
    """Returns the lemma about a read that a test ended, for a format with greatest values."""
    if not any(map(m.is_limited, f.description.kinds)):
        return ""
    t, read = f.type, f"{f.type}Read K {rests.given(f)}".strip()
    return f"""-- a read that a test ended
pub refused_by : {{R : Type 0}} {{K : BitSource R}} {{old new : R}} {given_} {{e : {f.e}}} {{r : Result {t}C {f.e}}}
    → {reads} (Err e) new → r ≡ Err e → {read} old {was} r new {now}
refused_by {{e = e}} reads is = record {{ found = Err e; reads = reads; told = is;{none} }}

"""


def parse_answers(f: Format) -> str:
    """Returns the proof of the function that parses bytes."""
    room = " ".join(f"(length c.args.{it}.now)" for it in items_names(f))
    blanks = " ".join("_" for _ in lists(f.description))
    plain = "c.read-answer.ensures.reads.plain"
    is_decided = varying.DECIDED.format(".reads.called")
    found = (
        f"c.parsed.ensures ∙ ap ({f.m}_parsed _ {blanks}) c.read-answer.ensures.told\n"
        f"    ∙ decided _ {plain} _ _ {blanks} {is_decided}\n"
        "    c.read-answer.ensures.reads.answer"
    )
    if rests.given(f):
        read = f"(rw c.rest_of-{rests.given(f)}.ensures at c.read-answer.ensures)"
        found, plain, is_decided = (it.replace("c.read-answer.ensures", read) for it in (found, plain, is_decided))
    else:
        read = "c.read-answer.ensures"
    out = f"pub returns-clause-answer : goal.returns-clause-answer\nreturns-clause-answer c =\n{varying.COUNT}    {found}\n"
    for it in lists(f.description):
        out += f"""
pub returns-clause-{it.name}_items : goal.returns-clause-{it.name}_items
returns-clause-{it.name}_items c = λ n value is.
{varying.COUNT}    {read}.{it.name}_items value
    (found_is _ {plain} _ _ n value {is_decided} {read}.reads.answer is)
"""
    return f"""{out}
pub returns-clause-round_trip : goal.returns-clause-round_trip
returns-clause-round_trip c = λ value fits is.
{varying.COUNT}    {found}
    ∙ packed value c.args.bytes.now {room} fits is
"""
