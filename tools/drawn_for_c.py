"""Random bytes of the formats of a crate for C, and what its calls are to say of them: cases of `tools/test_c`.

What `./format --show` and `--pack` say of the same bytes is right. A program in C and one in Rust are printed for a crate.
Each reads rows from its input, the name of a format and bytes in hex. Of each row it prints a line: the number of bytes that
a parse took and the bytes of the fields packed again, or the text of the error. `asked` returns these lines of the package
for Python, and compares its fields too. The program in C also changes each number of the fields: a misfit must have a name
if, and only if, the proved pack returns `DOES_NOT_FIT`.
"""
from __future__ import annotations

import os
from collections.abc import Iterator
from dataclasses import replace
from random import Random
from types import ModuleType

from describing import model as m
from describing.c.cross import choice_members, counted, is_listed, lists, members_of, most_items
from describing.c.cross import fields as crossed
from describing.c.printed import descriptions_for_c
from describing.c.status import FIRST, numbers, own
from describing.c.words import c_name, python_name
from describing.input import Input, ReadError, Value
from describing.layout import Format
from describing.read import case_of, record_reader, value_of
from describing.show import loaded
from describing.write import Record, Unfit, packed
from drawn_formats import record

Row = tuple[Format, bytes]


def formats(crate: str) -> list[Format]:
    """Returns the formats of a crate for C, inner ones first, without a `part` and those whose parse is given parts."""
    paths = [(it, loaded(it)) for it in descriptions_for_c(crate)]
    found = [
        Format("tried", os.path.basename(it).removesuffix(".fields"), said, it) for it, said in paths if said.whole
    ]
    return [it for it in found if not it.handed]


# ---- what is right


def read(f: Format, data: bytes) -> tuple[Record, int]:
    """Returns the fields of bytes, and the number of bytes that they take."""
    row = Input(data, f.description.order)
    found = value_of(record_reader(f.description)(row))
    return found, -(-row.at // 8)


def said(f: Format, data: bytes) -> str:
    """Returns what the calls are to say of bytes."""
    try:
        found, taken = read(f, data)
    except ReadError as it:
        return text_of(f, it.answer)
    return f"{taken} {packed(f.description, found).hex()}"


def text_of(f: Format, answer: str) -> str:
    """Returns the text of the error of a case."""
    known = {it.case: it for it in own(f)} | {"EndOfInput": FIRST[1]}
    return (known.get(answer) or numbers(f)[0]).short


# ---- rows


def rows(draw: Random, found: list[Format], count: int) -> list[Row]:
    """Returns rows of each format: examples and random records, each cut at each length, damaged copies and random bytes."""
    return [(f, it) for f in found for it in dict.fromkeys(bytes_of(draw, f, count))]


def bytes_of(draw: Random, f: Format, count: int) -> Iterator[bytes]:
    """Returns rows of a format."""
    for example in f.description.examples:
        yield from cut(bytes.fromhex(example.digits))
    for k in range(count):
        try:
            data = packed(f.description, record(draw, f.description))
        except Unfit:
            continue
        yield from cut(data) if k < 10 else [data, data + draw.randbytes(3)]
        yield damaged(draw, data)
        yield draw.randbytes(draw.randrange(40))
    yield from long_rows(draw, f)


def cut(data: bytes) -> Iterator[bytes]:
    """Returns bytes, cut at each length."""
    return (data[:length] for length in range(len(data) + 1))


def damaged(draw: Random, data: bytes) -> bytes:
    """Returns a copy with some changed bits, or a shorter one."""
    row = bytearray(data)
    for _ in range(draw.randint(1, 3) if row else 0):
        row[draw.randrange(len(row))] ^= 1 << draw.randrange(8)
    return bytes(row[: draw.randrange(len(row) + 1)] if draw.random() < 0.3 else row)


def long_rows(draw: Random, f: Format) -> Iterator[bytes]:
    """Returns the bytes of records with long lists of bytes, for the sizes that are tried of each."""
    for it in lists(f.description):
        for length in (255, 256, 4095, 65535):
            held = bytes(1 + draw.randrange(255) for _ in range(length))
            if isinstance(it, m.Until) and length > 4095:
                continue
            if isinstance(it, m.Until):
                held = held.replace(bytes([it.stop]), b"")
            try:
                data = packed(f.description, record(draw, f.description) | {it.name: held})
            except Unfit:
                continue
            yield from (data, data[:-1])


def text(found: list[Row]) -> str:
    """Returns rows as the programs read them."""
    return "".join(f"{f.m} {it.hex()}\n" for f, it in found)


# ---- the program in C

C_HEAD = """#include <inttypes.h>
#include <stdio.h>
#include <stdlib.h>
#include <string.h>

static void hex(const uint8_t *bytes, size_t length)
{
    for (size_t i = 0; i < length; i++)
        printf("%02x", bytes[i]);
    puts("");
}

static void fail(const char *what)
{
    puts(what);
    exit(1);
}

static uint64_t draw(void)
{
    static uint64_t state = 1;
    state ^= state << 13;
    state ^= state >> 7;
    state ^= state << 17;
    return state;
}

/* Returns 0 to 3, the greatest number, or a random one of some bits. */
static uint64_t drawn(void)
{
    uint64_t how = draw() % 16;
    return how < 4 ? how : how == 4 ? UINT64_MAX : draw() >> draw() % 64;
}
"""

# The number of times that one number of the fields of a row is changed.
CHANGES = 16

C_MAIN = """
int main(void)
{
    static char line[300000];
    while (fgets(line, sizeof line, stdin)) {
        char *digits = strchr(line, ' ');
        size_t length = strcspn(digits + 1, "\\n") / 2;
        uint8_t *bytes = malloc(length ? length : 1);
        *digits++ = 0;
        for (size_t i = 0; i < length; i++) {
            char two[3] = {digits[2 * i], digits[2 * i + 1], 0};
            bytes[i] = (uint8_t)strtoul(two, NULL, 16);
        }
CALLS        free(bytes);
    }
    return 0;
}
"""


def c_program(found: list[Format]) -> str:
    """Returns the program in C."""
    includes = "".join(f'#include "{f.m}.h"\n' for f in found)
    calls = "".join(f'        if (!strcmp(line, "{f.m}"))\n            say_{f.m}(bytes, length);\n' for f in found)
    return "".join([includes, C_HEAD, *(c_call(f) for f in found), C_MAIN.replace("CALLS", calls)])


def changes(description: m.Description, at: str) -> Iterator[str]:
    """Returns statements in C that each change a number of the fields, or the length of a list."""
    for it in crossed(description):
        name, uses = f"{at}{c_name(it.name)}", list(m.uses(it))
        if isinstance(it, m.Choose):
            yield from choice_changes(it, name)
        elif is_listed(it):
            yield f"{name}.length = draw() % ({name}.capacity + 1);"
            one = f"{name}.items[draw() % {name}.length]"
            inner = changes(uses[0].description, f"{one}.") if uses else iter([f"{one} = drawn();"])
            yield from (f"if ({name}.length) {change}" for change in inner)
        else:
            for use in uses:
                yield from changes(use.description, f"{name}.")
            for member in members_of(description, it):
                one = f"{at}{c_name(member.name)}" + f"[draw() % {member.count}]" * bool(member.count)
                if not member.module:
                    yield f"{one} = drawn(){' & 1' * member.flag};"


def choice_changes(kind: m.Choose, name: str) -> Iterator[str]:
    """Returns statements in C that change the case of a choice, or a number in it."""
    held = {it.case: c_name(m.snake(it.case)) for it in choice_members(kind) if it.case}
    none = f" memset(&{name}.as, 0, sizeof {name}.as);" * bool(held)
    yield f"{{ {name}.which = draw() % {len(kind.arms) + 1};{none} }}"
    for k, arm in enumerate(kind.arms):
        inside = f"{name}.as.{held.get(arm.case)}"
        inner = (
            changes(arm.held.description, f"{inside}.")
            if isinstance(arm.held, m.Use)
            else iter([f"{inside} = drawn();"])
        )
        yield from (f"if ((int){name}.which == {k}) {change}" for change in inner if arm.case in held)


def c_changes(f: Format) -> str:
    """Returns the function in C that changes numbers of the fields, one at a time, and the lists in storage of its own."""
    made, freed = "", ""
    for it in lists(f.description):
        name, most = c_name(it.name), 1 << 20
        if not isinstance(it, m.Rest | m.Until):
            most = most_items(f.description, it)
        room = f"{most + 2}" if most < 4096 else f"fields->{name}.length + 2"
        made += f"        it.{name}.capacity = {room};\n        it.{name}.items = calloc({room}, sizeof *it.{name}.items);\n"
        made += f"        if (it.{name}.length)\n            memcpy(it.{name}.items, fields->{name}.items, it.{name}.length * sizeof *it.{name}.items);\n"
        freed += f"        free(it.{name}.items);\n"
    found = list(changes(f.description, "it."))
    cases = "".join(f"        case {k}:\n            {it}\n            break;\n" for k, it in enumerate(found))
    return f"""
static void change_{f.m}(const struct {f.m} *fields, uint8_t *out, size_t room)
{{
    for (int k = 0; k < {CHANGES}; k++) {{
        struct {f.m} it = *fields;
        size_t written;
{made}        switch (draw() % {len(found)}) {{
{cases}        }}
        if (!{f.m}_misfit(&it) != ({f.m}_pack(&it, out, room, &written) != {f.m.upper()}_DOES_NOT_FIT))
            fail("{f.m}: the name of a misfit");
{freed}    }}
}}
"""


def c_call(f: Format) -> str:
    """Returns the function in C that says what is parsed: the storage of each list grows to what is asked for."""
    up, names = f.m.upper(), [it.name for it in lists(f.description)]
    none = "".join(f"    it.{c_name(it)}.items = NULL;\n    it.{c_name(it)}.capacity = 0;\n" for it in names)
    free = "".join(f"    free(it.{c_name(it)}.items);\n" for it in names)
    parse = f"status = {f.m}_parse(bytes, length, &it{'' if f.sized else ', &taken'});"
    grow = "".join(
        f"        if (status == {up}_NO_ROOM_{it.upper()}) {{\n            free(it.{c_name(it)}.items);\n"
        f"            it.{c_name(it)}.items = calloc(taken, sizeof *it.{c_name(it)}.items);\n"
        f"            it.{c_name(it)}.capacity = taken;\n        }}\n"
        for it in names
    )
    again = f"    for (size_t k = 0; k <= {len(names)}; k++) {{\n        {parse}\n{grow}    }}\n"
    return f"""{c_changes(f)}
static void say_{f.m}(const uint8_t *bytes, size_t length)
{{
    struct {f.m} it;
    enum {f.m}_status status;
    size_t taken = {f.bytes if f.sized else 0}, written = 99, room;
    uint8_t *out;
    memset(&it, 0xA5, sizeof it);
{none}{again}    if (status) {{
        puts({f.m}_status_text(status));
    }} else {{
        room = taken + 8;
        out = malloc(room);
        memset(out, 0xEE, room);
        if ({f.m}_pack(&it, out, room, &written) || out[written] != 0xEE || out[room - 1] != 0xEE)
            fail("{f.m}: no pack");
        printf("%zu ", taken);
        hex(out, written);
        memset(out, 0xEE, room);
        if (written && ({f.m}_pack(&it, out, written - 1, &room) != {up}_NO_ROOM || room || out[0] != 0xEE))
            fail("{f.m}: a pack without room");
        change_{f.m}(&it, out, room);
        free(out);
    }}
{free}}}
"""


# ---- the program in Rust

RUST_MAIN = """use std::io::BufRead;

fn hex(bytes: &[u8]) -> String {
    bytes.iter().map(|it| format!("{it:02x}")).collect()
}

fn said(name: &str, bytes: &[u8]) -> String {
    match name {
CASES        _ => String::new(),
    }
}

fn main() {
    for line in std::io::stdin().lock().lines() {
        let line = line.unwrap();
        let (name, digits) = line.split_once(' ').unwrap();
        let digit = |k: usize| u8::from_str_radix(&digits[k..k + 2], 16).unwrap();
        let bytes: Vec<u8> = (0..digits.len()).step_by(2).map(digit).collect();
        println!("{}", said(name, &bytes));
    }
}
"""


def rust_program(library: str, found: list[Format]) -> str:
    """Returns the program in Rust."""
    cases = ""
    for f in found:
        taken, size = ("it", "packed.len()") if f.sized else ("(it, taken)", "taken")
        cases += (
            f'        "{f.m}" => match {library}::{f.m}::{f.type}::parse(bytes) {{\n'
            f"            Ok({taken}) => {{\n                let packed = it.pack().unwrap();\n"
            f'                format!("{{}} {{}}", {size}, hex(&packed))\n            }}\n'
            "            Err(error) => error.to_string(),\n        },\n"
        )
    return RUST_MAIN.replace("CASES", cases)


# ---- the package for Python


def asked(module: ModuleType, f: Format, data: bytes) -> str:
    """Returns what a module says of bytes; its fields must be those that are right."""
    kind = getattr(module, f.type)
    try:
        found = kind.parse(data)
    except ValueError as error:
        return str(error)
    value, taken = (found, f.bytes) if f.sized else found
    right = read(f, data)[0]
    if fields(f.description, value) != right:
        raise AssertionError(f"{f.m}: {data.hex()} is parsed as {value}, and not as {right}")
    for name, wrong in misfits(f.description):
        try:
            replace(value, **{python_name(name): wrong}).pack()
        except getattr(module, "DoesNotFit"):
            continue
        raise AssertionError(f"{f.m}: {name} is packed, although it does not fit")
    return f"{taken} {value.pack().hex()}"


# The most bytes of a list that is one byte too long.
MOST_DRAWN = 1 << 20


def misfits(description: m.Description) -> Iterator[tuple[str, object]]:
    """Returns fields with values that do not fit their bits, are above their greatest value, or hold what ends them."""
    for it in description.fields:
        if isinstance(it, m.Number):
            yield it.name, (it.integer.most if it.limit is None else it.limit) + 1
        elif isinstance(it, m.Until):
            yield it.name, bytes([it.stop])
        elif isinstance(it, m.List | m.Sized) and isinstance(it.item, m.Octet):
            line = counted(description, it)
            most = line.most_items if isinstance(line, m.Count) else line.most
            if most < MOST_DRAWN:
                yield it.name, bytes(most + 1)


def fields(description: m.Description, value: object) -> Record:
    """Returns the fields of an object of the package."""
    return {it.name: field(it, getattr(value, python_name(it.name))) for it in description.fields}


def field(kind: m.Kind, value: object) -> Value:
    """Returns a field of an object of the package."""
    if value is None or isinstance(value, bool | bytes):
        return value
    if isinstance(kind, m.Choose):
        return chosen(kind, value)
    if isinstance(value, list):
        return [item(kind, it) for it in value]
    return item(kind, value)


def item(kind: m.Kind, value: object) -> Value:
    """Returns an item of a list, or a field that is no list."""
    uses = list(m.uses(kind))
    if uses:
        return fields(uses[0].description, value)
    assert isinstance(value, int)
    enum = m.held_item(kind)
    return case_of(enum, value) if isinstance(enum, m.EnumType) else int(value)


def chosen(kind: m.Choose, value: object) -> Value:
    """Returns a choice of an object of the package."""
    arm = next(it for it in kind.arms if type(value).__name__ == f"{kind.type}{it.case}")
    if isinstance(arm.held, m.Use):
        return {arm.case: fields(arm.held.description, getattr(value, "value"))}
    return arm.case if arm.number is not None else {arm.case: getattr(value, "number")}
