"""The code of a part: the conversion of its error, and the functions of an optional one."""
from __future__ import annotations

from describing import model as m
from describing.imports import part_cases
from describing.layout import Format, Line, is_some_bytes
from describing.model import snake
from describing.rust.choices import pattern
from describing.specs.terms import bytes_name, here, placed, some_bits


def error_code(f: Format, line: Line, use: m.Use) -> list[str]:
    """Returns the conversion of the error of a part: its errors of the reader are errors of the reader here, too."""
    theirs = use.description.error
    if not theirs or not f.is_first(line):
        return []
    arms = [f"            {theirs}::Reader(error) => {f.error}::Reader(error),"]
    for case, held in part_cases(use):
        said = f"{theirs}::{case}{'(error)' * bool(held)}"
        arms.append(f"            {said} => {f.error}::{use.error}({said}),")
    return [
        f"impl From<{theirs}> for {f.error} {{",
        f"    ghost from_gives = {{ λ error own. own ≡ {use.module}_error error }};",
        "",
        f"    fn from(error: {theirs}) -> {f.error} {{",
        "        match error {",
        *arms,
        "        }",
        "    }",
        "}",
        "",
    ]


def optional_code(f: Format, line: Line, use: m.Use) -> list[str]:
    """Returns the functions that read and write an optional part."""
    if not f.is_first_optional(line):
        return []
    return [*read_code(f, line, use), *write_code(use), *size_code(f, line)]


def size_code(f: Format, line: Line) -> list[str]:
    """Returns the function that counts the bytes of an optional part, or of a choice, that is before the rest."""
    kind = line.kind
    if line not in f.before_rest or not is_some_bytes(kind):
        return []
    if isinstance(kind, m.Choose):
        said, parts = f"`{kind.type}`", [(pattern(kind, it), it.held) for it in kind.arms]
    else:
        said, parts = f"`{kind.use.name}`, if there is one", [("Some(_)", kind.use), ("None", None)]
    arms = [(case, (held.description.bits or 0) // 8 if isinstance(held, m.Use) else 0) for case, held in parts]
    return [
        f"/// Returns the number of bytes of a {said}.",
        f"fn {bytes_name(kind)}(value: {m.rust_type(kind)}) -> u64",
        f"    ensures {{ result ≡ {some_bits(kind, 'value')} / 8 }}",
        "{",
        "    match value {",
        *(f"        {case} => {size}," for case, size in arms),
        "    }",
        "}",
        "",
    ]


def part_in_order(f: Format, item: m.Item) -> list[str]:
    """Returns the premise of a read of parts with sizes: the reader has the order of the format."""
    return [f"    requires {{ R.source.order ≡ {f.o} }}"] * (isinstance(item, m.Use) and m.ordered(item.description))


def read_code(f: Format, line: Line, use: m.Use) -> list[str]:
    """Returns the function that reads a part if it is there."""
    grows, own = m.allocating(use), "own_" * line.own
    reads, error = ("ReadsOwn", f.e) if line.own else ("Reads", "Error")
    reads = f"{'GrowsOwn' if grows else reads} R.source{f' {f.becomes_name}' * line.own}"
    entry = f"{own}optional there ({placed(here(f, line), 'R.source.order')})"
    result, memory = f"Result<Option<{use.name}>, {error}>", ", alloc: Global" * grows
    return [
        f"/// Reads a `{use.name}` if it is there.",
        f"fn read_{snake(use.name)}_if<R: BitRead>(reader: &mut R{memory}, there: bool) -> {result}",
        *part_in_order(f, use),
        f"    ensures {{ {reads} ({entry}) reader.old result reader.new }}",
        "{",
        "    if !there {",
        "        return Ok(None);",
        "    }",
        f"    Ok(Some({use.name}::read(reader{', alloc' * grows})?))",
        "}",
        "",
    ]


def write_code(use: m.Use) -> list[str]:
    """Returns the function that writes a part if it is there."""
    name, writes = f"write_{snake(use.name)}_if", f"{use.module}_writes W.sink.order"
    grows = m.allocating(use)
    value, given = f"value{'.now' * grows}", f"{'&' * grows}Option<{use.name}>"
    return [
        f"/// Writes a `{use.name}` if there is one.",
        f"fn {name}<W: BitWrite>(writer: &mut W, value: {given}) -> Result<(), Error>",
        f"    ensures {{ WritesAll W.sink (optional_writes ({writes}) {value}) writer.old result writer.new }}",
        "{",
        "    match value {",
        "        Some(value) => value.write(writer),",
        "        None => Ok(()),",
        "    }",
        "}",
        "",
    ]
