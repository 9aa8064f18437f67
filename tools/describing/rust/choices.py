"""The code of a choice: its type, the number of a case, and the functions that read and write what stands behind it."""
from __future__ import annotations

from describing import model as m
from describing.layout import Format, Line, by_size, is_open
from describing.model import snake
from describing.rust.sizes import rest_argument
from describing.rust.writes import write_head
from describing.text import article


def choice_code(f: Format, line: Line, kind: m.Choose, number: str) -> list[str]:
    """Returns the type of a choice with its functions; `number` is the type of the number that selects a case."""
    derives = "Debug, Drop" if m.allocates(kind) else "Clone, Copy, Debug, PartialEq"
    out = [f"/// {kind.doc or f'A {kind.type}.'}", f"#[derive({derives})]", f"pub enum {kind.type} {{"]
    for arm, part in line.arms:
        held = part.use.name if part and part.use else number if arm.number is None else ""
        said = (
            "Any other number, with nothing after it."
            if arm.number is None
            else f"The case for the number {arm.number}."
        )
        if arm.held and not part:
            held, said = kind.unnamed, "Any other number, and the bytes after it."
        out += [f"    /// {said}", f"    {arm.case}{f'({held})' if held else ''},"]
    body = [*number_code(kind, number), *read_code(f, line, kind, number), *write_code(line, kind)]
    return [*unnamed_code(f, kind, number), *out, "}", "", f"impl {kind.type} {{", *body, "}", ""]


def unnamed_code(f: Format, kind: m.Choose, number: str) -> list[str]:
    """Returns the type of another number with the bytes after it."""
    t, s = kind.unnamed, snake(kind.unnamed)
    if not t:
        return []
    result = f"Result<{t}, {f.error}>"
    return [
        f"/// A number that no other case of `{kind.type}` has, and the bytes after it.",
        "#[derive(Debug, Drop)]",
        f"pub struct {t} {{",
        "    /// The number.",
        f"    pub number: {number},",
        "    /// The bytes.",
        "    pub bytes: Vec<u8>,",
        "}",
        "",
        f"impl Model for {t} {{",
        f"    ghost use Rattle.{f.crate}.specs.{f.spec}Bytes.{{{t}Fields}};",
        "",
        f"    ghost Value = {{ {t}Fields }};",
        "",
        "    ghost view = { λ value. record {",
        "        number = value.number;",
        "        bytes = value.bytes.items;",
        "    } };",
        "}",
        "",
        f"impl {t} {{",
        "    /// Reads `size` bytes.",
        f"    fn read<R: BitRead>(reader: &mut R, alloc: Global, number: {number}, size: u64) -> {result}",
        f"        ensures {{ GrowsOwn R.source {f.becomes_name} ({s}_read R.source.order number size)",
        "            reader.old result reader.new }",
        "    {",
        "        let bytes = reader.read_to_vec(alloc, size as usize)?;",
        f"        Ok({t} {{ number, bytes }})",
        "    }",
        "",
        "    /// Writes the bytes.",
        "    fn write<W: BitWrite>(&self, writer: &mut W) -> Result<(), Error>",
        "        ensures { WritesAll W.sink (buffer W.sink.order self.now.bytes ∷ []) writer.old result writer.new }",
        "    {",
        "        writer.write_bytes(&self.bytes)?;",
        "        Ok(())",
        "    }",
        "}",
        "",
    ]


def pattern(kind: m.Choose, arm: m.Arm, name: str = "_") -> str:
    """Returns the pattern of a case, with a name for what it holds."""
    return f"{kind.type}::{arm.case}" + (f"({name})" if arm.held or arm.number is None else "")


def number_code(kind: m.Choose, number: str) -> list[str]:
    """Returns the function from a case to its number."""
    numbers = (
        (
            f"{pattern(kind, it)} => {it.number},"
            if it.number is not None
            else f"{pattern(kind, it, 'it')} => {'it.number' if it.held else '*it'},"
        )
        for it in kind.arms
    )
    return [
        "    /// Returns the number of the case.",
        f"    pub fn number(&self) -> {number}",
        f"        ensures {{ result ≡ {snake(kind.type)}_number self.now }}",
        "    {",
        "        match self {",
        *(f"            {it}" for it in numbers),
        "        }",
        "    }",
        "",
    ]


def kind_of_read(f: Format, line: Line) -> tuple[str, str]:
    """Returns how the contract of a read begins, and the type of its error."""
    if m.allocates(line.kind):
        return f"GrowsOwn R.source {f.becomes_name}", f.e
    return (f"ReadsOwn R.source {f.becomes_name}", f.e) if line.error else ("Reads R.source", "Error")


def errors(f: Format, line: Line, kind: m.Choose) -> list[str]:
    """Returns the comment about the errors of a read."""
    out = [f"    /// `{kind.unknown}` if no case has the number, before anything is read."] * bool(kind.unknown)
    parts = {part.error: part.use.name for part in line.parts if part.error and part.use}
    out += [f"    /// `{error}` if {article(name)} is rejected." for error, name in parts.items()]
    last = f"    /// {'Otherwise the' if out else 'The'} reader's errors, after which it has failed."
    return ["    ///", "    /// # Errors", "    ///", *out, last]


def read_code(f: Format, line: Line, kind: m.Choose, number: str) -> list[str]:
    """Returns the function that reads the case of a number."""
    reads, error = kind_of_read(f, line)
    alloc = ", alloc: Global" * m.allocates(kind)
    out = ["    /// Reads what follows the number of a case.", *errors(f, line, kind)]
    result = f"Result<{kind.type}, {error}>"
    size, said = (" size", ", size: u64") if by_size(kind) else ("", "")
    out += [f"    pub fn read<R: BitRead>(reader: &mut R{alloc}, number: {number}{said}) -> {result}"]
    out += [f"        requires {{ R.source.order ≡ {f.o} }}"] * any(m.ordered(it.description) for it in m.uses(kind))
    out += [
        f"        ensures {{ {reads} ({snake(kind.type)}_read R.source.order number{size}) reader.old result reader.new }}"
    ]
    out += ["    {"]
    for arm, part in line.arms[: len(kind.tested)]:
        out += [
            f"        if number == {arm.number} {{",
            f"            return Ok({case_read(kind, arm, part)});",
            "        }",
        ]
    last = f"Err({f.error}::{kind.unknown})" if kind.unknown else f"Ok({case_read(kind, *line.arms[-1])})"
    return [*out, f"        {last}", "    }", ""]


def case_read(kind: m.Choose, arm: m.Arm, part: Line | None) -> str:
    """Returns the expression that reads a case."""
    if part and part.use:
        size = f", {rest_argument(part.use)}" * is_open(part.use)
        return pattern(kind, arm, f"{part.use.name}::read(reader{', alloc' * m.allocating(part.use)}{size})?")
    if arm.held:
        return pattern(kind, arm, f"{kind.unnamed}::read(reader, alloc, number, size)?")
    return pattern(kind, arm, "number")


def write_code(line: Line, kind: m.Choose) -> list[str]:
    """Returns the function that writes what follows the number of a case."""
    writes = (
        f"{pattern(kind, arm, 'it' if arm.held else '_')} => {'it.write(writer)' if arm.held else 'Ok(())'},"
        for arm, part in line.arms
    )
    return [
        *write_head("what follows the number of the case", snake(kind.type)),
        "    {",
        "        match self {",
        *(f"            {it}" for it in writes),
        "        }",
        "    }",
    ]
