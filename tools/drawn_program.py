"""A program over the printed code of random descriptions: it prints what the code reads of rows, as the tests want it."""
from __future__ import annotations

import subprocess
from pathlib import Path

from describing import model as m
from describing.input import Value

MAIN = """//! Prints what the code of random formats reads of rows, and packs it again.
//!
//! The standard input has rows: the number of a format in a byte, the size of the row in two bytes, and its bytes.
#![tactic(auto)]

{uses}
use std::alloc::Global;
use std::io;
use std::io::Read;

/// Prints bytes, and ends the line.
fn show_bytes(rt: &HostRuntime, bytes: &[u8]) -> io::Result<()> {{
    for byte in bytes {{
        print!(rt; "{{byte:02x}}")?;
    }}
    println!(rt; "")
}}

{functions}
/// Reads a row by the format with a number.
fn show(rt: &HostRuntime, alloc: Global, number: u8, row: &[u8]) -> io::Result<()> {{
    match number {{
{arms}
        _ => println!(rt; "no format"),
    }}
}}

fn main(rt: HostRuntime) -> io::Result<()> {{
    let alloc = rt.alloc();
    let mut input: Vec<u8> = Vec::new(alloc);
    rt.stdin().read_to_end(&mut input)?;
    let mut bytes = input.as_slice();
    while bytes.len() >= 3 {{
        let end = 3 + (bytes[1] as usize) * 256 + bytes[2] as usize;
        show(&rt, alloc, bytes[0], &bytes[3..end])?;
        bytes = &bytes[end..];
    }}
    Ok(())
}}
"""
FUNCTION = """/// Prints a row of a `{type}`.
fn show_{module}(rt: &HostRuntime, alloc: Global, row: &[u8]) -> io::Result<()> {{
    match {type}::parse(row{alloc}) {{
        Ok(value) => {{
            print!(rt; "{{value:?}} ")?;
            let mut room = [0; 8192];
            match value.pack_into(&mut room) {{
                Ok(packed) => show_bytes(rt, packed.as_slice()),
                Err(error) => println!(rt; "is not packed: {{error:?}}"),
            }}
        }}
        Err(error) => println!(rt; "{{error:?}}"),
    }}
}}
"""


def main_of(crate: str, formats: dict[str, m.Description]) -> str:
    """Returns the text of the program over the modules of a crate."""
    functions, arms = [], []
    for number, (module, said) in enumerate(formats.items()):
        alloc = ", alloc" * any(m.allocates(it) for it in said.kinds)
        functions.append(FUNCTION.format(type=said.name, module=module, alloc=alloc))
        arms.append(f"        {number} => show_{module}(rt, alloc, row),")
    uses = (f"use {crate}::{module}::{said.name};" for module, said in formats.items())
    return MAIN.format(uses="\n".join(uses), functions="\n".join(functions), arms="\n".join(arms))


# ---- values and errors as the code prints them


def listed(items: list[str]) -> str:
    """Returns the text of a list."""
    return f"[{', '.join(items)}]"


def plain(value: Value) -> str:
    """Returns the text of a number."""
    return str(value)


def octets(value: Value) -> str:
    """Returns the text of bytes."""
    assert isinstance(value, bytes)
    return listed([str(it) for it in value])


def record_text(said: m.Description, value: Value) -> str:
    """Returns the text of a record."""
    assert isinstance(value, dict)
    fields = ", ".join(f"{it.name}: {field_text(it, value[it.name])}" for it in said.fields)
    return f"{said.name} {{ {fields} }}"


def item_text(item: m.Item, value: Value) -> str:
    """Returns the text of an item."""
    match item:
        case m.Use():
            return record_text(item.description, value)
        case m.EnumType():
            return case_text(value)
    return str(value)


def case_text(value: Value) -> str:
    """Returns the text of a case of an enum, which may hold a number."""
    return "".join(f"{case}({plain(held)})" for case, held in value.items()) if isinstance(value, dict) else str(value)


def many_text(item: m.Item, value: Value) -> str:
    """Returns the text of items."""
    assert isinstance(value, list | bytes)
    return listed([item_text(item, it) for it in value])


def choice_text(kind: m.Choose, value: Value) -> str:
    """Returns the text of a case of a choice."""
    if not isinstance(value, dict):
        return str(value)
    case, held = next(iter(value.items()))
    use = next(it.held for it in kind.arms if it.case == case)
    if isinstance(use, m.Use):
        return f"{case}({record_text(use.description, held)})"
    if isinstance(held, dict):
        return f"{case}({kind.unnamed} {{ number: {plain(held['number'])}, bytes: {octets(held['bytes'])} }})"
    return f"{case}({plain(held)})"


def field_text(kind: m.Described, value: Value) -> str:
    """Returns the text of a field."""
    match kind:
        case m.Bool():
            return str(value).lower()
        case m.MaybeNonZero():
            return "None" if value is None else f"Some({plain(value)})"
        case m.Enum():
            return case_text(value)
        case m.Array() | m.List() | m.Rest() | m.Until() | m.Sized(item=m.Octet()):
            return many_text(kind.item, value)
        case m.Fill() | m.UpToLast():
            return many_text(kind.use, value)
        case m.Blocks():
            assert isinstance(value, list)
            return listed([f"Block {{ bytes: {octets(it)} }}" for it in value])
        case m.Part(use=use) | m.Sized(item=m.Use() as use):
            return record_text(use.description, value)
        case m.Optional() | m.If():
            return "None" if value is None else f"Some({record_text(kind.use.description, value)})"
        case m.Choose():
            return choice_text(kind, value)
    return str(value)


# ---- runs


def short(line: str) -> str:
    """Returns a line that the program prints, of an error only its first case, which is what `--show` names."""
    return line if "{" in line else line.removeprefix("Reader(").split("(")[0].rstrip(")")


def differences(folder: Path, crate: str, formats: dict[str, m.Description], rows: list[tuple[str, bytes, str]]) -> int:
    """Writes and runs the program over a crate, and returns in how many lines it differs from what rows say.

    A row has the module of its format, its bytes, and its line: the value and its bytes, or the case of the error.
    """
    (folder / "src").mkdir(parents=True, exist_ok=True)
    (folder / "src" / "main.rt").write_text(main_of(crate, formats), encoding="utf-8")
    numbers = {module: number for number, module in enumerate(formats)}
    data = b"".join(bytes([numbers[module]]) + len(row).to_bytes(2, "big") + row for module, row, _ in rows)
    command = ["rt", "try", "--steps", "1000", "--seconds", "300"]
    ran = subprocess.run(command, cwd=folder, input=data, capture_output=True, check=False)
    lines = [short(it.rstrip()) for it in ran.stdout.decode().split("\n")[: len(rows)]]
    found = 0
    for (module, row, wanted), line in zip(rows, [*lines, *[""] * (len(rows) - len(lines))], strict=True):
        if line != wanted:
            found += 1
            print(f"{module}: {row.hex()} is read as {line}, and not as {wanted}")
    if ran.returncode:
        print(ran.stderr.decode()[-2000:])
    return found + bool(ran.returncode)
