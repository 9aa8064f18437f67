"""The code of an enum: its type, the functions from a number to a case and back, and the reads."""
from __future__ import annotations

from describing import model as m
from describing.layout import Format, Line, enum_bits
from describing.model import snake


def enum_code(f: Format, line: Line, enum: m.EnumType) -> list[str]:
    """Returns the type of an enum with its functions."""
    number = f"u{enum_bits(enum)}"
    out = [f"/// {line.kind.doc or f'A {enum.name}.'}", "#[derive(Clone, Copy, Debug, PartialEq)]"]
    out += [f"pub enum {enum.name} {{"]
    for value, case in enum.cases:
        out += [f"    /// Encoded as {value}.", f"    {case},"]
    out += ["    /// Any other number.", f"    {enum.other}({number}),"] if enum.other else []
    out += ["}", "", f"impl {enum.name} {{", *of_code(f, line, enum), *number_code(enum)]
    if isinstance(line.kind, m.Array):
        return [*out, *array_code(f, line, enum, line.kind), "}", ""]
    return [*out, *read_code(f, line, enum), "}", ""]


def answer(f: Format, line: Line, code: str) -> str:
    """Returns the result of a number: a case, or the refusal of the number."""
    return f"Result<{code}, {f.error}>" if line.error else code


def of_code(f: Format, line: Line, enum: m.EnumType) -> list[str]:
    """Returns the function from a number to its case."""
    out = [
        "    /// Decodes a number.",
        f"    pub fn of(number: u{enum_bits(enum)}) -> {answer(f, line, enum.name)}",
        f"        ensures {{ result ≡ {snake(enum.name)}_of number }}",
        "    {",
    ]
    for value, case in enum.tested:
        made = f"Ok({enum.name}::{case})" if line.error else f"{enum.name}::{case}"
        out += [f"        if number == {value} {{", f"            return {made};", "        }"]
    last = f"Err({f.error}::{line.error})" if line.error else f"{enum.name}::{enum.other}(number)"
    last = f"{enum.name}::{enum.cases[-1][1]}" if enum.total else last
    return [*out, f"        {last}", "    }", ""]


def number_code(enum: m.EnumType) -> list[str]:
    """Returns the function from a case to its number."""
    arms = [f"            {enum.name}::{case} => {value}," for value, case in enum.cases]
    arms += [f"            {enum.name}::{enum.other}(number) => number,"] if enum.other else []
    return [
        "    /// Returns the number of the case.",
        f"    pub fn number(self) -> u{enum_bits(enum)}",
        f"        ensures {{ result ≡ {snake(enum.name)}_number self }}",
        "    {",
        "        match self {",
        *arms,
        "        }",
        "    }",
        "",
    ]


def read_code(f: Format, line: Line, enum: m.EnumType) -> list[str]:
    """Returns the function that reads a case."""
    reads = f"ReadsOwn R.source becomes_{f.m}" if line.error else "Reads R.source"
    return [
        f"    /// Reads a number of {enum.width} bits, and decodes it.",
        f"    pub fn read<R: BitRead>(reader: &mut R) -> Result<{enum.name}, {f.error if line.error else 'Error'}>",
        f"        ensures {{ {reads} ({snake(enum.name)}_read R.source.order) reader.old result reader.new }}",
        "    {",
        f"        let number = reader.read::<Bits<{enum.width}>, u{enum_bits(enum)}>()?;",
        f"        {enum.name}::of(number)" if line.error else f"        Ok({enum.name}::of(number))",
        "    }",
    ]


def array_code(f: Format, line: Line, enum: m.EnumType, kind: m.Array) -> list[str]:
    """Returns the functions from numbers to their cases, and the function that reads an array of them."""
    numbers = f"[u{enum_bits(enum)}; {kind.count}]"
    return [*each_code(f, line, enum, kind, numbers), "", *read_each_code(f, line, enum, kind, numbers)]


def each_code(f: Format, line: Line, enum: m.EnumType, kind: m.Array, numbers: str) -> list[str]:
    """Returns the function from numbers to their cases."""
    first = enum.cases[0][1] if enum.cases else f"{enum.other}(0)"
    return [
        "    /// Decodes each number.",
        *["    ///", "    /// # Errors", "    ///", f"    /// `{line.error}` if one of them has no case."]
        * bool(line.error),
        f"    pub fn each(numbers: {numbers}) -> {answer(f, line, m.rust_type(kind))}",
        f"        ensures {{ result ≡ {snake(enum.name)}_each numbers }}",
        "    {",
        f"        let mut found = [{enum.name}::{first}; {kind.count}];",
        f"        for i in 0..{kind.count} {{",
        f"            found[i] = {enum.name}::of(numbers[i]){'?' * bool(line.error)};",
        "        }",
        f"        {'Ok(found)' if line.error else 'found'}",
        "    }",
    ]


def read_each_code(f: Format, line: Line, enum: m.EnumType, kind: m.Array, numbers: str) -> list[str]:
    """Returns the function that reads an array of cases."""
    reads = f"ReadsOwn R.source becomes_{f.m}" if line.error else "Reads R.source"
    each, error = f"{enum.name}::each(numbers)", f.error if line.error else "Error"
    own = f"    /// `{line.error}` if one of them has no case, after all of them have been read."
    return [
        f"    /// Reads {kind.count} numbers of {enum.width} bits each, and then decodes them.",
        "    ///",
        "    /// # Errors",
        "    ///",
        *[own] * bool(line.error),
        f"    /// {'Otherwise the' if line.error else 'The'} reader's errors, after which it has failed.",
        f"    pub fn read_each<R: BitRead>(reader: &mut R) -> Result<{m.rust_type(kind)}, {error}>",
        f"        ensures {{ {reads} ({snake(enum.name)}_read_each R.source.order) reader.old result reader.new }}",
        "    {",
        f"        let numbers = reader.read::<Bits<{enum.width}>, {numbers}>()?;",
        f"        {each if line.error else f'Ok({each})'}",
        "    }",
    ]
