"""The functions that write numbers with a greatest value: they write no greater one."""
from __future__ import annotations

from describing import model as m
from describing.layout import Line, is_part_size
from describing.rust.calls import bits_written, limit_name, stored_number, write_number
from describing.specs.limits import number_writes, size_writes
from describing.specs.terms import placed

# The end of a body. The writer rejects the number, as one that does not fit its bits.
REJECTS = ["// One bit does not hold 2, so nothing is written.", "writer.write::<Bits<1>, u8>(2)"]


def limit_code(line: Line, kind: m.Capped) -> list[str]:
    """Returns the function that writes a number, or the size of a part."""
    if is_part_size(line):
        assert isinstance(kind, m.Size)
        return size_code(line, kind)
    type_ = m.rust_type(kind) if isinstance(kind, m.Number) else "u64"
    return [
        *head(line, kind, f"number: {type_}", number_writes(kind, "number")),
        f"    let is_most = number <= {kind.limit};",
        "    if is_most {",
        f"        return {write_number(line, kind, 'number')};",
        "    }",
        *[f"    {it}" for it in REJECTS],
        "}",
        "",
    ]


def head(line: Line, kind: m.Capped, given: str, writes: str) -> list[str]:
    """Returns the comment, the head and the contract of the function."""
    return [
        f"/// Writes {limit_name(kind).rstrip(',')}.",
        "///",
        "/// # Errors",
        "///",
        f"/// `Checked` if it is above {kind.limit}. If so, nothing is written. Otherwise, the errors of the sink.",
        f"fn write_{line.name}<W: BitWrite>(writer: &mut W, {given}) -> Result<(), Error>",
        f"    ensures {{ WritesAll W.sink ({placed(writes, 'W.sink.order')})",
        "        writer.old result writer.new }",
        "{",
    ]


def size_code(line: Line, kind: m.Size) -> list[str]:
    """Returns the function that writes the size of a part."""
    assert line.measures
    given, type_ = "value", f"&{m.rust_type(line.measures)}"
    if isinstance(line.measures, m.Fill):
        given, type_ = "items", f"&[{line.measures.use.name}]"
    return [
        *head(line, kind, f"{given}: {type_}", size_writes(line, kind, f"{given}.now")),
        f"    match {bits_written(line, kind, given)} {{",
        "        Ok(bits) => {",
        f"            let is_most = {stored_number(kind, 'bits / 8')} <= {kind.limit};",
        "            if is_most {",
        f"                return {write_number(line, kind, 'Ok(bits)')};",
        "            }",
        *[f"            {it}" for it in REJECTS],
        "        }",
        f"        Err(error) => {write_number(line, kind, 'Err(error)')},",
        "    }",
        "}",
        "",
    ]
