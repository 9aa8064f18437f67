"""The functions that read and write the items of a list, and write those of an array."""
from __future__ import annotations

from describing import model as m
from describing.layout import Format, Line
from describing.rust.calls import read_item, write_item
from describing.rust.parts import part_in_order
from describing.specs.terms import all_items, item_writes, placed, stored


def list_code(f: Format, line: Line, kind: m.List) -> list[str]:
    """Returns the functions of a list."""
    return [*refused_memory(f, line), *read_code(f, line, kind), *write_code(kind)]


def pushes(f: Format, line: Line) -> bool:
    """Returns true if the function that reads a line pushes items, and has the errors of the format."""
    many = isinstance(line.kind, m.List | m.UpToLast) and line.own
    return bool(f.error) and (many or isinstance(line.kind, m.Fill))


def refused_memory(f: Format, line: Line) -> list[str]:
    """Returns the conversion of a failed allocation, with the first list whose function has the errors of the format."""
    lists = [it for it in f.lines if pushes(f, it)]
    if lists[:1] != [line]:
        return []
    return [
        f"impl<T: Drop> From<AllocFailed<T>> for {f.error} {{",
        "    ghost from_gives = { λ _ own. own ≡ Reader OutOfMemory };",
        "",
        f"    fn from(_refused: AllocFailed<T>) -> {f.error} {{",
        f"        {f.error}::Reader(Error::OutOfMemory)",
        "    }",
        "}",
        "",
    ]


def read_code(f: Format, line: Line, kind: m.List) -> list[str]:
    """Returns the function that reads the items of a list."""
    entry = f"({all_items(line)} ({placed(stored(f, line, kind), 'R.source.order')}) count)"
    error = f.e if line.own else "Error"
    reads = f"GrowsOwn R.source {f.becomes_name}" if line.own else "GrowingOutcome R.source"
    result = f"Result<{m.rust_type(kind)}, {error}>"
    stopping = "that is rejected, or whose allocation fails" if line.error else "whose allocation fails"
    return [
        f"/// Reads `count` items of `{kind.name}`. Stops after an item {stopping}.",
        f"fn read_{kind.name}<R: BitRead>(reader: &mut R, alloc: Global, count: u64) -> {result}",
        *part_in_order(f, kind.item),
        f"    ensures {{ {reads} {entry}",
        "        reader.old (result_map (λ found. found.items) result) reader.new }",
        "{",
        "    let mut found = Vec::new(alloc);",
        "    for _ in 0..count {",
        f"        found.push({read_item(kind.item)}?)?;",
        "    }",
        "    Ok(found)",
        "}",
        "",
    ]


def count_code(kind: m.Count) -> list[str]:
    """Returns the function that writes an Exp-Golomb number of 64 bits, which counts the items of a list."""
    return [
        f"/// Writes the number that counts the items of `{kind.target}`.",
        "///",
        "/// # Errors",
        "///",
        "/// `Checked` if it has no Exp-Golomb encoding. If so, nothing is written. Otherwise, the errors of the sink.",
        f"fn write_{kind.target}_count<W: BitWrite>(writer: &mut W, number: u64) -> Result<(), Error>",
        "    ensures { WritesAll W.sink (ue_writes W.sink.order number) writer.old result writer.new }",
        "{",
        "    if number < u32::MAX as u64 {",
        "        return write_ue(writer, number as u32);",
        "    }",
        "    write_ue(writer, u32::MAX)",
        "}",
        "",
    ]


def write_code(kind: m.List | m.Array | m.Fill | m.UpToLast) -> list[str]:
    """Returns the function that writes items."""
    item = kind.use if isinstance(kind, m.Fill | m.UpToLast) else kind.item
    writes = placed(item_writes(item), "W.sink.order")
    items = f"&[{m.item_type(item)}]"
    return [
        f"/// Writes the items of `{kind.name}`.",
        f"fn write_{kind.name}<W: BitWrite>(writer: &mut W, items: {items}) -> Result<(), Error>",
        f"    ensures {{ WritesAll W.sink (flat_map ({writes}) items.now)",
        "        writer.old result writer.new }",
        "{",
        "    for item in items {",
        f"        {write_item(item)}?;",
        "    }",
        "    Ok(())",
        "}",
        "",
    ]
