"""The code of a part of a stated size: it is read over its bytes alone."""
from __future__ import annotations

from describing import model as m
from describing.layout import Format, Line, by_size, head_bits, is_octets, padded
from describing.specs.padding import multiple
from describing.specs.sizes import error_cases, is_plain, overrun, reader_error
from describing.specs.terms import inside, seen


def sized_code(f: Format, line: Line, kind: m.Measured, number: str) -> list[str]:
    """Returns the functions of a part of a stated size; `number` is the type of the number that selects a case."""
    inside_code = items_code(f, line, kind) if isinstance(kind, m.Fill) else in_code(f, line, kind, number)
    stated = stated_code(f, line, kind, number) if line.units else []
    return [*ended_code(f, kind), *inside_code, *read_code(f, line, kind, number), *stated]


def ended_code(f: Format, kind: m.Measured) -> list[str]:
    """Returns the function that maps the errors inside the bytes of the size."""
    wrong, e = overrun_code(kind), f.e
    if is_plain(kind):
        return plain_ended_code(kind)
    arms = []
    for case, held in error_cases(f):
        said = f"{e}::{case}{'(error)' * bool(held)}"
        arms.append(f"        {said} => {said},")
    return [
        f"/// Maps an error inside the bytes of `{kind.name}`: the end of these bytes becomes `{wrong.replace('Error::', '')}`.",
        f"fn {kind.name}_ended(error: {e}) -> {e}",
        f"    ensures {{ result ≡ {kind.name}_ended error }}",
        "{",
        "    match error {",
        f"        {e}::Reader(error) => {{",
        "            if is_end(&error) {",
        f"                return {e}::{wrong};",
        "            }",
        f"            {e}::Reader(error)",
        "        }",
        *arms,
        "    }",
        "}",
        "",
    ]


def plain_ended_code(kind: m.Measured) -> list[str]:
    """Returns the function for a format that has no error of its own, whose errors stay."""
    return [
        f"/// Returns an error inside the bytes of `{kind.name}`, as it is.",
        f"fn {kind.name}_ended(error: Error) -> Error",
        f"    ensures {{ result ≡ {kind.name}_ended error }}",
        "{",
        "    error",
        "}",
        "",
    ]


def overrun_code(kind: m.Measured) -> str:
    """Returns the case of the error for a part that does not fill its size, in code."""
    return "Reader(Error::EndOfInput)" if overrun(kind).startswith("(") else overrun(kind)


def given(kind: m.Measured, number: str) -> str:
    """Returns the parameter for the number that selects a case."""
    return f", number: {number}" * isinstance(kind, m.Choose) + ", size: u64" * by_size(kind)


def passed_size(line: Line) -> str:
    """Returns the argument for the number of bytes that the read of a part takes."""
    if not by_size(line.kind):
        return ""
    return f", {rest_argument(line.use)}" if line.use else ", size"


def rest_argument(use: m.Use) -> str:
    """Returns the number that the read of a part with a rest takes, of the number of its bytes."""
    head = head_bits(use.description) // 8
    return f"bytes_after(size, {head})" if head else "size"


def inner_allocates(kind: m.Measured) -> bool:
    """Returns true if the read of the part asks for memory of its own."""
    return isinstance(kind, m.Choose | m.Fill) or any(m.allocating(it) for it in m.uses(kind))


def in_code(f: Format, line: Line, kind: m.Measured, number: str) -> list[str]:
    """Returns the function that reads the part over its bytes."""
    known = f"within ({inside(f, line, f.o)}) {overrun(kind)} (λ error. Reader error) {kind.name}_ended"
    call, alloc = f"{m.rust_type(kind)}::read(&mut inside", ", alloc" * inner_allocates(kind)
    error = "error" if isinstance(kind, m.Choose) else f"{f.error}::from(error)"
    return [
        f"/// Parses these bytes as `{kind.name}`.",
        "///",
        "/// # Errors",
        "///",
        f"/// `{overrun(kind)}` if `{kind.name}` does not fill the bytes. Otherwise the errors of `{kind.name}`.",
        f"fn {kind.name}_in(bytes: &[u8]{', alloc: Global' * inner_allocates(kind)}{given(kind, number)})"
        f" -> Result<{m.rust_type(kind)}, {f.error}>",
        "    ensures { UnlessMemory (λ error. Reader error)",
        f"        ({known} (bits {f.o} bytes.now)) result }}",
        "{",
        f"    let mut inside = SliceReader::<{f.order}>::over(bytes);",
        f"    match {call}{alloc}{', number' * isinstance(kind, m.Choose)}{passed_size(line)}) {{",
        "        Ok(found) => {",
        "            if inside.is_at_end() {",
        "                return Ok(found);",
        "            }",
        f"            Err({f.error}::{overrun(kind)})",
        "        }",
        f"        Err(error) => Err({kind.name}_ended({error})),",
        "    }",
        "}",
        "",
    ]


def items_code(f: Format, line: Line, kind: m.Fill) -> list[str]:
    """Returns the function that reads items over their bytes."""
    own, wrong = reader_error(kind), overrun_code(kind)
    shape, found = f"{overrun(kind)} {own} {kind.name}_ended", "error" if is_plain(kind) else f"{f.error}::from(error)"
    return [
        f"/// Parses these bytes as the items of `{kind.name}`, of which there are at most `size`.",
        "///",
        "/// # Errors",
        "///",
        f"/// `{wrong.replace('Error::', '')}` if the items do not fill the bytes. Otherwise the error of an item.",
        f"fn {kind.name}_in(bytes: &[u8], alloc: Global, size: u64) -> Result<{m.rust_type(kind)}, {f.e}>",
        f"    ensures {{ UnlessMemory {own}",
        f"        (items_from ({inside(f, line, f.o)}) {shape} 0 (bits {f.o} bytes.now) size)",
        "        (result_map (λ found. found.items) result) }",
        "{",
        f"    let mut inside = SliceReader::<{f.order}>::over(bytes);",
        "    let mut found = Vec::new(alloc);",
        "    for _ in 0..size {",
        "        if inside.is_at_end() {",
        "            return Ok(found);",
        "        }",
        f"        match {kind.use.name}::read(&mut inside{', alloc' * m.allocating(kind.use)}) {{",
        "            Ok(item) => found.push(item)?,",
        f"            Err(error) => return Err({kind.name}_ended({found})),",
        "        }",
        "    }",
        "    if inside.is_at_end() {",
        "        return Ok(found);",
        "    }",
        f"    Err({f.e}::{wrong})",
        "}",
        "",
    ]


def count_code(kind: m.Described) -> list[str]:
    """Returns the function that counts the bits of items."""
    use = m.held_item(kind)
    assert isinstance(use, m.Use)
    counts = (
        f"CountsBits (λ bits. bits) 18446744073709551615 same_error (flat_map ({use.module}_writes High) items.now)"
    )
    return [
        f"/// Returns the number of bits of the items of `{kind.name}`.",
        "///",
        "/// # Errors",
        "///",
        "/// `Checked` for a field that does not fit its bits.",
        f"fn count_{kind.name}(items: &[{use.name}]) -> Result<u64, Error>",
        f"    ensures {{ {counts}",
        "        (Ok tt) result }",
        "{",
        "    let mut counter = BitsWritten::<u64>::new();",
        f"    write_{kind.name}(&mut counter, items)?;",
        "    Ok(counter.into_written())",
        "}",
        "",
    ]


def padding_code(f: Format, kind: m.Pad) -> list[str]:
    """Returns the functions that count the zeros up to a multiple of bits."""
    target = padded(f.description, kind)
    item = m.held_item(target)
    assert m.is_field(target) and isinstance(item, m.Use)
    return [
        *count_code(target),
        f"/// Returns the number of zeros after `{kind.target}`, up to a multiple of {kind.unit} bits; 0 if the items have more than",
        "/// 2^64 - 1 bits.",
        f"fn {kind.counted}(items: &[{item.name}]) -> u32",
        f"    ensures {{ result ≡ {kind.counted} items.now }}",
        "{",
        f"    match count_{kind.target}(items) {{",
        f"        Ok(bits) => ({multiple(kind, 'bits')}) as u32,",
        "        Err(_) => 0,",
        "    }",
        "}",
        "",
    ]


def read_code(f: Format, line: Line, kind: m.Measured, number: str) -> list[str]:
    """Returns the function that reads the bytes of the size, and then the part."""
    chosen, selects = " number" * isinstance(kind, m.Choose), selecting(kind, number)
    passed = ", alloc" * inner_allocates(kind) + ", number" * isinstance(kind, m.Choose)
    passed += ", size" * (by_size(kind) or isinstance(kind, m.Fill))
    return [
        f"/// Reads `{kind.name}`, which has `size` bytes. No bit after them is read.",
        f"fn read_{kind.name}<R: BitRead>(reader: &mut R, alloc: Global{selects}, size: u64)"
        f" -> Result<{m.rust_type(kind)}, {f.e}>",
        f"    requires {{ R.source.order ≡ {f.o} }}",
        f"    ensures {{ GrowsOwn R.source {f.becomes_name} ({kind.name}_sized R.source.order{chosen} size)",
        f"        reader.old {answer(kind)} reader.new }}",
        "{",
        "    let bytes = reader.read_to_vec(alloc, size as usize)?;",
        f"    {kind.name}_in(&bytes{passed})",
        "}",
        "",
    ]


def selecting(kind: m.Measured, number: str) -> str:
    """Returns the parameter for the number that selects a case of a choice."""
    return f", number: {number}" * isinstance(kind, m.Choose)


def answer(kind: m.Measured) -> str:
    """Returns the result as contracts see it."""
    return f"(result_map (λ found. found{seen(kind)}) result)" if seen(kind) else "result"


def arguments(line: Line) -> str:
    """Returns the unit of a size, and what this adds, as arguments of a call."""
    return ", ".join(line.units.split())


def stated_code(f: Format, line: Line, kind: m.Measured, number: str) -> list[str]:
    """Returns the function that reads a part, or bytes, by the number that states the size in units."""
    chosen = " number" * isinstance(kind, m.Choose)
    read = f"read_{kind.name}(reader, alloc{', number' * bool(chosen)}, size)"
    if is_octets(kind):
        read = "Ok(reader.read_to_vec(alloc, size as usize)?)"
    ordered = [] if is_octets(kind) else [f"    requires {{ R.source.order ≡ {f.o} }}"]
    return [
        f"/// Reads `{kind.name}`. The number `stored` states its size.",
        f"fn read_stated_{kind.name}<R: BitRead>(reader: &mut R, alloc: Global{selecting(kind, number)}, stored: u64)"
        f" -> Result<{m.rust_type(kind)}, {f.error}>",
        *ordered,
        f"    ensures {{ GrowsOwn R.source {f.becomes_name} ({kind.name}_stated R.source.order{chosen} stored)",
        f"        reader.old {answer(kind)} reader.new }}",
        "{",
        f"    match stated_size(stored, {arguments(line)}) {{",
        f"        Some(size) => {read},",
        f"        None => Err({f.error}::{overrun(kind)}),",
        "    }",
        "}",
        "",
    ]
