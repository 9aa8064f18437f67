"""The functions that read parts up to the last one, and test whether a part is the last one."""
from __future__ import annotations

from describing import model as m
from describing.layout import Format, Line
from describing.rust.calls import read_item
from describing.rust.parts import part_in_order
from describing.specs.last import asked, inner_cases, inner_name
from describing.specs.terms import own_decoder, placed


def last_code(f: Format, line: Line, kind: m.UpToLast) -> list[str]:
    """Returns the functions."""
    inner = [text for it in kind.tests if it.inner for text in inner_code(kind, it)]
    return [*inner, *test_code(kind), *read_code(f, line, kind)]


def passes(kind: m.UpToLast, test: m.Test) -> str:
    """Returns the expression of a test."""
    value = f"item.{test.field}"
    if test.inner:
        return f"{inner_name(kind, test)}(&{value})"
    if test.how == "empty":
        return f"{value}.is_empty()"
    number = ".number()" * isinstance(asked(kind, test), m.Enum | m.Choose)
    return f"{value}{number} {test.how} {test.value}" if test.how else value


def test_code(kind: m.UpToLast) -> list[str]:
    """Returns the function that tests a part."""
    tests = " || ".join(passes(kind, it) for it in kind.tests)
    return [
        f"/// Returns true for the last part of `{kind.name}`, which has `{kind.condition}`.",
        f"fn {kind.name}_last(item: &{kind.use.name}) -> bool",
        f"    ensures {{ result ≡ {kind.name}_last item.now }}",
        "{",
        f"    {tests}",
        "}",
        "",
    ]


def inner_code(kind: m.UpToLast, test: m.Test) -> list[str]:
    """Returns the function that tests a list in a case of a choice."""
    name, choice = inner_name(kind, test), asked(kind, test)
    assert isinstance(choice, m.Choose)
    arms = []
    for arm, holds in inner_cases(kind, test):
        given = f"({'it' if holds else '_'})" if arm.held or arm.number is None else ""
        arms.append(
            f"        {choice.type}::{arm.case}{given} => {f'it.{test.inner}.is_empty()' if holds else 'false'},"
        )
    return [
        f"/// Returns true for a case with a field `{test.inner}` that has no item.",
        f"fn {name}(value: &{choice.type}) -> bool",
        f"    ensures {{ result ≡ {name} value.now }}",
        "{",
        "    match value {",
        *arms,
        "    }",
        "}",
        "",
    ]


def read_code(f: Format, line: Line, kind: m.UpToLast) -> list[str]:
    """Returns the function that reads the parts."""
    entry = f"(up_to_last_decoder ({placed(own_decoder(f, line), 'R.source.order')}) {kind.name}_last)"
    too_long = f"{f.error}::Reader(Error::RunTooLong)" if f.error else "Error::RunTooLong"
    return [
        f"/// Reads `{kind.name}`, up to the last part. Stops after a part that is rejected, or whose allocation fails.",
        f"fn read_{kind.name}<R: BitRead>(reader: &mut R, alloc: Global) -> Result<{m.rust_type(kind)}, {f.e}>",
        *part_in_order(f, kind.use),
        f"    ensures {{ GrowsOwn R.source {f.becomes_name} {entry}",
        "        reader.old (result_map (λ found. found.items) result) reader.new }",
        "{",
        "    let mut found = Vec::new(alloc);",
        "    for _ in 0..4294967296_u64 {",
        f"        let item = {read_item(kind.use)}?;",
        f"        let last = {kind.name}_last(&item);",
        "        found.push(item)?;",
        "        if last {",
        "            return Ok(found);",
        "        }",
        "    }",
        "    reader.fail();",
        f"    Err({too_long})",
        "}",
        "",
    ]
