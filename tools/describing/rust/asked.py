"""The tests of a condition, and the function that tests several fields."""
from __future__ import annotations

from describing import model as m
from describing.layout import Format
from describing.specs.terms import asked_enum


def test(f: Format, asked: m.Test, record: str = "") -> str:
    """Returns the expression of a test; `record` is what stands before the name of the field."""
    if asked.how == "not":
        return f"!{record}{asked.field}"
    number = ".number()" if asked_enum(f, asked) else ""
    return f"{record}{asked.field}{number} {asked.how} {asked.value}" if asked.how else f"{record}{asked.field}"


def due_code(f: Format, kind: m.If) -> list[str]:
    """Returns the function that tests several fields."""
    types = {it.name: m.rust_type(it) for it in f.description.fields}
    given = ", ".join(f"{name}: {types[name]}" for name in kind.asked)
    joined = " && " if kind.joined == "and" else " || "
    return [
        f"/// Returns true if `{kind.name}` is there: if `{kind.condition}`.",
        f"fn is_{kind.due}({given}) -> bool",
        f"    ensures {{ result ≡ {kind.due} {' '.join(kind.asked)} }}",
        "{",
        f"    {joined.join(test(f, it) for it in kind.tests)}",
        "}",
        "",
    ]
