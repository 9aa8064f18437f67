"""The definition of a condition over several fields, which later definitions cite as `NAME_due`."""
from __future__ import annotations

from describing import model as m
from describing.layout import Format
from describing.specs.terms import spec_type, test


def due_specs(f: Format, kind: m.If) -> list[str]:
    """Returns the definition."""
    types = {it.name: spec_type(it.kind) for it in f.lines if it.is_field}
    given = "".join(f"{types[name]} → " for name in kind.asked)
    joined = " && " if kind.joined == "and" else " || "
    return [
        f"-- true if `{kind.name}` is there: if `{kind.condition}`",
        f"abbrev pub {kind.due} : {given}Bool",
        f"{kind.due} {' '.join(kind.asked)} = {joined.join(test(f, it, it.field) for it in kind.tests)}",
        "",
    ]
