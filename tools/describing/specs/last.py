"""The definitions of the condition of the last part of a list, which later definitions cite as `NAME_last`."""
from __future__ import annotations

from describing import model as m
from describing.model import snake


def asked(kind: m.UpToLast, test: m.Test) -> m.Described:
    """Returns the field of the part that a test asks for."""
    return next(it for it in kind.use.description.fields if it.name == test.field)


def inner_name(kind: m.UpToLast, test: m.Test) -> str:
    """Returns the name of the test of a list in a case of a choice."""
    return f"{kind.name}_{test.field}_{test.inner}_empty"


def number_name(kind: m.UpToLast, field: m.Described) -> str:
    """Returns the name that a text uses for the function from a case to its number, or an empty text for a number."""
    if not isinstance(field, m.Enum | m.Choose):
        return ""
    return f"{kind.use.module}_{snake(field.enum.name if isinstance(field, m.Enum) else field.type)}_number"


def passes(kind: m.UpToLast, test: m.Test) -> str:
    """Returns the term of a test of the part `it`."""
    term, field = f"it.{test.field}", asked(kind, test)
    if test.inner:
        return f"{inner_name(kind, test)} {term}"
    if test.how == "empty":
        return f"(length {term} == 0)"
    if not test.how:
        return term
    name = number_name(kind, field)
    number = f"{name} {term}" if name else term
    match test.how:
        case "!=":
            return f"not ({number} == {test.value})"
        case "<":
            return f"nat_lt {f'({number})' if name else number} {test.value}"
        case ">=":
            return f"nat_le {test.value} {f'({number})' if name else number}"
    return f"({number} == {test.value})"


def inner_cases(kind: m.UpToLast, test: m.Test) -> list[tuple[m.Arm, bool]]:
    """Returns the cases of the choice that a test asks for, each with true if it holds the list."""
    choice = asked(kind, test)
    assert isinstance(choice, m.Choose)
    found = []
    for arm in choice.arms:
        names = [it.name for it in arm.held.description.fields] if isinstance(arm.held, m.Use) else []
        found.append((arm, test.inner in names))
    return found


def case_name(kind: m.UpToLast, test: m.Test, arm: m.Arm) -> str:
    """Returns the name that specs use for a case of a choice of the part."""
    choice = asked(kind, test)
    assert isinstance(choice, m.Choose)
    return f"{kind.use.name}{choice.type}{arm.case}"


def definitions(kind: m.UpToLast) -> list[str]:
    """Returns the definitions of the condition."""
    out = [line for it in kind.tests if it.inner for line in inner_definition(kind, it)]
    tests = " || ".join(passes(kind, it) for it in kind.tests)
    return [
        *out,
        f"-- true for the last part of `{kind.name}`, which has `{kind.condition}`",
        f"abbrev pub {kind.name}_last : {kind.use.name} → Bool",
        f"{kind.name}_last it = {tests}",
        "",
    ]


def inner_definition(kind: m.UpToLast, test: m.Test) -> list[str]:
    """Returns the definition of the test of a list in a case of a choice."""
    name, choice = inner_name(kind, test), asked(kind, test)
    assert isinstance(choice, m.Choose)
    head = f"abbrev pub {name} : {kind.use.name}{choice.type} → Bool"
    out = [f"-- true for a case with a field `{test.inner}` that has no item", head]
    for arm, holds in inner_cases(kind, test):
        case = case_name(kind, test, arm)
        given = f"({case} it)" if arm.held or arm.number is None else case
        out.append(f"{name} {given} = {f'length it.{test.inner} == 0' if holds else 'false'}")
    return [*out, ""]
