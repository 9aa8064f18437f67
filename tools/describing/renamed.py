"""Fields whose names the printed text has for something else: other names stand for them where both would be meant.

The back ends print a description whose names of such fields are hidden: each letter is replaced by one that no text has.
Then each hidden name becomes the name itself, as in `value.length`, or the name with `_`, as for a variable `length_`.
"""
from __future__ import annotations

import dataclasses
import re
from typing import TypeVar

from describing import model as m
from describing.checks import shadowing
from describing.reserved import LIFTED, QUOTED

FIRST = 0xE000
HIDDEN = "[\ue000-\ue0ff]+"
Held = TypeVar("Held", bound=m.Kind)


def renamed(it: m.Description) -> m.Description:
    """Returns a description with hidden names for the fields that need another name."""
    names = names_of(it)
    return hide(it, names) if names else it


def names_of(it: m.Description) -> set[str]:
    """Returns the names of fields that the printed text has for something else, also in parts."""
    found = {kind.name for kind in it.fields if kind.name in LIFTED} | set(shadowing(it))
    return found.union(*(names_of(use.description) for kind in it.kinds for use in m.uses(kind)))


def hidden(name: str) -> str:
    """Returns a name of as many letters that no text has."""
    return "".join(chr(FIRST + ord(letter)) for letter in name)


def hide(it: m.Description, names: set[str]) -> m.Description:
    """Returns a description whose fields of these names have hidden names."""
    spelled = re.compile(rf"\b({'|'.join(sorted(names))})(?= =)")
    examples = (
        dataclasses.replace(one, answer=spelled.sub(lambda found: hidden(found[1]), one.answer)) for one in it.examples
    )
    kinds = tuple(hidden_kind(kind, names) for kind in it.kinds)
    return dataclasses.replace(it, kinds=kinds, examples=tuple(examples))


def hidden_kind(kind: Held, names: set[str]) -> Held:
    """Returns a line with hidden names."""
    found: dict[str, object] = {}
    for attribute in ("name", "target", "by"):
        said = getattr(kind, attribute, None)
        if isinstance(said, str) and said in names:
            found[attribute] = hidden(said)
    for attribute in ("use", *["item"] * (not isinstance(kind, m.Fill))):
        use = getattr(kind, attribute, None)
        if isinstance(use, m.Use):
            found[attribute] = hidden_use(use, names)
    if isinstance(kind, m.Check):
        found["over"] = tuple(hidden(it) if it in names else it for it in kind.over)
    if isinstance(kind, m.UpToLast | m.If):
        found["tests"] = tuple(hidden_test(it, names) for it in kind.tests)
    if isinstance(kind, m.List) and kind.power:
        field, there = (hidden(it) if it in names else it for it in (kind.power.field, kind.power.there))
        found["power"] = dataclasses.replace(kind.power, field=field, there=there)
    if isinstance(kind, m.List) and kind.count:
        found["count"] = hidden_kind(kind.count, names)
    if isinstance(kind, m.Verify):
        found["check"] = hidden_kind(kind.check, names)
    if isinstance(kind, m.Choose):
        arms = ((it, it.held) for it in kind.arms)
        found["arms"] = tuple(
            dataclasses.replace(arm, held=hidden_use(held, names)) if isinstance(held, m.Use) else arm
            for arm, held in arms
        )
    return dataclasses.replace(kind, **found)


def hidden_test(test: m.Test, names: set[str]) -> m.Test:
    """Returns a test with hidden names."""
    field, inner = (hidden(it) if it in names else it for it in (test.field, test.inner))
    return dataclasses.replace(test, field=field, inner=inner)


def hidden_use(use: m.Use, names: set[str]) -> m.Use:
    """Returns a part with hidden names."""
    return dataclasses.replace(use, description=hide(use.description, names))


def shown(text: str, place: str) -> str:
    """Returns the text of a file with the names in place of the hidden ones."""
    if not re.search(HIDDEN, text):
        return text
    if place.endswith(".rt"):
        return "\n".join(code_line(line) for line in text.split("\n"))
    return re.sub(f"(?P<name>{HIDDEN})", proof_name, text)


def name_of(found: re.Match[str]) -> str:
    """Returns the name that was hidden."""
    return "".join(chr(ord(letter) - FIRST) for letter in found["name"])


def inside(found: re.Match[str]) -> bool:
    """Returns true if a hidden name is a part of a longer one."""
    around = found.string[max(found.start() - 1, 0) : found.start()] + found.string[found.end() : found.end() + 1]
    return bool(re.search(r"\w", around))


def quoted(name: str) -> str:
    """Returns a name as the field of a record has it, in quotes if it is a word of the language of proofs."""
    return f"«{name}»" if name in QUOTED else name


def shown_for_c(text: str, place: str) -> str:
    """Returns the same for a file of a crate for C, whose code names no parameter as a field."""
    return re.sub(f"(?P<name>{HIDDEN})", code_name, text) if place.endswith(".rt") else shown(text, place)


def code_name(found: re.Match[str]) -> str:
    """Returns a name in code for C: variables have the name with `_`."""
    said, line = name_of(found), found.string.rfind("\n", 0, found.start()) + 1
    before, behind = found.string[line : found.start()], found.string[found.end() : found.end() + 1]
    if inside(found) or before.strip().startswith("//") or before.endswith((".", "pub ")):
        return said
    if behind == "," and not before.strip():
        return f"{said}: {said}_"
    return said if behind == ":" else f"{said}_"


def code_line(line: str) -> str:
    """Returns a line of code: variables have the name with `_`."""
    text = line.strip()
    made = bool(re.match(r"(Ok\(|let value = )\w+ \{ ", text))

    def name(found: re.Match[str]) -> str:
        said, before = name_of(found), line[: found.start()]
        if text.startswith(("//", "#[")) or inside(found) or before.endswith((".", "pub ")):
            return said
        if line[found.end() :].startswith(" = value."):
            return quoted(said)
        return f"{said}: {said}_" if made else f"{said}_"

    return re.sub(f"(?P<name>{HIDDEN})", name, line)


def proof_name(found: re.Match[str]) -> str:
    """Returns a name in specs or proofs: variables, facts of `Fits` and labels have the name with `_`."""
    said, text = name_of(found), found.string
    line = text.rfind("\n", 0, found.start()) + 1
    before, behind = text[line : found.start()], text[found.end() : found.end() + 80]
    if before.startswith("--") or inside(found):
        return said
    if before.endswith("."):
        return f"{said}_" if before.endswith(("fits.", "fits.0.", "args.")) else said
    is_field = re.match(r"\s+=\s+(?!do\b|facts\b)", behind) and re.search(r"(^|[{;])\s*$", before)
    if before == "  pub ":
        record = text.rfind("pub record ", 0, line)
        is_field = re.match(r"pub record \w+Fields : Type", text[record:line])
    return quoted(said) if is_field else f"{said}_"
