"""The layout of printed text: long lines are broken as `rt fmt` wants them."""
from __future__ import annotations

import re

COLUMNS = 120


def filled(text: str, indent: int) -> str:
    """Breaks a line at blanks, but in no list: there `rt fmt` would put each item on a line of its own."""
    first = len(text) - len(text.lstrip())
    lines: list[str] = []
    for word in re.split(r"(?<!,) ", text.strip()):
        if lines and len(lines[-1]) + 1 + len(word) <= COLUMNS:
            lines[-1] += f" {word}"
        else:
            lines.append(" " * (indent if lines else first) + word)
    return "\n".join(lines)


def remark(text: str) -> str:
    """Breaks a comment of specs or proofs at blanks; each of its lines begins with `--`."""
    lines: list[str] = []
    for word in text.split(" ")[1:]:
        if lines and len(lines[-1]) + 1 + len(word) <= COLUMNS:
            lines[-1] += f" {word}"
        else:
            lines.append(f"-- {word}")
    return "\n".join(lines)


def wrapped(text: str) -> str:
    """Breaks the long lines of specs and proofs, except imports."""
    lines = []
    for it in text.split("\n"):
        indent = len(it) - len(it.lstrip())
        if len(it) > COLUMNS and not it.startswith("use "):
            it = remark(it) if it.startswith("-- ") else filled(it, indent + 4)
        lines.append(it)
    return "\n".join(lines)


def article(name: str) -> str:
    """Returns the name of a type after its article."""
    return f"{'an' if name[0] in 'AEIOU' else 'a'} `{name}`"
