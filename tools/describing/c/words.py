"""Names that other languages do not allow, and the layout of their comments."""
from __future__ import annotations

import textwrap

from describing import model as m
from describing import picture

C_WORDS = frozenset(
    """alignas alignof and asm auto bool break case catch char class co_await concept const constexpr continue default
    delete do double else enum explicit export extern false float for friend goto if inline int long mutable namespace
    new noexcept not nullptr operator or private protected public register requires restrict return short signed sizeof
    static struct switch template this throw true try typedef typeid typename typeof union unsigned using virtual void
    volatile while xor""".split()
)
PYTHON_WORDS = frozenset(
    """False None True and as assert async await break class continue def del elif else except finally for from global if
    import in is lambda nonlocal not or parse pack pass raise return try while with yield""".split()
)
COLUMNS = 100


def c_name(name: str) -> str:
    """Returns the name of a field in C and C++."""
    return name + "_" * (name in C_WORDS)


def python_name(name: str) -> str:
    """Returns the name of a field in Python."""
    return name + "_" * (name in PYTHON_WORDS)


def drawn(description: m.Description) -> list[str]:
    """Returns the lines of the picture of the bits."""
    return [it.rstrip() for it in picture.text(description.kinds, in_code=True) if it.strip() and "```" not in it]


def paragraph(text: str, first: str, other: str) -> list[str]:
    """Returns a text in lines, after a prefix each."""
    return textwrap.wrap(text, COLUMNS, initial_indent=first, subsequent_indent=other, break_long_words=False)


def in_comment(text: str) -> str:
    """Returns a text as a comment of C may hold it."""
    return text.replace("*/", "* /").replace("/*", "/ *")


def in_docstring(text: str) -> str:
    """Returns a text as a docstring of Python may hold it, also at its end."""
    text = text.replace("\\", "\\\\")
    return text.replace('"', '\\"') if '"""' in text or text.endswith('"') else text


def c_comment(text: str, indent: str = "") -> list[str]:
    """Returns a comment of C."""
    lines = paragraph(in_comment(text), f"{indent}/* ", f"{indent} * ")
    return [*lines[:-1], f"{lines[-1]} */"]


def doc(text: str, indent: str = "") -> list[str]:
    """Returns a doc comment of Rust."""
    return paragraph(text, f"{indent}/// ", f"{indent}/// ")


def quoted(text: str) -> str:
    """Returns a string literal of C, Rust and Python."""
    return '"' + text.replace("\\", "\\\\").replace('"', '\\"') + '"'
