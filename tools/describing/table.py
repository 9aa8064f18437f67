"""A table of the fields of a record: position, bits, name, value and meaning."""
from __future__ import annotations

from typing import Callable, TypeAlias

from describing import model as m
from describing.flat import Plan
from describing.input import Value
from describing.read import Node

LONG = 48
# The colours of a terminal: for the heading, for lines that are not fields, and for names in turn.
BOLD, DIM, OFF = "\x1b[1m", "\x1b[2m", "\x1b[0m"
HUES = [f"\x1b[{it}m" for it in (36, 32, 33, 35, 34, 31)]


# A row of the table: position, bits, name, value and meaning, and true if it is not a field.
Row: TypeAlias = tuple[str, str, str, str, str, bool]


def shortened(text: str, most: int = LONG) -> str:
    """Returns the start of a long text."""
    return text if len(text) <= most else f"{text[: most - 1]}…"


def value_text(value: Value) -> str:
    """Returns the text of a value."""
    if type(value) is int:
        return str(value)
    match value:
        case None:
            return "none"
        case bool():
            return "true" if value else "false"
        case bytes():
            return (value.hex(" ") if len(value) <= 64 else f"{value[:64].hex(' ')} …") or "no bytes"
        case list():
            return f"{len(value)} items" if any(isinstance(it, dict) for it in value) else listed(value)
        case dict() if len(value) == 1 and not isinstance(held := next(iter(value.values())), dict):
            return f"{next(iter(value))}({value_text(held)})"
        case dict():
            return "" if len(value) != 1 else next(iter(value))
    return str(value)


def node_text(node: Node) -> str:
    """Returns the text of the value of a node; a record has its rows below it, and no text of its own."""
    is_record = isinstance(node.value, dict) and node.nodes and not isinstance(node.kind, m.Choose)
    return "" if is_record else value_text(node.value)


def listed(value: list[Value]) -> str:
    """Returns the text of a list, with its letters if all items are letters."""
    letters = [chr(it) for it in value if isinstance(it, int) and 32 <= it < 127]
    said = f"[{' '.join(value_text(it) for it in value)}]"
    return f'{said} "{"".join(letters)}"' if len(letters) == len(value) and len(value) > 2 else said


NUMBERS = (m.Number, m.Const, m.Tag)


def number_of(node: Node) -> str:
    """Returns the number of a case, or a number in hex, after `=`."""
    value, kind = node.value, node.kind
    if type(value) is int:
        return f"= {value:#x}" if value > 9 and isinstance(kind, NUMBERS) else ""
    if isinstance(kind, m.Enum) and isinstance(value, str):
        return f"= {kind.enum.number(value)}"
    return ""


def meaning(kind: m.Kind | None) -> str:
    """Returns the comment of a line, or what a line is that has no comment."""
    match kind:
        case None:
            return ""
        case m.Const() | m.Check():
            return f"else {kind.error}: {kind.doc}"
        case m.Skip():
            return "any bits"
        case m.Flag():
            return f"1 if {kind.target} is there"
        case m.Pad():
            return f"else {kind.error}: {kind.doc}"
        case m.Count():
            return f"the number of items of {kind.target}"
        case m.Tag():
            return "the number of the case"
        case m.Size():
            return f"the size of {kind.target}"
    return kind.doc


# The bit in its byte.
BIT = ["  ", *(f".{it}" for it in range(1, 8))]


def place(bit: int) -> str:
    """Returns a position: the byte in hex, and the bit in it."""
    return f"{bit >> 3:06x}{BIT[bit & 7]}"


class Table:
    """Prints records as tables, with colours or without. What is the same for each record is computed once."""

    def __init__(self, colours: bool) -> None:
        self.bold, self.dim, self.off = (BOLD, DIM, OFF) if colours else ("", "", "")
        self.hues = HUES if colours else [""]
        self.lines: dict[tuple[int, int], tuple[str, str, bool]] = {}

    def line(self, kind: m.Kind | None, name: str, depth: int) -> tuple[str, str, bool]:
        """Returns the name and the meaning of a line, and true if it is not a field."""
        if kind is None:
            return "  " * depth + name, "", False
        key = (id(kind), depth)
        found = self.lines.get(key)
        if found is None:
            found = self.lines[key] = ("  " * depth + (name or m.title(kind)), meaning(kind), not m.is_field(kind))
        return found

    def rows(self, nodes: list[Node], depth: int, found: list[Row]) -> None:
        """Appends the rows of some nodes, and of their parts."""
        for it in nodes:
            kind, value = it.kind, it.value
            name, means, hidden = self.line(kind, it.name, depth)
            if value and type(kind) is m.Skip:
                means = "any bits, here not zero"
            text, number = shortened(node_text(it)), number_of(it)
            said = f"{text} {number}" if text and number else text or number
            found.append((place(it.start), str(it.end - it.start), name, said, means, hidden))
            if it.nodes:
                self.rows(it.nodes, depth + 1, found)

    def text(self, number: int, start: int, end: int, nodes: list[Node]) -> str:
        """Returns the table of a record."""
        found: list[Row] = []
        self.rows(nodes, 0, found)
        places, bits, names, values, _, _ = zip(*found)
        a, b, c, d = (len(max(column, key=len)) for column in (places, bits, names, values))
        out = [f"{self.bold}record {number}, byte {start // 8:#x}, {(end - start) // 8} bytes{self.off}"]
        hues, dim, off = self.hues, self.dim, self.off
        for k, (at, wide, name, said, means, plain) in enumerate(found):
            hue = dim if plain else hues[k % len(hues)]
            line = f"  {at.ljust(a)} {wide.rjust(b)}  {hue}{name.ljust(c)}{off}  {said.ljust(d)}  {dim}{means}{off}"
            out.append(line.rstrip())
        return "\n".join(out)


class FlatTable:
    """Prints records whose lines have constant places, as `Table` does, from the number of each record."""

    def __init__(self, plan: Plan, colours: bool) -> None:
        self.bold, self.off = (BOLD, OFF) if colours else ("", "")
        dim, hues = (DIM, HUES) if colours else ("", [""])
        self.size, self.forms = plan.size, dict[int, str]()
        self.takes = [(shift, most, said(kind, most, make)) for kind, _, shift, most, make in plan.lines]
        self.offsets = [at >> 3 for _, at, _, _, _ in plan.lines]
        self.rests = [(k, it[2], it[3]) for k, it in enumerate(plan.lines) if isinstance(it[0], m.Skip)]
        self.parts = list[tuple[str, str]]()
        wide, long = (max(map(len, it)) for it in zip(*((str(m.bits(it[0])), m.title(it[0])) for it in plan.lines)))
        for k, (kind, at, _, most, _) in enumerate(plan.lines):
            name = f"{hues[k % len(hues)] if m.is_field(kind) else dim}{m.title(kind).ljust(long)}{self.off}"
            before = f"{BIT[at & 7]} {str(most.bit_length()).rjust(wide)}  {name}  "
            means = "%s" if isinstance(kind, m.Skip) else meaning(kind).replace("%", "%%")
            self.parts.append((before.replace("%", "%%"), f"  {dim}{means}{self.off}".rstrip()))

    def form(self, width: int) -> str:
        """Returns the form of records whose longest value has `width` letters."""
        if width not in self.forms:
            rows = [f"  %06x{before}%{f'-{width}' if after else ''}s{after}" for before, after in self.parts]
            heading = f"{self.bold}record %d, byte %#x, {self.size} bytes{self.off}"
            self.forms[width] = "\n".join([heading, *rows])
        return self.forms[width]

    def text(self, number: int, start: int, word: int) -> str:
        """Returns the table of a record."""
        values = [text((word >> shift) & most) for shift, most, text in self.takes]
        width, byte = len(max(values, key=len)), start >> 3
        held: list[int | str] = [number, byte]
        for offset, value in zip(self.offsets, values):
            held += (byte + offset, value)
        for k, shift, most in reversed(self.rests):
            held.insert(2 * k + 4, "any bits, here not zero" if (word >> shift) & most else "any bits")
        return self.form(width) % tuple(held)


def said(kind: m.Kind, most: int, make: Callable[[int], Value] | None) -> Callable[[int], str]:
    """Returns the function that gives the text of a value of its number."""

    def text(number: int) -> str:
        value = number if make is None else make(number)
        node = Node("", kind, 0, 0, value, [])
        return " ".join([shortened(value_text(value)), number_of(node)]).strip()

    if most < 256:
        return [text(it) for it in range(most + 1)].__getitem__
    if isinstance(kind, m.Number) and not kind.integer.signed:
        return lambda number: f"{number} = {number:#x}" if number > 9 else str(number)
    return text
