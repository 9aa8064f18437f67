"""Draws the pictures of the pages as SVG: the layers of the crates, and the bits of a described header.

Boxes are filled, with dark text on a light colour, and what stands outside of them is of a middle grey: so both pictures
can be read on a light page and on a dark one.
"""
import re
from dataclasses import dataclass, replace
from html import escape

INK, GREY, LINE = "#1f2328", "#6e7681", "#8a9099"
COLOURS = ("#cfe2f7", "#d7efd0", "#fbe6b8", "#f4d3dd", "#ded6f3", "#cdebea", "#e8e1d5")
SANS, MONO = "Helvetica, Arial, sans-serif", "Menlo, Consolas, 'DejaVu Sans Mono', monospace"


@dataclass(frozen=True)
class Text:
    """A line of text: the place of its base line, and how it looks."""

    said: str
    x: float
    y: float
    size: int = 13
    font: str = SANS
    colour: str = INK
    anchor: str = "start"
    bold: bool = False

    def drawn(self) -> str:
        weight = ' font-weight="bold"' if self.bold else ""
        place = f'x="{self.x:g}" y="{self.y:g}" font-size="{self.size}"{weight} text-anchor="{self.anchor}"'
        return f'<text {place} font-family="{self.font}" fill="{self.colour}">{escape(self.said, quote=False)}</text>'

    def width(self) -> float:
        """Estimates the width of the line."""
        return len(self.said) * self.size * (0.61 if self.font == MONO else 0.56)


def box(x: float, y: float, width: float, height: float, fill: str, round_by: int = 0) -> str:
    corner = f' rx="{round_by}"' if round_by else ""
    place = f'x="{x:g}" y="{y:g}" width="{width:g}" height="{height:g}"{corner}'
    return f'<rect {place} fill="{fill}" stroke="{LINE}"/>'


def line(x1: float, y1: float, x2: float, y2: float) -> str:
    return f'<line x1="{x1:g}" y1="{y1:g}" x2="{x2:g}" y2="{y2:g}" stroke="{LINE}"/>'


def svg(width: float, height: float, title: str, source: str, parts: list[str]) -> str:
    """Puts the parts of a picture together."""
    size = f'width="{width:g}" height="{height:g}" viewBox="0 0 {width:g} {height:g}"'
    head = [f'<svg xmlns="http://www.w3.org/2000/svg" {size} role="img" aria-label="{escape(title)}">']
    head += [f"    <!-- Made by .ci/pictures from {source}. -->", f"    <title>{escape(title)}</title>"]
    return "\n".join([*head, *(f"    {it}" for it in parts), "</svg>", ""])


# The bits of a header.


@dataclass(frozen=True)
class Field:
    """A line of a description: the field's name, its bits, and the number that it is, if it is constant."""

    name: str
    bits: int
    constant: int | None = None


@dataclass(frozen=True)
class Header:
    """A description of constant widths, with one example: its bytes, and the value of each field."""

    doc: str
    fields: list[Field]
    example: bytes
    values: dict[str, str]


class Undrawable(ValueError):
    """What no picture has: a line of a description, or a crate without its words."""


def field_of(words: list[str]) -> Field:
    """Reads a line of a field."""
    match words:
        case ["const", bits, value, case]:
            return Field(re.sub(r"^(Wrong|Not|No)", "", case).lower(), int(bits), int(value, 0))
        case ["zeros", bits, *_]:
            return Field("zeros", int(bits), 0)
        case [name, "bool"]:
            return Field(name, 1)
        case [name, kind, bits] if re.fullmatch(r"[iu]\d+", kind) and bits.isdigit():
            return Field(name, int(bits))
    raise Undrawable(f"`{' '.join(words)}` has no picture")


def header_of(text: str) -> Header:
    """Reads a description and its first example."""
    doc, fields, example, values = "", [], b"", {}
    for written in filter(None, text.splitlines()):
        head, _, said = written.partition(":")
        words = head.split()
        if words[0] == "struct":
            doc = said.strip().rstrip(".")
        elif words[0] == "example":
            if not example:
                example = bytes.fromhex("".join(words[1:]))
                values = dict(it.split(" = ") for it in said.strip().split(", "))
        elif words[0] not in ("order", "error"):
            fields.append(field_of(words))
    if 8 * len(example) != sum(it.bits for it in fields):
        raise Undrawable("the first example is not as long as the fields")
    return Header(doc, fields, example, values)


WIDE, CELL, LEFT, TOP = 16, 44, 8, 34


@dataclass(frozen=True)
class Place:
    """Where a field is drawn: its row, and its first and its last bit there. A field over two rows is refused."""

    field: Field
    row: int
    first: int
    colour: str

    def x(self) -> float:
        return LEFT + CELL * self.first

    def width(self) -> float:
        return CELL * self.field.bits


def places(fields: list[Field]) -> list[Place]:
    """Gives each field its row and its colour."""
    found, at = [], 0
    for number, it in enumerate(fields):
        if at // WIDE != (at + it.bits - 1) // WIDE:
            raise Undrawable(f"`{it.name}` goes over the end of a row of {WIDE} bits")
        found.append(Place(it, at // WIDE, at % WIDE, COLOURS[number % len(COLOURS)]))
        at += it.bits
    return found


def label(field: Field, values: dict[str, str]) -> str:
    return f"{field.name} = {values.get(field.name, field.constant)}"


def labels(of_row: list[Place], values: dict[str, str], y: float) -> tuple[list[str], float]:
    """Draws the names below a row: in the field's own width, or lower with a line to the field. Gives the end of all."""
    drawn, low = [], y + 16
    # From the right, so that no line crosses a name.
    for it in reversed(of_row):
        middle = it.x() + it.width() / 2
        said = Text(label(it.field, values), middle, y + 16, font=MONO, colour=GREY, anchor="middle")
        if said.width() > it.width():
            low += 17
            said = Text(said.said, middle + 6, low, font=MONO, colour=GREY)
            drawn += [line(middle, y, middle, low - 4), line(middle, low - 4, middle + 4, low - 4)]
        drawn.append(said.drawn())
    return drawn, low + 12


def header_picture(text: str, source: str) -> str:
    """Draws the bits of a header, with the example's value of each bit and each field."""
    header = header_of(text)
    bits = "".join(f"{it:08b}" for it in header.example)
    placed = places(header.fields)
    title = f"{header.doc}: {header.example.hex(' ').upper()}"
    parts = [Text(title, LEFT, 20, size=14, colour=GREY, bold=True).drawn()]
    y = float(TOP)
    for row in range(placed[-1].row + 1):
        of_row = [it for it in placed if it.row == row]
        for it in of_row:
            parts.append(box(it.x(), y, it.width(), 32, it.colour))
        for bit in range(sum(it.field.bits for it in of_row)):
            x = LEFT + CELL * (bit + 0.5)
            parts.append(Text(bits[WIDE * row + bit], x, y + 21, size=15, font=MONO, anchor="middle").drawn())
        drawn, y = labels(of_row, header.values, y + 32)
        parts += drawn
    return svg(2 * LEFT + CELL * WIDE, y, title, source, parts)


# The layers of the crates.

# What each crate holds, in a few words.
HOLDS = {
    "bitstream_number": "integer types as numbers; bits and encodings",
    "bitstream_count": "errors; counts of bits; decoders and encoders",
    "bitstream_order": "orders of bits; streams; the port; kernels",
    "bitstream_stream": "readers and writers of bits and of whole bytes",
    "bitstream_sink": "counters and recorders",
    "bitstream_value": "typed values; types of your own; prefix codes",
    "bitstream_io": "all public names; call sequences; the theorem",
    "bitstream_format": "formats as values, with their laws",
    "bitstream_callers": "callers that the guide shows",
    "bitstream_messages": "printed formats, choices and sizes",
    "network_messages": "messages of networks, printed",
    "media_messages": "messages of media, printed",
    "protocols": "headers of protocols, printed from descriptions",
    "bitstream_formats": "FLAC, H.264, AV1 and others",
    "bitfields_core": "layouts of bit fields",
    "flac_codec": "FLAC files, lossless",
    "bitfields": "the program",
    "formats": "the program",
    "wav_header": "a whole program, printed from a description",
    "packet_headers": "a printed program, over a printed format",
    "test_streams": "streams of the tests",
    "bitstream_bench": "tests",
    "bitstream_vectors": "test vectors",
    "bits_c": "bits for C, read and written",
    "ccsds_c": "a printed format for C, Rust and Python",
    "protocols_c": "formats whose size varies, for C",
    "network_messages_c": "messages with checksums, for C",
    "bench_port": "functions of the benchmark",
    "bench_parsers": "functions of the benchmark",
}
LIBRARY = "bitstream_io"
WIDTH, MARGIN, GAP = 760, 8, 10


def crates_of(text: str) -> dict[str, list[str]]:
    """Reads crates.txt: each crate, with the crates of the repository that it depends on."""
    lines = [it.split(":") for it in text.splitlines() if it and not it.startswith("#")]
    below = {name.split()[0]: named.split() for name, named in lines}
    return {name: [it for it in named if it in below] for name, named in below.items()}


def all_below(crates: dict[str, list[str]], name: str) -> set[str]:
    """Gives every crate that a crate depends on, directly or not."""
    found: set[str] = set()
    for it in crates[name]:
        found |= {it} | all_below(crates, it)
    return found


def uses(crates: dict[str, list[str]], name: str) -> list[str]:
    """Gives the crates that a crate depends on, without those that another of them depends on."""
    indirect = {low for it in crates[name] for low in all_below(crates, it)}
    return [it for it in crates[name] if it not in indirect]


def level(crates: dict[str, list[str]], name: str) -> int:
    """Gives how many crates are below a crate, one on another."""
    return 1 + max((level(crates, it) for it in crates[name]), default=-1)


def wrapped(said: str, width: float, size: int, font: str) -> list[str]:
    """Breaks a text into lines of a width."""
    lines = [""]
    for word in said.split():
        longer = f"{lines[-1]} {word}".strip()
        fits = Text(longer, 0, 0, size, font).width() <= width
        lines = [*lines[:-1], longer] if fits or not lines[-1] else [*lines, word]
    return lines


def said_of(name: str, named: list[str], width: float) -> list[Text]:
    """Gives the lines of a crate's box, from its corner: its name, what it holds, and what it uses."""
    if name not in HOLDS:
        raise Undrawable(f"tools/pictures.py does not say what `{name}` holds")
    texts = [(name, MONO, 12)] + [(it, SANS, 12) for it in wrapped(HOLDS[name], width - 16, 12, SANS)]
    texts += [(it, MONO, 11) for it in wrapped("uses " + ", ".join(named), width - 16, 11, MONO)] if named else []
    return [
        Text(said, 8, 19 + 17 * number, size, font, bold=number == 0) for number, (said, font, size) in enumerate(texts)
    ]


def user_row(row: list[str], crates: dict[str, list[str]], y: float) -> tuple[list[str], float]:
    """Draws a row of crates above the library: those that no crate uses in another colour. Gives the row's end."""
    width = (WIDTH - GAP * (len(row) - 1)) / len(row)
    boxes = [said_of(it, uses(crates, it), width) for it in row]
    height = 10 + 17 * max(map(len, boxes))
    parts = []
    for place, texts in enumerate(boxes):
        x = MARGIN + place * (width + GAP)
        is_used = any(row[place] in named for named in crates.values())
        parts.append(box(x, y, width, height, COLOURS[1] if is_used else COLOURS[2], 4))
        parts += [replace(it, x=x + it.x, y=y + it.y).drawn() for it in texts]
    return parts, y + height + GAP


MOST, LOW_HEIGHT = 3, 30


def user_rows(crates: dict[str, list[str]], library: list[str]) -> list[list[str]]:
    """Gives the crates above the library in rows, the highest first. No row has more than three."""
    users = [it for it in crates if it not in library]
    levels: dict[int, list[str]] = {}
    for it in users:
        above = [level(crates, user) for user in users if it in crates[user]]
        # A crate that depends on none is drawn beside the lowest of its users.
        levels.setdefault(level(crates, it) or min(above), []).append(it)
    rows = []
    for _, named in sorted(levels.items(), reverse=True):
        count = -(-len(named) // MOST)
        ends = [len(named) * number // count for number in range(count + 1)]
        rows += [named[start:end] for start, end in zip(ends, ends[1:])]
    return rows


def layers_picture(text: str, source: str) -> str:
    """Draws the crates: the library's one on another, and above them its users in rows."""
    crates = crates_of(text)
    library = sorted(all_below(crates, LIBRARY) | {LIBRARY}, key=lambda it: level(crates, it))
    parts, y = [], float(MARGIN)
    for row in user_rows(crates, library):
        drawn, y = user_row(row, crates, y)
        parts += drawn
    said = "The library: each crate uses the crates below it."
    parts.append(Text(said, MARGIN, y + 12, colour=GREY, bold=True).drawn())
    y += 22
    for it in reversed(library):
        parts.append(box(MARGIN, y, WIDTH, LOW_HEIGHT, COLOURS[0], 4))
        parts.append(Text(it, MARGIN + 10, y + 20, font=MONO, bold=True).drawn())
        parts.append(Text(HOLDS[it], MARGIN + 190, y + 20).drawn())
        y += LOW_HEIGHT + 4
    return svg(WIDTH + 2 * MARGIN, y + 4, "The crates, lowest at the bottom", source, parts)
