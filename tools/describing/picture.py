"""The picture of a header, in rows of 32 bits as RFCs draw it: as text and as SVG."""
from __future__ import annotations

from dataclasses import dataclass, replace
from html import escape
from typing import Callable

from describing import model as m
from describing.table import meaning

WIDE = 32
CELL, HIGH, TOP, LEFT = 24, 34, 26, 2
LETTER = 0.61  # the width of a letter of a font of equal widths, in parts of its size


@dataclass(frozen=True)
class Cell:
    """A cell: `bits` of a line in one row, or a whole row (None) for a line of no constant number of bits."""

    text: str
    bits: int | None
    index: int


Row = list[Cell]


def said(kind: m.Kind, kinds: tuple[m.Kind, ...]) -> str:
    """Returns the text in brackets for a line of no constant number of bits, which is one of `kinds`."""
    match kind:
        case m.Unary():
            return "zeros up to a 1" if kind.stop else "ones up to a 0"
        case m.Groups():
            return f"groups of {kind.group} bits"
        case m.Size(groups=m.Groups(group=group)):
            return f"groups of {group} bits"
        case m.Golomb():
            return f"Exp-Golomb, {'se' if kind.signed else 'ue'}"
        case m.Count():
            return "Exp-Golomb, ue"
        case m.Pad():
            return f"zeros, up to a multiple of {kind.unit} bits"
        case m.Varint() | m.Size():
            return "1, 2, 4 or 8 bytes"
        case m.Part():
            return kind.use.name
        case m.Optional() | m.If():
            return f"{kind.use.name}, if it is there"
        case m.List(item=m.Octet()):
            return f"{kind.name}_count bytes"
        case m.List(power=m.Power() as power):
            return f"{power.spelled} of {m.item_type(kind.item)}{f', if {power.there}' * bool(power.there)}"
        case m.List():
            return f"{kind.name}_count{f' + {kind.less}' * bool(kind.less)} of {m.item_type(kind.item)}"
        case m.Sized() | m.Fill():
            held = m.held_item(kind)
            of = f"{held.name}, of " if isinstance(held, m.Use) else ""
            size = next(it.bytes for it in kinds if isinstance(it, m.Size) and it.target == kind.name)
            return f"{of}{size} bytes"
        case m.Choose():
            names = [it.case for it in kind.arms]
            return ", ".join(names[:-1]) + " or " * (len(names) > 1) + names[-1] + f" {m.end_text(kind)}" * kind.to_end
        case m.Rest():
            what = "bytes" if isinstance(kind.item, m.Octet) else m.item_type(kind.item)
            return f"{what} {m.end_text(kind)}"
        case m.Blocks():
            return "blocks up to an empty one"
        case m.UpToLast():
            return f"{kind.use.name} up to the last one"
        case m.Until():
            what = "bytes" if isinstance(kind.item, m.Octet) else kind.item.base
            return f"{what} up to {kind.stop}"
    return ""


def pieces(bits: int, used: int) -> list[int]:
    """Splits `bits` into the bits of each row, of which the first one has `used` bits already."""
    found = []
    while bits:
        found.append(min(bits, WIDE - used))
        used, bits = (used + found[-1]) % WIDE, bits - found[-1]
    return found


def name_of(kind: m.Kind) -> str:
    """Returns the name of a line as the description has it: a flag has that of its part."""
    return kind.target if isinstance(kind, m.Flag) else ordered(kind, m.title(kind))


def label_of(kind: m.Kind) -> str:
    """Returns the name of a line in code."""
    return ordered(kind, m.label(kind))


def ordered(kind: m.Kind, name: str) -> str:
    """Returns the name of a line, with the order of its bytes if it has one of its own."""
    return f"{name} {m.own_order(kind)}".rstrip()


def rows_of(kinds: tuple[m.Kind, ...], named: Callable[[m.Kind], str] = name_of) -> list[Row]:
    """Returns the cells of each row."""
    rows: list[Row] = []
    row: Row = []
    for index, kind in enumerate(kinds):
        bits = m.bits(kind)
        if bits is None:
            rows += [row] * bool(row) + [[Cell(f"{named(kind)} ({said(kind, kinds)})", None, index)]]
            row = []
            continue
        parts = pieces(bits, width(row))
        for k, n in enumerate(parts):
            row.append(Cell(named(kind) if k == parts.index(max(parts)) else "", n, index))
            if width(row) == WIDE:
                rows, row = rows + [row], []
    return rows + [row] * bool(row)


def width(row: Row) -> int:
    """Returns the number of bits of a row."""
    return sum(it.bits or 0 for it in row)


def whole(row: Row) -> bool:
    """Returns true if one line fills a row."""
    return len(row) == 1 and row[0].bits == WIDE


def shortened(rows: list[Row]) -> list[tuple[Row, int]]:
    """Keeps one of several whole rows of a field, each with the number of rows that it replaces."""
    found: list[tuple[Row, int]] = []
    for row in rows:
        if whole(row) and not row[0].text and found and whole(found[-1][0]):
            found[-1] = (found[-1][0], found[-1][1] + 1)
        else:
            found.append((row, 1))
    return found


def text(kinds: tuple[m.Kind, ...], in_code: bool = False) -> list[str]:
    """Returns the picture as lines of text, in a code block.

    With `in_code` it has the names that lines have in code, as `has_layers`, and each constant is decimal.
    """
    if in_code:
        kinds = tuple(replace(it, digits="") if isinstance(it, m.Const) else it for it in kinds)
    tens = "".join(f"{k // 10} " if k % 10 == 0 else "  " for k in range(WIDE)).rstrip()
    out, above = [f" {tens}", " " + " ".join(str(k % 10) for k in range(WIDE))], 0
    for row, count in shortened(rows_of(kinds, label_of if in_code else name_of)):
        wide = WIDE if row[0].bits is None else width(row)
        out.append("+-" * max(above, wide) + "+")
        if row[0].bits is None:
            out.append(f"/{row[0].text.center(2 * WIDE - 1)}/")
        else:
            more = f" ({count} rows)" if count > 1 else ""
            cells = ((it.text + more, 2 * (it.bits or 0) - 1) for it in row)
            out.append("|" + "".join(f"{name[:n].center(n)}|" for name, n in cells))
        above = wide
    return ["", "```text", *out, "+-" * above + "+", "```"]


# ---- as SVG


def svg_text(name: str, wide: int, x: float, y: float) -> str:
    """Returns the name of a cell, in smaller letters or shortened if it has not the room."""
    room, size = wide * CELL - 2, 12.0
    if wide <= 2:
        size = next((it for it in (12, 10, 9, 8) if len(name) * it * LETTER <= room), 7)
    most = int(room / (size * LETTER))
    fits = name if len(name) <= most else f"{name[: most - 1]}…"
    style = f' style="font-size:{size:g}px"' if size != 12 else ""
    return f'<text x="{x}" y="{y}"{style}>{escape(fits)}</text>'


def svg_cell(it: Cell, count: int, x: int, y: int, kinds: tuple[m.Kind, ...], hue: int) -> str:
    """Returns a cell, with a title that says what the line is."""
    kind, wide = kinds[it.index], it.bits or WIDE
    name = it.text + (f" ({count} rows)" if count > 1 else "")
    bits = m.bits(kind)
    size = said(kind, kinds) if bits is None else f"{bits} bit{'s' * (bits != 1)}"
    tip = f"{name_of(kind)}: {size}. {meaning(kind)}".strip()
    shape = f'<rect x="{x}" y="{y}" width="{wide * CELL}" height="{HIGH}"/>'
    style = f'style="--h:{hue}"' if m.is_field(kind) else ""
    group = f'<g class="cell{" open" * (bits is None)}{"" if style else " plain"}" data-kind="{it.index}" {style}>'
    middle = svg_text(name, wide, x + wide * CELL / 2, y + HIGH / 2 + 4.5)
    return f"{group}<title>{escape(tip)}</title>{shape}{middle}</g>"


def svg(kinds: tuple[m.Kind, ...], hues: list[int]) -> str:
    """Returns the picture as an SVG element; each line has a hue, in degrees."""
    rows = shortened(rows_of(kinds))
    out = [f'<text class="n" x="{LEFT + (k + 0.5) * CELL}" y="{TOP - 8}">{k}</text>' for k in range(WIDE)]
    for number, (row, count) in enumerate(rows):
        x = LEFT
        for it in row:
            out.append(svg_cell(it, count, x, TOP + number * HIGH, kinds, hues[it.index]))
            x += (it.bits or WIDE) * CELL
    box = f"0 0 {WIDE * CELL + 2 * LEFT} {TOP + len(rows) * HIGH + 4}"
    return f'<svg viewBox="{box}" role="img" aria-label="The picture of the header">{"".join(out)}</svg>'


HUES = (205, 30, 145, 280, 55, 175, 330, 95, 240, 10, 120, 300)
# The style of a picture that stands alone. It is dark if the page around it is.
STYLE = """
svg { font-family: ui-monospace, monospace; --ink: #1d2126; --soft: #6a7078; --card: #fff; --s: 72%; --l: 86%; }
@media (prefers-color-scheme: dark) { svg { --ink: #e4e6e8; --soft: #959da6; --card: #1b1f24; --s: 42%; --l: 27%; } }
text { fill: var(--ink); font-size: 12px; text-anchor: middle; }
.n { fill: var(--soft); font-size: 9px; }
rect { fill: hsl(var(--h) var(--s) var(--l)); stroke: var(--soft); stroke-width: 1; }
.plain rect { fill: var(--card); }
.open rect { stroke-dasharray: 6 3; }
"""


def hue(index: int) -> int:
    """Returns the hue of a line, in degrees."""
    return HUES[index % len(HUES)]


def alone(kinds: tuple[m.Kind, ...]) -> str:
    """Returns the picture as an SVG document."""
    drawn = svg(kinds, [hue(k) for k in range(len(kinds))])
    return drawn.replace("<svg ", '<svg xmlns="http://www.w3.org/2000/svg" ', 1).replace(
        ">", f"><style>{STYLE}</style>", 1
    )
