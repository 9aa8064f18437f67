"""A page that links the bytes of a file with their fields: one file, which needs no network.

The records are in pages. Each page is a packed script of its own: a browser unpacks and draws one at a time, so that a
file of many megabytes opens as fast as a small one.
"""
from __future__ import annotations

import base64
import gzip
import json
import os
import re
from dataclasses import dataclass, field
from html import escape
from typing import Iterable, TypeAlias, Union

from describing import model as m
from describing import picture, table
from describing.read import Node
from describing.records import Record

RECORDS, BYTES = 200, 8192  # of one page, which has at least one record
SHOWN = 1 << 16  # bytes of a page that are shown, of a longer record
MOST = 100000  # records of all pages
LISTED = 1000  # refused records that the page lists above the fields
HERE = os.path.join(os.path.dirname(os.path.abspath(__file__)), "page")
Json: TypeAlias = Union[str, int, None, list["Json"], dict[str, "Json"]]


def type_text(kind: m.Kind | None) -> str:
    """Returns the type of a field, or the word of another line."""
    if kind is None:
        return ""
    said = m.rust_type(kind) if m.is_field(kind) else type(kind).__name__.lower()
    return f"{said} {m.own_order(kind)}".rstrip()


def cases(kind: m.Kind | None) -> list[Json]:
    """Returns the cases of an enum or a choice, each with its number."""
    found: list[tuple[int | None, str]] = []
    held = m.held_item(kind) if kind else None
    if isinstance(held, m.EnumType):
        found = [*held.cases, *[(None, held.other)] * bool(held.other)]
    if isinstance(kind, m.Choose):
        found = [(it.number, it.case) for it in kind.arms]
    return [[".." if number is None else number, name] for number, name in found]


def range_text(kind: m.Kind | None) -> str:
    """Returns the range of a number."""
    found = m.range_of(kind) if kind else None
    return f"{found[0]} to {found[1]}" if found else ""


class Kinds:
    """The descriptions of a page with their pictures, and the lines that its nodes refer to, each once."""

    def __init__(self, descriptions: list[m.Description]) -> None:
        self.found: dict[int, int] = {}
        self.said: list[Json] = []
        self.pictures: list[str] = []
        self.names: dict[tuple[str, str], int] = {}
        self.places: dict[int, tuple[int, int, int]] = {}
        for it in descriptions:
            self.take(it, it.order)

    def take(self, it: m.Description, order: str) -> None:
        """Takes a description, and the descriptions of its parts, which have the order of the whole."""
        key = it.name, it.doc
        if key not in self.names:
            self.names[key] = len(self.names)
            drawn = picture.svg(it.kinds, [picture.hue(k) for k in range(len(it.kinds))])
            caption = f"<figcaption>{escape(it.name)}: {escape(it.doc)}</figcaption>"
            self.pictures.append(f'<figure data-of="{self.names[key]}">{caption}{drawn}</figure>')
        for index, kind in enumerate(it.kinds):
            self.places[id(kind)] = self.names[key], index, int(order == "BE")
            for use in m.uses(kind):
                self.take(use.description, order)

    def index(self, kind: m.Kind | None) -> int:
        """Returns the number of a line among the lines of the page."""
        if id(kind) not in self.found:
            self.found[id(kind)] = len(self.said)
            hidden = int(kind is not None and not m.is_field(kind))
            of, line, big = self.places.get(id(kind), (-1, -1, -1))
            doc = table.meaning(kind)
            self.said.append([type_text(kind), doc, range_text(kind), cases(kind), hidden, of, line, big])
        return self.found[id(kind)]


def tree(nodes: list[Node], kinds: Kinds) -> list[Json]:
    """Returns nodes: the name, the first bit, the bits, the value, the line, and the parts."""
    found: list[Json] = []
    for it in nodes:
        name = it.name or (m.title(it.kind) if it.kind else "")
        value = table.shortened(f"{table.node_text(it)} {table.number_of(it)}".strip(), 160)
        found.append([name, it.start, it.end - it.start, value, kinds.index(it.kind), tree(it.nodes, kinds)])
    return found


@dataclass
class Page:
    """Some records: the number of the first one, its first bit, and the nodes of each, or why it has none."""

    record: int
    start: int
    nodes: list[Json] = field(default_factory=list)
    end: int = 0

    def is_full(self) -> bool:
        """Returns true if no further record belongs on the page."""
        return len(self.nodes) >= RECORDS or self.end - self.start >= 8 * BYTES


def pages_of(records: Iterable[Record], kinds: Kinds) -> tuple[list[Page], list[Record]]:
    """Returns the pages of records, and the records that are refused or torn."""
    pages: list[Page] = []
    wrong: list[Record] = []
    for it in records:
        if not pages or pages[-1].is_full():
            pages.append(Page(it.number, it.start))
        pages[-1].nodes.append([it.start, it.end - it.start, tree(it.nodes, kinds), it.why])
        pages[-1].end = it.end
        if it.why:
            wrong.append(it)
    return pages, wrong


def packed(k: int, page: Page, data: bytes, end: int) -> str:
    """Returns the script of a page, whose bytes go up to `end`; they begin and end at multiples of 16."""
    first = page.start // 128 * 16
    shown = data[first : min(-(-end // 16) * 16, first + SHOWN)]
    said = {"base": first, "bytes": base64.b64encode(shown).decode(), "records": page.nodes}
    text = gzip.compress(json.dumps(said, separators=(",", ":")).encode(), mtime=0)
    return f'<script id="page-{k}" type="application/gzip">{base64.b64encode(text).decode()}</script>'


def linked(it: Record, text: str = "") -> str:
    """Returns a link to a record, with a text or why the record is refused or torn."""
    return f'<a href="#at={it.start}">{escape(text or it.why)}</a>'


def reasons(wrong: list[Record], count: int, notes: list[str]) -> str:
    """Returns the lines above the fields: of many refused records one line, which opens the list of the others."""
    refused = [it for it in wrong if not it.torn]
    lines = [linked(it) for it in wrong if it.torn] + [escape(it) for it in notes]
    if len(refused) == 1:
        lines.insert(0, linked(refused[0]))
    elif refused:
        first = linked(refused[0], f"the first at byte {refused[0].start // 8}")
        listed = [linked(it) for it in refused[:LISTED]]
        listed += [f"and {len(refused) - LISTED} more"] * (len(refused) > LISTED)
        items = "".join(f"<li>{it}</li>" for it in listed)
        said = f"{len(refused)} of {count} records are refused: {first}"
        lines.insert(0, f"<details><summary>{said}</summary><ul>{items}</ul></details>")
    return f'<div class="why">{"".join(f"<div>{it}</div>" for it in lines)}</div>' if lines else ""


def counts(wrong: list[Record], count: int) -> str:
    """Returns the number of records, and how many of them are refused or torn."""
    torn = sum(it.torn for it in wrong)
    refused = len(wrong) - torn
    parts = ", ".join([f"{refused} refused"] * bool(refused) + [f"{torn} torn"] * bool(torn))
    return f"{count} record{'s' * (count != 1)}" + f" ({parts})" * bool(parts)


def page(descriptions: list[m.Description], data: bytes, records: Iterable[Record], name: str, notes: list[str]) -> str:
    """Returns the page. `descriptions` are of the records, and of bytes inside; `notes` are read after the records."""
    kinds, it = Kinds(descriptions), descriptions[0]
    pages, wrong = pages_of(records, kinds)
    pages = pages or [Page(0, 0)]
    count = pages[-1].record + len(pages[-1].nodes)
    ends = [one.start // 8 for one in pages[1:]] + [min(pages[-1].end // 8 + 4096, len(data))]
    said: dict[str, Json] = {"name": it.name, "order": it.order, "records": count, "hues": [*picture.HUES]}
    said |= {"kinds": kinds.said, "pages": [{"record": one.record, "start": one.start} for one in pages]}
    filled = {
        "TITLE": escape(f"{it.name}: {os.path.basename(name)}"),
        "NAME": escape(it.name),
        "DOC": escape(it.doc),
        "FILE": escape(f"{os.path.basename(name)}, {len(data)} bytes, {counts(wrong, count)}, {it.order}"),
        "WHY": reasons(wrong, count, notes),
        "SVG": "".join(kinds.pictures),
        "STYLE": part("page.css"),
        "SCRIPT": part("page.js"),
        "DATA": json.dumps(said, separators=(",", ":")).replace("<", "\\u003c"),
        "PAGES": "\n".join(packed(k, one, data, end) for k, (one, end) in enumerate(zip(pages, ends))),
    }
    return re.sub("@([A-Z]+)@", lambda it: filled[it[1]], part("page.html"))


def part(name: str) -> str:
    """Returns the text of a file of the page."""
    with open(os.path.join(HERE, name), encoding="utf-8") as file:
        return file.read()
