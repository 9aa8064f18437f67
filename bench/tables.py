"""The tables of docs/SPEED.md: which workloads a row has, and how its cells are printed."""
import math
import re
from collections.abc import Mapping
from dataclasses import dataclass

Ratios = Mapping[str, Mapping[str, float]]


@dataclass(frozen=True)
class Row:
    """A row: its label, patterns of the workloads that it reads and writes, and whether its cells are means."""

    label: str
    reads: str = ""
    writes: str = ""
    is_mean: bool = False


PARSERS = (
    Row("all reads, in geometric mean", "read-.*", is_mean=True),
    Row("all writes, in geometric mean", "", "write-.*", is_mean=True),
    Row("20 fields of a protocol header, constant widths, read and written", "read-protocol", "write-protocol"),
    Row("records of packed fields, constant widths, read and written", "read-packed", "write-packed"),
    Row("`parse` and `build` of four fields", "read-parse", "write-build"),
    Row("an ADTS header, read and written", "read-adts", "write-adts"),
    Row("Exp-Golomb headers, read and written", "read-golomb", "write-golomb"),
    Row("Rice numbers, read and written", "read-rice", "write-rice"),
    Row("numbers of 13 bits, a constant width, read and written", "read-const13", "write-const13"),
    Row("numbers of 13 bits, a width known at run time, read", "read-var13"),
    Row("samples of 16 bits, read", "read-pcm16"),
    Row("arrays of flags, read", "read-flags"),
    Row("unary numbers below 60, read", "read-unary60"),
    Row("checked values, read", "read-checked"),
    Row("symbols of a code of 24 leaves, by the tree, read and written", "read-symbols", "write-symbols"),
    Row("a seek and 11 bits", "read-seek"),
    Row("skips", "read-skip"),
    Row("vectors of bytes, read and written", "read-bytevec", "write-vec"),
)

CALLS_WRITTEN = "write-(?!words|indexed|buffered).*|record-.*"
CALLS = (
    Row("all reads, in geometric mean (no tables and buffers)", "read-(?!table|buffered).*|skip-.*", is_mean=True),
    Row("all writes, in geometric mean (no code words and buffers)", "", CALLS_WRITTEN, is_mean=True),
    Row("numbers of 13 bits, read over a `BufReader`, and written to a `BufWriter`", "read-buffered", "write-buffered"),
    Row(
        "numbers of a width known at run time, read and written",
        r"read-(un)?signed-(?!100)\d+",
        r"write-(un)?signed-(?!100)\d+",
    ),
    Row("the same of 100 bits", "read-unsigned-100", "write-unsigned-100"),
    Row("single bits, read and written", "read-bits", "write-bits"),
    Row("fields of constant widths, read and written", "read-fields", "write-fields"),
    Row("arrays of numbers, read and written", "read-array", "write-array"),
    Row("the header of a FLAC file, read and written", "read-flac-header", "write-flac-header"),
    Row("primitives by the layer of bytes, read and written", "read-value", "write-value"),
    Row("aligned buffers of 16 bytes, read and written", "read-bytes-16-aligned", "write-bytes-16-aligned"),
    Row("aligned buffers of 4096 bytes, read and written", "read-bytes-4096-aligned", "write-bytes-4096-aligned"),
    Row("buffers off a byte boundary, read and written", r"read-bytes-\d+-unaligned", r"write-bytes-\d+-unaligned"),
    Row("vectors of 64 and of 10,000 bytes, read", "read-vec-.*"),
    Row("numbers of variable width, read and written", r"read-vbr\d-\d+", r"write-vbr\d-\d+"),
    Row("unary numbers below 6, read and written", r"read-unary\d-6", r"write-unary\d-6"),
    Row("unary numbers below 60, read and written", r"read-unary\d-60", r"write-unary\d-60"),
    Row("symbols of a prefix code, read and written", "read-prefix", "write-prefix"),
    Row(
        "symbols of flat codes, read by tables, and written by code words",
        "read-table-flat-.*",
        "write-words-flat-.*",
    ),
    Row(
        "symbols of skewed codes, read by tables, and written by code words",
        "read-table-skewed-.*",
        "write-words-skewed-.*",
    ),
    Row("symbols of flat codes, written by an array", "", "write-indexed-flat-.*"),
    Row("symbols of skewed codes, written by an array", "", "write-indexed-skewed-.*"),
    Row("counting", "", "count"),
    Row("recording numbers of 13 bits, and playing them", "", "record-13"),
)


def mean(ratios: list[float]) -> float:
    """Returns the geometric mean of ratios, of which there is one at least."""
    return math.exp(sum(map(math.log, ratios)) / len(ratios))


def joined(ratios: list[float], is_mean: bool) -> str:
    """Prints ratios: their mean; or up to two as they are (big-endian, then little-endian), more as their range."""
    if is_mean and ratios:
        return f"{mean(ratios):.2f}"
    said = [f"{it:.2f}" for it in ratios]
    if len(said) > 2:
        return f"{min(ratios):.2f} to {max(ratios):.2f}"
    return " and ".join(dict.fromkeys(said))


def cell(row: Row, ratios: Ratios, sides: tuple[str, ...]) -> str:
    """Prints a cell: the ratios of the first of the sides that a workload has, for reads and then for writes."""
    parts = []
    for pattern in filter(None, (row.reads, row.writes)):
        names = [name for name in ratios if re.fullmatch(f"(?:{pattern})(?:-be|-le)?", name)]
        there = [next((ratios[name][side] for side in sides if side in ratios[name]), None) for name in names]
        parts.append(joined([it for it in there if it is not None], row.is_mean))
    return ", and ".join(filter(None, parts))


def table(rows: tuple[Row, ...], instructions: Ratios, times: Ratios) -> list[str]:
    """Prints a table of instructions, and of times if there are some, as multiples of the Rust crate's."""
    columns: list[tuple[str, Ratios, tuple[str, ...]]] = [
        ("In memory", instructions, ("over", "slice")),
        ("Over `&[u8]`, to `&mut [u8]`", instructions, ("port",)),
    ]
    if times:
        columns.insert(1, ("The same in time", times, ("over", "slice")))
    lines = ["| Work | " + " | ".join(title for title, _, _ in columns) + " |", "|---" * (1 + len(columns)) + "|"]
    for row in rows:
        cells = [cell(row, ratios, sides) for _, ratios, sides in columns]
        if any(cells):
            lines.append(f"| {row.label} | {' | '.join(cells)} |")
    return lines


def times_of(text: str) -> dict[str, dict[str, float]]:
    """Reads the ratios of times from a program's output: `parsers` has ten columns, `calls` a line for a side."""
    found: dict[str, dict[str, float]] = {}
    for line in text.splitlines():
        words = line.split()
        own = re.fullmatch(r"(\S+)( over its own)? +[\d.]+ +[\d.]+ +([\d.]+)  .* to .*", line)
        if own:
            found.setdefault(own[1], {})["slice" if own[2] else "port"] = float(own[3])
        elif len(words) == 10 and "-" in words[0]:
            ratios = zip(("port", "slice", "over"), words[3:8:2])
            found[words[0]] = {side: float(it) for side, it in ratios if it != "-"}
    return found
