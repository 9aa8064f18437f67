"""The definitions that a test vector, or the end of a list, computes through."""
from __future__ import annotations

from dataclasses import replace
from typing import Iterable, Iterator, assert_never

from describing import model as m
from describing.layout import Line
from describing.specs.terms import all_items, sign

NUMBER = ("unsigned", "unsigned_decoder")


def unfolds(line: Line) -> list[str]:
    """Returns the definitions for a line."""
    kind = line.kind
    match kind:
        case m.Bool() | m.Flag():
            return []
        case m.Number():
            return ["bytes_decoder", "bytes_of"] if kind.order else of_integer(kind.integer)
        case m.NonZero():
            return [*NUMBER, "non_zero", "non_zero_decoder"]
        case m.MaybeNonZero():
            return [*NUMBER, "option_decoder"]
        case m.Const():
            return ["const_decoder"]
        case m.Skip():
            return ["skip_decoder"]
        case m.Count():
            golomb = ["unary_decoder", "lib.Count.count_leading_zeros"] * kind.golomb
            return [*golomb, *NUMBER, *["size_in_units", "stored_size"] * bool(kind.less)]
        case m.Enum() | m.Tag() | m.Pad():
            return [*NUMBER]
        case m.Check():
            lines = ["lines_sum", "whole_bytes", "bytes_of"] * kind.lines
            sums = {"sum16": ["sum16_state"], "sum16-udp": ["sum16_state"], "bytes": ["stored_size"]}
            number = ["bytes_decoder", "bytes_of"] if kind.order else NUMBER
            return [*number, *lines, *sums.get(kind.sum, ["crc_over", "steps"])]
        case m.Verify():
            return []
        case m.Varint() | m.Size(varint=True):
            return [*NUMBER]
        case m.Until():
            return [*NUMBER, "until_from"]
        case m.Blocks():
            return [*NUMBER, "blocks_from", "bytes_decoder", "bytes_of"]
        case m.Size(groups=m.Groups()):
            return ["groups", "groups_at", "groups_decoder", "grouped_encoder"]
        case m.Size():
            sizes = ["size_in_units", "stated_size", "stored_size", "stored_encoder"]
            return [*NUMBER, *(sizes if kind.units else ["size_encoder"])]
        case m.Rest() | m.Sized(item=m.Octet()):
            return ["bytes_decoder", "bytes_of"]
        case m.Unary():
            return ["unary_decoder"]
        case m.Groups():
            return ["groups", "groups_at", "groups_decoder", "signed_groups_decoder"]
        case m.Golomb():
            return ["unary_decoder", *NUMBER, "lib.Count.count_leading_zeros"]
        case m.Array() | m.List():
            return of_items(line, kind)
        case m.Part() | m.Optional() | m.If():
            return [*of_lines(line.inner)]
        case m.UpToLast():
            return ["up_to_last_from", *of_lines(line.inner)]
        case m.Choose() | m.Sized() | m.Fill():
            within = ["bytes_decoder", "bytes_of"] * bool(line.measured)
            return [*within, *(it for part in line.parts for it in of_lines(part.inner))]
    assert_never(kind)


def of_integer(integer: m.Integer) -> list[str]:
    """Returns the definitions for a number."""
    return [sign(integer), f"{sign(integer)}_decoder"]


def of_items(line: Line, kind: m.Array | m.List) -> list[str]:
    """Returns the definitions for an array or a list."""
    item = kind.item
    many = all_items(line) if isinstance(kind, m.List) else "items_decoder"
    if isinstance(kind, m.List) and kind.power:
        return ["power_count", *of_items(line, replace(kind, power=None))]
    match item:
        case m.Integer():
            return [*of_integer(item), "items_decoder"]
        case m.Octet():
            return ["bytes_decoder", "bytes_of"]
        case m.EnumType():
            return [*NUMBER, many]
        case m.Use():
            return [many, *of_lines(line.inner)]
    assert_never(item)


def of_lines(lines: Iterable[Line]) -> Iterator[str]:
    """Returns the definitions for some lines."""
    for it in lines:
        yield from unfolds(it)


def opened(line: Line) -> str:
    """Returns the definitions that show that a reader that has failed reads no item."""
    return " ".join(dict.fromkeys(["and_then", *(it for it in unfolds(line) if it.endswith(("_decoder", "_writes")))]))
