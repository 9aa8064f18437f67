"""The records of an input, one after another: where the first begins, what is skipped, and how the sequence ends."""
from __future__ import annotations

import re
import sys
from dataclasses import dataclass, field
from typing import Callable, Iterator, TypeAlias, TypeVar

from describing import model as m
from describing.flat import Plan, flat, flat_nodes, planned
from describing.input import Input, ReadError, Value
from describing.model import Refused
from describing.read import Node, record_reader, value_of

Fields: TypeAlias = dict[str, Value]
Found = TypeVar("Found")
SKIP = re.compile(r"(?P<field>[A-Za-z_][\w.]*)(?:\*(?P<times>\d+))?(?P<plus>[+-]\d+)?")


@dataclass
class Record:
    """A record: its number, its first bit, the bit after it, and its lines, or why it is refused or torn."""

    number: int
    start: int
    end: int
    nodes: list[Node]
    why: str = ""
    torn: bool = False


class Ended(Exception):
    """Records that end early, at one that is refused or torn, if any. `status` is the exit status of the command."""

    status = 3

    def __init__(self, why: str, record: Record | None = None) -> None:
        super().__init__(why)
        self.record = record


class Torn(Ended):
    """An input that ends inside a record, or inside the bytes that are to be skipped."""

    status = 4


@dataclass
class Options:
    """What a user asks: positions are in bytes, and `inside` has descriptions of the bytes of a field."""

    repeat: bool = False
    offset: int = 0
    count: int = sys.maxsize
    skip: str = "0"
    keep_going: bool = False
    inside: list[tuple[str, m.Description]] = field(default_factory=list)


def skipper(how: str) -> Callable[[Fields], int]:
    """Returns the function that gives the number of bytes between a record and the next one."""
    if re.fullmatch(r"\d+|0x[0-9a-fA-F]+", how):
        size = int(how, 0)
        return lambda record: size
    found = SKIP.fullmatch(how)
    if not found:
        raise Refused(f"--skip {how}: give a number, or FIELD, FIELD*N, FIELD+N or FIELD*N-N")
    path, times, plus = found["field"], int(found["times"] or 1), int(found["plus"] or 0)

    def skip(record: Fields) -> int:
        value = number_at(record, path)
        if value is None:
            raise Refused(f"--skip {how}: `{path}` is not a number of the record")
        if value * times + plus < 0:
            raise Ended(f"--skip {how}: `{path}` is {value}, so the next record would begin inside this one")
        return value * times + plus

    return skip


def number_at(record: Fields, path: str) -> int | None:
    """Returns the number of a field, whose path has dots, or None."""
    found: Value = record
    for name in path.split("."):
        found = found.get(name) if isinstance(found, dict) else None
    return found if isinstance(found, int) and not isinstance(found, bool) else None


class Records:
    """Reads records up to the end of the input. `report` takes each refused record that `--keep-going` passes over."""

    def __init__(self, it: m.Description, row: Input, options: Options, report: Callable[[Record], None]) -> None:
        self.row, self.options, self.report = row, options, report
        fast = options.repeat and not options.inside
        self.read, self.quick = record_reader(it), flat(it) if fast else None
        self.quick_nodes = flat_nodes(it) if fast else None
        self.plan = planned(it) if fast and options.skip.isdigit() else None
        self.skip, self.number, self.refused = skipper(options.skip), 0, 0
        bits = m.fixed_bits(it)
        self.bits = bits if bits and bits % 8 == 0 and options.skip[:1].isdigit() else None  # of every record
        self.sync = next((one for one in it.kinds[:1] if isinstance(one, m.Const) and one.width >= 8), None)
        if options.keep_going and not self.bits and not self.sync:
            why = "records have no constant size, and begin with no constant of 8 bits or more"
            raise Refused(f"--keep-going: {why}, so the next one is not found")

    def values(self) -> Iterator[Fields]:
        """Returns the fields of each record."""

        def one() -> tuple[Fields, Fields]:
            found = self.quick(self.row) if self.quick else None
            if found is None:
                found = value_of(self.nodes())
            return found, found

        return self.each(one)

    def records(self) -> Iterator[Record]:
        """Returns each record with the position of every line."""

        def one() -> tuple[Record, Fields]:
            start, nodes = self.row.at, self.nodes()
            return Record(self.number, start, self.row.at, nodes), value_of(nodes)

        return self.each(one)

    def words(self, plan: Plan) -> Iterator[tuple[int, int, list[int]]]:
        """Returns the numbers of the records by their plan, many at a time, with the count and the bits before them."""
        size = int(self.options.skip)

        def one() -> tuple[tuple[int, int, list[int]], Fields]:
            number, start = self.number, self.row.at
            found = plan.words(self.row, size, self.options.count - number)
            if not found:
                self.read(self.row)
            self.number += len(found) - 1
            return (number, start, found), {}

        return self.each(one)

    def nodes(self) -> list[Node]:
        """Reads a record, up to a whole byte, and the bytes inside that have a description of their own."""
        quick = self.quick_nodes(self.row) if self.quick_nodes else None
        if quick is not None:
            return quick
        nodes = self.read(self.row)
        self.row.at = -(-self.row.at // 8) * 8
        for name, other in self.options.inside:
            look_inside(nodes, name, other, self.row)
        if self.options.inside:
            update(nodes)
        return nodes

    def each(self, one: Callable[[], tuple[Found, Fields]]) -> Iterator[Found]:
        """Reads records by `one`, and skips the bytes between them."""
        missing = self.row.skip(self.options.offset)
        if missing:
            raise Torn(f"the input ends {missing} bytes before --offset {self.options.offset}")
        while self.goes_on():
            start = self.row.at
            try:
                found, fields = one()
            except ReadError as it:
                self.failed(start, it)
            else:
                yield found
                self.number += 1
                self.pass_over(fields)

    def goes_on(self) -> bool:
        """Returns true if another record is to be read."""
        if self.number >= self.options.count:
            return False
        return self.row.reach(self.row.at + 1) if self.options.repeat else self.number == 0

    def failed(self, start: int, it: ReadError) -> None:
        """Ends the records at one that is torn or refused, or passes over one that is refused."""
        begins = f"record {self.number} begins at byte {start // 8} and is"
        torn = f"{begins} torn: the input ends at byte {self.row.end // 8}, in `{it.path}`"
        if it.answer == "EndOfInput":
            torn += f": {it.clause}" if it.why else ""
            raise Torn(torn, Record(self.number, start, self.row.end, [], torn, True))
        end = start + self.bits if self.bits else it.place // 8 * 8 + 8
        found = Record(self.number, start, end, [], f"{begins} refused: {it}")
        self.refused += 1
        if not self.options.keep_going:
            raise Ended(found.why, found)
        self.report(found)
        self.number += 1
        if self.bits:
            if not self.row.reach(found.end):
                found.end = self.row.end
                raise Torn(f"{begins} torn: the input ends at byte {self.row.end // 8}, in `{it.path}`")
            self.row.at = found.end
            self.pass_over({})
        elif self.sync:
            self.find(start + 8, self.sync)
            found.end = self.row.at

    def find(self, at: int, sync: m.Const) -> None:
        """Moves to the next byte where the first constant of a record begins, or to the end of the input."""
        while self.row.reach(at + sync.width):
            self.row.at = at
            self.row.drop()
            if self.row.number(sync.width) == sync.value:
                self.row.at = at
                return
            at += 8
        self.row.at = self.row.end

    def pass_over(self, fields: Fields) -> None:
        """Skips the bytes between a record and the next one."""
        if not self.options.repeat:
            return
        size = self.skip(fields)
        missing = self.row.skip(size)
        if missing:
            why = f"the input ends {missing} bytes before the end of the {size} bytes to skip after it"
            raise Torn(f"record {self.number - 1}: {why}")


def look_inside(nodes: list[Node], name: str, other: m.Description, row: Input) -> None:
    """Reads the bytes of a field by another description, which has an order of its own."""
    read = record_reader(other)
    for node in nodes:
        if node.name == name and isinstance(node.value, bytes):
            inner = Input(b"", other.order)
            inner.data, inner.base, inner.at, inner.end = row.data, row.base, node.start, node.end
            try:
                node.nodes = read(inner)
            except ReadError as it:
                answer = f"{it.answer} of the bytes of `{name}`" if it.answer == "EndOfInput" else it.answer
                raise ReadError(answer, it.place, f"{name}.{it.path}", it.why, it.inner) from None
            node.value = value_of(node.nodes)
        else:
            look_inside(node.nodes, name, other, row)


def update(nodes: list[Node]) -> None:
    """Moves what was read inside into the values of lists and records around it."""
    for it in nodes:
        update(it.nodes)
        if it.nodes and isinstance(it.value, list):
            it.value = [one.value for one in it.nodes]
        elif it.nodes and isinstance(it.value, dict):
            it.value = updated(it, it.value)


def updated(node: Node, value: Fields) -> Fields:
    """Returns the fields of a record, or the case of a choice around them."""
    fields = value_of(node.nodes)
    case = next(iter(value)) if isinstance(node.kind, m.Choose) else ""
    return {case: fields} if case else fields
