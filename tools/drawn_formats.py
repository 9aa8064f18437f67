"""Random descriptions of formats, and random records of them: the cases of `tools/random_formats`."""
from __future__ import annotations

from dataclasses import dataclass, field
from pathlib import Path
from random import Random
from typing import Callable, Sequence, TypeAlias

from describing import model as m
from describing.input import Value
from describing.parse import beside, parsed
from describing.write import Bits, Record, Unfit, is_last, put_record

# Names of fields, among them words that the printed code, specs and proofs use themselves.
NAMES = """
alpha beta gamma data value length bits from at more result reader number order first second word take part items kind
state flags source target index total_size delta level writer sink count_of zeros_left plain x y o fits order error
""".split()


Adds: TypeAlias = Callable[["Sheet"], None]


@dataclass
class Sheet:
    """A description that is being drawn: its lines so far, and what later lines may ask for."""

    draw: Random
    module: str
    others: dict[str, str]
    order: str
    depth: int
    lists: bool
    # The line that has the bytes to the end, and the lines of constant width after it.
    rest: str = ""
    ends: list[str] = field(default_factory=list)
    lines: list[str] = field(default_factory=list)
    later: list[str] = field(default_factory=list)
    names: list[str] = field(default_factory=list)
    types: int = 0
    # The earlier fields that a condition may ask for, with the values that it may name.
    asked: list[tuple[str, list[str], bool]] = field(default_factory=list)
    enums: list[tuple[str, int]] = field(default_factory=list)
    # The earlier fields that may select a case, with their numbers.
    selectors: list[tuple[str, Sequence[int]]] = field(default_factory=list)

    @property
    def type(self) -> str:
        """The name of the struct."""
        return "".join(it.capitalize() for it in self.module.split("_"))

    @property
    def other_order(self) -> str:
        """The order that the format does not have."""
        return "LE" if self.order == "BE" else "BE"

    def name(self) -> str:
        """Returns a new name of a field."""
        self.names.append(self.draw.choice([it for it in NAMES if it not in self.names]))
        return self.names[-1]

    def new(self, word: str) -> str:
        """Returns a new name of a type or a case of the error."""
        self.types += 1
        return f"{self.type}{word}{self.types}"

    def error(self) -> str:
        """Returns a new case of the error."""
        self.types += 1
        return f"Bad{self.types}"

    def add(self, line: str) -> None:
        """Adds a line, and sometimes one that waits for it."""
        self.lines.append(line)

    def part(self, lists: bool, wide: bool = False) -> str:
        """Draws the description of a part, which has 8 known bits if it must be wide, and returns `TYPE of MODULE`."""
        return self.drawn_part(lists, wide)[0]

    def drawn_part(self, lists: bool, wide: bool = False) -> tuple[str, Sheet]:
        """Draws the description of a part, and returns `TYPE of MODULE` with the lines that were drawn."""
        module = f"{self.module.split('_')[0]}_{chr(ord('a') + len(self.others))}"
        self.others[module] = ""
        inner = Sheet(self.draw, module, self.others, self.order, self.depth - 1, lists and self.lists)
        if wide:
            inner.add(f"{inner.name()} i8 8")
        self.others[module] = description(inner, self.draw.randint(1, 3))
        return f"{inner.type} of {module}", inner

    def open_part(self) -> str:
        """Draws the description of a part that ends with the bytes of its size, and returns `TYPE of MODULE`."""
        module = f"{self.module.split('_')[0]}_{chr(ord('a') + len(self.others))}"
        self.others[module] = ""
        inner = Sheet(self.draw, module, self.others, self.order, self.depth - 1, self.lists)
        for _ in range(self.draw.randrange(3)):
            if self.draw.random() < 0.5:
                inner.add(f"{inner.name()} {self.draw.choice(('u8 8', 'i16 16', 'bytes 3'))}")
                continue
            inner.add(f"size {(name := inner.name())} 8")
            inner.add(f"sized {name} bytes")
        item = inner.part(lists=False, wide=True) if self.depth > 1 and self.draw.random() < 0.5 else "bytes"
        head, rest = [f"struct {inner.type}: A record.", f"order {inner.order}"], f"rest {inner.name()} {item}"
        after = [f"{inner.name()} {self.draw.choice(('u8 8', 'bytes 2'))}"] * (self.draw.random() < 0.4)
        self.others[module] = "\n".join([*head, *inner.lines, rest, *after, ""])
        return f"{inner.type} of {module}"

    def whole_part(self) -> str:
        """Draws the description of a part of a constant number of bytes without an error, and returns `TYPE of MODULE`."""
        module = f"{self.module.split('_')[0]}_{chr(ord('a') + len(self.others))}"
        inner = Sheet(self.draw, module, self.others, self.order, 0, False)
        for line in self.draw.sample(("u16 16", "bytes 3", "u32 32", "i8 8"), 2):
            inner.add(f"{inner.name()} {line}")
        self.others[module] = "\n".join([f"struct {inner.type}: A record.", f"order {self.order}", *inner.lines, ""])
        return f"{inner.type} of {module}"


def integer(draw: Random, signed: bool | None = None, most: int = 128) -> tuple[str, int]:
    """Returns a type and a width."""
    size = draw.choice([it for it in (8, 16, 32, 64, 128) if it <= most])
    sign = draw.random() < 0.25 if signed is None else signed
    return f"{'ui'[sign]}{size}", draw.randint(1 + sign, size)


def cases(sheet: Sheet, width: int) -> str:
    """Returns the cases of an enum of so many bits: some, all, or some and a case for the others."""
    draw, most = sheet.draw, 1 << width
    count = most if most <= 4 and draw.random() < 0.4 else draw.randint(1, min(4, most - 1))
    numbers = sorted(draw.sample(range(min(most, 1 << 30)), count))
    named = [f"{number} Case{index}" for index, number in enumerate(numbers)]
    if count < most and draw.random() < 0.5:
        named.append(".. Other")
    return ", ".join(named)


SIMPLE = tuple("bool number number ordered signed nonzero option array bytes const any enum enums".split())


def simple(sheet: Sheet) -> None:
    """Adds a line whose width is a constant."""
    constant(sheet, sheet.draw.choice(SIMPLE))


def constant(sheet: Sheet, what: str) -> None:
    """Adds such a line of a kind."""
    draw = sheet.draw
    match what:
        case "bool":
            sheet.add(f"{(name := sheet.name())} bool")
            sheet.asked.append((name, [], False))
        case "number" | "signed" as found:
            base, width = integer(draw, found == "signed")
            sheet.add(f"{(name := sheet.name())} {base} {width}")
            if base[0] == "u":
                values = [str(draw.randrange(min(1 << width, 9))) for _ in range(2)]
                sheet.asked.append((name, values, True))
                sheet.selectors += [(name, range(1 << width))] * (width <= 16)
        case "ordered":
            base = f"{draw.choice('ui')}{draw.choice((16, 32, 64, 128))}"
            sheet.add(f"{(name := sheet.name())} {base} {base[1:]} {sheet.other_order}")
            sheet.asked += [(name, [str(draw.randrange(9))], True)] * (base[0] == "u")
            sheet.selectors += [(name, range(1 << 16))] * (base == "u16")
        case "nonzero" | "option" as found:
            base, width = integer(draw, False)
            size = int(base[1:])
            sheet.add(f"{sheet.name()} {found} {base} {min(width, size - (found == 'nonzero'))}")
        case "array":
            base, width = integer(draw)
            sheet.add(f"{sheet.name()} {base} {width} x {draw.randint(1, 5)}")
        case "bytes":
            sheet.add(f"{sheet.name()} bytes {draw.randint(1, 6)}")
        case "const":
            width = draw.randint(1, 32)
            zeros = draw.random() < 0.3
            sheet.add(
                f"zeros {width} {sheet.error()}"
                if zeros
                else f"const {width} {draw.randrange(1 << width)} {sheet.error()}"
            )
        case "any":
            sheet.add(f"any {draw.randint(1, 20)}")
        case "enum":
            enum(sheet)
        case "enums":
            width = draw.randint(1, 9)
            sheet.add(f"{sheet.name()} enum {sheet.new('Kind')} {width} x {draw.randint(1, 4)}: {cases(sheet, width)}")


def enum(sheet: Sheet) -> None:
    """Adds an enum, or a field of an earlier one."""
    draw, name = sheet.draw, sheet.name()
    if sheet.enums and draw.random() < 0.5:
        kind, width = draw.choice(sheet.enums)
        sheet.add(f"{name} enum {kind} {width}")
        return
    width, kind = draw.randint(1, 9), sheet.new("Kind")
    said = cases(sheet, width)
    sheet.add(f"{name} enum {kind} {width}: {said}")
    sheet.enums.append((kind, width))
    if ".." not in said:
        sheet.selectors.append((name, [int(it.split()[0]) for it in said.split(", ")]))
    sheet.asked.append((name, [it.split()[1] for it in said.split(", ") if it[0] != "."], False))


def varying(sheet: Sheet) -> None:
    """Adds a number whose width varies."""
    draw = sheet.draw
    name, signed = sheet.name(), draw.random() < 0.3
    match draw.choice(("unary", "vbr", "leb128", "ue", "varint")):
        case "unary":
            said, signed = f"unary {draw.randint(0, 1)}", False
        case "vbr":
            base, _ = integer(draw, signed)
            said = f"vbr {draw.randint(2, 7)} {base}{' any' * (draw.random() < 0.5)}"
        case "leb128":
            said = f"leb128 {'ui'[signed]}{draw.choice((16, 32, 64, 128))}"
        case "varint":
            said, signed = "varint quic", False
        case _:
            said = ("ue", "se")[signed]
    sheet.add(f"{name} {said}")
    if not signed:
        sheet.asked.append((name, [str(draw.randrange(5)) for _ in range(2)], True))
    if draw.random() < 0.3:
        base, width = integer(draw, False)
        most = draw.randrange((1 << width) - 1)
        sheet.add(f"{sheet.name()} {base} {width} max {most} {sheet.error()}")


def condition(draw: Random, asked: str, values: list[str], whole: bool) -> str:
    """Returns a condition that asks for a field."""
    how = draw.choice(("==", "!=", "<", ">=") if whole else ("==", "!="))
    return f"{asked} {how} {draw.choice(values)}" if values else f"{draw.choice(('', 'not '))}{asked}"


def part(sheet: Sheet) -> None:
    """Adds a part that is there, or one that may be there, by a flag or by a condition."""
    draw = sheet.draw
    how = draw.choice(("there", "flag", "if", "if"))
    while how == "if" and not sheet.asked:
        constant(sheet, draw.choice(("bool", "number", "enum")))
    name = sheet.name()
    if how == "there":
        sheet.add(f"{name} {sheet.part(lists=True)}")
        return
    if how == "flag":
        sheet.add(f"flag {name}")
        sheet.later.append(f"option {name} {sheet.part(lists=True)}")
        return
    tests = draw.sample(sheet.asked, draw.randint(1, min(3, len(sheet.asked))))
    said = draw.choice((" and ", " or ")).join(condition(draw, *it) for it in tests)
    sheet.add(f"if {said} {name} {sheet.part(lists=True)}")


def listed(sheet: Sheet) -> None:
    """Adds a count, and later its list."""
    draw, name = sheet.draw, sheet.name()
    size, limited = draw.randint(1, 9), draw.random() < 0.3
    limit = f"{size + 3} max {draw.randint(4, (1 << size + 3) - 2)} {sheet.error()}"
    sheet.add(f"count {name} {limit if limited else size}")
    width = draw.randint(1, 9)
    base, bits = integer(draw)
    match draw.choice(("bytes", "numbers", "enum", "enum", *["parts"] * (sheet.depth > 0))):
        case "bytes":
            item = "bytes"
        case "numbers":
            item = f"{base} {bits}"
        case "enum":
            item = f"enum {sheet.new('Kind')} {width}: {cases(sheet, width)}"
        case _:
            item = sheet.part(lists=True)
    sheet.later.append(f"list {name} {item}")


def arms(sheet: Sheet, among: Sequence[int], octets: bool) -> str:
    """Returns the cases of a choice by one of some numbers."""
    draw = sheet.draw
    numbers = draw.sample(among, draw.randint(1, min(3, len(among))))
    said = []
    for index, number in enumerate(sorted(numbers)):
        part = sheet.open_part() if octets and draw.random() < 0.4 else sheet.part(lists=True)
        said.append(f"{number} Arm{index}" + (f" {part}" if draw.random() < 0.6 else ""))
    if len(numbers) < len(among) and draw.random() < 0.5:
        said.append(".. Else bytes" if octets and draw.random() < 0.8 else ".. Else")
    return ", ".join(said)


def choice(sheet: Sheet) -> None:
    """Adds a tag, and later the choice that it selects, which may have a size; or a choice by an earlier number."""
    draw, width, by = sheet.draw, sheet.draw.randint(1, 8), sheet.draw.random() < 0.4
    while by and not sheet.selectors:
        constant(sheet, draw.choice(("number", "enum")))
    name = sheet.name()
    if by:
        field, among = sheet.selectors.pop()
        sheet.add(f"choose {name} {sheet.new('Choice')} by {field}: {arms(sheet, among, False)}")
        return
    sized = sheet.lists and draw.random() < 0.5
    sheet.add(f"tag {name} {width}")
    if sized:
        sheet.add(f"size {name} {draw.choice((8, 12, 16, grouped(sheet)))}")
    said = arms(sheet, range(1 << width), sized)
    sheet.later.append(f"choose {name} {sheet.new('Choice')}{f' sized {sheet.error()}' * sized}: {said}")


def sized(sheet: Sheet) -> None:
    """Adds a size, and later what has it."""
    draw, name = sheet.draw, sheet.name()
    width = draw.choice((8, 12, 16, 20))
    match draw.choice(("part", "bytes", "bytes", "bytes", "fill")):
        case "part":
            sheet.add(f"size {name} {draw.choice((width, grouped(sheet)))}")
            part = sheet.open_part() if draw.random() < 0.4 else sheet.part(lists=True)
            sheet.later.append(f"sized {name} {part} {sheet.error()}")
        case "fill":
            sheet.add(f"size {name} {width}")
            sheet.later.append(f"fill {name} {sheet.part(lists=True, wide=True)} {sheet.error()}")
        case _:
            sign, unit = draw.choice(("", "", "plus", "less")), draw.choice(("", "", " by 2", " by 4"))
            stored = f"{width}{f' {sign} {draw.randint(1, 20)}' * bool(sign)}{unit}{most(sheet)}"
            sheet.add(f"size {name} {draw.choice((stored, stored, stored, 'varint quic', grouped(sheet)))}")
            error = f" {sheet.error()}" if " plus " in sheet.lines[-1] else ""
            sheet.later.append(f"sized {name} bytes{error}")


def grouped(sheet: Sheet) -> str:
    """Returns a number in groups of 8 bits that states a size, which may have a greatest value."""
    draw = sheet.draw
    said = draw.choice(("leb128 u32", "leb128 u16", "vbr 8 u32", "vbr 8 u32 any"))
    return said + f" max {draw.choice((1000, 60000))} {sheet.error()}" * (draw.random() < 0.5)


def most(sheet: Sheet) -> str:
    """Returns the greatest value of a size in bits, which may have none; no size of a random record is above it."""
    return f" max {sheet.draw.choice((60, 200))} {sheet.error()}" if sheet.draw.random() < 0.3 else ""


def powered(sheet: Sheet) -> None:
    """Adds a number, and later a list of a power of two items, which may be there by a bit."""
    draw, number, name = sheet.draw, sheet.name(), sheet.name()
    sheet.add(f"{number} u8 {draw.randint(1, 2)}")
    there, item = "", "{} {}".format(*integer(draw))
    if draw.random() < 0.5:
        there = sheet.name()
        sheet.add(f"{there} bool")
    if sheet.depth > 0 and draw.random() < 0.5:
        item = sheet.part(lists=True)
    plus = draw.choice(("", " plus 1"))
    sheet.later.append(f"list {name} {item} power {number}{plus}{f' if {there}' * bool(there)}")


def counted(sheet: Sheet) -> None:
    """Adds a count in Exp-Golomb or of fewer items than there are, and later its list of numbers or parts."""
    draw, name = sheet.draw, sheet.name()
    how = draw.choice(("ue", str(draw.randint(3, 9))))
    less = f" less {draw.randint(1, 3)}" * (how != "ue" or draw.random() < 0.5)
    limit = f" max {draw.randint(4, 6)} {sheet.error()}" * (draw.random() < 0.3)
    sheet.add(f"count {name} {how}{less}{limit}")
    item = "{} {}".format(*integer(draw))
    if sheet.depth > 0 and draw.random() < 0.5:
        item = sheet.part(lists=True)
    sheet.later.append(f"list {name} {item}")


def padded(sheet: Sheet) -> None:
    """Adds a list of parts behind lines of constant width, and zeros up to a multiple of bits."""
    draw = sheet.draw
    for _ in range(draw.randint(0, 2)):
        constant(sheet, draw.choice(("bool", "number", "enum")))
    name = sheet.name()
    sheet.add(f"count {name} {draw.randint(3, 9)}")
    sheet.add(f"list {name} {sheet.part(lists=True)}")
    sheet.add(f"zeros to {draw.choice((7, 8, 16, 32, 64))} {sheet.error()}")


def ended(sheet: Sheet) -> None:
    """Adds bytes up to a terminator, or blocks of bytes."""
    until = sheet.draw.random() < 0.5
    name = sheet.name()
    sheet.add(f"until {name} bytes {sheet.draw.choice((0, 10, 255))}" if until else f"blocks {name}")


def to_end(sheet: Sheet) -> None:
    """Adds the bytes, the parts or the choice to the end, and sometimes lines of constant width after them."""
    rest_line(sheet)
    if sheet.draw.random() < 0.5:
        return
    before, sheet.lines = sheet.lines, []
    for _ in range(sheet.draw.randint(1, 2)):
        constant(sheet, sheet.draw.choice([it for it in SIMPLE if it not in ("enum", "enums")]))
    if sheet.draw.random() < 0.3:
        sheet.add(f"check {unused_sum(sheet)} over all {sheet.error()}")
    sheet.ends, sheet.lines = sheet.lines, before
    sheet.asked, sheet.selectors = [], []


def before_end(sheet: Sheet) -> None:
    """Adds a line before the bytes to the end: of constant width, bytes, or an optional part or a choice of whole bytes."""
    draw = sheet.draw
    what = draw.choice(("constant", "constant", "bytes", "option", "choice"))
    if what == "constant" or sheet.depth == 0:
        return simple(sheet)
    name = sheet.name()
    if what == "bytes":
        sheet.add(f"size {name} {draw.choice((8, 12, 16))}")
        sheet.later.append(f"sized {name} bytes")
    elif what == "option":
        sheet.add(f"flag {name}")
        sheet.later.append(f"option {name} {sheet.whole_part()}")
    else:
        sheet.add(f"tag {name} {(width := draw.randint(2, 8))}")
        numbers = sorted(draw.sample(range(1 << width), 2))
        said = f"{numbers[0]} Arm0 {sheet.whole_part()}, {numbers[1]} Arm1{draw.choice(('', ', .. Else'))}"
        sheet.later.append(f"choose {name} {sheet.new('Choice')}: {said}")


def rest_line(sheet: Sheet) -> None:
    """Draws the line that has the bytes, the parts or the choice to the end."""
    draw, kind = sheet.draw, sheet.draw.random()
    if kind < 0.2 and sheet.depth > 0:
        name, width = sheet.name(), draw.randint(1, 8)
        sheet.add(f"tag {name} {width}")
        said = arms(sheet, range(1 << width), True)
        sheet.rest = f"choose {name} {sheet.new('Choice')} rest {sheet.error()}: {said}"
        return
    parts = kind > 0.6
    if parts:
        constant(sheet, "const")
    sheet.rest = f"rest {sheet.name()} {sheet.part(lists=False, wide=True) if parts else 'bytes'}"


def up_to_last(sheet: Sheet) -> None:
    """Adds parts up to the last one, or one part if none of its fields can be tested."""
    name, (part, inner) = sheet.name(), sheet.drawn_part(lists=True)
    text = sheet.others[inner.module].split("\n")
    lists = [
        it.split()[1]
        for it in text
        if it.startswith(("list ", "blocks ")) or it.startswith("until ") and " if " not in it
    ]
    tests = [condition(sheet.draw, *it).removeprefix("not ") for it in inner.asked] + [f"empty {it}" for it in lists]
    said = " or ".join(sheet.draw.sample(tests, sheet.draw.randint(1, min(2, len(tests))))) if tests else ""
    sheet.add(f"until {name} {part} if {said}" if said else f"{name} {part}")


def summed(sheet: Sheet) -> None:
    """Adds numbers of whole bytes, and bytes, with their checksum."""
    draw, names, lines = sheet.draw, [], []
    if sheet.order == "BE":
        for _ in range(draw.randint(1, 2)):
            names.append(sheet.name())
            size = draw.choice((8, 16, 32))
            lines.append(f"{names[-1]} u{size} {size}")
    if not names or draw.random() < 0.6:
        names.append(sheet.name())
        lines.append(f"{names[-1]} bytes {draw.randint(1, 5)}")
    check = f"check {unused_sum(sheet)} over {' '.join(names)} {sheet.error()}"
    lines.insert(draw.randint(0, len(lines)), check)
    for line in lines:
        sheet.add(line)


def summed_lines(sheet: Sheet) -> None:
    """Adds lines that have whole bytes together, with their checksum, which may stand among them."""
    draw, first, last = sheet.draw, sheet.name(), sheet.name()
    width = draw.randint(1, 15)
    middle = draw.choice(("", "any 8", f"const 8 {draw.randrange(256)} {sheet.error()}"))
    lines = [f"{first} u16 {width}", *[middle] * bool(middle), f"{last} u32 {-width % 8 + 8}"]
    over = f"all to {last}" if not sheet.lines else f"{first} to {last}"
    check = f"check {unused_sum(sheet)} over {over} {sheet.error()}"
    lines.insert(draw.randint(0, len(lines)), check)
    for line in lines:
        sheet.add(line)


def unused_sum(sheet: Sheet) -> str:
    """Returns a checksum that the lines do not have yet."""
    found = sheet.draw.choice([it for it in m.SUMS if not any(one.startswith(f"check {it} ") for one in sheet.lines)])
    ordered = m.SUMS[found] in (16, 32) and sheet.draw.random() < 0.3
    return f"{found} {sheet.other_order}" if ordered else found


def computed(sheet: Sheet) -> None:
    """Adds lines, some of which vary in their bytes, with the number of these."""
    draw, first, last = sheet.draw, sheet.name(), sheet.name()
    width, middle = draw.randint(1, 15), ""
    if draw.random() < 0.6:
        middle = f"until {sheet.name()} bytes 0"
    size = (width + -width % 8 + 8) // 8
    stored = draw.choice(("", f" plus {draw.randint(1, 40)}", f" less {draw.randint(1, size)}"))
    if not middle and draw.random() < 0.5:
        unit = draw.choice((2, 3, 4))
        stored = f" plus {-size % unit or unit} by {unit}"
    lines = [f"{first} u16 {width}", *[middle] * bool(middle), f"{last} u32 {-width % 8 + 8}"]
    at = draw.choice((0, len(lines)))
    lines.insert(
        at, f"computed {sheet.name()} {draw.choice((8, 16, 24))}{stored} over {first} to {last} {sheet.error()}"
    )
    for line in lines:
        sheet.add(line)


def given(sheet: Sheet) -> None:
    """Adds a part that the caller gives, and a number, with the checksum of both."""
    number, name = sheet.name(), sheet.name()
    sheet.add(f"given {name} {sheet.whole_part()}")
    sheet.add(f"{number} u16 16")
    sheet.add(f"check {unused_sum(sheet)} over {name} {number} {sheet.error()}")


# The functions that add a line, each with what it needs: parts, and lists, or that the format is no part.
LINES: dict[Adds, str] = {
    simple: "",
    varying: "",
    part: "parts",
    listed: "lists",
    choice: "parts",
    sized: "parts lists",
    ended: "lists",
    powered: "lists",
    counted: "lists",
}
LINES |= {
    summed: "parts",
    up_to_last: "parts lists",
    summed_lines: "parts",
    computed: "parts lists",
    given: "parts whole",
}


def description(sheet: Sheet, count: int, first: Adds = simple) -> str:
    """Draws a description of some lines, the first one by a function, and returns its text without the rows."""
    draw = sheet.draw
    there = {"parts": sheet.depth > 0, "lists": sheet.lists, "whole": "_" not in sheet.module}
    kinds = [it for it, needs in LINES.items() if all(there[one] for one in needs.split())]
    if first is not to_end and there["parts"] and there["lists"] and draw.random() < 0.15:
        padded(sheet)
    first(sheet)
    for _ in range(count - 1):
        add: Adds = before_end if sheet.rest else simple if draw.random() < 0.3 else draw.choice(kinds)
        add(sheet)
        while sheet.later and draw.random() < 0.5:
            sheet.add(sheet.later.pop(draw.randrange(len(sheet.later))))
    if not sheet.names:
        sheet.add(f"{sheet.name()} bool")
    draw.shuffle(sheet.later)
    lines = [*sheet.lines, *sheet.later, *[sheet.rest] * bool(sheet.rest), *sheet.ends]
    head = [f"struct {sheet.type}: A record.", f"order {sheet.order}"]
    return "\n".join([*head, *lines, ""])


# ---- records


def number(draw: Random, least: int, most: int) -> int:
    """Returns a number of a range: often one of its ends, or a small one."""
    near = [least, most, min(most, max(least, 0)), min(most, max(least, 1))]
    return (
        draw.choice(near)
        if draw.random() < 0.3
        else draw.randint(least, min(most, least + (1 << draw.randint(0, 129))))
    )


def case_value(draw: Random, enum_type: m.EnumType, choice: m.Choose | None = None) -> Value:
    """Returns a case, one that a choice knows if it is by this enum."""
    names = [it for it in enum_type.names() if choice is None or choice.arm(enum_type.number(it) or 0)]
    found = draw.choice(names)
    if found != enum_type.other:
        return found
    known = {number for number, _ in enum_type.cases}
    left = [it for it in (draw.randrange(1 << enum_type.width) for _ in range(40)) if it not in known]
    return {found: left[0]} if left else enum_type.cases[0][1]


def item_value(draw: Random, item: m.Item) -> Value:
    """Returns an item."""
    match item:
        case m.Integer():
            return number(draw, item.least, item.most)
        case m.Octet():
            return draw.randrange(256)
        case m.EnumType():
            return case_value(draw, item)
    return record(draw, item.description)


def many_values(draw: Random, item: m.Item, count: int) -> Value:
    """Returns some items."""
    return draw.randbytes(count) if isinstance(item, m.Octet) else [item_value(draw, item) for _ in range(count)]


def selected(draw: Random, it: m.Choose, number: int | None = None) -> Value:
    """Returns a case of a choice: the one of a number, if it is given."""
    arm = it.arm(number) if number is not None else draw.choice(it.arms)
    assert arm is not None
    if arm.number is None and number is None:
        known = {one.number for one in it.arms}
        number = next(n for n in (draw.randrange(1 << it.width) for _ in range(10000)) if n not in known)
    if isinstance(arm.held, m.Use):
        return {arm.case: record(draw, arm.held.description)}
    if isinstance(arm.held, m.Octet):
        held = draw.randbytes(draw.randrange(5))
        return {arm.case: {"number": number, "bytes": held}} if arm.number is None else {arm.case: held}
    return arm.case if arm.number is not None else {arm.case: number}


def number_of(kind: m.Kind, value: Value) -> int:
    """Returns the number of a field that a condition or a choice asks for."""
    if isinstance(kind, m.Enum):
        if isinstance(value, dict):
            held = value[kind.enum.other]
            return held if isinstance(held, int) else 0
        return kind.enum.number(str(value)) or 0
    return int(value) if isinstance(value, int) else 0


def field_value(draw: Random, it: m.Described, said: m.Description, found: Record) -> Value:
    """Returns the value of a field, which goes with the fields before it."""
    choice = next((one for one in said.fields if isinstance(one, m.Choose) and one.by == it.name), None)
    match it:
        case m.Bool():
            return draw.random() < 0.5
        case m.MaybeNonZero():
            return number(draw, 0, it.integer.most) or None
        case m.Enum():
            return case_value(draw, it.enum, choice)
        case m.Array():
            return many_values(draw, it.item, it.count)
        case m.Unary():
            return draw.choice((0, 1, draw.randrange(40)))
        case m.Part() | m.Given():
            return record(draw, it.use.description)
        case m.Optional():
            return record(draw, it.use.description) if draw.random() < 0.5 else None
        case m.If():
            numbers = {one.name: number_of(one, found[one.name]) for one in said.fields if one.name in it.asked}
            return record(draw, it.use.description) if it.holds(numbers) else None
        case m.Choose():
            return chosen_value(draw, it, said, found)
        case m.Sized(item=m.Use() as use):
            return record(draw, use.description)
        case m.Until():
            return bytes(byte for byte in draw.randbytes(draw.choice((0, 1, 2, 5))) if byte != it.stop)
        case m.UpToLast():
            return parts_up_to_last(draw, it)
        case m.Blocks():
            return [draw.randbytes(draw.choice((1, 2, 5))) for _ in range(draw.choice((0, 1, 2)))]
        case m.Rest(item=m.Use() as use):
            return whole_parts(draw, use.description)
        case m.Sized():
            size = next(one for one in said.kinds if isinstance(one, m.Size) and one.target == it.name)
            least = -(-max(size.plus, 0) // size.unit)
            return draw.randbytes((least + draw.choice((0, 1, 2, 4))) * size.unit - size.plus)
        case m.List(power=m.Power() as power):
            there = not power.there or found[power.there] is True
            return many_values(draw, it.item, power.count(int(str(found[power.field])), there))
        case m.List() | m.Fill() | m.Rest():
            item = it.use if isinstance(it, m.Fill) else it.item
            least = it.less if isinstance(it, m.List) else 0
            return many_values(draw, item, least + draw.choice((0, 1, 2, 4)))
    if choice and draw.random() < (0.8 if choice.other else 1):
        return draw.choice([one.number for one in choice.arms if one.number is not None])
    least, most = m.range_of(it) or (0, 0)
    return number(draw, least, most)


def whole_parts(draw: Random, said: m.Description) -> Value:
    """Returns some records, which together have whole bytes."""
    for _ in range(40):
        found, bits = [record(draw, said) for _ in range(draw.choice((0, 1, 2, 4)))], Bits(said.order)
        for it in found:
            put_record(bits, said, it)
        if bits.count % 8 == 0:
            return [*found]
    return []


def chosen_value(draw: Random, it: m.Choose, said: m.Description, found: Record) -> Value:
    """Returns the case of a choice that an earlier field, or its tag, selects."""
    asked = next((one for one in said.fields if one.name == it.by), None)
    return selected(draw, it, None if asked is None or asked is it else number_of(asked, found[it.by]))


def record(draw: Random, said: m.Description, fixed: Record | None = None) -> Record:
    """Returns the fields of a record, some of which may be fixed."""
    found: Record = {}
    for it in said.fields:
        known = fixed or {}
        found[it.name] = known[it.name] if it.name in known else field_value(draw, it, said, found)
    return found


def parts_up_to_last(draw: Random, it: m.UpToLast) -> Value:
    """Returns parts of which the last one, and no other one, passes a test."""
    said, test = it.use.description, draw.choice(it.tests)
    drawn = [record(draw, said) for _ in range(draw.choice((0, 1, 3)))]
    others: list[Value] = [one for one in drawn if not is_last(it, one)]
    asked = next(one for one in said.fields if one.name == test.field)
    fixed: Value = True
    if test.how == "empty":
        fixed = b"" if isinstance(m.held_item(asked), m.Octet) else []
    elif test.how in ("==", ">="):
        fixed = test.asked if isinstance(asked, m.Enum) else test.value
    while test.how in ("!=", "<"):
        last = record(draw, said)
        if is_last(it, last):
            return [*others, last]
        if draw.random() < 0.01:
            raise Unfit(f"no part passes {test.condition}")
    return [*others, record(draw, said, {test.field: fixed})]


# ---- whole descriptions


def drawn(draw: Random, module: str, folder: Path) -> dict[str, str]:
    """Draws a description and those of its parts, and returns their texts by their modules, the parts first."""
    others: dict[str, str] = {}
    order, first = draw.choice(("BE", "BE", "LE")), draw.choice([*LINES, sized, to_end, to_end])
    sheet = Sheet(
        draw, module, others, order, draw.randint(1, 2), draw.random() < 0.7 or "lists" in LINES.get(first, "")
    )
    text = description(sheet, draw.randint(2, 6), first)
    found: dict[str, str] = {}
    for name, said in [*reversed(others.items()), (module, text)]:
        found[name] = closed(said, str(folder / f"{name}.fields"), name, draw.random() < 0.5)
        (folder / f"{name}.fields").write_text(found[name], encoding="utf-8")
    return found


def closed(text: str, path: str, module: str, align: bool) -> str:
    """Adds the line of the error, if bits are refused, and fills the last byte of a constant width, if `align` by that."""
    said = parsed(text, beside(path, (module,), lambda it: None))
    rest = next((it for it in said.kinds if m.is_rest(it)), None)
    bits = sum(m.bits(it) or 0 for it in said.kinds) if rest else m.total(said.kinds)
    if bits is not None and bits % 8:
        lines, after = text.rstrip().split("\n"), rest.after if rest else 0
        varies = m.total([it for it in said.kinds if it is not rest]) is None
        fill = "align" if align and after % 8 == 0 and not varies else f"any {-bits % 8}"
        text = (
            "\n".join([*lines[: rest.at.line - 1], fill, *lines[rest.at.line - 1 :]] if rest else [*lines, fill]) + "\n"
        )
    if any(m.error(it) for it in said.kinds):
        text = text.replace("\n", f"\nerror {said.name}Error\n", 1)
    return text
