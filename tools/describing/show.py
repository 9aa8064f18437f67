"""Prints the records of a file by a description, or packs printed records again. No code is printed or built.

usage: ./format --show DESCRIPTION [FILE] [OPTION ..]    one JSON object for each record, on a line of its own
       ./format --pack DESCRIPTION [FILE] [OPTION ..]    the bytes of such lines

Without FILE the standard input is read, as it comes. A number beyond 2^53 - 1, which JSON does not hold exactly, is a
string of its digits; bytes are hex; an enum is the name of its case, or {"Other": 5} for another number; an `option` that
is not there is null. Constants, flags, counts, tags and sizes are not printed: `--pack` computes them. Records are
numbered from 0, and the lines of JSON from 1.

  --repeat          read records until the end of the input, and not only one
  --offset N        the byte where the first record begins
  --count N         read at most N records; --repeat need not be said too
  --skip EXPRESSION the bytes between a record and the next one: a number, or `length`, `length+1`, `length*4-8` for a
                    field `length` of the record (`header.length` inside a part)
  --keep-going      report a refused record and go on with the next one; --repeat need not be said too. If all records
                    have the same size, it follows that size; else it is at the next constant of 8 bits or more that
                    every record begins with
  --numbered        begin each object with the number of its record and the byte where it begins, as "record" and "byte".
                    `--pack` takes the option too, and ignores both
  --in FIELD OTHER  read the bytes of FIELD by the description OTHER, which has an order of its own. Bytes that OTHER
                    does not read are not printed. `--pack` takes the option too
  --table           print a table of the lines with their positions (byte in hex, bit), with colours on a terminal
  --html            print a page for a browser, which links the bytes with the fields: one file that needs no network,
                    with at most 100000 records. The whole input is read first
  --picture, --svg  print the picture of the bits, and read nothing

`./format --help` has the lines of a description. The following lines are known here only: no code is printed for them.

    choose body Body by kind: 1 Ack of ack, 2 Raw bytes  a choice with a case that holds bytes
    rest items u16 16                                  items of a list up to the end of the bytes, or of the size around
    sized body Notes of notes OtherSize                a part of a size in plain bytes whose last line is a `rest`
    size body leb128 u32                               the size of anything but a choice in groups of bits; `leb128` and
                                                       `any` also accept more groups than needed
    level u8 4 max 8 High                              a number with a greatest value, if all widths are constants
    until name u16 16 0                                numbers up to the first 0, which is no item; or any width
    check crc32 over level Wrong                       a checksum of fields of any kind
    zeros to 32 NotPadded                              zeros behind other lines of variable width than a list of parts

A size limits the reader: no bit after it is read.

status: 0 no record is refused or torn, also if there is none or if more bytes follow; 2 the command, the description or
a file is refused; 3 a record is refused, or a line does not fit the description; 4 the input ended inside a record. The
records before are printed.
"""
from __future__ import annotations

import argparse
import json
import os
import sys
from typing import BinaryIO, Callable, Iterable, Iterator, NoReturn

from describing import model as m
from describing import picture, table, web
from describing.examples import described
from describing.flat import Plan
from describing.input import Input, Value
from describing.model import Refused
from describing.parse import description_text
from describing.read import value_of
from describing.records import Ended, Fields, Options, Record, Records
from describing.write import EXACT, Unfit, packed, record

CHUNK = 1 << 16


def loaded(path: str) -> m.Description:
    """Returns the model of a description file."""
    try:
        return described(description_text(path), path, os.path.basename(path).removesuffix(".fields"))
    except Refused as it:
        raise Refused(it.why, it.at, it.path or path) from None


def report(text: str) -> None:
    """Prints a message after the records so far."""
    sys.stdout.flush()
    print(f"format: {text}", file=sys.stderr)


def report_refused(it: Record) -> None:
    """Prints why a record is refused."""
    report(it.why)


# ---- JSON


def is_wide(it: m.Description) -> bool:
    """Returns true if a number of a record may be one that JSON does not hold exactly."""
    for kind in it.kinds:
        least, most = m.range_of(kind) or (0, 0)
        if max(-least, most) > EXACT or any(is_wide(use.description) for use in m.uses(kind)):
            return True
    return False


def exact(value: Value) -> Value:
    """Returns a value with strings for the numbers that JSON does not hold exactly."""
    match value:
        case int() if abs(value) > EXACT:
            return str(value)
        case list():
            return [exact(it) for it in value]
        case dict():
            return {name: exact(it) for name, it in value.items()}
    return value


ENCODE = json.JSONEncoder(default=bytes.hex, ensure_ascii=False).encode


def show_json(found: Records, wide: bool) -> None:
    """Prints each record as a line of JSON."""
    write = sys.stdout.write
    if found.plan:
        line = line_of(found.plan)
        for _, _, words in found.words(found.plan):
            write("".join([line(it) for it in words]))
        return
    for it in found.values():
        write(ENCODE(exact(it) if wide else it) + "\n")


# What `--numbered` adds to each object.
NUMBERED = ("record", "byte")


def show_numbered(found: Records, wide: bool) -> None:
    """Prints each record as a line of JSON that begins with its number and its first byte."""
    write, head = sys.stdout.write, '{{"record": {}, "byte": {}, {}'.format
    if found.plan:
        line, step = line_of(found.plan), found.plan.size + int(found.options.skip)
        for number, start, words in found.words(found.plan):
            at = start // 8
            write("".join([head(number + k, at + k * step, line(it)[1:]) for k, it in enumerate(words)]))
        return
    for it in found.records():
        value = value_of(it.nodes)
        write(head(it.number, it.start // 8, ENCODE(exact(value) if wide else value)[1:]) + "\n")


def line_of(plan: Plan) -> Callable[[int], str]:
    """Returns the function that gives the line of JSON of a record of its number."""
    lines = [it for it in plan.lines if m.is_field(it[0])]
    text = ", ".join(f'"{m.label(it[0])}": %s' for it in lines)
    makes = [(shift, most, encoder(most, make)) for _, _, shift, most, make in lines]

    def line(word: int) -> str:
        return text % tuple(
            [(word >> shift) & most if make is None else make((word >> shift) & most) for shift, most, make in makes]
        )

    text = f"{{{text}}}\n"
    return line


def encoder(most: int, make: Callable[[int], Value] | None) -> Callable[[int], str] | None:
    """Returns the function that gives the JSON of a value of its number, or None if it is the number itself."""
    if make is None and most <= EXACT:
        return None

    def encode(number: int) -> str:
        return ENCODE(exact(number if make is None else make(number)))

    return [encode(it) for it in range(most + 1)].__getitem__ if most < 256 else encode


def show_table(found: Records) -> None:
    """Prints each record as a table."""
    colours, write = sys.stdout.isatty() and "NO_COLOR" not in os.environ, sys.stdout.write
    if found.plan:
        flat, step = table.FlatTable(found.plan, colours), 8 * (found.plan.size + int(found.options.skip))
        for number, start, words in found.words(found.plan):
            write("".join([flat.text(number + k, start + k * step, it) + "\n" for k, it in enumerate(words)]))
        return
    made = table.Table(colours)
    for it in found.records():
        write(made.text(it.number, it.start, it.end, it.nodes) + "\n")


def show_page(asked: argparse.Namespace, it: m.Description, options: Options, file: BinaryIO) -> Records:
    """Prints a page for a browser. It says why the records end early, and then the command ends as it does without."""
    data, notes = file.read(), list[str]()
    options.count = min(options.count, web.MOST)
    refused, ended = list[Record](), list[Ended]()

    def passed(one: Record) -> None:
        report_refused(one)
        refused.append(one)

    found = Records(it, Input(data, it.order), options, passed)

    def records() -> Iterator[Record]:
        try:
            for one in found.records():
                yield from taken(refused)
                yield one
        except Ended as early:
            ended.append(early)
            refused.extend([early.record] if early.record else [])
            notes.extend([] if early.record else [str(early)])
        yield from taken(refused)
        if found.number == web.MOST and found.row.at < found.row.end:
            notes.append(
                f"{web.MOST} records are shown; the next one begins at byte {found.row.at // 8}: see --offset."
            )

    said = [it, *[other for _, other in options.inside]]
    sys.stdout.write(web.page(said, data, records(), asked.file or "-", notes))
    if ended:
        raise ended[0]
    return found


def taken(records: list[Record]) -> list[Record]:
    """Empties a list, and returns what it held."""
    found = records[:]
    records.clear()
    return found


# ---- the commands


def input_of(file: BinaryIO, order: str) -> Input:
    """Returns the bits of a file, which is read as it comes; what was printed is flushed before each read."""

    def fetch() -> bytes:
        sys.stdout.flush()
        return file.read1(CHUNK)  # type: ignore[attr-defined, no-any-return]

    return Input(b"", order, fetch)


def show_lines(asked: argparse.Namespace, it: m.Description, options: Options, found: Records) -> None:
    """Prints the records as tables or as JSON."""
    if asked.table:
        return show_table(found)
    wide = is_wide(it) or any(is_wide(other) for _, other in options.inside)
    if asked.numbered:
        return show_numbered(found, wide)
    show_json(found, wide)


def show(asked: argparse.Namespace, it: m.Description, options: Options, file: BinaryIO) -> None:
    """Runs `--show`."""
    if asked.html:
        found = show_page(asked, it, options, file)
    else:
        found = Records(it, input_of(file, it.order), options, report_refused)
        show_lines(asked, it, options, found)
    if found.refused:
        raise Ended(f"{found.refused} of {found.number} records are refused")
    if not options.repeat and found.row.end > found.row.at:
        report(f"more bytes follow at byte {found.row.at // 8}: `--repeat` reads them")


def joined_inside(value: Value, inside: list[tuple[str, m.Description]]) -> Value:
    """Returns a value with the bytes of the fields that `--in` names, in place of their records."""
    if isinstance(value, list):
        return [joined_inside(it, inside) for it in value]
    if not isinstance(value, dict):
        return value
    found: Fields = {}
    for name, held in value.items():
        held = joined_inside(held, inside)
        other = next((it for field, it in inside if field == name), None)
        found[name] = packed(other, held) if other and isinstance(held, dict) else held
    return found


def pack(asked: argparse.Namespace, it: m.Description, options: Options, lines: Iterable[bytes], out: BinaryIO) -> None:
    """Runs `--pack`."""
    for number, line in enumerate(lines, 1):
        if line.strip():
            try:
                value = record("the line", joined_inside(json.loads(line.rstrip()), options.inside))
                if asked.numbered:
                    value = {name: held for name, held in value.items() if name not in NUMBERED}
                out.write(packed(it, value))
            except (Unfit, ValueError, RecursionError) as why:
                out.flush()
                raise Ended(f"line {number}{no_json(why)}") from None


# What `json` says of a text that is no JSON, and what is said here.
JSON_TEXTS = {
    "Expecting value": "a value expected",
    "Expecting property name enclosed in double quotes": "a name in double quotes expected",
    "Expecting ',' delimiter": "',' expected",
    "Expecting ':' delimiter": "':' expected",
    "Extra data": "the end of the line expected",
    "Unterminated string starting at": "this string does not end",
    "Invalid control character at": "a control character in a string",
    "Illegal trailing comma before end of object": "no ',' expected",
    "Illegal trailing comma before end of array": "no ',' expected",
}


def no_json(why: Exception) -> str:
    """Returns the rest of the message of a line, from the column where it is no JSON."""
    match why:
        case json.JSONDecodeError():
            return f", column {why.pos + 1}: no JSON: {JSON_TEXTS.get(why.msg, why.msg)}"
        case UnicodeDecodeError():
            return f", byte {why.start + 1}: no JSON: the bytes are no UTF-8"
        case RecursionError():
            return ": too many brackets inside each other"
        case ValueError() if "integer string conversion" in str(why):
            return ": a number has more than 4300 digits"
    return f": {why}"


def arguments(words: list[str]) -> argparse.Namespace:
    """Parses the command line."""
    usage = (__doc__ or "").split("usage: ")[1]
    parser = Arguments(usage=usage, add_help=False)
    what = parser.add_mutually_exclusive_group(required=True)
    for name in ("show", "pack", "help"):
        what.add_argument(f"--{name}", action="store_true")
    for name in ("repeat", "keep-going", "numbered"):
        parser.add_argument(f"--{name}", action="store_true")
    how = parser.add_mutually_exclusive_group()
    for name in ("table", "html", "picture", "svg"):
        how.add_argument(f"--{name}", action="store_true")
    parser.add_argument("--offset", type=whole, default=0)
    parser.add_argument("--skip", default="0")
    parser.add_argument("--count", type=whole)
    parser.add_argument("--in", dest="inside", nargs=2, action="append", default=[])
    parser.add_argument("description", nargs="?")
    parser.add_argument("file", nargs="?")
    found = parser.parse_intermixed_args(words) if "--help" not in words else argparse.Namespace(help=True)
    if not found.help and found.description is None:
        parser.error("no DESCRIPTION")
    return found


class Arguments(argparse.ArgumentParser):
    """A parser whose errors are one line; `--help` prints the rest."""

    def error(self, message: str) -> NoReturn:
        print(f"format: {message}; see ./format --show --help", file=sys.stderr)
        sys.exit(2)


def whole(text: str) -> int:
    """Returns a number that is not negative, in decimal or in hex."""
    try:
        found = int(text, 0)
    except ValueError:
        found = -1
    if found < 0:
        raise argparse.ArgumentTypeError(f"`{text}` is no number from 0 on")
    return found


def options_of(asked: argparse.Namespace) -> Options:
    """Returns the options that a command line has."""
    inside = [(name, loaded(path)) for name, path in asked.inside]
    repeat, count = asked.repeat or asked.count is not None or asked.keep_going, asked.count
    return Options(repeat, asked.offset, sys.maxsize if count is None else count, asked.skip, asked.keep_going, inside)


def byte_fields(it: m.Description) -> set[str]:
    """Returns the names of the fields that hold bytes, also inside parts."""
    found = {kind.name for kind in it.fields if isinstance(m.held_item(kind), m.Octet)}
    return found.union(*(byte_fields(use.description) for kind in it.kinds for use in m.uses(kind)))


def check_inside(it: m.Description, inside: list[tuple[str, m.Description]]) -> None:
    """Refuses `--in` for a field that no record has, or that holds no bytes."""
    known = byte_fields(it).union(*(byte_fields(other) for _, other in inside))
    for name, _ in inside:
        if name not in known:
            raise Refused(f"--in {name}: no field `{name}` holds bytes")


def check_numbered(it: m.Description) -> None:
    """Refuses `--numbered` for a description that has a field of the same name."""
    for name in {kind.name for kind in it.fields} & set(NUMBERED):
        raise Refused(f"--numbered: the description has a field `{name}` of its own")


def check_streams(asked: argparse.Namespace) -> None:
    """Refuses a standard input or output that is closed."""
    read: object = sys.stdin
    written: object = sys.stdout
    if written is None or read is None and asked.file is None and not (asked.picture or asked.svg):
        raise Refused(f"the standard {'output' if written is None else 'input'} is closed")


def run(asked: argparse.Namespace) -> None:
    """Runs a command."""
    it, options = loaded(asked.description), options_of(asked)
    check_inside(it, options.inside)
    if asked.numbered:
        check_numbered(it)
    if asked.picture:
        print("\n".join(picture.text(it.kinds)[2:-1]))
    elif asked.svg:
        print(picture.alone(it.kinds))
    elif asked.file is None:
        run_on(asked, it, options, sys.stdin.buffer)
    else:
        with open(asked.file, "rb") as file:
            run_on(asked, it, options, file)


def run_on(asked: argparse.Namespace, it: m.Description, options: Options, file: BinaryIO) -> None:
    """Runs a command on an input."""
    if asked.pack:
        pack(asked, it, options, file, sys.stdout.buffer)
    else:
        show(asked, it, options, file)


def main(words: list[str]) -> int:
    """Runs the command line, and returns the exit status."""
    asked = arguments(words)
    if asked.help:
        print(f"usage: {(__doc__ or '').split('usage: ')[1]}", end="")
        return 0
    try:
        check_streams(asked)
        run(asked)
        sys.stdout.flush()
    except BrokenPipeError:
        os.dup2(os.open(os.devnull, os.O_WRONLY), sys.stdout.fileno())
    except Ended as it:
        report(str(it))
        return it.status
    except OSError as it:
        report(f"{it.filename or 'the input or the output'}: {it.strerror}")
        return 2
    except Refused as it:
        if sys.__stdout__:
            sys.stdout.flush()
        print(it.message(asked.description), file=sys.stderr)
        return 2
    return 0
