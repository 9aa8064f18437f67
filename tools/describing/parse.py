"""The parser of descriptions. Each refusal names the line and the column.

A function `.._line` parses the rest of a line that begins so; `describing.model` has the form of each line.
"""
from __future__ import annotations

import os
import re
from dataclasses import dataclass, field, replace
from typing import Callable, Iterable, Protocol

from describing import hints
from describing import model as m
from describing.model import Position, Refused
from describing.words import Early, Words, number

UNSIGNED = ("u8", "u16", "u32", "u64", "u128")
SIGNED = ("i8", "i16", "i32", "i64", "i128")
HEADS = {
    "struct": "`struct NAME: DOC`",
    "part": "`part NAME: DOC`",
    "order": "`order BE` or `order LE`",
    "error": "`error NAME`",
}
ORDERS = ("==", "!=", "<", ">=")
ONLY_PARTS = "only a part may be missing: describe it, also its size or its count, by lines of a file MODULE.fields"
GIVEN = "`0 CASE, 1 CASE` and so on, after a colon"
INTEGER = "`NAME TYPE BITS`, `NAME TYPE BITS x COUNT`, `NAME TYPE BITS max N ERROR` or `NAME TYPE BITS LE`"
LIMITED = "a number with a greatest value is unsigned"
BYTE_ORDERS = ("BE", "LE")
ENUM = "`NAME enum TYPE BITS{}: NUMBER CASE, ..; DOC`"
LIST = "`{0} NAME TYPE BITS`, `{0} NAME bytes`, `{0} NAME enum TYPE BITS: ..` or `{0} NAME TYPE of MODULE`"
ARMS = "NUMBER TYPE of MODULE, NUMBER CASE TYPE of MODULE, NUMBER CASE, .. CASE [bytes]; DOC"
CASES = re.compile(
    r"(?:\d+|0x[0-9A-Fa-f]+|\.\.) [A-Z]\w*(?: of \w+)?(?:, *(?:\d+|0x[0-9A-Fa-f]+|\.\.) [A-Z]\w*(?: of \w+)?)*"
)
# The form of a line, by its type (the word after the name of the field) or by its first word.
TYPES = {it: INTEGER for it in (*UNSIGNED, *SIGNED)} | {
    "bool": "`NAME bool`",
    "bytes": "`NAME bytes COUNT`",
    "nonzero": "`NAME nonzero TYPE BITS`",
    "option": "`NAME option TYPE BITS`",
    "enum": f"{ENUM.format('')}, without cases if a line before it has them, or {ENUM.format(' x COUNT')}",
    "unary": "`NAME unary STOP`",
    "vbr": "`NAME vbr BITS TYPE` or `NAME vbr BITS TYPE any`, and TYPE is u8 to u128, or i8 to i128",
    "leb128": "`NAME leb128 TYPE`, and TYPE is u16 to u128, or i16 to i128",
    "varint": "`NAME varint quic`",
    "ue": "`NAME ue`",
    "se": "`NAME se`",
}
STARTS = {
    "const": "`const BITS VALUE ERROR`",
    "any": "`any BITS`",
    "align": "`align`",
    "zeros": "`zeros BITS ERROR` or `zeros to MULTIPLE ERROR`",
    "flag": "`flag NAME`",
    "option": "`option NAME TYPE of MODULE`",
    "if": "`if TEST [and TEST] NAME TYPE of MODULE` or `if TEST or TEST NAME TYPE of MODULE`",
    "count": "`count LIST BITS [less N] [max N ERROR]` or `count LIST ue [less N] [max N ERROR]`",
    "list": f"{LIST.format('list')}, the first or the last also with `power FIELD [plus N] [if BIT]`",
    "tag": "`tag NAME BITS`",
    "size": "`size NAME BITS [plus N | less N] [by N] [max N ERROR]`, `size NAME varint quic [max N ERROR]`, "
    "`size NAME vbr BITS TYPE [any] [max N ERROR]` or `size NAME leb128 TYPE [max N ERROR]`",
    "sized": "`sized NAME TYPE of MODULE ERROR` or `sized NAME bytes [ERROR]`",
    "fill": "`fill NAME TYPE of MODULE ERROR`",
    "choose": f"`choose NAME TYPE [by FIELD] [sized ERROR | rest ERROR]: {ARMS}`",
    "rest": LIST.format("rest"),
    "blocks": "`blocks NAME`",
    "check": "`check SUM [LE] over FIELD.. ERROR`, `check SUM [LE] over all [to FIELD] ERROR` or "
    "`check SUM [LE] over FIELD to FIELD ERROR`",
    "given": "`given NAME TYPE of MODULE`",
    "computed": "`computed NAME BITS [plus N | less N] [by N] over FIELD.. ERROR`, with the same lines as `check`",
    "until": "`until NAME bytes STOP`, `until NAME TYPE BITS STOP` or `until NAME TYPE of MODULE if TEST [or TEST]`",
}
# The checksums that code computes over fields of whole bytes by themselves.
PLAIN_SUMS = ("sum16", "crc32", "crc32-mpeg", "crc16-ccitt", "crc16-x25", "crc16-kermit")
COMING = ("tag", "size", "sized", "fill", "choose", "rest", "until", "check", "computed", "blocks", "given")


class Find(Protocol):
    """Finds the description of a module."""

    def __call__(self, module: str, /) -> m.Description:
        ...


@dataclass
class Context:
    """The lines so far, and the function that finds the description of a part."""

    find: Find
    kinds: list[m.Kind] = field(default_factory=list)

    def enum(self, name: str) -> m.EnumType | None:
        """Returns the enum of this name that an earlier line defines."""
        for it in self.kinds:
            match it:
                case m.Enum(enum=enum) | m.List(item=m.EnumType() as enum) | m.Rest(item=m.EnumType() as enum):
                    if enum.name == name:
                        return enum
        return None

    def count_of(self, name: str) -> m.Count | None:
        """Returns the earlier line that counts the items of a list, or None if there is none."""
        return next((it for it in self.kinds if isinstance(it, m.Count) and it.target == name), None)

    def tagged(self, name: str) -> bool:
        """Returns true if an earlier line is the tag of this name."""
        return any(isinstance(it, m.Tag) and it.name == name for it in self.kinds)

    def measured(self, name: str) -> bool:
        """Returns true if an earlier line has the size of a field."""
        return any(isinstance(it, m.Size) and it.target == name for it in self.kinds)


# ---- parts of lines


def integer(words: Words, known: str = "", wraps: str = "", most: int = 0) -> m.Integer:
    """Takes TYPE BITS, or BITS if the type is `known`. A type that wraps it has `most` bits fewer at most."""
    base = known or words.next()
    what = f"the width of a {wraps.format(base) if wraps else base}"
    if base[1:] not in ("8", "16", "32", "64", "128") or base[0] not in "ui":
        raise words.refuse(f"`{base}` is no type of a number: take u8 to u128, or i8 to i128")
    return m.Integer(base, words.number(1, int(base[1:]) - most, what))


def use(words: Words, context: Context, only: str = "") -> m.Use:
    """Takes TYPE of MODULE; `only` says what else is refused in its place."""
    name, at = words.next(), words.place(1)
    if words.peek() != "of":
        raise Refused(only or f"`{name}` is not followed by `of MODULE`: it is {form_of(words)}", at)
    words.next()
    module = words.next()
    found = m.Use(name, module, finding(context, module, words.place(1)))
    check_use(found, at)
    return found


def finding(context: Context, module: str, at: Position) -> m.Description:
    """Returns the description of a module; a refusal has the position of its name here."""
    try:
        return context.find(module)
    except Refused as it:
        raise Refused(f"`{module}`: {it}" if it.at else it.why, at) from None


def only_part(form: str) -> str:
    """Returns the refusal of what is no part where only a part may be there or not."""
    return f"{ONLY_PARTS}, and take `{form} TYPE of MODULE`"


def check_use(found: m.Use, at: Position, case: str = "") -> None:
    """Refuses a part of another type than its module describes; `case` ends the reason."""
    if found.description.name != found.name:
        described = found.description.name
        raise Refused(f"`{found.module}` describes `{described}`, and not `{found.name}`{case}", at)


def count(words: Words) -> int:
    """Takes the number of items of an array."""
    return words.number(1, 4096, "the number of items")


def new_enum(words: Words, name: str, width: int) -> tuple[m.EnumType, str]:
    """Parses the cases after the colon, and returns the enum and the comment after them."""
    cases, doc = cases_of(words)
    found: list[tuple[int, str]] = []
    other = ""
    for said in cases.split(","):
        if len(said.split()) > 2:
            raise Refused(f"`{said.strip()}`: a comma stands between two cases", words.place(1))
        value, case = said.split()
        if value == "..":
            if other:
                raise Refused(f"`{said.strip()}`: one case has all other numbers, `.. {other}`", words.place(1))
            other = case
        else:
            found.append((number(value, 0, (1 << width) - 1, "the number of a case", words.place(1)), case))
    enum = m.EnumType(name, width, tuple(found), other)
    check_enum(enum, words.place(1))
    return enum, doc.strip()


def cases_of(words: Words) -> tuple[str, str]:
    """Returns the cases after the colon, and the comment after them."""
    cases, _, doc = words.behind.partition(";")
    after = doc.partition(";")[0].strip()
    if CASES.fullmatch(after):
        why = "a comma stands between two cases, and a semicolon before the comment"
        raise Refused(f"`{after}` follows a semicolon: {why}", words.place(1))
    return cases, doc


def check_enum(enum: m.EnumType, at: Position) -> None:
    """Refuses cases with the same number or name, and a case for other numbers if there are none."""
    names = [enum.name, *enum.names()]
    if len(dict(enum.cases)) < len(enum.cases):
        raise Refused("two cases have one number", at)
    if len(set(names)) < len(names):
        raise Refused("two cases have one name, or one has that of the enum", at)
    if len(enum.cases) == 1 << enum.width and enum.other:
        raise Refused("no number is left for the other case", at)
    if not enum.cases:
        raise Refused(f"an enum has a case with a number: `0 CASE, .. {enum.other}`", at)


def enum_of(words: Words, context: Context) -> tuple[m.EnumType, str, bool]:
    """Takes TYPE BITS: CASES; DOC. Without cases, an earlier line has them, and the last value is true."""
    name = words.next()
    width, at = words.number(1, 32, "the width of an enum"), words.place(1)
    if re.match(r"\s*(\d|\.\.)", words.behind):
        return (*new_enum(words, name, width), False)
    if words.peek() == "x":
        raise Refused(f"an array says its cases itself: {GIVEN}", at)
    known = context.enum(name)
    if not known:
        raise Refused(f"no line before it says the cases of `{name}`: {GIVEN}", at)
    if known.width != width:
        raise Refused(f"`{name}` has {known.width} bits above", at)
    return known, words.behind, True


def item(words: Words, context: Context) -> tuple[m.Item, str]:
    """Takes the item of a list, and returns it with the comment."""
    word = words.peek()
    if words.peek(1) == "of":
        return use(words, context), words.behind
    words.next()
    if word == "bytes":
        return m.Octet(), words.behind
    if word == "enum":
        enum, doc, _ = enum_of(words, context)
        return enum, doc
    if word not in (*UNSIGNED, *SIGNED):
        why = f"`{word}` in a list: take u8 to u128, i8 to i128, bytes, an enum, or a part"
        raise words.refuse(why)
    return integer(words, word), words.behind


# ---- lines that begin with the name of a field


def typed(words: Words, context: Context) -> m.Kind:
    """Parses a line NAME TYPE and so on."""
    name, at = words.next(), words.place(1)
    if words.peek(1) == "of":
        return m.Part(at, words.behind, name, use(words, context))
    if not words.peek():
        hint = hints.no_type(name, words.behind, TYPES, STARTS | HEADS)
        raise words.refuse(f"`{name}` is no kind of a line, and names no type after it: {hint}")
    word = words.next()
    if word in STARTS and word not in TYPES:
        raise words.refuse(f"`{word}` begins its line, and no name stands before it: {STARTS[word]}")
    if word not in TYPES:
        hint = hints.of_type(name, word, [it for _, it in words.found[words.at :]], TYPES, STARTS | HEADS)
        raise words.refuse(f"`{word}` is no kind of a field: {hint}")
    return TYPED[word](words, context, word, Position(at.line, at.column), name)


def integer_line(words: Words, context: Context, word: str, at: Position, name: str) -> m.Kind:
    number = integer(words, word)
    if words.peek() in BYTE_ORDERS:
        return m.Number(at, words.behind, name, number, order=byte_order(words, number))
    if words.skip("x"):
        return m.Array(at, words.behind, name, number, count(words))
    if words.peek() == "max" and number.signed:
        raise words.refuse(LIMITED, 0)
    return m.Number(at, words.behind, name, number, *limit(words, number.most))


def byte_order(words: Words, number: m.Integer) -> str:
    """Takes `BE` or `LE`, the order of the bytes of a number."""
    order, whole = words.next(), number.base[1:]
    if whole == "8":
        raise words.refuse("a number of 8 bits has one byte, and no order of its bytes")
    if number.width != int(whole):
        raise words.refuse(
            f"a number in a byte order of its own has all bits of its type: `{number.base} {whole} {order}`"
        )
    if words.peek() == "x":
        raise words.refuse("the numbers of an array are in the byte order of the format", 0)
    if words.peek() == "max":
        raise words.refuse("a number in a byte order of its own has no greatest value", 0)
    return order


def limit(words: Words, most: int) -> tuple[int | None, str]:
    """Takes `max N ERROR`, if it is there: the greatest value of a number, and the error for a greater one."""
    if not words.skip("max"):
        return None, ""
    found = words.number(0, most - 1, "the greatest value")
    return found, words.next()


def bool_line(words: Words, context: Context, word: str, at: Position, name: str) -> m.Kind:
    return m.Bool(at, words.behind, name)


def bytes_line(words: Words, context: Context, word: str, at: Position, name: str) -> m.Kind:
    return m.Array(at, words.behind, name, m.Octet(), words.number(1, 4096, "the number of bytes"))


def nonzero_line(words: Words, context: Context, word: str, at: Position, name: str) -> m.Kind:
    return m.NonZero(
        at, words.behind, name, integer(words, wraps="NonZero<{}>, which is stored as its number less 1,", most=1)
    )


def option_line(words: Words, context: Context, word: str, at: Position, name: str) -> m.Kind:
    return m.MaybeNonZero(at, words.behind, name, integer(words))


def enum_line(words: Words, context: Context, word: str, at: Position, name: str) -> m.Kind:
    enum, doc, repeats = enum_of(words, context)
    if words.skip("x"):
        return m.Array(at, doc, name, enum, count(words))
    return m.Enum(at, doc, name, enum, repeats)


def unary_line(words: Words, context: Context, word: str, at: Position, name: str) -> m.Kind:
    return m.Unary(at, words.behind, name, words.number(0, 1, "the bit that ends it"))


def groups_type(words: Words, base: str) -> m.Integer:
    """Returns the type of a number in groups, which has all its bits."""
    if base not in (*UNSIGNED, *SIGNED):
        raise words.refuse(f"`{base}` in groups: take u8 to u128, or i8 to i128")
    return m.Integer(base, int(base[1:]))


def vbr_line(words: Words, context: Context, word: str, at: Position, name: str) -> m.Kind:
    words.next()
    whole = groups_type(words, words.next())
    words.at -= 2
    group = words.number(2, whole.width - 1, "the bits of a group")
    words.next()
    if words.peek() not in ("any", "") and len(words.found) == words.at + 1:
        raise words.refuse(f"`any` or nothing, and not `{words.peek()}`", 0)
    return m.Groups(at, words.behind, name, whole, group, words.skip("any"))


def leb128_line(words: Words, context: Context, word: str, at: Position, name: str) -> m.Kind:
    whole = groups_type(words, words.next())
    if whole.width == 8:
        raise words.refuse(f"`{whole.base}` in groups of 8 bits: take u16 to u128, or i16 to i128")
    return m.Groups(at, words.behind, name, whole, 8, True)


def golomb_line(words: Words, context: Context, word: str, at: Position, name: str) -> m.Kind:
    return m.Golomb(at, words.behind, name, word == "se")


def varint_line(words: Words, context: Context, word: str, at: Position, name: str) -> m.Kind:
    words.at -= 1
    quic(words)
    return m.Varint(at, words.behind, name)


def quic(words: Words) -> None:
    """Takes `varint quic`."""
    words.next()
    if words.next() != "quic":
        raise words.refuse("`varint quic` is known, and no other")


# ---- lines that begin with a word of their own


def const_line(words: Words, context: Context, at: Position) -> m.Kind:
    width = words.number(1, 32, "the width of a constant")
    digits, value = words.peek(), words.number(0, (1 << width) - 1, "the constant")
    return m.Const(at, words.behind, width, value, words.next(), digits)


def zeros_line(words: Words, context: Context, at: Position) -> m.Kind:
    if words.skip("to"):
        return padding(words, context, at)
    if len(words.found) != 3:
        raise Refused("`zeros BITS ERROR`, or `any BITS` if any bits are read there", at)
    width = words.number(1, 32, "the width of a constant")
    return m.Const(at, words.behind, width, 0, words.next())


def padding(words: Words, context: Context, at: Position) -> m.Kind:
    """Takes MULTIPLE ERROR of zeros up to a multiple of bits."""
    unit = words.number(2, 64, "the multiple of bits")
    varies = [it for it in context.kinds if m.bits(it) is None]
    before = sum(m.bits(it) or 0 for it in context.kinds)
    if not varies:
        why = f"{before} bits stand before it" if before % unit else f"nothing to fill: {before} bits stand before it"
        raise Refused(f"{why}{f': take `zeros {-before % unit} ERROR`' * bool(before % unit)}", at)
    doc = words.behind or f"The bits up to a multiple of {unit} are not 0."
    return m.Pad(at, doc, unit, words.next(), before, m.label(varies[-1]))


def any_line(words: Words, context: Context, at: Position) -> m.Kind:
    return m.Skip(at, words.behind, words.number(1, 4096, "the number of zeros"), False)


def align_line(words: Words, context: Context, at: Position) -> m.Kind:
    width = m.total(context.kinds)
    if width is None:
        why = "`align` after what has no constant number of bits: how many it has is not known"
        raise Refused(why, at)
    if width % 8 == 0:
        raise Refused(f"nothing to align: {width} bits stand before it", at)
    return m.Skip(at, words.behind, -width % 8, True)


def flag_line(words: Words, context: Context, at: Position) -> m.Kind:
    return m.Flag(at, words.behind, words.next())


def option_part(words: Words, context: Context, at: Position) -> m.Kind:
    name = words.next()
    if not any(isinstance(it, m.Flag) and it.target == name for it in context.kinds):
        if name in STARTED:
            raise words.refuse(only_part("option NAME"))
        raise words.refuse(f"no `flag {name}` before it")
    return m.Optional(at, words.behind, name, use(words, context, only_part(f"option {name}")))


def if_line(words: Words, context: Context, at: Position) -> m.Kind:
    found, joined = [asked_test(words, context)], ""
    while words.peek() in ("and", "or") and words.peek(2) != "of":
        if joined and words.peek() != joined:
            raise words.refuse("a condition has `and` or `or`, and not both", 0)
        joined = words.next()
        found.append(asked_test(words, context))
    name = words.next()
    part = use(words, context, only_part("if TEST NAME"))
    return m.If(at, words.behind, name, part, tuple(found), joined or "and")


def asked_test(words: Words, context: Context) -> m.Test:
    """Takes a test of an earlier field."""
    unset = words.peek(1) not in ORDERS and words.skip("not")
    asked, place = words.next(), words.place(1)
    if words.peek() not in ORDERS:
        if not any(isinstance(it, m.Bool) and it.name == asked for it in context.kinds):
            hint = hints.of_test(asked, words.peek(), words.peek(1))
            hint = hint or f"no bit `{asked}` before it, and no `==`, `!=`, `<` or `>=` after it"
            raise Refused(hint, place)
        return m.Test(asked, "not", 0) if unset else m.Test(asked, "")
    if unset:
        raise Refused("`not` asks for a bit", place)
    how = words.next()
    said, there = words.next(), words.place(1)
    value = asked_value(context.kinds, asked, said, place, there)
    if any(isinstance(it, m.Enum) and it.name == asked for it in context.kinds):
        check_how(how, asked, place)
    return m.Test(asked, how, value, said)


def asked_value(
    kinds: Iterable[m.Kind], asked: str, said: str, place: Position, there: Position, where: str = "before it"
) -> int:
    """Returns the number that a condition compares a field with, which is one of these lines."""
    for it in kinds:
        match it:
            case m.Enum(name=name, enum=enum) if name == asked:
                found = enum.number(said)
                if found is None:
                    raise Refused(f"`{said}` is no case of {enum.name} with a number of its own", there)
                return found
            case (m.Number() | m.Groups()) if it.name == asked and not it.integer.signed:
                return number(said, 0, (1 << 128) - 1, "what is asked for", there)
            case (m.Unary() | m.Golomb(signed=False) | m.Varint() | m.Tag()) if it.name == asked:
                return number(said, 0, (1 << 128) - 1, "what is asked for", there)
    if any(isinstance(it, m.Bool) and it.name == asked for it in kinds):
        raise Refused(f"`{asked}` is a bit: ask for `{asked}` or for `not {asked}`, and compare it with nothing", place)
    raise Refused(f"no number or enum `{asked}` {where}", place)


def count_line(words: Words, context: Context, at: Position) -> m.Kind:
    name = words.next()
    golomb = words.skip("ue")
    width = 32 if golomb else words.number(1, 32, "the width of a count")
    if words.peek() in ("plus", "by"):
        raise words.refuse("a count stores the number of items, or `less N` than that", 0)
    less = words.number(1, 1 << 16, "what is not counted") if words.skip("less") else 0
    found = m.Count(at, words.behind, name, width, less=less, golomb=golomb)
    most, error = limit(words, found.most)
    return replace(found, limit=most, error=error)


def list_line(words: Words, context: Context, at: Position) -> m.Kind:
    name, place = words.next(), words.place(1)
    found, doc = item(words, context)
    if words.skip("power"):
        return m.List(at, doc, name, found, power(words, context, found))
    count = context.count_of(name)
    if not count:
        to_end = f"; if `{name}` is all up to the end, it is `rest {name} ..`" * isinstance(found, m.Octet | m.Use)
        raise Refused(f"no `count {name} BITS` before it{to_end}", place)
    if isinstance(found, m.Octet | m.EnumType) and (count.less or count.golomb):
        raise Refused(f"`ue` and `less` count numbers or parts, and `{name}` is a list of others", place)
    return m.List(at, doc, name, found, None, count)


def power(words: Words, context: Context, found: m.Item) -> m.Power:
    """Takes FIELD [plus N] [if BIT] of a list whose number of items is a power of two."""
    if isinstance(found, m.Octet | m.EnumType):
        raise words.refuse("a power of two counts numbers or parts")
    name = words.next()
    number = next((it for it in context.kinds if isinstance(it, m.Number) and it.name == name), None)
    if number is None or number.integer.base != "u8" or number.integer.width > 5:
        raise words.refuse(f"no number `{name} u8 BITS` of at most 5 bits before it")
    plus = words.number(0, 8, "what is added") if words.skip("plus") else 0
    there = words.next() if words.skip("if") else ""
    if there and not any(isinstance(it, m.Bool) and it.name == there for it in context.kinds):
        raise words.refuse(f"no bit `{there}` before it")
    return m.Power(name, plus, there)


def tag_line(words: Words, context: Context, at: Position) -> m.Kind:
    name = words.next()
    return m.Tag(at, words.behind, name, words.number(1, 32, "the width of a tag"))


def size_line(words: Words, context: Context, at: Position) -> m.Kind:
    name = words.next()
    if words.peek() == "varint":
        quic(words)
        return m.Size(at, words.behind, name, 62, 1, 0, True, None, *limit(words, (1 << 62) - 1))
    if words.peek() in ("vbr", "leb128"):
        return grouped_size(words, context, at, name)
    width = words.number(1, 64, "the width of a size")
    unit, plus = units(words)
    return m.Size(at, words.behind, name, width, unit, plus, False, None, *limit(words, (1 << width) - 1))


def units(words: Words) -> tuple[int, int]:
    """Takes `[plus N | less N] [by N]`, and returns the bytes of a unit and what is added."""
    unit, plus = 1, 0
    if words.peek() in ("plus", "less"):
        sign = 1 if words.next() == "plus" else -1
        plus = sign * words.number(1, 1 << 16, "what is added")
    if words.peek() == "by" and words.next():
        unit = words.number(2, 4096, "the bytes of a unit")
    return unit, plus


def grouped_size(words: Words, context: Context, at: Position, name: str) -> m.Kind:
    """Takes the rest of a size in groups of bits."""
    word = words.next()
    groups = (vbr_line if word == "vbr" else leb128_line)(words, context, word, at, name)
    assert isinstance(groups, m.Groups)
    whole = groups.integer
    if whole.signed or whole.width > 32:
        raise Refused(f"`{whole.base}` for a size in groups: take u8, u16 or u32", at)
    most, error = limit(words, whole.most)
    return m.Size(at, words.behind, name, whole.width, 1, 0, False, groups, most, error)


def sized_line(words: Words, context: Context, at: Position) -> m.Kind:
    name = measured(words, context)
    if words.peek() == "bytes" and words.next():
        return m.Sized(at, words.behind, name, m.Octet(), words.next() if words.peek() else "")
    return m.Sized(at, words.behind, name, use(words, context), words.next())


def fill_line(words: Words, context: Context, at: Position) -> m.Kind:
    name = measured(words, context)
    return m.Fill(at, words.behind, name, use(words, context), words.next())


def measured(words: Words, context: Context) -> str:
    """Takes the name of a field whose size an earlier line has."""
    name = words.next()
    if not context.measured(name):
        raise words.refuse(f"no `size {name} BITS` before it")
    return name


def choose_line(words: Words, context: Context, at: Position) -> m.Kind:
    name, type = words.next(), words.next()
    by = words.next() if words.peek() == "by" and words.next() else name
    place = words.place(1)
    to_end = words.peek() == "rest"
    overrun = words.next() if words.peek() in ("sized", "rest") and words.next() else ""
    sized = context.measured(name)
    if to_end and sized:
        raise Refused(f"`{name}` has a size: `sized ERROR`, and not `rest ERROR`", place)
    if not to_end and bool(overrun) != sized:
        why = f"no `size {name} BITS` before it" if overrun else f"`sized ERROR`: `{name}` has a size"
        raise Refused(why, place)
    width = tag_width(context, by, place)
    if any(isinstance(it, m.Choose) and it.by == by for it in context.kinds) and context.tagged(by):
        raise Refused(f"two choices by one tag, `{by}`", place)
    said, doc = cases_of(words)
    arms = tuple(arm(words, context, it.split(), width) for it in said.split(","))
    check_arms(arms, width, place)
    return m.Choose(at, doc.strip(), name, type, by, sized or to_end, overrun, arms, width, to_end)


def tag_width(context: Context, by: str, place: Position) -> int:
    """Returns the width of the earlier field that selects the case of a choice."""
    for it in context.kinds:
        match it:
            case m.Tag(name=name, width=width) | m.Enum(name=name, enum=m.EnumType(width=width)) if name == by:
                return width
            case m.Number(name=name, integer=whole) if name == by and not whole.signed:
                return whole.width
    raise Refused(f"no `tag {by} BITS` before it, and no number or enum `{by}`", place)


def arm(words: Words, context: Context, said: list[str], width: int) -> m.Arm:
    """Parses a case of a choice."""
    at = words.place(1)
    value, case = said[0], said[1]
    number_of = None if value == ".." else number(value, 0, (1 << width) - 1, "the number of a case", at)
    if said[2:] == ["bytes"]:
        return m.Arm(number_of, case, m.Octet())
    if said[-2:-1] == ["of"] and len(said) in (4, 5):
        found = m.Use(said[-3], said[-1], finding(context, said[-1], at))
        own = f"{value} {case} {found.description.name} of {found.module}"
        check_use(found, at, f": a case with a name of its own is `{own}`" * (len(said) == 4))
        return m.Arm(number_of, case, found)
    if len(said) > 2:
        why = f"`{' '.join(said[2:])}` is not understood after the case `{case}`"
        raise Refused(f"{why}: a case is `NUMBER TYPE of MODULE`, `NUMBER CASE TYPE of MODULE` or `NUMBER CASE`", at)
    return m.Arm(number_of, case, None)


def check_arms(arms: tuple[m.Arm, ...], width: int, at: Position) -> None:
    """Refuses a choice in which two cases share a number or a name, or `..` is misplaced."""
    numbers = [it.number for it in arms]
    if len(set(numbers)) < len(arms):
        raise Refused("two cases have one number", at)
    if len({it.case for it in arms}) < len(arms):
        raise Refused("two cases have one name", at)
    if None in numbers[:-1]:
        raise Refused("a case follows `..`, which is the last one", at)
    if numbers == [None]:
        raise Refused("a choice has a case with a number", at)
    if None in numbers and len(arms) > 1 << width:
        raise Refused("no number is left for the other case", at)


def rest_line(words: Words, context: Context, at: Position) -> m.Kind:
    name = words.next()
    found, doc = item(words, context)
    return m.Rest(at, doc, name, found)


def until_line(words: Words, context: Context, at: Position) -> m.Kind:
    name = words.next()
    if words.peek() == "bytes" and words.next():
        return m.Until(at, words.behind, name, m.Octet(), words.number(0, 255, "the byte that ends it"))
    if words.peek(1) == "of":
        part = use(words, context)
        return m.UpToLast(at, words.behind, name, part, tests(words, part.description))
    whole = integer(words)
    return m.Until(at, words.behind, name, whole, words.number(whole.least, whole.most, "the number that ends it"))


def tests(words: Words, part: m.Description) -> tuple[m.Test, ...]:
    """Takes `if TEST [or TEST]`."""
    if words.next() != "if":
        raise words.refuse("`if TEST` says which part is the last one")
    found = [test(words, part)]
    while words.skip("or"):
        found.append(test(words, part))
    return tuple(found)


def test(words: Words, part: m.Description) -> m.Test:
    """Takes a test of a field of a part."""
    asked, place = words.next(), words.place(1)
    if asked == "empty":
        name, _, inner = words.next().partition(".")
        if not any(inner in lists_in(it) if inner else is_list(it) for it in part.fields if it.name == name):
            raise words.refuse(f"`{part.name}` has no list `{name}{f'.{inner}' * bool(inner)}`")
        return m.Test(name, "empty", inner=inner)
    if words.peek() not in ORDERS:
        if not any(isinstance(it, m.Bool) and it.name == asked for it in part.fields):
            raise Refused(f"`{part.name}` has no bit `{asked}`, and no `==`, `!=`, `<` or `>=` after it", place)
        return m.Test(asked, "")
    how = words.next()
    said, there = words.next(), words.place(1)
    for it in part.fields:
        if isinstance(it, m.Choose) and it.name == asked:
            check_how(how, asked, place)
            return m.Test(asked, how, case_number(it, said, there), said)
        if isinstance(it, m.Enum) and it.name == asked:
            check_how(how, asked, place)
    return m.Test(asked, how, asked_value(part.fields, asked, said, place, there, f"in `{part.name}`"), said)


def is_list(kind: m.Kind) -> bool:
    """Returns true for a field that has any number of items or bytes."""
    octets = isinstance(kind, m.Sized) and isinstance(kind.item, m.Octet)
    return octets or isinstance(kind, m.List | m.Fill | m.Rest | m.Until | m.UpToLast | m.Blocks)


def lists_in(kind: m.Kind) -> list[str]:
    """Returns the names of the lists in the parts that the cases of a choice hold."""
    return [
        it.name for use in m.uses(kind) if isinstance(kind, m.Choose) for it in use.description.fields if is_list(it)
    ]


def case_number(kind: m.Choose, said: str, at: Position) -> int:
    """Returns the number of a case of a choice."""
    for it in kind.arms:
        if it.case == said and it.number is not None:
            return it.number
    raise Refused(f"`{said}` is no case of {kind.type} with a number of its own", at)


def check_how(how: str, asked: str, at: Position) -> None:
    """Refuses a comparison by order of a field whose cases have none."""
    if how in ("<", ">="):
        raise Refused(f"`{asked}` is an enum: its cases have no order", at)


def blocks_line(words: Words, context: Context, at: Position) -> m.Kind:
    name = words.next()
    return m.Blocks(at, words.behind, name)


def given_line(words: Words, context: Context, at: Position) -> m.Kind:
    name = words.next()
    return m.Given(at, words.behind, name, use(words, context))


def check_line(words: Words, context: Context, at: Position) -> m.Kind:
    name = words.next()
    if name not in m.SUMS:
        raise words.refuse(f"`{name}` is no checksum: take one of {', '.join(m.SUMS)}")
    order = words.next() if words.peek() in BYTE_ORDERS else ""
    if order and m.SUMS[name] not in (16, 32):
        raise words.refuse("a checksum in a byte order of its own has 16 or 32 bits")
    over, error, span = covered_lines(words, f"`check {name} over FIELD.. ERROR`")
    return m.Check(at, words.behind, name, over, error, span, span, order)


def covered_lines(words: Words, form: str) -> tuple[tuple[str, ...], str, bool]:
    """Takes `over LINES ERROR`, and returns the lines, the error, and true if these are all lines from one to another."""
    if words.next() != "over":
        raise words.refuse(form)
    over = [words.next()]
    while words.peek(1):
        over.append(words.next())
    error, at = words.next(), words.place()
    if over[0] == "all" and over[1:2] in ([], ["to"]) and len(over) in (1, 3):
        return ("", "".join(over[2:])), error, True
    if over[1:2] == ["to"] and len(over) == 3:
        return (over[0], over[2]), error, True
    if len(set(over)) < len(over):
        raise Refused("a field counts once in a checksum", at)
    return tuple(over), error, False


def lines_text(over: tuple[str, ...], span: bool) -> str:
    """Returns the text that names the lines of a checksum."""
    if span:
        return f"the lines from `{over[0]}` to `{over[1]}`" if over[0] else "the lines"
    return ", ".join(f"`{it}`" for it in over[:-1]) + " and " * (len(over) > 1) + f"`{over[-1]}`"


def computed_line(words: Words, context: Context, at: Position) -> m.Kind:
    name, width = words.next(), words.number(1, 60, "the width of a computed number")
    unit, plus = units(words)
    over, error, span = covered_lines(words, STARTS["computed"])
    return m.Computed(at, words.behind, "bytes", over, error, span, True, "", name, width, unit, plus)


TypedLine = Callable[[Words, Context, str, Position, str], m.Kind]
StartedLine = Callable[[Words, Context, Position], m.Kind]
TYPED: dict[str, TypedLine] = {it: integer_line for it in (*UNSIGNED, *SIGNED)} | {
    "bool": bool_line,
    "bytes": bytes_line,
    "nonzero": nonzero_line,
    "option": option_line,
    "enum": enum_line,
    "unary": unary_line,
    "vbr": vbr_line,
    "leb128": leb128_line,
    "varint": varint_line,
    "ue": golomb_line,
    "se": golomb_line,
}
STARTED: dict[str, StartedLine] = {
    "const": const_line,
    "any": any_line,
    "align": align_line,
    "zeros": zeros_line,
    "flag": flag_line,
    "option": option_part,
    "if": if_line,
    "count": count_line,
    "list": list_line,
    "tag": tag_line,
    "size": size_line,
    "sized": sized_line,
    "fill": fill_line,
    "choose": choose_line,
    "rest": rest_line,
    "check": check_line,
    "given": given_line,
    "computed": computed_line,
    "blocks": blocks_line,
    "until": until_line,
}


# ---- whole descriptions


def started(words: Words) -> bool:
    """Returns true if the first word says what the line is, and is not the name of a field."""
    first = words.peek()
    coming = first in COMING and words.peek(2) == "of" and len(words.found) == 4 and first not in ("rest",)
    return first in STARTED and words.peek(1) not in TYPES and not coming


def form_of(words: Words) -> str:
    """Returns the form of a line that begins so."""
    words.at = 0
    if words.peek(2) == "of":
        return "`NAME TYPE of MODULE`"
    if words.peek() in HEADS:
        return HEADS[words.peek()]
    return STARTS[words.peek()] if started(words) else TYPES[words.peek(1)]


def kind_of(words: Words, context: Context) -> m.Kind:
    """Parses a line that describes bits."""
    if started(words):
        at = words.place()
        found = STARTED[words.next()](words, context, at)
    else:
        found = typed(words, context)
    words.end(form_of)
    return found


@dataclass
class Head:
    """The parts of a description that are not lines of bits, so far."""

    name: str = ""
    doc: str = ""
    order: str = "BE"
    error: str = ""
    whole: bool = True
    heads: dict[str, Position] = field(default_factory=dict)
    examples: list[m.Example] = field(default_factory=list)


def take_head(head: Head, words: Words) -> None:
    """Parses `struct`, `part`, `order` or `error`."""
    word, at = words.next(), words.place(1)
    value, key = words.next(), "struct" if word == "part" else word
    words.end(lambda it: HEADS[word])
    if key in head.heads:
        raise Refused(f"a description has one line `{key}`, and line {head.heads[key].line} is one", at)
    head.heads[key] = at
    if word in ("struct", "part"):
        head.whole = word == "struct"
        head.name, head.doc = value, words.behind or f"A {value}."
    elif word == "order":
        head.order = value
    else:
        head.error = value


def take(head: Head, context: Context, words: Words) -> None:
    """Parses one line."""
    if words.peek() in HEADS and words.peek(1) not in TYPES and words.peek(2) != "of":
        take_head(head, words)
    elif words.peek() == "example":
        digits = " ".join(it for _, it in words.found[1:])
        head.examples.append(m.Example(words.place(), digits, words.behind))
    else:
        context.kinds.append(kind_of(words, context))


def commented(kinds: list[m.Kind]) -> tuple[m.Kind, ...]:
    """Returns lines with comments for their errors: a line without one has that of the first line with the same error."""
    said: dict[str, str] = {}
    for it in kinds:
        if isinstance(it, m.Const | m.Check) and it.doc:
            said.setdefault(it.error, it.doc)
    return tuple(
        replace(it, doc=said.get(it.error) or default_comment(it))
        if isinstance(it, m.Const | m.Check) and not it.doc
        else it
        for it in kinds
    )


def default_comment(kind: m.Const | m.Check) -> str:
    """Returns the comment of the error of a line that has none."""
    if isinstance(kind, m.Const):
        return f"The bits are not {kind.spelled(kind.value)}."
    what = "number of bytes" if isinstance(kind, m.Computed) else "checksum"
    return f"The {what} of {lines_text(kind.over, kind.span)} is another one."


def verified(kinds: tuple[m.Kind, ...], order: str) -> tuple[m.Kind, ...]:
    """Returns lines with the tests of their checksums: behind the last field of one, or behind the last line.

    There the tests of fields come first: a test of lines needs the record, which takes the fields.
    """
    names = [it.name for it in kinds if m.is_field(it)]
    for it in kinds:
        if isinstance(it, m.Check):
            check_sum(kinds, it, names)
    found = [of_lines(kinds, it, order) if isinstance(it, m.Check) else it for it in kinds]
    for it in [it for it in found if isinstance(it, m.Check)]:
        last = len(found)
        if not it.lines:
            covers = m.covered(tuple(found), it)
            last = 1 + max(index for index, one in enumerate(found) if one is it or one in covers)
        while last < len(found) and isinstance(one := found[last], m.Verify) and it.lines >= one.check.lines:
            last += 1
        found.insert(last, m.Verify(it.at, it.doc, it))
    return tuple(found)


def with_ends(kinds: tuple[m.Kind, ...]) -> tuple[m.Kind, ...]:
    """Returns lines of which the one that reads to the end knows how many bits the lines after it have."""
    return tuple(replace(it, after=bits_after(kinds[k + 1 :])) if m.is_rest(it) else it for k, it in enumerate(kinds))


def bits_after(kinds: tuple[m.Kind, ...]) -> int:
    """Returns the number of bits of the lines after the rest, which is a constant."""
    for it in kinds:
        if m.bits(it) is None:
            why = "after the rest only lines of constant width, and parts without errors, stand"
            raise Refused(f"{why}: the rest ends before them", it.at)
    return m.total(kinds) or 0


def check_sum(kinds: tuple[m.Kind, ...], check: m.Check, names: list[str]) -> None:
    """Refuses a checksum of a field that no line describes, of no line, or of bits that are no whole bytes."""
    missing = [it for it in check.over if it and it not in names]
    if missing:
        all = ": `over all` stands alone, or before `to FIELD`" * (missing[0] == "all")
        meant = hints.near(missing[0], names)
        raise Refused(f"no field `{missing[0]}`{all or f': did you mean `{meant}`?' * bool(meant)}", check.at)
    covers = m.covered(kinds, check)
    if not covers:
        why = "`over all` is the lines before it, `over all to FIELD` also later ones, and `over FIELD to FIELD` those in order"
        raise Refused(f"the {noun(check)} covers no line: {why}", check.at)
    if any(it.at == check.at for it in m.sums_below(kinds, check)):
        raise Refused(f"the {noun(check)} covers one that covers it", check.at)
    bits = m.total(covers)
    if bits is not None and bits % 8:
        raise Refused(f"the lines of the {noun(check)} have {bits} bits, which are no whole bytes", check.at)


def noun(check: m.Check) -> str:
    """Returns the word for a checksum or a computed number."""
    return "computed number" if isinstance(check, m.Computed) else "checksum"


def of_lines(kinds: tuple[m.Kind, ...], check: m.Check, order: str) -> m.Check:
    """Returns a checksum, with `lines` set if its fields are not bytes and numbers of whole bytes alone."""
    if isinstance(check, m.Computed):
        return check
    covers = m.covered(kinds, check)
    plain = all(m.is_bytes(it) or order == "BE" and m.is_whole(it) for it in covers)
    if check.sum == "sum16":
        plain = plain and all(m.is_whole(it) for it in covers[:-1])
    return replace(check, lines=check.span or not plain or check.sum not in PLAIN_SUMS)


def words_of(line: str, count: int) -> Words:
    """Splits a line into words, each with its column."""
    head, _, behind = line.partition(":")
    found = [(it.start(), it[0]) for it in re.finditer(r"\S+", head)]
    for it in behind.strip():
        if ord(it) < 32 and it != "\t" or 127 <= ord(it) < 160:
            raise Refused(
                f"the comment has the control character U+{ord(it):04X}: delete it", Position(count, len(head) + 2)
            )
    return Words(count, found, behind.strip().replace("\t", " "))


def parsed(text: str, find: Find) -> m.Description:
    """Returns the model of a description. `describing.checks` refuses lines that do not belong together."""
    head, context = Head(), Context(find)
    places: dict[tuple[int, str], Position] = {}
    for count, line in enumerate(text.removeprefix("\ufeff").split("\n"), 1):
        words = words_of(line, count)
        if not words.found or words.peek().startswith("#"):
            continue
        places |= {(count, it): Position(count, column + 1) for column, it in words.found}
        try:
            take(head, context, words)
        except Early:
            at = words.place()
            raise Refused(f"`{line.strip()}` ends too early: it is {form_of(words)}", at) from None
        except (ValueError, IndexError):
            why = f"`{line.strip()}` is not understood: it is "
            raise Refused(why + form_of(words), words.place()) from None
    kinds, examples = with_ends(verified(commented(context.kinds), head.order)), tuple(head.examples)
    return m.Description(head.name, head.doc, head.order, head.error, kinds, head.heads, examples, head.whole, places)


def description_text(path: str) -> str:
    """Returns the text of a description file."""
    with open(path, "rb") as file:
        data = file.read()
    try:
        return data.decode("utf-8").replace("\r\n", "\n").replace("\r", "\n")
    except UnicodeDecodeError as it:
        line, start = data.count(b"\n", 0, it.start) + 1, data.rfind(b"\n", 0, it.start) + 1
        why = f"this is no text in UTF-8, and so no description: the byte here is 0x{data[it.start]:02X}"
        raise Refused(why, Position(line, it.start - start + 1), path) from None


def module_hint(place: str, module: str) -> str:
    """Returns what may have been meant by a module that has no description."""
    folder = os.path.dirname(place) or "."
    if "/" in module or not os.path.isdir(folder):
        return ": a module is a name, and its file is in the same folder"
    known = [
        it.removesuffix(".fields") for it in sorted(os.listdir(folder)) if os.path.isfile(os.path.join(folder, it))
    ]
    known = [it for it in known if os.path.exists(os.path.join(folder, f"{it}.fields"))]
    found = hints.near(m.snake(module.removesuffix(".fields")).replace("-", "_"), known)
    return f": did you mean `{found}`?" * bool(found)


def beside(path: str, within: tuple[str, ...], check: Callable[[m.Description], None]) -> Find:
    """Returns the function that finds the description of a module in the folder of `path`."""

    def find(module: str) -> m.Description:
        place = os.path.join(os.path.dirname(path), f"{module}.fields")
        if module in within:
            raise Refused(f"`{module}` is a part of itself")
        if not os.path.isfile(place):
            raise Refused(f"no description `{module}.fields` stands beside this one{module_hint(place, module)}")
        found = parsed(description_text(place), beside(place, (*within, module), check))
        check(found)
        return found

    return find
