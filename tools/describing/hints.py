"""What would be right in place of words of a description that are not understood."""
from __future__ import annotations

import re
from difflib import get_close_matches
from typing import Collection, Mapping

INSTEAD = {
    "string str char chars text utf8 ascii": "text is bytes, `{0} bytes COUNT` or `until {0} bytes 0`",
    "f16 f32 f64 float double": "take its bits as a number, `{0} u32 32` or `{0} u64 64`",
    "bit boolean flag": "a bit is `{0} bool`",
    "int uint integer number num unsigned signed usize isize size_t": "a number is `{0} u16 11`, by its type and its bits",
    "byte octet": "a byte is `{0} u8 8`",
    "array vec list": "an array is `{0} u8 8 x COUNT`, and a list is `count {0} BITS` and then `list {0} u8 8`",
}
# First words that ask for bits without a field.
UNUSED = "reserved padding pad unused spare rsv rfu skip zero".split()
OTHER_TESTS = {
    "=": "`{0} == {1}`",
    "===": "`{0} == {1}`",
    "<>": "`{0} != {1}`",
    ">": "`{0} >= N`, where N is one more",
    "<=": "`{0} < N`, where N is one more",
    "=>": "`{0} >= {1}`",
    "=<": "`{0} < N`, where N is one more",
    "is": "`{0} == {1}`",
}


def near(word: str, known: Collection[str]) -> str:
    """Returns the known word that is most like a word, or an empty text."""
    swapped = [it for it in known if sorted(it) == sorted(word.lower())]
    return next(iter([*swapped, *get_close_matches(word.lower(), list(known), 1, 0.75)]), "")


def number_type(name: str, word: str) -> str:
    """Returns what a type as `u24`, `uint8_t` or `U8` would be here, or an empty text."""
    found = re.fullmatch(r"(u|i|uint|unit|int|s|sint|be|le)_?(\d{1,3})(_t|be|le)?", word.lower())
    bits = int(found[2]) if found else 0
    if not found or not bits:
        return ""
    sign = "i" if found[1] in ("i", "int", "s", "sint") else "u"
    whole = next((it for it in (8, 16, 32, 64, 128) if it >= bits), 0)
    if whole:
        order = "BE" if "be" in (found[1], found[3]) else "LE" if "le" in (found[1], found[3]) else ""
        format_order = "LE" if order == "BE" else "BE"
        more = f"; in a format of order {format_order} it is `{name} {sign}{whole} {bits} {order}`"
        return f"a number of {bits} bits is `{name} {sign}{whole} {bits}`" + more * (bool(order) and 8 < bits == whole)
    return f"a number has at most 128 bits: `{name} bytes {-(-bits // 8)}` are bytes"


def of_type(name: str, word: str, behind: list[str], types: Mapping[str, str], starts: Mapping[str, str]) -> str:
    """Returns what would be right in place of a word that is no type of the field `name`."""
    words = [name, word, *behind]
    if name in UNUSED:
        bits = next((it for it in words if it.isdigit()), "BITS")
        return f"bits of no field are `any {bits}`, or `zeros {bits} ERROR` if they must be 0"
    if re.match(r"//|--|/\*|;", name):
        return "a remark is a line that begins with `#`"
    if name in types and not re.fullmatch(r"\d\w*", word):
        return f"the name stands before the type: `{' '.join([word, name, *behind])}`"
    if behind and behind[0] in types and (name.isdigit() or word.isdigit()):
        first, last = (name, word) if word.isdigit() else (word, name)
        return f"the name stands first, then the type, then its bits: `{first} {behind[0]} {last}`"
    if found := number_type(name, word):
        return found
    for known, text in INSTEAD.items():
        if word.lower() in known.split():
            return text.format(name)
    if found := "" if word.isdigit() else near(word, types):
        return f"did you mean `{found}`? It is {types[found]}"
    if found := near(name, starts):
        return f"did you mean `{found}`? It is {starts[found]}"
    if re.fullmatch("[A-Z][A-Za-z0-9]*[a-z][A-Za-z0-9]*", word):
        return f"a part is `{name} {word} of MODULE`, which MODULE.fields describes"
    return "take u8 to u128, i8 to i128, bool, bytes, nonzero, option, enum, unary, vbr, leb128, varint, ue, se, or `TYPE of MODULE`"


def no_type(name: str, comment: str, types: Mapping[str, str], starts: Mapping[str, str]) -> str:
    """Returns what would be right in place of a line of one word."""
    if name in types:
        return f"the name stands before the type, `NAME {name}`"
    if comment.split(maxsplit=1)[:1] and comment.split()[0].strip(",;") in types:
        return f"the colon begins the comment, so the type stands before it: `{name} TYPE BITS`"
    if found := near(name, starts):
        return f"did you mean `{found}`? It is {starts[found]}"
    return "a field is `NAME TYPE BITS`"


def of_test(asked: str, how: str, value: str) -> str:
    """Returns what would be right in place of a test of a number, or an empty text."""
    if found := OTHER_TESTS.get(how):
        return f"`{how}` is no test: take {found.format(asked, value)}"
    if re.search(r"==|!=|<|>=", asked):
        return "blanks stand around `==`, `!=`, `<` and `>=`"
    return ""
