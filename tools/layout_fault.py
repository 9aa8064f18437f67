#!/usr/bin/env python3
"""Says why a field of a layout is refused as `bad layout`. The script `bitfields` prints it after the program's line.

usage: tools/layout_fault.py LAYOUT K     for the field number K, from 1
"""
import re
import sys

# The least and the greatest number behind a letter.
RANGES = {"u": (1, 128), "i": (1, 128), "b": (1, 65536), "p": (1, 4096)}
# The only numbers behind a letter.
CHOICES = {"n": ("0", "1"), "v": ("4", "8"), "l": ("4", "8"), "s": ("4", "8")}
FORMS = "uN, iN, n0, n1, v4, v8, l4, l8, s4, s8, bN, cN=V, pN or a"


def number_fault(text: str, least: int, most: int, form: str) -> str | None:
    """Returns what is wrong with a decimal that must be in a range, or None."""
    if not re.fullmatch("[0-9]+", text):
        return f"write {form} with a number from {least} to {most}"
    if text != "0" and text.startswith("0"):
        return "a number has no zeros before its first digit"
    if len(text) > 10 or not least <= int(text) <= most:
        return f"the number is {text}, and not from {least} to {most}"
    return None


def constant_fault(rest: str) -> str | None:
    """Returns what is wrong with a constant, of which the letter is left out, or None."""
    width, sign, value = rest.partition("=")
    if not sign:
        return "a constant is cN=V, as c3=5"
    fault = number_fault(width, 1, 32, "cN=V")
    return fault or number_fault(value, 0, 2 ** int(width) - 1, f"c{width}=V")


def fault(field: str) -> str | None:
    """Returns what is wrong with a field, or None if it is a field."""
    letter, rest = field[:1], field[1:]
    if not field:
        return "it is empty"
    if re.search(r"\s", field):
        return "a layout has no spaces"
    if re.match("[A-Za-z_]{2}", field):
        return f"it is not {FORMS}; a field has no name"
    if letter in RANGES:
        return number_fault(rest, *RANGES[letter], f"{letter}N")
    if letter in CHOICES:
        first, second = CHOICES[letter]
        return None if rest in (first, second) else f"write {letter}{first} or {letter}{second}"
    if letter == "c":
        return constant_fault(rest)
    if letter == "a":
        return "an alignment is a, without a number" if rest else None
    return f"it is not {FORMS}"


def explanation(layout: str, k: int) -> str:
    """Returns the line for the field number k of a layout."""
    fields = layout.split(",")
    if not 1 <= k <= len(fields):
        return ""
    field = fields[k - 1]
    why = fault(field)
    return f"field {k}: {field!r}: {why}" if why else ""


if __name__ == "__main__":
    if len(sys.argv) != 3 or not re.fullmatch("[0-9]{1,9}", sys.argv[2]):
        sys.exit(__doc__)
    print(explanation(sys.argv[1], int(sys.argv[2])))
