"""Made by `./format --c`, which prints the same for each crate: edit tools/describing/c/python.py.

The library of C, from the path that the variable NETWORK_MESSAGES_LIBRARY names, or from the folders around this file.
"""
from __future__ import annotations

import ctypes
import enum
import operator
import os
from pathlib import Path
from typing import Sequence, TypeVar

_Part = TypeVar("_Part")


def _find() -> str:
    named = os.environ.get("NETWORK_MESSAGES_LIBRARY")
    around = list(Path(__file__).resolve().parents)[:3]
    places = [folder / "libnetwork_messages.so" for it in around for folder in (it, it / "shared")]
    found = [named] if named else [str(it) for it in places if it.exists()]
    return found[0] if found else "libnetwork_messages.so"


library = ctypes.CDLL(_find())


def number(value: int, least: int, most: int, name: str = "") -> int:
    """Returns the number of a field; raises `OverflowError` for another one, and `TypeError` for another type."""
    at = f"{name}: " if name else ""
    try:
        found = operator.index(value)
    except TypeError:
        raise TypeError(f"{at}an int is wanted, and not {type(value).__name__}") from None
    if not least <= found <= most:
        raise OverflowError(f"{at}{found} is not from {least} to {most}")
    return found


def case(value: int, cases: type[enum.IntEnum], name: str) -> int:
    """Returns the number of a case; raises `OverflowError` for another number, and `TypeError` for another type."""
    found = number(value, 0, 2**64 - 1, name)
    if found not in list(cases):
        raise OverflowError(f"{name}: {found} is no number of {cases.__name__}")
    return found


def items(values: Sequence[int], count: int, least: int, most: int, name: str) -> tuple[int, ...]:
    """Returns the items of an array of C, or raises as `number` does."""
    if not hasattr(values, "__len__"):
        raise TypeError(f"{name}: a sequence is wanted, and not {type(values).__name__}")
    if len(values) != count:
        what = "bytes" if isinstance(values, (bytes, bytearray, memoryview)) else "items"
        raise OverflowError(f"{name}: {len(values)} {what}, and not {count}")
    return tuple(number(it, least, most, f"{name}[{k}]") for k, it in enumerate(values))


def part(value: _Part, kind: type[_Part], name: str) -> _Part:
    """Returns a part of the fields, or raises `TypeError`."""
    if not isinstance(value, kind):
        raise TypeError(f"{name}: {kind.__name__} is wanted, and not {type(value).__name__}")
    return value
