"""The exceptions of the calls. After one, the reader, or the writer and its buffer, is as before."""
from __future__ import annotations

from typing import ClassVar


class BitsError(ValueError):
    """The reason why bits were not read or written."""

    status: ClassVar[int]
    text: ClassVar[str]

    def __init__(self, *reason: object) -> None:
        super().__init__(*(reason or [self.text]))


class EndOfInput(BitsError):
    """Fewer bits are left."""

    status = 1
    text = "fewer bits are left"


class Width(BitsError):
    """More than 64 bits, or a signed number of no bits."""

    status = 2
    text = "more than 64 bits, or a signed number of no bits"


class NoRoom(BitsError):
    """The buffer has fewer bits left."""

    status = 4
    text = "the buffer has fewer bits left"


class DoesNotFit(BitsError):
    """The number has more bits."""

    status = 5
    text = "the number has more bits"


class TooLong(BitsError):
    """An exponential Golomb number begins with more than 31 zeros."""

    status = 6
    text = "the number begins with more than 31 zeros"


_ERRORS: dict[int, type[BitsError]] = {it.status: it for it in (EndOfInput, Width, NoRoom, DoesNotFit, TooLong)}


def done(status: int) -> None:
    """Raises the exception of a status, unless it is 0."""
    if status:
        raise _ERRORS[status]()


def width_of(width: int) -> int:
    """Returns a number of bits, or raises `Width` if it is not from 0 to 64."""
    if not 0 <= width <= 64:
        raise Width()
    return width


def fitting(value: int, least: int, most: int) -> int:
    """Returns a number that the type of C has, or raises `DoesNotFit`."""
    if not least <= value <= most:
        raise DoesNotFit()
    return value
