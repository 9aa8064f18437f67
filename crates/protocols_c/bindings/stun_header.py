"""Made by `./format --c` from ../protocols/formats/stun_header.fields: edit that file and make this one anew.

The header of a message of STUN (RFC 8489, section 5).

 0                   1                   2                   3
 0 1 2 3 4 5 6 7 8 9 0 1 2 3 4 5 6 7 8 9 0 1 2 3 4 5 6 7 8 9 0 1
+-+-+-+-+-+-+-+-+-+-+-+-+-+-+-+-+-+-+-+-+-+-+-+-+-+-+-+-+-+-+-+-+
| =0|            kind           |             length            |
+-+-+-+-+-+-+-+-+-+-+-+-+-+-+-+-+-+-+-+-+-+-+-+-+-+-+-+-+-+-+-+-+
|                           =554869826                          |
+-+-+-+-+-+-+-+-+-+-+-+-+-+-+-+-+-+-+-+-+-+-+-+-+-+-+-+-+-+-+-+-+
|                          id (3 rows)                          |
+-+-+-+-+-+-+-+-+-+-+-+-+-+-+-+-+-+-+-+-+-+-+-+-+-+-+-+-+-+-+-+-+
"""
from __future__ import annotations

import ctypes
from dataclasses import dataclass
from typing import ClassVar

from ._library import items, library, number


class StunHeaderError(ValueError):
    """The reason why no `StunHeader` was parsed or packed."""

    status: ClassVar[int]


class EndOfInput(StunHeaderError):
    """The bytes end before the fields do."""

    status = 1

    def __init__(self, *reason: object) -> None:
        super().__init__(*(reason or ["the bytes end before the fields do"]))


class DoesNotFit(StunHeaderError):
    """A field has a value that the format does not allow."""

    status = 3

    def __init__(self, *reason: object) -> None:
        super().__init__(*(reason or ["a field has a value that the format does not allow"]))


class NoStun(StunHeaderError):
    """The first two bits are not 0."""

    status = 5

    def __init__(self, *reason: object) -> None:
        super().__init__(*(reason or ["the first two bits are not 0"]))


class NoCookie(StunHeaderError):
    """The magic cookie is not 0x2112A442."""

    status = 6

    def __init__(self, *reason: object) -> None:
        super().__init__(*(reason or ["the magic cookie is not 0x2112A442"]))


_ERRORS: dict[int, type[StunHeaderError]] = {1: EndOfInput, 3: DoesNotFit, 5: NoStun, 6: NoCookie}


class _C(ctypes.Structure):
    _fields_ = [
        ("kind", ctypes.c_uint16),
        ("length", ctypes.c_uint16),
        ("id", ctypes.c_uint8 * 12),
    ]


@dataclass
class StunHeader:
    """The header of a message of STUN (RFC 8489, section 5)."""

    kind: int
    """The method and the class of the message. Below 2^14."""
    length: int
    """The number of bytes after the header."""
    id: bytes
    """The transaction."""

    SIZE: ClassVar[int] = 20
    """The bytes that the fields take."""

    @classmethod
    def parse(cls, data: bytes | bytearray | memoryview) -> StunHeader:
        """Parses the fields at the start of `data`.

        Raises the first in the order of the bits: `NoStun`, `NoCookie`; `EndOfInput` for fewer than
        20 bytes, if nothing in them is refused.
        """
        first, out = bytes(data[: cls.SIZE]), _C()
        status = library.stun_header_parse(first, len(first), ctypes.byref(out))
        if status:
            raise _ERRORS[status]()
        return cls._from_c(out)

    def pack(self) -> bytes:
        """Returns the 20 bytes of the fields.

        Raises `DoesNotFit` if the format does not allow the value of a field, and `TypeError` for another type.
        """
        try:
            fields = self._to_c()
        except OverflowError as it:
            raise DoesNotFit(str(it)) from None
        buffer, written = ctypes.create_string_buffer(self.SIZE), ctypes.c_size_t()
        status = library.stun_header_pack(ctypes.byref(fields), buffer, len(buffer), ctypes.byref(written))
        if status == 3:
            name = library.stun_header_misfit(ctypes.byref(fields)).decode()
            raise DoesNotFit(f"{name}: the format does not allow this value")
        if status:
            raise _ERRORS[status]()
        return buffer.raw[: written.value]

    def _to_c(self, at: str = "") -> _C:
        return _C(
            number(self.kind, 0, 16383, at + "kind"),
            number(self.length, 0, 65535, at + "length"),
            items(self.id, 12, 0, 255, at + "id"),
        )

    @classmethod
    def _from_c(cls, out: _C) -> StunHeader:
        return cls(
            kind=out.kind,
            length=out.length,
            id=bytes(out.id),
        )


if ctypes.sizeof(_C) != 16 or getattr(_C, "id").offset != 4:
    raise ImportError("the library has another layout")
library.stun_header_parse.argtypes = [ctypes.c_char_p, ctypes.c_size_t, ctypes.POINTER(_C)]
library.stun_header_parse.restype = ctypes.c_int
library.stun_header_pack.argtypes = [
    ctypes.POINTER(_C),
    ctypes.c_char_p,
    ctypes.c_size_t,
    ctypes.POINTER(ctypes.c_size_t),
]
library.stun_header_pack.restype = ctypes.c_int
library.stun_header_misfit.argtypes = [ctypes.POINTER(_C)]
library.stun_header_misfit.restype = ctypes.c_char_p
