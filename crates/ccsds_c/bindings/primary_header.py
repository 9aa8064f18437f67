"""Made by `./format --c` from ../bitstream_callers/formats/primary_header.fields: edit that file and make this one anew.

The primary header of a CCSDS space packet.

 0                   1                   2                   3
 0 1 2 3 4 5 6 7 8 9 0 1 2 3 4 5 6 7 8 9 0 1 2 3 4 5 6 7 8 9 0 1
+-+-+-+-+-+-+-+-+-+-+-+-+-+-+-+-+-+-+-+-+-+-+-+-+-+-+-+-+-+-+-+-+
|  =0 |t|s|         apid        |seq|           count           |
+-+-+-+-+-+-+-+-+-+-+-+-+-+-+-+-+-+-+-+-+-+-+-+-+-+-+-+-+-+-+-+-+
|             length            |
+-+-+-+-+-+-+-+-+-+-+-+-+-+-+-+-+
"""
from __future__ import annotations

import ctypes
from dataclasses import dataclass
from typing import ClassVar

from ._library import library, number


class PrimaryHeaderError(ValueError):
    """The reason why no `PrimaryHeader` was parsed or packed."""

    status: ClassVar[int]


class EndOfInput(PrimaryHeaderError):
    """The bytes end before the fields do."""

    status = 1

    def __init__(self, *reason: object) -> None:
        super().__init__(*(reason or ["the bytes end before the fields do"]))


class DoesNotFit(PrimaryHeaderError):
    """A field has a value that the format does not allow."""

    status = 3

    def __init__(self, *reason: object) -> None:
        super().__init__(*(reason or ["a field has a value that the format does not allow"]))


class WrongVersion(PrimaryHeaderError):
    """The version is not 0."""

    status = 5

    def __init__(self, *reason: object) -> None:
        super().__init__(*(reason or ["the version is not 0"]))


_ERRORS: dict[int, type[PrimaryHeaderError]] = {1: EndOfInput, 3: DoesNotFit, 5: WrongVersion}


class _C(ctypes.Structure):
    _fields_ = [
        ("telecommand", ctypes.c_uint8),
        ("secondary", ctypes.c_uint8),
        ("apid", ctypes.c_uint16),
        ("sequence", ctypes.c_uint8),
        ("count", ctypes.c_uint16),
        ("length", ctypes.c_uint16),
    ]


@dataclass
class PrimaryHeader:
    """The primary header of a CCSDS space packet."""

    telecommand: bool
    """True if the packet is a telecommand, and not telemetry."""
    secondary: bool
    """True if a secondary header follows."""
    apid: int
    """The application of the packet. Below 2^11."""
    sequence: int
    """The sequence flags. Below 2^2."""
    count: int
    """The number of the packet in its sequence. Below 2^14."""
    length: int
    """The number of bytes in the data field, minus 1."""

    SIZE: ClassVar[int] = 6
    """The bytes that the fields take."""

    @classmethod
    def parse(cls, data: bytes | bytearray | memoryview) -> PrimaryHeader:
        """Parses the fields at the start of `data`.

        Raises the first in the order of the bits: `WrongVersion`; `EndOfInput` for fewer than 6
        bytes, if nothing in them is refused.
        """
        first, out = bytes(data[: cls.SIZE]), _C()
        status = library.primary_header_parse(first, len(first), ctypes.byref(out))
        if status:
            raise _ERRORS[status]()
        return cls._from_c(out)

    def pack(self) -> bytes:
        """Returns the 6 bytes of the fields.

        Raises `DoesNotFit` if the format does not allow the value of a field, and `TypeError` for another type.
        """
        try:
            fields = self._to_c()
        except OverflowError as it:
            raise DoesNotFit(str(it)) from None
        buffer, written = ctypes.create_string_buffer(self.SIZE), ctypes.c_size_t()
        status = library.primary_header_pack(ctypes.byref(fields), buffer, len(buffer), ctypes.byref(written))
        if status == 3:
            name = library.primary_header_misfit(ctypes.byref(fields)).decode()
            raise DoesNotFit(f"{name}: the format does not allow this value")
        if status:
            raise _ERRORS[status]()
        return buffer.raw[: written.value]

    def _to_c(self, at: str = "") -> _C:
        return _C(
            1 if self.telecommand else 0,
            1 if self.secondary else 0,
            number(self.apid, 0, 2047, at + "apid"),
            number(self.sequence, 0, 3, at + "sequence"),
            number(self.count, 0, 16383, at + "count"),
            number(self.length, 0, 65535, at + "length"),
        )

    @classmethod
    def _from_c(cls, out: _C) -> PrimaryHeader:
        return cls(
            telecommand=out.telecommand != 0,
            secondary=out.secondary != 0,
            apid=out.apid,
            sequence=out.sequence,
            count=out.count,
            length=out.length,
        )


if ctypes.sizeof(_C) != 10 or getattr(_C, "length").offset != 8:
    raise ImportError("the library has another layout")
library.primary_header_parse.argtypes = [ctypes.c_char_p, ctypes.c_size_t, ctypes.POINTER(_C)]
library.primary_header_parse.restype = ctypes.c_int
library.primary_header_pack.argtypes = [
    ctypes.POINTER(_C),
    ctypes.c_char_p,
    ctypes.c_size_t,
    ctypes.POINTER(ctypes.c_size_t),
]
library.primary_header_pack.restype = ctypes.c_int
library.primary_header_misfit.argtypes = [ctypes.POINTER(_C)]
library.primary_header_misfit.restype = ctypes.c_char_p
