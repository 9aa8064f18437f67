"""Made by `./format --c` from ../protocols/formats/icmp_ids.fields: edit that file and make this one anew.

The numbers that identify an echo.

 0                   1                   2                   3
 0 1 2 3 4 5 6 7 8 9 0 1 2 3 4 5 6 7 8 9 0 1 2 3 4 5 6 7 8 9 0 1
+-+-+-+-+-+-+-+-+-+-+-+-+-+-+-+-+-+-+-+-+-+-+-+-+-+-+-+-+-+-+-+-+
|           identifier          |            sequence           |
+-+-+-+-+-+-+-+-+-+-+-+-+-+-+-+-+-+-+-+-+-+-+-+-+-+-+-+-+-+-+-+-+
"""
from __future__ import annotations

import ctypes
from dataclasses import dataclass
from typing import ClassVar

from ._library import library, number


class IcmpIdsError(ValueError):
    """The reason why no `IcmpIds` was parsed or packed."""

    status: ClassVar[int]


class EndOfInput(IcmpIdsError):
    """The bytes end before the fields do."""

    status = 1

    def __init__(self, *reason: object) -> None:
        super().__init__(*(reason or ["the bytes end before the fields do"]))


class DoesNotFit(IcmpIdsError):
    """A field has a value that the format does not allow."""

    status = 3

    def __init__(self, *reason: object) -> None:
        super().__init__(*(reason or ["a field has a value that the format does not allow"]))


_ERRORS: dict[int, type[IcmpIdsError]] = {1: EndOfInput, 3: DoesNotFit}


class _C(ctypes.Structure):
    _fields_ = [
        ("identifier", ctypes.c_uint16),
        ("sequence", ctypes.c_uint16),
    ]


@dataclass
class IcmpIds:
    """The numbers that identify an echo."""

    identifier: int
    """The number that a reply shares with its request."""
    sequence: int
    """The number of the request among its sender's requests."""

    SIZE: ClassVar[int] = 4
    """The bytes that the fields take."""

    @classmethod
    def parse(cls, data: bytes | bytearray | memoryview) -> IcmpIds:
        """Parses the fields at the start of `data`.

        Raises `EndOfInput` for fewer than 4 bytes.
        """
        first, out = bytes(data[: cls.SIZE]), _C()
        status = library.icmp_ids_parse(first, len(first), ctypes.byref(out))
        if status:
            raise _ERRORS[status]()
        return cls._from_c(out)

    def pack(self) -> bytes:
        """Returns the 4 bytes of the fields.

        Raises `DoesNotFit` if the format does not allow the value of a field, and `TypeError` for another type.
        """
        try:
            fields = self._to_c()
        except OverflowError as it:
            raise DoesNotFit(str(it)) from None
        buffer, written = ctypes.create_string_buffer(self.SIZE), ctypes.c_size_t()
        status = library.icmp_ids_pack(ctypes.byref(fields), buffer, len(buffer), ctypes.byref(written))
        if status == 3:
            name = library.icmp_ids_misfit(ctypes.byref(fields)).decode()
            raise DoesNotFit(f"{name}: the format does not allow this value")
        if status:
            raise _ERRORS[status]()
        return buffer.raw[: written.value]

    def _to_c(self, at: str = "") -> _C:
        return _C(
            number(self.identifier, 0, 65535, at + "identifier"),
            number(self.sequence, 0, 65535, at + "sequence"),
        )

    @classmethod
    def _from_c(cls, out: _C) -> IcmpIds:
        return cls(
            identifier=out.identifier,
            sequence=out.sequence,
        )


if ctypes.sizeof(_C) != 4 or getattr(_C, "sequence").offset != 2:
    raise ImportError("the library has another layout")
library.icmp_ids_parse.argtypes = [ctypes.c_char_p, ctypes.c_size_t, ctypes.POINTER(_C)]
library.icmp_ids_parse.restype = ctypes.c_int
library.icmp_ids_pack.argtypes = [
    ctypes.POINTER(_C),
    ctypes.c_char_p,
    ctypes.c_size_t,
    ctypes.POINTER(ctypes.c_size_t),
]
library.icmp_ids_pack.restype = ctypes.c_int
library.icmp_ids_misfit.argtypes = [ctypes.POINTER(_C)]
library.icmp_ids_misfit.restype = ctypes.c_char_p
