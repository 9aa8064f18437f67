"""Made by `./format --c` from ../network_messages/formats/ipv4_pseudo.fields: edit that file and make this one anew.

The fields of a header of IPv4 that the checksums of UDP and TCP cover (RFC 768; RFC 9293, section
3.1).

 0                   1                   2                   3
 0 1 2 3 4 5 6 7 8 9 0 1 2 3 4 5 6 7 8 9 0 1 2 3 4 5 6 7 8 9 0 1
+-+-+-+-+-+-+-+-+-+-+-+-+-+-+-+-+-+-+-+-+-+-+-+-+-+-+-+-+-+-+-+-+
|                             source                            |
+-+-+-+-+-+-+-+-+-+-+-+-+-+-+-+-+-+-+-+-+-+-+-+-+-+-+-+-+-+-+-+-+
|                             target                            |
+-+-+-+-+-+-+-+-+-+-+-+-+-+-+-+-+-+-+-+-+-+-+-+-+-+-+-+-+-+-+-+-+
|       0       |    protocol   |             length            |
+-+-+-+-+-+-+-+-+-+-+-+-+-+-+-+-+-+-+-+-+-+-+-+-+-+-+-+-+-+-+-+-+
"""
from __future__ import annotations

import ctypes
from dataclasses import dataclass
from typing import ClassVar

from ._library import items, library, number


class Ipv4PseudoError(ValueError):
    """The reason why no `Ipv4Pseudo` was parsed or packed."""

    status: ClassVar[int]


class EndOfInput(Ipv4PseudoError):
    """The bytes end before the fields do."""

    status = 1

    def __init__(self, *reason: object) -> None:
        super().__init__(*(reason or ["the bytes end before the fields do"]))


class DoesNotFit(Ipv4PseudoError):
    """A field has a value that the format does not allow."""

    status = 3

    def __init__(self, *reason: object) -> None:
        super().__init__(*(reason or ["a field has a value that the format does not allow"]))


_ERRORS: dict[int, type[Ipv4PseudoError]] = {1: EndOfInput, 3: DoesNotFit}


class _C(ctypes.Structure):
    _fields_ = [
        ("source", ctypes.c_uint8 * 4),
        ("target", ctypes.c_uint8 * 4),
        ("protocol", ctypes.c_uint8),
        ("length", ctypes.c_uint16),
    ]


@dataclass
class Ipv4Pseudo:
    """The fields of a header of IPv4 that the checksums of UDP and TCP cover (RFC 768; RFC 9293, section 3.1)."""

    source: bytes
    """The sender."""
    target: bytes
    """The receiver."""
    protocol: int
    """The protocol."""
    length: int
    """The bytes of the datagram or the segment."""

    SIZE: ClassVar[int] = 12
    """The bytes that the fields take."""

    @classmethod
    def parse(cls, data: bytes | bytearray | memoryview) -> Ipv4Pseudo:
        """Parses the fields at the start of `data`.

        Raises `EndOfInput` for fewer than 12 bytes.
        """
        first, out = bytes(data[: cls.SIZE]), _C()
        status = library.ipv4_pseudo_parse(first, len(first), ctypes.byref(out))
        if status:
            raise _ERRORS[status]()
        return cls._from_c(out)

    def pack(self) -> bytes:
        """Returns the 12 bytes of the fields.

        Raises `DoesNotFit` if the format does not allow the value of a field, and `TypeError` for another type.
        """
        try:
            fields = self._to_c()
        except OverflowError as it:
            raise DoesNotFit(str(it)) from None
        buffer, written = ctypes.create_string_buffer(self.SIZE), ctypes.c_size_t()
        status = library.ipv4_pseudo_pack(ctypes.byref(fields), buffer, len(buffer), ctypes.byref(written))
        if status == 3:
            name = library.ipv4_pseudo_misfit(ctypes.byref(fields)).decode()
            raise DoesNotFit(f"{name}: the format does not allow this value")
        if status:
            raise _ERRORS[status]()
        return buffer.raw[: written.value]

    def _to_c(self, at: str = "") -> _C:
        return _C(
            items(self.source, 4, 0, 255, at + "source"),
            items(self.target, 4, 0, 255, at + "target"),
            number(self.protocol, 0, 255, at + "protocol"),
            number(self.length, 0, 65535, at + "length"),
        )

    @classmethod
    def _from_c(cls, out: _C) -> Ipv4Pseudo:
        return cls(
            source=bytes(out.source),
            target=bytes(out.target),
            protocol=out.protocol,
            length=out.length,
        )


if ctypes.sizeof(_C) != 12 or getattr(_C, "length").offset != 10:
    raise ImportError("the library has another layout")
library.ipv4_pseudo_parse.argtypes = [ctypes.c_char_p, ctypes.c_size_t, ctypes.POINTER(_C)]
library.ipv4_pseudo_parse.restype = ctypes.c_int
library.ipv4_pseudo_pack.argtypes = [
    ctypes.POINTER(_C),
    ctypes.c_char_p,
    ctypes.c_size_t,
    ctypes.POINTER(ctypes.c_size_t),
]
library.ipv4_pseudo_pack.restype = ctypes.c_int
library.ipv4_pseudo_misfit.argtypes = [ctypes.POINTER(_C)]
library.ipv4_pseudo_misfit.restype = ctypes.c_char_p
