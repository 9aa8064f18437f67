"""Made by `./format --c` from ../network_messages/formats/udp_datagram.fields: edit that file and make this one anew.

A datagram of UDP over IPv4, with its checksum (RFC 768).

 0                   1                   2                   3
 0 1 2 3 4 5 6 7 8 9 0 1 2 3 4 5 6 7 8 9 0 1 2 3 4 5 6 7 8 9 0 1
+-+-+-+-+-+-+-+-+-+-+-+-+-+-+-+-+-+-+-+-+-+-+-+-+-+-+-+-+-+-+-+-+
|             source            |             target            |
+-+-+-+-+-+-+-+-+-+-+-+-+-+-+-+-+-+-+-+-+-+-+-+-+-+-+-+-+-+-+-+-+
|           data_bytes          |        stored_sum16_udp       |
+-+-+-+-+-+-+-+-+-+-+-+-+-+-+-+-+-+-+-+-+-+-+-+-+-+-+-+-+-+-+-+-+
/                  data (data_bytes - 8 bytes)                  /
+-+-+-+-+-+-+-+-+-+-+-+-+-+-+-+-+-+-+-+-+-+-+-+-+-+-+-+-+-+-+-+-+
"""
from __future__ import annotations

import ctypes
from dataclasses import dataclass
from typing import ClassVar, Sequence

from ._library import items, library, number, part
from . import ipv4_pseudo as _ipv4_pseudo


class UdpDatagramError(ValueError):
    """The reason why no `UdpDatagram` was parsed or packed."""

    status: ClassVar[int]


class EndOfInput(UdpDatagramError):
    """The bytes end before the fields do."""

    status = 1

    def __init__(self, *reason: object) -> None:
        super().__init__(*(reason or ["the bytes end before the fields do"]))


class DoesNotFit(UdpDatagramError):
    """A field has a value that the format does not allow."""

    status = 3

    def __init__(self, *reason: object) -> None:
        super().__init__(*(reason or ["a field has a value that the format does not allow"]))


class ShortLength(UdpDatagramError):
    """The size of `data` is below the 8 bytes that it counts too."""

    status = 6

    def __init__(self, *reason: object) -> None:
        super().__init__(*(reason or ["the size of `data` is below the 8 bytes that it counts too"]))


class WrongSum(UdpDatagramError):
    """The checksum is not that of the datagram."""

    status = 7

    def __init__(self, *reason: object) -> None:
        super().__init__(*(reason or ["the checksum is not that of the datagram"]))


_ERRORS: dict[int, type[UdpDatagramError]] = {1: EndOfInput, 3: DoesNotFit, 6: ShortLength, 7: WrongSum}


class _DataItems(ctypes.Structure):
    _fields_ = [
        ("items", ctypes.POINTER(ctypes.c_uint8)),
        ("capacity", ctypes.c_size_t),
        ("length", ctypes.c_size_t),
    ]


class _C(ctypes.Structure):
    _fields_ = [
        ("pseudo", _ipv4_pseudo._C),
        ("source", ctypes.c_uint16),
        ("target", ctypes.c_uint16),
        ("data", _DataItems),
    ]


def _data(values: Sequence[int], name: str) -> _DataItems:
    found = items(values, len(values) if hasattr(values, "__len__") else 0, 0, 255, name)
    return _DataItems((ctypes.c_uint8 * len(found))(*found), len(found), len(found))


@dataclass
class UdpDatagram:
    """A datagram of UDP over IPv4, with its checksum (RFC 768)."""

    pseudo: _ipv4_pseudo.Ipv4Pseudo
    """The fields of the header of IPv4 that the checksum covers."""
    source: int
    """The port of the sender."""
    target: int
    """The port of the receiver."""
    data: bytes
    """The data. At most 65527 bytes."""

    @classmethod
    def parse(cls, data: bytes | bytearray | memoryview, pseudo: _ipv4_pseudo.Ipv4Pseudo) -> tuple[UdpDatagram, int]:
        """Parses the fields at the start of `data`, and returns them with the number of bytes that
        they take.

        Raises the first in the order of the bits: `ShortLength`, `WrongSum`; `EndOfInput` if the
        bytes end before the fields do, if nothing in them is refused.
        """
        first, out, taken = bytes(data), _C(), ctypes.c_size_t()
        out.pseudo = part(pseudo, _ipv4_pseudo.Ipv4Pseudo, "pseudo")._to_c("pseudo.")
        status = library.udp_datagram_parse(first, len(first), ctypes.byref(out), ctypes.byref(taken))
        while status:
            if status == 5:
                out.data = _data([0] * taken.value, "")
            else:
                raise _ERRORS[status]()
            status = library.udp_datagram_parse(first, len(first), ctypes.byref(out), ctypes.byref(taken))
        return cls._from_c(out), taken.value

    def pack(self) -> bytes:
        """Returns the bytes of the fields.

        Raises `DoesNotFit` if the format does not allow the value of a field, and `TypeError` for another type.
        """
        try:
            fields = self._to_c()
        except OverflowError as it:
            raise DoesNotFit(str(it)) from None
        status, buffer, written = 2, ctypes.create_string_buffer(32), ctypes.c_size_t()
        while status == 2:
            buffer = ctypes.create_string_buffer(2 * len(buffer))
            status = library.udp_datagram_pack(ctypes.byref(fields), buffer, len(buffer), ctypes.byref(written))
        if status == 3:
            name = library.udp_datagram_misfit(ctypes.byref(fields)).decode()
            raise DoesNotFit(f"{name}: the format does not allow this value")
        if status:
            raise _ERRORS[status]()
        return buffer.raw[: written.value]

    def _to_c(self, at: str = "") -> _C:
        return _C(
            part(self.pseudo, _ipv4_pseudo.Ipv4Pseudo, at + "pseudo")._to_c(at + "pseudo."),
            number(self.source, 0, 65535, at + "source"),
            number(self.target, 0, 65535, at + "target"),
            _data(self.data, at + "data"),
        )

    @classmethod
    def _from_c(cls, out: _C) -> UdpDatagram:
        return cls(
            pseudo=_ipv4_pseudo.Ipv4Pseudo._from_c(out.pseudo),
            source=out.source,
            target=out.target,
            data=bytes(out.data.items[: out.data.length]),
        )


if ctypes.sizeof(_C) != 40 or getattr(_C, "data").offset != 16:
    raise ImportError("the library has another layout")
library.udp_datagram_parse.argtypes = [
    ctypes.c_char_p,
    ctypes.c_size_t,
    ctypes.POINTER(_C),
    ctypes.POINTER(ctypes.c_size_t),
]
library.udp_datagram_parse.restype = ctypes.c_int
library.udp_datagram_pack.argtypes = [
    ctypes.POINTER(_C),
    ctypes.c_char_p,
    ctypes.c_size_t,
    ctypes.POINTER(ctypes.c_size_t),
]
library.udp_datagram_pack.restype = ctypes.c_int
library.udp_datagram_misfit.argtypes = [ctypes.POINTER(_C)]
library.udp_datagram_misfit.restype = ctypes.c_char_p
