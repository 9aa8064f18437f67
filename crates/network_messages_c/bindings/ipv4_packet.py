"""Made by `./format --c` from ../network_messages/formats/ipv4_packet.fields: edit that file and make this one anew.

The header of an IPv4 packet with its options and its checksum (RFC 791, section 3.1).

 0                   1                   2                   3
 0 1 2 3 4 5 6 7 8 9 0 1 2 3 4 5 6 7 8 9 0 1 2 3 4 5 6 7 8 9 0 1
+-+-+-+-+-+-+-+-+-+-+-+-+-+-+-+-+-+-+-+-+-+-+-+-+-+-+-+-+-+-+-+-+
|   =4  |options|    service    |             length            |
+-+-+-+-+-+-+-+-+-+-+-+-+-+-+-+-+-+-+-+-+-+-+-+-+-+-+-+-+-+-+-+-+
|               id              |=|k|m|          offset         |
+-+-+-+-+-+-+-+-+-+-+-+-+-+-+-+-+-+-+-+-+-+-+-+-+-+-+-+-+-+-+-+-+
|      ttl      |    protocol   |          stored_sum16         |
+-+-+-+-+-+-+-+-+-+-+-+-+-+-+-+-+-+-+-+-+-+-+-+-+-+-+-+-+-+-+-+-+
|                             source                            |
+-+-+-+-+-+-+-+-+-+-+-+-+-+-+-+-+-+-+-+-+-+-+-+-+-+-+-+-+-+-+-+-+
|                             target                            |
+-+-+-+-+-+-+-+-+-+-+-+-+-+-+-+-+-+-+-+-+-+-+-+-+-+-+-+-+-+-+-+-+
/             options (4 * options_bytes - 20 bytes)            /
+-+-+-+-+-+-+-+-+-+-+-+-+-+-+-+-+-+-+-+-+-+-+-+-+-+-+-+-+-+-+-+-+
"""
from __future__ import annotations

import ctypes
from dataclasses import dataclass
from typing import ClassVar, Sequence

from ._library import items, library, number


class Ipv4PacketError(ValueError):
    """The reason why no `Ipv4Packet` was parsed or packed."""

    status: ClassVar[int]


class EndOfInput(Ipv4PacketError):
    """The bytes end before the fields do."""

    status = 1

    def __init__(self, *reason: object) -> None:
        super().__init__(*(reason or ["the bytes end before the fields do"]))


class DoesNotFit(Ipv4PacketError):
    """A field has a value that the format does not allow."""

    status = 3

    def __init__(self, *reason: object) -> None:
        super().__init__(*(reason or ["a field has a value that the format does not allow"]))


class OtherVersion(Ipv4PacketError):
    """The version is not 4."""

    status = 6

    def __init__(self, *reason: object) -> None:
        super().__init__(*(reason or ["the version is not 4"]))


class ReservedSet(Ipv4PacketError):
    """The reserved bit is set."""

    status = 7

    def __init__(self, *reason: object) -> None:
        super().__init__(*(reason or ["the reserved bit is set"]))


class ShortHeader(Ipv4PacketError):
    """The size of `options` is below the 20 bytes that it counts too."""

    status = 8

    def __init__(self, *reason: object) -> None:
        super().__init__(*(reason or ["the size of `options` is below the 20 bytes that it counts too"]))


class WrongSum(Ipv4PacketError):
    """The checksum is not that of the header."""

    status = 9

    def __init__(self, *reason: object) -> None:
        super().__init__(*(reason or ["the checksum is not that of the header"]))


_ERRORS: dict[int, type[Ipv4PacketError]] = {1: EndOfInput, 3: DoesNotFit, 6: OtherVersion, 7: ReservedSet, 8: ShortHeader, 9: WrongSum}


class _OptionsItems(ctypes.Structure):
    _fields_ = [
        ("items", ctypes.POINTER(ctypes.c_uint8)),
        ("capacity", ctypes.c_size_t),
        ("length", ctypes.c_size_t),
    ]


class _C(ctypes.Structure):
    _fields_ = [
        ("service", ctypes.c_uint8),
        ("length", ctypes.c_uint16),
        ("id", ctypes.c_uint16),
        ("keep_whole", ctypes.c_uint8),
        ("more", ctypes.c_uint8),
        ("offset", ctypes.c_uint16),
        ("ttl", ctypes.c_uint8),
        ("protocol", ctypes.c_uint8),
        ("source", ctypes.c_uint8 * 4),
        ("target", ctypes.c_uint8 * 4),
        ("options", _OptionsItems),
    ]


def _options(values: Sequence[int], name: str) -> _OptionsItems:
    found = items(values, len(values) if hasattr(values, "__len__") else 0, 0, 255, name)
    return _OptionsItems((ctypes.c_uint8 * len(found))(*found), len(found), len(found))


@dataclass
class Ipv4Packet:
    """The header of an IPv4 packet with its options and its checksum (RFC 791, section 3.1)."""

    service: int
    """The class of service, and the congestion mark."""
    length: int
    """The bytes of the packet, with this header."""
    id: int
    """The packet that a fragment belongs to."""
    keep_whole: bool
    """True if the packet must not be fragmented."""
    more: bool
    """True if more fragments follow."""
    offset: int
    """The place of the fragment, in units of 8 bytes. Below 2^13."""
    ttl: int
    """The number of routers that may still forward it."""
    protocol: int
    """The protocol of the payload."""
    source: bytes
    """The sender."""
    target: bytes
    """The receiver."""
    options: bytes
    """The options. At most 40 bytes, a multiple of 4."""

    @classmethod
    def parse(cls, data: bytes | bytearray | memoryview) -> tuple[Ipv4Packet, int]:
        """Parses the fields at the start of `data`, and returns them with the number of bytes that
        they take.

        Raises the first in the order of the bits: `OtherVersion`, `ReservedSet`, `ShortHeader`,
        `WrongSum`; `EndOfInput` if the bytes end before the fields do, if nothing in them is
        refused.
        """
        first, out, taken = bytes(data), _C(), ctypes.c_size_t()
        status = library.ipv4_packet_parse(first, len(first), ctypes.byref(out), ctypes.byref(taken))
        while status:
            if status == 5:
                out.options = _options([0] * taken.value, "")
            else:
                raise _ERRORS[status]()
            status = library.ipv4_packet_parse(first, len(first), ctypes.byref(out), ctypes.byref(taken))
        return cls._from_c(out), taken.value

    def pack(self) -> bytes:
        """Returns the bytes of the fields.

        Raises `DoesNotFit` if the format does not allow the value of a field, and `TypeError` for another type.
        """
        try:
            fields = self._to_c()
        except OverflowError as it:
            raise DoesNotFit(str(it)) from None
        status, buffer, written = 2, ctypes.create_string_buffer(32), ctypes.c_size_t()
        while status == 2:
            buffer = ctypes.create_string_buffer(2 * len(buffer))
            status = library.ipv4_packet_pack(ctypes.byref(fields), buffer, len(buffer), ctypes.byref(written))
        if status == 3:
            name = library.ipv4_packet_misfit(ctypes.byref(fields)).decode()
            raise DoesNotFit(f"{name}: the format does not allow this value")
        if status:
            raise _ERRORS[status]()
        return buffer.raw[: written.value]

    def _to_c(self, at: str = "") -> _C:
        return _C(
            number(self.service, 0, 255, at + "service"),
            number(self.length, 0, 65535, at + "length"),
            number(self.id, 0, 65535, at + "id"),
            1 if self.keep_whole else 0,
            1 if self.more else 0,
            number(self.offset, 0, 8191, at + "offset"),
            number(self.ttl, 0, 255, at + "ttl"),
            number(self.protocol, 0, 255, at + "protocol"),
            items(self.source, 4, 0, 255, at + "source"),
            items(self.target, 4, 0, 255, at + "target"),
            _options(self.options, at + "options"),
        )

    @classmethod
    def _from_c(cls, out: _C) -> Ipv4Packet:
        return cls(
            service=out.service,
            length=out.length,
            id=out.id,
            keep_whole=out.keep_whole != 0,
            more=out.more != 0,
            offset=out.offset,
            ttl=out.ttl,
            protocol=out.protocol,
            source=bytes(out.source),
            target=bytes(out.target),
            options=bytes(out.options.items[: out.options.length]),
        )


if ctypes.sizeof(_C) != 48 or getattr(_C, "options").offset != 24:
    raise ImportError("the library has another layout")
library.ipv4_packet_parse.argtypes = [
    ctypes.c_char_p,
    ctypes.c_size_t,
    ctypes.POINTER(_C),
    ctypes.POINTER(ctypes.c_size_t),
]
library.ipv4_packet_parse.restype = ctypes.c_int
library.ipv4_packet_pack.argtypes = [
    ctypes.POINTER(_C),
    ctypes.c_char_p,
    ctypes.c_size_t,
    ctypes.POINTER(ctypes.c_size_t),
]
library.ipv4_packet_pack.restype = ctypes.c_int
library.ipv4_packet_misfit.argtypes = [ctypes.POINTER(_C)]
library.ipv4_packet_misfit.restype = ctypes.c_char_p
