"""Made by `./format --c` from ../protocols/formats/mqtt_header.fields: edit that file and make this one anew.

The fixed header of an MQTT packet (MQTT 3.1.1, section 2.2).

 0                   1                   2                   3
 0 1 2 3 4 5 6 7 8 9 0 1 2 3 4 5 6 7 8 9 0 1 2 3 4 5 6 7 8 9 0 1
+-+-+-+-+-+-+-+-+
|  kind |a|qua|r|
+-+-+-+-+-+-+-+-+-+-+-+-+-+-+-+-+-+-+-+-+-+-+-+-+-+-+-+-+-+-+-+-+
/                  remaining (groups of 8 bits)                 /
+-+-+-+-+-+-+-+-+-+-+-+-+-+-+-+-+-+-+-+-+-+-+-+-+-+-+-+-+-+-+-+-+
"""
from __future__ import annotations

import ctypes
import enum
from dataclasses import dataclass
from typing import ClassVar

from ._library import case, library, number


class Packet(enum.IntEnum):
    """The kind of the packet."""

    CONNECT = 1
    CONN_ACK = 2
    PUBLISH = 3
    PUB_ACK = 4
    PUB_REC = 5
    PUB_REL = 6
    PUB_COMP = 7
    SUBSCRIBE = 8
    SUB_ACK = 9
    UNSUBSCRIBE = 10
    UNSUB_ACK = 11
    PING_REQ = 12
    PING_RESP = 13
    DISCONNECT = 14
    AUTH = 15


class MqttError(ValueError):
    """The reason why no `MqttHeader` was parsed or packed."""

    status: ClassVar[int]


class EndOfInput(MqttError):
    """The bytes end before the fields do."""

    status = 1

    def __init__(self, *reason: object) -> None:
        super().__init__(*(reason or ["the bytes end before the fields do"]))


class DoesNotFit(MqttError):
    """A field has a value that the format does not allow."""

    status = 3

    def __init__(self, *reason: object) -> None:
        super().__init__(*(reason or ["a field has a value that the format does not allow"]))


class BadNumber(MqttError):
    """A number of variable width is too large, or ends in a group of 0 behind others."""

    status = 5

    def __init__(self, *reason: object) -> None:
        super().__init__(*(reason or ["a number of variable width is too large, or ends in a group of 0 behind others"]))


class NoPacket(MqttError):
    """`kind` is not the number of a case of `Packet`."""

    status = 6

    def __init__(self, *reason: object) -> None:
        super().__init__(*(reason or ["`kind` is not the number of a case of `Packet`"]))


_ERRORS: dict[int, type[MqttError]] = {1: EndOfInput, 3: DoesNotFit, 5: BadNumber, 6: NoPacket}


class _C(ctypes.Structure):
    _fields_ = [
        ("kind", ctypes.c_uint8),
        ("again", ctypes.c_uint8),
        ("quality", ctypes.c_uint8),
        ("retain", ctypes.c_uint8),
        ("remaining", ctypes.c_uint32),
    ]


@dataclass
class MqttHeader:
    """The fixed header of an MQTT packet (MQTT 3.1.1, section 2.2)."""

    kind: Packet
    """The kind of the packet."""
    again: bool
    """True if the packet was sent before, if it is `Publish`."""
    quality: int
    """The quality of service, if the packet is `Publish`. Below 2^2."""
    retain: bool
    """True if the server is to keep the message, if the packet is `Publish`."""
    remaining: int
    """The number of bytes that follow."""

    @classmethod
    def parse(cls, data: bytes | bytearray | memoryview) -> tuple[MqttHeader, int]:
        """Parses the fields at the start of `data`, and returns them with the number of bytes that
        they take.

        Raises the first in the order of the bits: `NoPacket`, `BadNumber`; `EndOfInput` if the
        bytes end before the fields do, if nothing in them is refused.
        """
        first, out = bytes(data), _C()
        taken = ctypes.c_size_t()
        status = library.mqtt_header_parse(first, len(first), ctypes.byref(out), ctypes.byref(taken))
        if status:
            raise _ERRORS[status]()
        return cls._from_c(out), taken.value

    def pack(self) -> bytes:
        """Returns the bytes of the fields.

        Raises `DoesNotFit` if the format does not allow the value of a field, and `TypeError` for another type.
        """
        try:
            fields = self._to_c()
        except OverflowError as it:
            raise DoesNotFit(str(it)) from None
        status, buffer, written = 2, ctypes.create_string_buffer(32), ctypes.c_size_t()
        while status == 2:
            buffer = ctypes.create_string_buffer(2 * len(buffer))
            status = library.mqtt_header_pack(ctypes.byref(fields), buffer, len(buffer), ctypes.byref(written))
        if status == 3:
            name = library.mqtt_header_misfit(ctypes.byref(fields)).decode()
            raise DoesNotFit(f"{name}: the format does not allow this value")
        if status:
            raise _ERRORS[status]()
        return buffer.raw[: written.value]

    def _to_c(self, at: str = "") -> _C:
        return _C(
            case(self.kind, Packet, at + "kind"),
            1 if self.again else 0,
            number(self.quality, 0, 3, at + "quality"),
            1 if self.retain else 0,
            number(self.remaining, 0, 4294967295, at + "remaining"),
        )

    @classmethod
    def _from_c(cls, out: _C) -> MqttHeader:
        return cls(
            kind=Packet(out.kind),
            again=out.again != 0,
            quality=out.quality,
            retain=out.retain != 0,
            remaining=out.remaining,
        )


if ctypes.sizeof(_C) != 8 or getattr(_C, "remaining").offset != 4:
    raise ImportError("the library has another layout")
library.mqtt_header_parse.argtypes = [
    ctypes.c_char_p,
    ctypes.c_size_t,
    ctypes.POINTER(_C),
    ctypes.POINTER(ctypes.c_size_t),
]
library.mqtt_header_parse.restype = ctypes.c_int
library.mqtt_header_pack.argtypes = [
    ctypes.POINTER(_C),
    ctypes.c_char_p,
    ctypes.c_size_t,
    ctypes.POINTER(ctypes.c_size_t),
]
library.mqtt_header_pack.restype = ctypes.c_int
library.mqtt_header_misfit.argtypes = [ctypes.POINTER(_C)]
library.mqtt_header_misfit.restype = ctypes.c_char_p
