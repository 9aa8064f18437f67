"""Made by `./format --c` from ../network_messages/formats/icmp_message.fields: edit that file and make this one anew.

An echo or an echo reply of ICMP, with its checksum (RFC 792).

 0                   1                   2                   3
 0 1 2 3 4 5 6 7 8 9 0 1 2 3 4 5 6 7 8 9 0 1 2 3 4 5 6 7 8 9 0 1
+-+-+-+-+-+-+-+-+-+-+-+-+-+-+-+-+-+-+-+-+-+-+-+-+-+-+-+-+-+-+-+-+
|      kind     |      code     |          stored_sum16         |
+-+-+-+-+-+-+-+-+-+-+-+-+-+-+-+-+-+-+-+-+-+-+-+-+-+-+-+-+-+-+-+-+
|           identifier          |            sequence           |
+-+-+-+-+-+-+-+-+-+-+-+-+-+-+-+-+-+-+-+-+-+-+-+-+-+-+-+-+-+-+-+-+
/                    data (bytes to the end)                    /
+-+-+-+-+-+-+-+-+-+-+-+-+-+-+-+-+-+-+-+-+-+-+-+-+-+-+-+-+-+-+-+-+
"""
from __future__ import annotations

import ctypes
import enum
from dataclasses import dataclass
from typing import ClassVar, Sequence

from ._library import case, items, library, number


class Echo(enum.IntEnum):
    """The message."""

    REPLY = 0
    REQUEST = 8


class IcmpMessageError(ValueError):
    """The reason why no `IcmpMessage` was parsed or packed."""

    status: ClassVar[int]


class EndOfInput(IcmpMessageError):
    """The bytes end before the fields do."""

    status = 1

    def __init__(self, *reason: object) -> None:
        super().__init__(*(reason or ["the bytes end before the fields do"]))


class DoesNotFit(IcmpMessageError):
    """A field has a value that the format does not allow."""

    status = 3

    def __init__(self, *reason: object) -> None:
        super().__init__(*(reason or ["a field has a value that the format does not allow"]))


class NoEcho(IcmpMessageError):
    """`kind` is not the number of a case of `Echo`."""

    status = 6

    def __init__(self, *reason: object) -> None:
        super().__init__(*(reason or ["`kind` is not the number of a case of `Echo`"]))


class WrongSum(IcmpMessageError):
    """The checksum is not that of the message."""

    status = 7

    def __init__(self, *reason: object) -> None:
        super().__init__(*(reason or ["the checksum is not that of the message"]))


_ERRORS: dict[int, type[IcmpMessageError]] = {1: EndOfInput, 3: DoesNotFit, 6: NoEcho, 7: WrongSum}


class _DataItems(ctypes.Structure):
    _fields_ = [
        ("items", ctypes.POINTER(ctypes.c_uint8)),
        ("capacity", ctypes.c_size_t),
        ("length", ctypes.c_size_t),
    ]


class _C(ctypes.Structure):
    _fields_ = [
        ("kind", ctypes.c_uint8),
        ("code", ctypes.c_uint8),
        ("identifier", ctypes.c_uint16),
        ("sequence", ctypes.c_uint16),
        ("data", _DataItems),
    ]


def _data(values: Sequence[int], name: str) -> _DataItems:
    found = items(values, len(values) if hasattr(values, "__len__") else 0, 0, 255, name)
    return _DataItems((ctypes.c_uint8 * len(found))(*found), len(found), len(found))


@dataclass
class IcmpMessage:
    """An echo or an echo reply of ICMP, with its checksum (RFC 792)."""

    kind: Echo
    """The message."""
    code: int
    """The code, which is 0."""
    identifier: int
    """Which program asks."""
    sequence: int
    """The number of the message."""
    data: bytes
    """The data, which the reply repeats. All bytes up to the end. At most 4294967295 are packed."""

    @classmethod
    def parse(cls, data: bytes | bytearray | memoryview) -> tuple[IcmpMessage, int]:
        """Parses `data` as the fields, and returns them with the number of bytes that they take.

        Raises the first in the order of the bits: `NoEcho`, `WrongSum`; `EndOfInput` if the bytes
        end before the fields do, if nothing in them is refused.
        """
        first, out, taken = bytes(data), _C(), ctypes.c_size_t()
        out.data = _DataItems((ctypes.c_uint8 * len(first))(), len(first), 0)
        status = library.icmp_message_parse(first, len(first), ctypes.byref(out), ctypes.byref(taken))
        while status:
            if status == 5:
                out.data = _data([0] * taken.value, "")
            else:
                raise _ERRORS[status]()
            status = library.icmp_message_parse(first, len(first), ctypes.byref(out), ctypes.byref(taken))
        return cls._from_c(out), taken.value

    def pack(self) -> bytes:
        """Returns the bytes of the fields.

        Raises `DoesNotFit` if the format does not allow the value of a field, and `TypeError` for another type.
        """
        try:
            fields = self._to_c()
        except OverflowError as it:
            raise DoesNotFit(str(it)) from None
        status, buffer, written = 2, ctypes.create_string_buffer(32), ctypes.c_size_t()
        while status == 2:
            buffer = ctypes.create_string_buffer(2 * len(buffer))
            status = library.icmp_message_pack(ctypes.byref(fields), buffer, len(buffer), ctypes.byref(written))
        if status == 3:
            name = library.icmp_message_misfit(ctypes.byref(fields)).decode()
            raise DoesNotFit(f"{name}: the format does not allow this value")
        if status:
            raise _ERRORS[status]()
        return buffer.raw[: written.value]

    def _to_c(self, at: str = "") -> _C:
        return _C(
            case(self.kind, Echo, at + "kind"),
            number(self.code, 0, 255, at + "code"),
            number(self.identifier, 0, 65535, at + "identifier"),
            number(self.sequence, 0, 65535, at + "sequence"),
            _data(self.data, at + "data"),
        )

    @classmethod
    def _from_c(cls, out: _C) -> IcmpMessage:
        return cls(
            kind=Echo(out.kind),
            code=out.code,
            identifier=out.identifier,
            sequence=out.sequence,
            data=bytes(out.data.items[: out.data.length]),
        )


if ctypes.sizeof(_C) != 32 or getattr(_C, "data").offset != 8:
    raise ImportError("the library has another layout")
library.icmp_message_parse.argtypes = [
    ctypes.c_char_p,
    ctypes.c_size_t,
    ctypes.POINTER(_C),
    ctypes.POINTER(ctypes.c_size_t),
]
library.icmp_message_parse.restype = ctypes.c_int
library.icmp_message_pack.argtypes = [
    ctypes.POINTER(_C),
    ctypes.c_char_p,
    ctypes.c_size_t,
    ctypes.POINTER(ctypes.c_size_t),
]
library.icmp_message_pack.restype = ctypes.c_int
library.icmp_message_misfit.argtypes = [ctypes.POINTER(_C)]
library.icmp_message_misfit.restype = ctypes.c_char_p
