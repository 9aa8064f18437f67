"""Made by `./format --c` from ../protocols/formats/icmp_header.fields: edit that file and make this one anew.

The first bytes of an ICMP message (RFC 792).

 0                   1                   2                   3
 0 1 2 3 4 5 6 7 8 9 0 1 2 3 4 5 6 7 8 9 0 1 2 3 4 5 6 7 8 9 0 1
+-+-+-+-+-+-+-+-+-+-+-+-+-+-+-+-+-+-+-+-+-+-+-+-+-+-+-+-+-+-+-+-+
|    body_tag   |      code     |            checksum           |
+-+-+-+-+-+-+-+-+-+-+-+-+-+-+-+-+-+-+-+-+-+-+-+-+-+-+-+-+-+-+-+-+
/           body (EchoReply, Redirect, Echo or Other)           /
+-+-+-+-+-+-+-+-+-+-+-+-+-+-+-+-+-+-+-+-+-+-+-+-+-+-+-+-+-+-+-+-+
"""
from __future__ import annotations

import ctypes
from dataclasses import dataclass
from typing import ClassVar, Union

from ._library import library, number, part
from . import icmp_ids as _icmp_ids
from . import icmp_gateway as _icmp_gateway


class IcmpHeaderError(ValueError):
    """The reason why no `IcmpHeader` was parsed or packed."""

    status: ClassVar[int]


class EndOfInput(IcmpHeaderError):
    """The bytes end before the fields do."""

    status = 1

    def __init__(self, *reason: object) -> None:
        super().__init__(*(reason or ["the bytes end before the fields do"]))


class DoesNotFit(IcmpHeaderError):
    """A field has a value that the format does not allow."""

    status = 3

    def __init__(self, *reason: object) -> None:
        super().__init__(*(reason or ["a field has a value that the format does not allow"]))


_ERRORS: dict[int, type[IcmpHeaderError]] = {1: EndOfInput, 3: DoesNotFit}


@dataclass
class BodyEchoReply:
    """The type of the message, and what follows the checksum. After another type nothing is read. The case of the number 0."""

    value: _icmp_ids.IcmpIds
    """The content of the case."""


@dataclass
class BodyRedirect:
    """The type of the message, and what follows the checksum. After another type nothing is read. The case of the number 5."""

    value: _icmp_gateway.IcmpGateway
    """The content of the case."""


@dataclass
class BodyEcho:
    """The type of the message, and what follows the checksum. After another type nothing is read. The case of the number 8."""

    value: _icmp_ids.IcmpIds
    """The content of the case."""


@dataclass
class BodyOther:
    """The type of the message, and what follows the checksum. After another type nothing is read. Another number, with nothing after it. No number of another case fits."""

    number: int
    """The number. Below 2^8."""


Body = Union[BodyEchoReply, BodyRedirect, BodyEcho, BodyOther]


class _BodyUnion(ctypes.Union):
    _fields_ = [
        ("echo_reply", _icmp_ids._C),
        ("redirect", _icmp_gateway._C),
        ("echo", _icmp_ids._C),
        ("other", ctypes.c_uint8),
    ]


class _BodyChoice(ctypes.Structure):
    _fields_ = [
        ("which", ctypes.c_int),
        ("held", _BodyUnion),
    ]


class _C(ctypes.Structure):
    _fields_ = [
        ("code", ctypes.c_uint8),
        ("checksum", ctypes.c_uint16),
        ("body", _BodyChoice),
    ]


def _body_choice(value: Body, name: str) -> _BodyChoice:
    if isinstance(value, BodyEchoReply):
        return _BodyChoice(0, _BodyUnion(echo_reply=part(value.value, _icmp_ids.IcmpIds, name + ".value")._to_c(name + ".value.")))
    if isinstance(value, BodyRedirect):
        return _BodyChoice(1, _BodyUnion(redirect=part(value.value, _icmp_gateway.IcmpGateway, name + ".value")._to_c(name + ".value.")))
    if isinstance(value, BodyEcho):
        return _BodyChoice(2, _BodyUnion(echo=part(value.value, _icmp_ids.IcmpIds, name + ".value")._to_c(name + ".value.")))
    if isinstance(value, BodyOther):
        return _BodyChoice(3, _BodyUnion(other=number(value.number, 0, 255, name + ".number")))
    raise TypeError(f"{name}: Body is wanted, and not {type(value).__name__}")


def _body_chosen(out: _BodyChoice) -> Body:
    if out.which == 0:
        return BodyEchoReply(_icmp_ids.IcmpIds._from_c(out.held.echo_reply))
    if out.which == 1:
        return BodyRedirect(_icmp_gateway.IcmpGateway._from_c(out.held.redirect))
    if out.which == 2:
        return BodyEcho(_icmp_ids.IcmpIds._from_c(out.held.echo))
    return BodyOther(out.held.other)


@dataclass
class IcmpHeader:
    """The first bytes of an ICMP message (RFC 792)."""

    code: int
    """The code, which refines the type."""
    checksum: int
    """The checksum of the message."""
    body: Body
    """The type of the message, and what follows the checksum. After another type nothing is read."""

    @classmethod
    def parse(cls, data: bytes | bytearray | memoryview) -> tuple[IcmpHeader, int]:
        """Parses the fields at the start of `data`, and returns them with the number of bytes that
        they take.

        Raises `EndOfInput` if the bytes end before the fields do.
        """
        first, out = bytes(data), _C()
        taken = ctypes.c_size_t()
        status = library.icmp_header_parse(first, len(first), ctypes.byref(out), ctypes.byref(taken))
        if status:
            raise _ERRORS[status]()
        return cls._from_c(out), taken.value

    def pack(self) -> bytes:
        """Returns the bytes of the fields.

        Raises `DoesNotFit` if the format does not allow the value of a field, and `TypeError` for another type.
        """
        try:
            fields = self._to_c()
        except OverflowError as it:
            raise DoesNotFit(str(it)) from None
        status, buffer, written = 2, ctypes.create_string_buffer(32), ctypes.c_size_t()
        while status == 2:
            buffer = ctypes.create_string_buffer(2 * len(buffer))
            status = library.icmp_header_pack(ctypes.byref(fields), buffer, len(buffer), ctypes.byref(written))
        if status == 3:
            name = library.icmp_header_misfit(ctypes.byref(fields)).decode()
            raise DoesNotFit(f"{name}: the format does not allow this value")
        if status:
            raise _ERRORS[status]()
        return buffer.raw[: written.value]

    def _to_c(self, at: str = "") -> _C:
        return _C(
            number(self.code, 0, 255, at + "code"),
            number(self.checksum, 0, 65535, at + "checksum"),
            _body_choice(self.body, at + "body"),
        )

    @classmethod
    def _from_c(cls, out: _C) -> IcmpHeader:
        return cls(
            code=out.code,
            checksum=out.checksum,
            body=_body_chosen(out.body),
        )


if ctypes.sizeof(_C) != 12 or getattr(_C, "body").offset != 4:
    raise ImportError("the library has another layout")
library.icmp_header_parse.argtypes = [
    ctypes.c_char_p,
    ctypes.c_size_t,
    ctypes.POINTER(_C),
    ctypes.POINTER(ctypes.c_size_t),
]
library.icmp_header_parse.restype = ctypes.c_int
library.icmp_header_pack.argtypes = [
    ctypes.POINTER(_C),
    ctypes.c_char_p,
    ctypes.c_size_t,
    ctypes.POINTER(ctypes.c_size_t),
]
library.icmp_header_pack.restype = ctypes.c_int
library.icmp_header_misfit.argtypes = [ctypes.POINTER(_C)]
library.icmp_header_misfit.restype = ctypes.c_char_p
