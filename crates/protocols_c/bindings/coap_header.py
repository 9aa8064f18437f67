"""Made by `./format --c` from ../protocols/formats/coap_header.fields: edit that file and make this one anew.

The header of a CoAP message and its token (RFC 7252, section 3).

 0                   1                   2                   3
 0 1 2 3 4 5 6 7 8 9 0 1 2 3 4 5 6 7 8 9 0 1 2 3 4 5 6 7 8 9 0 1
+-+-+-+-+-+-+-+-+-+-+-+-+-+-+-+-+-+-+-+-+-+-+-+-+-+-+-+-+-+-+-+-+
| =1|kin|token_c|class|  detail |               id              |
+-+-+-+-+-+-+-+-+-+-+-+-+-+-+-+-+-+-+-+-+-+-+-+-+-+-+-+-+-+-+-+-+
/                   token (token_count bytes)                   /
+-+-+-+-+-+-+-+-+-+-+-+-+-+-+-+-+-+-+-+-+-+-+-+-+-+-+-+-+-+-+-+-+
"""
from __future__ import annotations

import ctypes
import enum
from dataclasses import dataclass
from typing import ClassVar, Sequence

from ._library import case, items, library, number


class Message(enum.IntEnum):
    """The kind of the message."""

    CONFIRMABLE = 0
    NON_CONFIRMABLE = 1
    ACKNOWLEDGEMENT = 2
    RESET = 3


class CoapError(ValueError):
    """The reason why no `CoapHeader` was parsed or packed."""

    status: ClassVar[int]


class EndOfInput(CoapError):
    """The bytes end before the fields do."""

    status = 1

    def __init__(self, *reason: object) -> None:
        super().__init__(*(reason or ["the bytes end before the fields do"]))


class DoesNotFit(CoapError):
    """A field has a value that the format does not allow."""

    status = 3

    def __init__(self, *reason: object) -> None:
        super().__init__(*(reason or ["a field has a value that the format does not allow"]))


class OtherVersion(CoapError):
    """The version is not 1."""

    status = 6

    def __init__(self, *reason: object) -> None:
        super().__init__(*(reason or ["the version is not 1"]))


_ERRORS: dict[int, type[CoapError]] = {1: EndOfInput, 3: DoesNotFit, 6: OtherVersion}


class _TokenItems(ctypes.Structure):
    _fields_ = [
        ("items", ctypes.POINTER(ctypes.c_uint8)),
        ("capacity", ctypes.c_size_t),
        ("length", ctypes.c_size_t),
    ]


class _C(ctypes.Structure):
    _fields_ = [
        ("kind", ctypes.c_uint8),
        ("class_", ctypes.c_uint8),
        ("detail", ctypes.c_uint8),
        ("id", ctypes.c_uint16),
        ("token", _TokenItems),
    ]


def _token(values: Sequence[int], name: str) -> _TokenItems:
    found = items(values, len(values) if hasattr(values, "__len__") else 0, 0, 255, name)
    return _TokenItems((ctypes.c_uint8 * len(found))(*found), len(found), len(found))


@dataclass
class CoapHeader:
    """The header of a CoAP message and its token (RFC 7252, section 3)."""

    kind: Message
    """The kind of the message."""
    class_: int
    """The class of the code: a request, or how it went. Below 2^3."""
    detail: int
    """The method of a request, or the detail of a response. Below 2^5."""
    id: int
    """The number that an acknowledgement shares with its message."""
    token: bytes
    """The bytes that a response shares with its request. Fewer than 2^4."""

    @classmethod
    def parse(cls, data: bytes | bytearray | memoryview) -> tuple[CoapHeader, int]:
        """Parses the fields at the start of `data`, and returns them with the number of bytes that
        they take.

        Raises the first in the order of the bits: `OtherVersion`; `EndOfInput` if the bytes end
        before the fields do, if nothing in them is refused.
        """
        first, out, taken = bytes(data), _C(), ctypes.c_size_t()
        status = library.coap_header_parse(first, len(first), ctypes.byref(out), ctypes.byref(taken))
        while status:
            if status == 5:
                out.token = _token([0] * taken.value, "")
            else:
                raise _ERRORS[status]()
            status = library.coap_header_parse(first, len(first), ctypes.byref(out), ctypes.byref(taken))
        return cls._from_c(out), taken.value

    def pack(self) -> bytes:
        """Returns the bytes of the fields.

        Raises `DoesNotFit` if the format does not allow the value of a field, and `TypeError` for another type.
        """
        try:
            fields = self._to_c()
        except OverflowError as it:
            raise DoesNotFit(str(it)) from None
        status, buffer, written = 2, ctypes.create_string_buffer(32), ctypes.c_size_t()
        while status == 2:
            buffer = ctypes.create_string_buffer(2 * len(buffer))
            status = library.coap_header_pack(ctypes.byref(fields), buffer, len(buffer), ctypes.byref(written))
        if status == 3:
            name = library.coap_header_misfit(ctypes.byref(fields)).decode()
            raise DoesNotFit(f"{name}: the format does not allow this value")
        if status:
            raise _ERRORS[status]()
        return buffer.raw[: written.value]

    def _to_c(self, at: str = "") -> _C:
        return _C(
            case(self.kind, Message, at + "kind"),
            number(self.class_, 0, 7, at + "class_"),
            number(self.detail, 0, 31, at + "detail"),
            number(self.id, 0, 65535, at + "id"),
            _token(self.token, at + "token"),
        )

    @classmethod
    def _from_c(cls, out: _C) -> CoapHeader:
        return cls(
            kind=Message(out.kind),
            class_=out.class_,
            detail=out.detail,
            id=out.id,
            token=bytes(out.token.items[: out.token.length]),
        )


if ctypes.sizeof(_C) != 32 or getattr(_C, "token").offset != 8:
    raise ImportError("the library has another layout")
library.coap_header_parse.argtypes = [
    ctypes.c_char_p,
    ctypes.c_size_t,
    ctypes.POINTER(_C),
    ctypes.POINTER(ctypes.c_size_t),
]
library.coap_header_parse.restype = ctypes.c_int
library.coap_header_pack.argtypes = [
    ctypes.POINTER(_C),
    ctypes.c_char_p,
    ctypes.c_size_t,
    ctypes.POINTER(ctypes.c_size_t),
]
library.coap_header_pack.restype = ctypes.c_int
library.coap_header_misfit.argtypes = [ctypes.POINTER(_C)]
library.coap_header_misfit.restype = ctypes.c_char_p
