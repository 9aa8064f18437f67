"""Made by `./format --c` from ../protocols/formats/icmp_gateway.fields: edit that file and make this one anew.

The router of a redirect.

 0                   1                   2                   3
 0 1 2 3 4 5 6 7 8 9 0 1 2 3 4 5 6 7 8 9 0 1 2 3 4 5 6 7 8 9 0 1
+-+-+-+-+-+-+-+-+-+-+-+-+-+-+-+-+-+-+-+-+-+-+-+-+-+-+-+-+-+-+-+-+
|                            address                            |
+-+-+-+-+-+-+-+-+-+-+-+-+-+-+-+-+-+-+-+-+-+-+-+-+-+-+-+-+-+-+-+-+
"""
from __future__ import annotations

import ctypes
from dataclasses import dataclass
from typing import ClassVar

from ._library import items, library


class IcmpGatewayError(ValueError):
    """The reason why no `IcmpGateway` was parsed or packed."""

    status: ClassVar[int]


class EndOfInput(IcmpGatewayError):
    """The bytes end before the fields do."""

    status = 1

    def __init__(self, *reason: object) -> None:
        super().__init__(*(reason or ["the bytes end before the fields do"]))


class DoesNotFit(IcmpGatewayError):
    """A field has a value that the format does not allow."""

    status = 3

    def __init__(self, *reason: object) -> None:
        super().__init__(*(reason or ["a field has a value that the format does not allow"]))


_ERRORS: dict[int, type[IcmpGatewayError]] = {1: EndOfInput, 3: DoesNotFit}


class _C(ctypes.Structure):
    _fields_ = [
        ("address", ctypes.c_uint8 * 4),
    ]


@dataclass
class IcmpGateway:
    """The router of a redirect."""

    address: bytes
    """The IPv4 address of the router."""

    SIZE: ClassVar[int] = 4
    """The bytes that the fields take."""

    @classmethod
    def parse(cls, data: bytes | bytearray | memoryview) -> IcmpGateway:
        """Parses the fields at the start of `data`.

        Raises `EndOfInput` for fewer than 4 bytes.
        """
        first, out = bytes(data[: cls.SIZE]), _C()
        status = library.icmp_gateway_parse(first, len(first), ctypes.byref(out))
        if status:
            raise _ERRORS[status]()
        return cls._from_c(out)

    def pack(self) -> bytes:
        """Returns the 4 bytes of the fields.

        Raises `DoesNotFit` if the format does not allow the value of a field, and `TypeError` for another type.
        """
        try:
            fields = self._to_c()
        except OverflowError as it:
            raise DoesNotFit(str(it)) from None
        buffer, written = ctypes.create_string_buffer(self.SIZE), ctypes.c_size_t()
        status = library.icmp_gateway_pack(ctypes.byref(fields), buffer, len(buffer), ctypes.byref(written))
        if status == 3:
            name = library.icmp_gateway_misfit(ctypes.byref(fields)).decode()
            raise DoesNotFit(f"{name}: the format does not allow this value")
        if status:
            raise _ERRORS[status]()
        return buffer.raw[: written.value]

    def _to_c(self, at: str = "") -> _C:
        return _C(
            items(self.address, 4, 0, 255, at + "address"),
        )

    @classmethod
    def _from_c(cls, out: _C) -> IcmpGateway:
        return cls(
            address=bytes(out.address),
        )


if ctypes.sizeof(_C) != 4 or getattr(_C, "address").offset != 0:
    raise ImportError("the library has another layout")
library.icmp_gateway_parse.argtypes = [ctypes.c_char_p, ctypes.c_size_t, ctypes.POINTER(_C)]
library.icmp_gateway_parse.restype = ctypes.c_int
library.icmp_gateway_pack.argtypes = [
    ctypes.POINTER(_C),
    ctypes.c_char_p,
    ctypes.c_size_t,
    ctypes.POINTER(ctypes.c_size_t),
]
library.icmp_gateway_pack.restype = ctypes.c_int
library.icmp_gateway_misfit.argtypes = [ctypes.POINTER(_C)]
library.icmp_gateway_misfit.restype = ctypes.c_char_p
