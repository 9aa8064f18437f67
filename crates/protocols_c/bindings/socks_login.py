"""Made by `./format --c` from ../protocols/formats/socks_login.fields: edit that file and make this one anew.

The name and the password of a user, as a client of SOCKS sends them (RFC 1929, section 2).

 0                   1                   2                   3
 0 1 2 3 4 5 6 7 8 9 0 1 2 3 4 5 6 7 8 9 0 1 2 3 4 5 6 7 8 9 0 1
+-+-+-+-+-+-+-+-+-+-+-+-+-+-+-+-+
|       =1      |   name_bytes  |
+-+-+-+-+-+-+-+-+-+-+-+-+-+-+-+-+-+-+-+-+-+-+-+-+-+-+-+-+-+-+-+-+
/                    name (name_bytes bytes)                    /
+-+-+-+-+-+-+-+-+-+-+-+-+-+-+-+-+-+-+-+-+-+-+-+-+-+-+-+-+-+-+-+-+
| password_bytes|
+-+-+-+-+-+-+-+-+-+-+-+-+-+-+-+-+-+-+-+-+-+-+-+-+-+-+-+-+-+-+-+-+
/                password (password_bytes bytes)                /
+-+-+-+-+-+-+-+-+-+-+-+-+-+-+-+-+-+-+-+-+-+-+-+-+-+-+-+-+-+-+-+-+
"""
from __future__ import annotations

import ctypes
from dataclasses import dataclass
from typing import ClassVar, Sequence

from ._library import items, library


class SocksLoginError(ValueError):
    """The reason why no `SocksLogin` was parsed or packed."""

    status: ClassVar[int]


class EndOfInput(SocksLoginError):
    """The bytes end before the fields do."""

    status = 1

    def __init__(self, *reason: object) -> None:
        super().__init__(*(reason or ["the bytes end before the fields do"]))


class DoesNotFit(SocksLoginError):
    """A field has a value that the format does not allow."""

    status = 3

    def __init__(self, *reason: object) -> None:
        super().__init__(*(reason or ["a field has a value that the format does not allow"]))


class OtherVersion(SocksLoginError):
    """The version of this message is not 1."""

    status = 7

    def __init__(self, *reason: object) -> None:
        super().__init__(*(reason or ["the version of this message is not 1"]))


_ERRORS: dict[int, type[SocksLoginError]] = {1: EndOfInput, 3: DoesNotFit, 7: OtherVersion}


class _NameItems(ctypes.Structure):
    _fields_ = [
        ("items", ctypes.POINTER(ctypes.c_uint8)),
        ("capacity", ctypes.c_size_t),
        ("length", ctypes.c_size_t),
    ]


class _PasswordItems(ctypes.Structure):
    _fields_ = [
        ("items", ctypes.POINTER(ctypes.c_uint8)),
        ("capacity", ctypes.c_size_t),
        ("length", ctypes.c_size_t),
    ]


class _C(ctypes.Structure):
    _fields_ = [
        ("name", _NameItems),
        ("password", _PasswordItems),
    ]


def _name(values: Sequence[int], name: str) -> _NameItems:
    found = items(values, len(values) if hasattr(values, "__len__") else 0, 0, 255, name)
    return _NameItems((ctypes.c_uint8 * len(found))(*found), len(found), len(found))


def _password(values: Sequence[int], name: str) -> _PasswordItems:
    found = items(values, len(values) if hasattr(values, "__len__") else 0, 0, 255, name)
    return _PasswordItems((ctypes.c_uint8 * len(found))(*found), len(found), len(found))


@dataclass
class SocksLogin:
    """The name and the password of a user, as a client of SOCKS sends them (RFC 1929, section 2)."""

    name: bytes
    """The name. At most 255 bytes."""
    password: bytes
    """The password. At most 255 bytes."""

    @classmethod
    def parse(cls, data: bytes | bytearray | memoryview) -> tuple[SocksLogin, int]:
        """Parses the fields at the start of `data`, and returns them with the number of bytes that
        they take.

        Raises the first in the order of the bits: `OtherVersion`; `EndOfInput` if the bytes end
        before the fields do, if nothing in them is refused.
        """
        first, out, taken = bytes(data), _C(), ctypes.c_size_t()
        status = library.socks_login_parse(first, len(first), ctypes.byref(out), ctypes.byref(taken))
        while status:
            if status == 5:
                out.name = _name([0] * taken.value, "")
            elif status == 6:
                out.password = _password([0] * taken.value, "")
            else:
                raise _ERRORS[status]()
            status = library.socks_login_parse(first, len(first), ctypes.byref(out), ctypes.byref(taken))
        return cls._from_c(out), taken.value

    def pack(self) -> bytes:
        """Returns the bytes of the fields.

        Raises `DoesNotFit` if the format does not allow the value of a field, and `TypeError` for another type.
        """
        try:
            fields = self._to_c()
        except OverflowError as it:
            raise DoesNotFit(str(it)) from None
        status, buffer, written = 2, ctypes.create_string_buffer(32), ctypes.c_size_t()
        while status == 2:
            buffer = ctypes.create_string_buffer(2 * len(buffer))
            status = library.socks_login_pack(ctypes.byref(fields), buffer, len(buffer), ctypes.byref(written))
        if status == 3:
            name = library.socks_login_misfit(ctypes.byref(fields)).decode()
            raise DoesNotFit(f"{name}: the format does not allow this value")
        if status:
            raise _ERRORS[status]()
        return buffer.raw[: written.value]

    def _to_c(self, at: str = "") -> _C:
        return _C(
            _name(self.name, at + "name"),
            _password(self.password, at + "password"),
        )

    @classmethod
    def _from_c(cls, out: _C) -> SocksLogin:
        return cls(
            name=bytes(out.name.items[: out.name.length]),
            password=bytes(out.password.items[: out.password.length]),
        )


if ctypes.sizeof(_C) != 48 or getattr(_C, "password").offset != 24:
    raise ImportError("the library has another layout")
library.socks_login_parse.argtypes = [
    ctypes.c_char_p,
    ctypes.c_size_t,
    ctypes.POINTER(_C),
    ctypes.POINTER(ctypes.c_size_t),
]
library.socks_login_parse.restype = ctypes.c_int
library.socks_login_pack.argtypes = [
    ctypes.POINTER(_C),
    ctypes.c_char_p,
    ctypes.c_size_t,
    ctypes.POINTER(ctypes.c_size_t),
]
library.socks_login_pack.restype = ctypes.c_int
library.socks_login_misfit.argtypes = [ctypes.POINTER(_C)]
library.socks_login_misfit.restype = ctypes.c_char_p
