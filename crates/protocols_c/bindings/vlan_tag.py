"""Made by `./format --c` from ../protocols/formats/vlan_tag.fields: edit that file and make this one anew.

The tag of a virtual network, after its EtherType 0x8100 (IEEE 802.1Q, section 9.6).

 0                   1                   2                   3
 0 1 2 3 4 5 6 7 8 9 0 1 2 3 4 5 6 7 8 9 0 1 2 3 4 5 6 7 8 9 0 1
+-+-+-+-+-+-+-+-+-+-+-+-+-+-+-+-+-+-+-+-+-+-+-+-+-+-+-+-+-+-+-+-+
|prior|d|          vlan         |              kind             |
+-+-+-+-+-+-+-+-+-+-+-+-+-+-+-+-+-+-+-+-+-+-+-+-+-+-+-+-+-+-+-+-+
"""
from __future__ import annotations

import ctypes
from dataclasses import dataclass
from typing import ClassVar

from ._library import library, number


class VlanTagError(ValueError):
    """The reason why no `VlanTag` was parsed or packed."""

    status: ClassVar[int]


class EndOfInput(VlanTagError):
    """The bytes end before the fields do."""

    status = 1

    def __init__(self, *reason: object) -> None:
        super().__init__(*(reason or ["the bytes end before the fields do"]))


class DoesNotFit(VlanTagError):
    """A field has a value that the format does not allow."""

    status = 3

    def __init__(self, *reason: object) -> None:
        super().__init__(*(reason or ["a field has a value that the format does not allow"]))


_ERRORS: dict[int, type[VlanTagError]] = {1: EndOfInput, 3: DoesNotFit}


class _C(ctypes.Structure):
    _fields_ = [
        ("priority", ctypes.c_uint8),
        ("drop_eligible", ctypes.c_uint8),
        ("vlan", ctypes.c_uint16),
        ("kind", ctypes.c_uint16),
    ]


@dataclass
class VlanTag:
    """The tag of a virtual network, after its EtherType 0x8100 (IEEE 802.1Q, section 9.6)."""

    priority: int
    """The priority code point. Below 2^3."""
    drop_eligible: bool
    """True if the frame may be dropped first."""
    vlan: int
    """The identifier of the network. Below 2^12."""
    kind: int
    """The EtherType of what follows."""

    SIZE: ClassVar[int] = 4
    """The bytes that the fields take."""

    @classmethod
    def parse(cls, data: bytes | bytearray | memoryview) -> VlanTag:
        """Parses the fields at the start of `data`.

        Raises `EndOfInput` for fewer than 4 bytes.
        """
        first, out = bytes(data[: cls.SIZE]), _C()
        status = library.vlan_tag_parse(first, len(first), ctypes.byref(out))
        if status:
            raise _ERRORS[status]()
        return cls._from_c(out)

    def pack(self) -> bytes:
        """Returns the 4 bytes of the fields.

        Raises `DoesNotFit` if the format does not allow the value of a field, and `TypeError` for another type.
        """
        try:
            fields = self._to_c()
        except OverflowError as it:
            raise DoesNotFit(str(it)) from None
        buffer, written = ctypes.create_string_buffer(self.SIZE), ctypes.c_size_t()
        status = library.vlan_tag_pack(ctypes.byref(fields), buffer, len(buffer), ctypes.byref(written))
        if status == 3:
            name = library.vlan_tag_misfit(ctypes.byref(fields)).decode()
            raise DoesNotFit(f"{name}: the format does not allow this value")
        if status:
            raise _ERRORS[status]()
        return buffer.raw[: written.value]

    def _to_c(self, at: str = "") -> _C:
        return _C(
            number(self.priority, 0, 7, at + "priority"),
            1 if self.drop_eligible else 0,
            number(self.vlan, 0, 4095, at + "vlan"),
            number(self.kind, 0, 65535, at + "kind"),
        )

    @classmethod
    def _from_c(cls, out: _C) -> VlanTag:
        return cls(
            priority=out.priority,
            drop_eligible=out.drop_eligible != 0,
            vlan=out.vlan,
            kind=out.kind,
        )


if ctypes.sizeof(_C) != 6 or getattr(_C, "kind").offset != 4:
    raise ImportError("the library has another layout")
library.vlan_tag_parse.argtypes = [ctypes.c_char_p, ctypes.c_size_t, ctypes.POINTER(_C)]
library.vlan_tag_parse.restype = ctypes.c_int
library.vlan_tag_pack.argtypes = [
    ctypes.POINTER(_C),
    ctypes.c_char_p,
    ctypes.c_size_t,
    ctypes.POINTER(ctypes.c_size_t),
]
library.vlan_tag_pack.restype = ctypes.c_int
library.vlan_tag_misfit.argtypes = [ctypes.POINTER(_C)]
library.vlan_tag_misfit.restype = ctypes.c_char_p
