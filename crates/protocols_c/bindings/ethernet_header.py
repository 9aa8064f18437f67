"""Made by `./format --c` from ../protocols/formats/ethernet_header.fields: edit that file and make this one anew.

The header of an Ethernet frame with an EtherType (IEEE 802.3, section 3.1.1).

 0                   1                   2                   3
 0 1 2 3 4 5 6 7 8 9 0 1 2 3 4 5 6 7 8 9 0 1 2 3 4 5 6 7 8 9 0 1
+-+-+-+-+-+-+-+-+-+-+-+-+-+-+-+-+-+-+-+-+-+-+-+-+-+-+-+-+-+-+-+-+
|                             target                            |
+-+-+-+-+-+-+-+-+-+-+-+-+-+-+-+-+-+-+-+-+-+-+-+-+-+-+-+-+-+-+-+-+
|                               |                               |
+-+-+-+-+-+-+-+-+-+-+-+-+-+-+-+-+-+-+-+-+-+-+-+-+-+-+-+-+-+-+-+-+
|                             source                            |
+-+-+-+-+-+-+-+-+-+-+-+-+-+-+-+-+-+-+-+-+-+-+-+-+-+-+-+-+-+-+-+-+
|              kind             |
+-+-+-+-+-+-+-+-+-+-+-+-+-+-+-+-+-+-+-+-+-+-+-+-+-+-+-+-+-+-+-+-+
/                 tag (VlanTag, if it is there)                 /
+-+-+-+-+-+-+-+-+-+-+-+-+-+-+-+-+-+-+-+-+-+-+-+-+-+-+-+-+-+-+-+-+
"""
from __future__ import annotations

import ctypes
import enum
from dataclasses import dataclass
from typing import ClassVar

from ._library import items, library, number, part
from . import vlan_tag as _vlan_tag


class EtherType(enum.IntEnum):
    """The EtherType of what follows."""

    IPV4 = 2048
    ARP = 2054
    VLAN = 33024
    IPV6 = 34525


def _ether_type(value: int) -> EtherType | int:
    return EtherType(value) if value in [2048, 2054, 33024, 34525] else value


class EthernetHeaderError(ValueError):
    """The reason why no `EthernetHeader` was parsed or packed."""

    status: ClassVar[int]


class EndOfInput(EthernetHeaderError):
    """The bytes end before the fields do."""

    status = 1

    def __init__(self, *reason: object) -> None:
        super().__init__(*(reason or ["the bytes end before the fields do"]))


class DoesNotFit(EthernetHeaderError):
    """A field has a value that the format does not allow."""

    status = 3

    def __init__(self, *reason: object) -> None:
        super().__init__(*(reason or ["a field has a value that the format does not allow"]))


_ERRORS: dict[int, type[EthernetHeaderError]] = {1: EndOfInput, 3: DoesNotFit}


class _C(ctypes.Structure):
    _fields_ = [
        ("target", ctypes.c_uint8 * 6),
        ("source", ctypes.c_uint8 * 6),
        ("kind", ctypes.c_uint16),
        ("has_tag", ctypes.c_uint8),
        ("tag", _vlan_tag._C),
    ]


@dataclass
class EthernetHeader:
    """The header of an Ethernet frame with an EtherType (IEEE 802.3, section 3.1.1)."""

    target: bytes
    """The address of the receiver."""
    source: bytes
    """The address of the sender."""
    kind: EtherType | int
    """The EtherType of what follows. Another number is below 2^16."""
    tag: _vlan_tag.VlanTag | None
    """The tag for a virtual network. It is there if, and only if, `kind == Vlan`."""

    @classmethod
    def parse(cls, data: bytes | bytearray | memoryview) -> tuple[EthernetHeader, int]:
        """Parses the fields at the start of `data`, and returns them with the number of bytes that
        they take.

        Raises `EndOfInput` if the bytes end before the fields do.
        """
        first, out = bytes(data), _C()
        taken = ctypes.c_size_t()
        status = library.ethernet_header_parse(first, len(first), ctypes.byref(out), ctypes.byref(taken))
        if status:
            raise _ERRORS[status]()
        return cls._from_c(out), taken.value

    def pack(self) -> bytes:
        """Returns the bytes of the fields.

        Raises `DoesNotFit` if the format does not allow the value of a field, and `TypeError` for another type.
        """
        try:
            fields = self._to_c()
        except OverflowError as it:
            raise DoesNotFit(str(it)) from None
        status, buffer, written = 2, ctypes.create_string_buffer(32), ctypes.c_size_t()
        while status == 2:
            buffer = ctypes.create_string_buffer(2 * len(buffer))
            status = library.ethernet_header_pack(ctypes.byref(fields), buffer, len(buffer), ctypes.byref(written))
        if status == 3:
            name = library.ethernet_header_misfit(ctypes.byref(fields)).decode()
            raise DoesNotFit(f"{name}: the format does not allow this value")
        if status:
            raise _ERRORS[status]()
        return buffer.raw[: written.value]

    def _to_c(self, at: str = "") -> _C:
        return _C(
            items(self.target, 6, 0, 255, at + "target"),
            items(self.source, 6, 0, 255, at + "source"),
            number(self.kind, 0, 65535, at + "kind"),
            0 if self.tag is None else 1,
            _vlan_tag._C() if self.tag is None else part(self.tag, _vlan_tag.VlanTag, at + "tag")._to_c(at + "tag."),
        )

    @classmethod
    def _from_c(cls, out: _C) -> EthernetHeader:
        return cls(
            target=bytes(out.target),
            source=bytes(out.source),
            kind=_ether_type(out.kind),
            tag=_vlan_tag.VlanTag._from_c(out.tag) if out.has_tag else None,
        )


if ctypes.sizeof(_C) != 22 or getattr(_C, "tag").offset != 16:
    raise ImportError("the library has another layout")
library.ethernet_header_parse.argtypes = [
    ctypes.c_char_p,
    ctypes.c_size_t,
    ctypes.POINTER(_C),
    ctypes.POINTER(ctypes.c_size_t),
]
library.ethernet_header_parse.restype = ctypes.c_int
library.ethernet_header_pack.argtypes = [
    ctypes.POINTER(_C),
    ctypes.c_char_p,
    ctypes.c_size_t,
    ctypes.POINTER(ctypes.c_size_t),
]
library.ethernet_header_pack.restype = ctypes.c_int
library.ethernet_header_misfit.argtypes = [ctypes.POINTER(_C)]
library.ethernet_header_misfit.restype = ctypes.c_char_p
