"""Made by `./format --c` from ../protocols/formats/rtcp_receiver_report.fields: edit that file and make this one anew.

A receiver report of RTCP, with its report blocks (RFC 3550, section 6.4.2).

 0                   1                   2                   3
 0 1 2 3 4 5 6 7 8 9 0 1 2 3 4 5 6 7 8 9 0 1 2 3 4 5 6 7 8 9 0 1
+-+-+-+-+-+-+-+-+-+-+-+-+-+-+-+-+-+-+-+-+-+-+-+-+-+-+-+-+-+-+-+-+
| =2|p|reports_c|      =201     |             length            |
+-+-+-+-+-+-+-+-+-+-+-+-+-+-+-+-+-+-+-+-+-+-+-+-+-+-+-+-+-+-+-+-+
|                              ssrc                             |
+-+-+-+-+-+-+-+-+-+-+-+-+-+-+-+-+-+-+-+-+-+-+-+-+-+-+-+-+-+-+-+-+
/             reports (reports_count of ReportBlock)            /
+-+-+-+-+-+-+-+-+-+-+-+-+-+-+-+-+-+-+-+-+-+-+-+-+-+-+-+-+-+-+-+-+
"""
from __future__ import annotations

import ctypes
from dataclasses import dataclass
from typing import ClassVar, Sequence

from ._library import library, number, part
from . import report_block as _report_block


class ReceiverReportError(ValueError):
    """The reason why no `RtcpReceiverReport` was parsed or packed."""

    status: ClassVar[int]


class EndOfInput(ReceiverReportError):
    """The bytes end before the fields do."""

    status = 1

    def __init__(self, *reason: object) -> None:
        super().__init__(*(reason or ["the bytes end before the fields do"]))


class DoesNotFit(ReceiverReportError):
    """A field has a value that the format does not allow."""

    status = 3

    def __init__(self, *reason: object) -> None:
        super().__init__(*(reason or ["a field has a value that the format does not allow"]))


class OtherVersion(ReceiverReportError):
    """The version is not 2."""

    status = 6

    def __init__(self, *reason: object) -> None:
        super().__init__(*(reason or ["the version is not 2"]))


class OtherPacket(ReceiverReportError):
    """The packet is no receiver report."""

    status = 7

    def __init__(self, *reason: object) -> None:
        super().__init__(*(reason or ["the packet is no receiver report"]))


_ERRORS: dict[int, type[ReceiverReportError]] = {1: EndOfInput, 3: DoesNotFit, 6: OtherVersion, 7: OtherPacket}


class _ReportsItems(ctypes.Structure):
    _fields_ = [
        ("items", ctypes.POINTER(_report_block._C)),
        ("capacity", ctypes.c_size_t),
        ("length", ctypes.c_size_t),
    ]


class _C(ctypes.Structure):
    _fields_ = [
        ("padding", ctypes.c_uint8),
        ("length", ctypes.c_uint16),
        ("ssrc", ctypes.c_uint32),
        ("reports", _ReportsItems),
    ]


def _reports(values: Sequence[_report_block.ReportBlock], name: str) -> _ReportsItems:
    found = [part(it, _report_block.ReportBlock, f"{name}[{k}]")._to_c(f"{name}[{k}].") for k, it in enumerate(values)]
    return _ReportsItems((_report_block._C * len(found))(*found), len(found), len(found))


@dataclass
class RtcpReceiverReport:
    """A receiver report of RTCP, with its report blocks (RFC 3550, section 6.4.2)."""

    padding: bool
    """True if there is padding at the end of the packet."""
    length: int
    """The 32-bit words of the packet, less 1."""
    ssrc: int
    """The receiver."""
    reports: list[_report_block.ReportBlock]
    """The report blocks, one for each source. Fewer than 2^5."""

    @classmethod
    def parse(cls, data: bytes | bytearray | memoryview) -> tuple[RtcpReceiverReport, int]:
        """Parses the fields at the start of `data`, and returns them with the number of bytes that
        they take.

        Raises the first in the order of the bits: `OtherVersion`, `OtherPacket`; `EndOfInput` if
        the bytes end before the fields do, if nothing in them is refused.
        """
        first, out, taken = bytes(data), _C(), ctypes.c_size_t()
        status = library.rtcp_receiver_report_parse(first, len(first), ctypes.byref(out), ctypes.byref(taken))
        while status:
            if status == 5:
                out.reports = _ReportsItems((_report_block._C * taken.value)(), taken.value, 0)
            else:
                raise _ERRORS[status]()
            status = library.rtcp_receiver_report_parse(first, len(first), ctypes.byref(out), ctypes.byref(taken))
        return cls._from_c(out), taken.value

    def pack(self) -> bytes:
        """Returns the bytes of the fields.

        Raises `DoesNotFit` if the format does not allow the value of a field, and `TypeError` for another type.
        """
        try:
            fields = self._to_c()
        except OverflowError as it:
            raise DoesNotFit(str(it)) from None
        status, buffer, written = 2, ctypes.create_string_buffer(32), ctypes.c_size_t()
        while status == 2:
            buffer = ctypes.create_string_buffer(2 * len(buffer))
            status = library.rtcp_receiver_report_pack(ctypes.byref(fields), buffer, len(buffer), ctypes.byref(written))
        if status == 3:
            name = library.rtcp_receiver_report_misfit(ctypes.byref(fields)).decode()
            raise DoesNotFit(f"{name}: the format does not allow this value")
        if status:
            raise _ERRORS[status]()
        return buffer.raw[: written.value]

    def _to_c(self, at: str = "") -> _C:
        return _C(
            1 if self.padding else 0,
            number(self.length, 0, 65535, at + "length"),
            number(self.ssrc, 0, 4294967295, at + "ssrc"),
            _reports(self.reports, at + "reports"),
        )

    @classmethod
    def _from_c(cls, out: _C) -> RtcpReceiverReport:
        return cls(
            padding=out.padding != 0,
            length=out.length,
            ssrc=out.ssrc,
            reports=[_report_block.ReportBlock._from_c(it) for it in out.reports.items[: out.reports.length]],
        )


if ctypes.sizeof(_C) != 32 or getattr(_C, "reports").offset != 8:
    raise ImportError("the library has another layout")
library.rtcp_receiver_report_parse.argtypes = [
    ctypes.c_char_p,
    ctypes.c_size_t,
    ctypes.POINTER(_C),
    ctypes.POINTER(ctypes.c_size_t),
]
library.rtcp_receiver_report_parse.restype = ctypes.c_int
library.rtcp_receiver_report_pack.argtypes = [
    ctypes.POINTER(_C),
    ctypes.c_char_p,
    ctypes.c_size_t,
    ctypes.POINTER(ctypes.c_size_t),
]
library.rtcp_receiver_report_pack.restype = ctypes.c_int
library.rtcp_receiver_report_misfit.argtypes = [ctypes.POINTER(_C)]
library.rtcp_receiver_report_misfit.restype = ctypes.c_char_p
