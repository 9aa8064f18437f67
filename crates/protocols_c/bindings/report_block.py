"""Made by `./format --c` from ../protocols/formats/report_block.fields: edit that file and make this one anew.

A receiver's report on one source of RTP (RFC 3550, section 6.4.1).

 0                   1                   2                   3
 0 1 2 3 4 5 6 7 8 9 0 1 2 3 4 5 6 7 8 9 0 1 2 3 4 5 6 7 8 9 0 1
+-+-+-+-+-+-+-+-+-+-+-+-+-+-+-+-+-+-+-+-+-+-+-+-+-+-+-+-+-+-+-+-+
|                              ssrc                             |
+-+-+-+-+-+-+-+-+-+-+-+-+-+-+-+-+-+-+-+-+-+-+-+-+-+-+-+-+-+-+-+-+
| fraction_lost |                      lost                     |
+-+-+-+-+-+-+-+-+-+-+-+-+-+-+-+-+-+-+-+-+-+-+-+-+-+-+-+-+-+-+-+-+
|                            highest                            |
+-+-+-+-+-+-+-+-+-+-+-+-+-+-+-+-+-+-+-+-+-+-+-+-+-+-+-+-+-+-+-+-+
|                             jitter                            |
+-+-+-+-+-+-+-+-+-+-+-+-+-+-+-+-+-+-+-+-+-+-+-+-+-+-+-+-+-+-+-+-+
|                          last_report                          |
+-+-+-+-+-+-+-+-+-+-+-+-+-+-+-+-+-+-+-+-+-+-+-+-+-+-+-+-+-+-+-+-+
|                             delay                             |
+-+-+-+-+-+-+-+-+-+-+-+-+-+-+-+-+-+-+-+-+-+-+-+-+-+-+-+-+-+-+-+-+
"""
from __future__ import annotations

import ctypes
from dataclasses import dataclass
from typing import ClassVar

from ._library import library, number


class ReportBlockError(ValueError):
    """The reason why no `ReportBlock` was parsed or packed."""

    status: ClassVar[int]


class EndOfInput(ReportBlockError):
    """The bytes end before the fields do."""

    status = 1

    def __init__(self, *reason: object) -> None:
        super().__init__(*(reason or ["the bytes end before the fields do"]))


class DoesNotFit(ReportBlockError):
    """A field has a value that the format does not allow."""

    status = 3

    def __init__(self, *reason: object) -> None:
        super().__init__(*(reason or ["a field has a value that the format does not allow"]))


_ERRORS: dict[int, type[ReportBlockError]] = {1: EndOfInput, 3: DoesNotFit}


class _C(ctypes.Structure):
    _fields_ = [
        ("ssrc", ctypes.c_uint32),
        ("fraction_lost", ctypes.c_uint8),
        ("lost", ctypes.c_int32),
        ("highest", ctypes.c_uint32),
        ("jitter", ctypes.c_uint32),
        ("last_report", ctypes.c_uint32),
        ("delay", ctypes.c_uint32),
    ]


@dataclass
class ReportBlock:
    """A receiver's report on one source of RTP (RFC 3550, section 6.4.1)."""

    ssrc: int
    """The source."""
    fraction_lost: int
    """The part of the packets that was lost since the last report, in units of 1/256."""
    lost: int
    """The number of packets that were lost in all. From -8388608 to 8388607."""
    highest: int
    """The highest sequence number that was received, after the number of its cycles."""
    jitter: int
    """The variation of the time between packets, in units of the RTP timestamp."""
    last_report: int
    """The middle bits of the NTP timestamp of the source's last report."""
    delay: int
    """The time since that report, in units of 2^-16 seconds."""

    SIZE: ClassVar[int] = 24
    """The bytes that the fields take."""

    @classmethod
    def parse(cls, data: bytes | bytearray | memoryview) -> ReportBlock:
        """Parses the fields at the start of `data`.

        Raises `EndOfInput` for fewer than 24 bytes.
        """
        first, out = bytes(data[: cls.SIZE]), _C()
        status = library.report_block_parse(first, len(first), ctypes.byref(out))
        if status:
            raise _ERRORS[status]()
        return cls._from_c(out)

    def pack(self) -> bytes:
        """Returns the 24 bytes of the fields.

        Raises `DoesNotFit` if the format does not allow the value of a field, and `TypeError` for another type.
        """
        try:
            fields = self._to_c()
        except OverflowError as it:
            raise DoesNotFit(str(it)) from None
        buffer, written = ctypes.create_string_buffer(self.SIZE), ctypes.c_size_t()
        status = library.report_block_pack(ctypes.byref(fields), buffer, len(buffer), ctypes.byref(written))
        if status == 3:
            name = library.report_block_misfit(ctypes.byref(fields)).decode()
            raise DoesNotFit(f"{name}: the format does not allow this value")
        if status:
            raise _ERRORS[status]()
        return buffer.raw[: written.value]

    def _to_c(self, at: str = "") -> _C:
        return _C(
            number(self.ssrc, 0, 4294967295, at + "ssrc"),
            number(self.fraction_lost, 0, 255, at + "fraction_lost"),
            number(self.lost, -8388608, 8388607, at + "lost"),
            number(self.highest, 0, 4294967295, at + "highest"),
            number(self.jitter, 0, 4294967295, at + "jitter"),
            number(self.last_report, 0, 4294967295, at + "last_report"),
            number(self.delay, 0, 4294967295, at + "delay"),
        )

    @classmethod
    def _from_c(cls, out: _C) -> ReportBlock:
        return cls(
            ssrc=out.ssrc,
            fraction_lost=out.fraction_lost,
            lost=out.lost,
            highest=out.highest,
            jitter=out.jitter,
            last_report=out.last_report,
            delay=out.delay,
        )


if ctypes.sizeof(_C) != 28 or getattr(_C, "delay").offset != 24:
    raise ImportError("the library has another layout")
library.report_block_parse.argtypes = [ctypes.c_char_p, ctypes.c_size_t, ctypes.POINTER(_C)]
library.report_block_parse.restype = ctypes.c_int
library.report_block_pack.argtypes = [
    ctypes.POINTER(_C),
    ctypes.c_char_p,
    ctypes.c_size_t,
    ctypes.POINTER(ctypes.c_size_t),
]
library.report_block_pack.restype = ctypes.c_int
library.report_block_misfit.argtypes = [ctypes.POINTER(_C)]
library.report_block_misfit.restype = ctypes.c_char_p
