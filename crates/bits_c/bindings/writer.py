"""A writer of bits into a buffer. It leaves all other bits of the buffer as they were.

A method whose name ends in `_le` takes the lowest bit of each byte first, and the lowest bit of a number first. The
others take the highest first.
"""
from __future__ import annotations

import ctypes

from ._library import library, number
from .error import done, fitting, width_of


class _State(ctypes.Structure):
    _fields_ = [("data", ctypes.c_void_p), ("length", ctypes.c_size_t), ("at", ctypes.c_uint64)]
    at: int


class Writer:
    """A writer of bits into a buffer, which keeps its length while the writer is there."""

    def __init__(self, buffer: bytearray) -> None:
        """Returns a writer at the first bit of the buffer."""
        self._data, self._state = (ctypes.c_uint8 * len(buffer)).from_buffer(buffer), _State()
        self._writer = ctypes.byref(self._state)
        done(library.bits_writer_open(self._writer, self._data, len(buffer)))

    def write_unsigned(self, width: int, value: int) -> None:
        """Writes a number of `width` bits, 0 to 64, the highest bit first.

        Raises `Width`, else `DoesNotFit`, else `NoRoom`.
        """
        done(library.bits_write_unsigned(self._writer, width_of(width), fitting(value, 0, 2**64 - 1)))

    def write_signed(self, width: int, value: int) -> None:
        """Writes a signed number of `width` bits, 1 to 64, the highest bit first.

        Raises `Width`, else `DoesNotFit`, else `NoRoom`.
        """
        done(library.bits_write_signed(self._writer, width_of(width), fitting(value, -(2**63), 2**63 - 1)))

    def write_bytes(self, data: bytes) -> None:
        """Writes bytes, the highest bit first.

        Raises `NoRoom`.
        """
        done(library.bits_write_bytes(self._writer, bytes(data), len(data)))

    def write_unary(self, stop: bool, value: int) -> None:
        """Writes a unary number, the highest bit first: `value` bits that are not `stop`, and then the bit `stop`.

        Raises `NoRoom`.
        """
        done(library.bits_write_unary(self._writer, bool(stop), number(value, 0, 2**64 - 1)))

    def write_ue(self, value: int) -> None:
        """Writes an exponential Golomb number, the highest bit first.

        Raises `DoesNotFit` for 2^32 - 1 and more, else `NoRoom`.
        """
        done(library.bits_write_ue(self._writer, fitting(value, 0, 2**32 - 1)))

    def write_se(self, value: int) -> None:
        """Writes a signed exponential Golomb number, the highest bit first.

        Raises `DoesNotFit` for -2^31 and less and for 2^31 and more, else `NoRoom`.
        """
        done(library.bits_write_se(self._writer, fitting(value, -(2**31), 2**31 - 1)))

    def align(self) -> None:
        """Writes zeros up to a whole byte, the highest bit first.

        Raises `NoRoom`.
        """
        done(library.bits_write_align(self._writer))

    def write_unsigned_le(self, width: int, value: int) -> None:
        """Writes a number of `width` bits, 0 to 64, the lowest bit first.

        Raises `Width`, else `DoesNotFit`, else `NoRoom`.
        """
        done(library.bits_write_unsigned_le(self._writer, width_of(width), fitting(value, 0, 2**64 - 1)))

    def write_signed_le(self, width: int, value: int) -> None:
        """Writes a signed number of `width` bits, 1 to 64, the lowest bit first.

        Raises `Width`, else `DoesNotFit`, else `NoRoom`.
        """
        done(library.bits_write_signed_le(self._writer, width_of(width), fitting(value, -(2**63), 2**63 - 1)))

    def write_bytes_le(self, data: bytes) -> None:
        """Writes bytes, the lowest bit first.

        Raises `NoRoom`.
        """
        done(library.bits_write_bytes_le(self._writer, bytes(data), len(data)))

    def write_unary_le(self, stop: bool, value: int) -> None:
        """Writes a unary number, the lowest bit first: `value` bits that are not `stop`, and then the bit `stop`.

        Raises `NoRoom`.
        """
        done(library.bits_write_unary_le(self._writer, bool(stop), number(value, 0, 2**64 - 1)))

    def write_ue_le(self, value: int) -> None:
        """Writes an exponential Golomb number, the lowest bit first.

        Raises `DoesNotFit` for 2^32 - 1 and more, else `NoRoom`.
        """
        done(library.bits_write_ue_le(self._writer, fitting(value, 0, 2**32 - 1)))

    def write_se_le(self, value: int) -> None:
        """Writes a signed exponential Golomb number, the lowest bit first.

        Raises `DoesNotFit` for -2^31 and less and for 2^31 and more, else `NoRoom`.
        """
        done(library.bits_write_se_le(self._writer, fitting(value, -(2**31), 2**31 - 1)))

    def align_le(self) -> None:
        """Writes zeros up to a whole byte, the lowest bit first.

        Raises `NoRoom`.
        """
        done(library.bits_write_align_le(self._writer))

    def room(self) -> int:
        """Returns the number of bits that the buffer has room for."""
        return int(library.bits_room(self._writer))

    def written(self) -> int:
        """Returns the number of bits that were written."""
        return self._state.at

    def seek(self, at: int) -> None:
        """Goes to the bit after the first `at` bits, to write other bits in place of those there."""
        self._state.at = number(at, 0, 2**64 - 1)


if ctypes.sizeof(_State) != 24 or getattr(_State, "at").offset != 16:
    raise ImportError("the library has another layout")
_WRITER = ctypes.POINTER(_State)
library.bits_writer_open.argtypes = [_WRITER, ctypes.c_void_p, ctypes.c_size_t]
library.bits_room.argtypes = [_WRITER]
library.bits_room.restype = ctypes.c_uint64
_WRITES: dict[str, list[object]] = {
    "unsigned": [ctypes.c_uint32, ctypes.c_uint64],
    "signed": [ctypes.c_uint32, ctypes.c_int64],
    "bytes": [ctypes.c_char_p, ctypes.c_size_t],
    "unary": [ctypes.c_bool, ctypes.c_uint64],
    "ue": [ctypes.c_uint32],
    "se": [ctypes.c_int32],
    "align": [],
}
for _name, _types in _WRITES.items():
    getattr(library, f"bits_write_{_name}").argtypes = [_WRITER, *_types]
    getattr(library, f"bits_write_{_name}_le").argtypes = [_WRITER, *_types]
