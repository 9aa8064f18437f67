"""A reader of bits over bytes in memory.

A method whose name ends in `_le` takes the lowest bit of each byte first, and the lowest bit of a number first. The
others take the highest first.
"""
from __future__ import annotations

import ctypes

from ._library import library, number
from .error import EndOfInput, done, width_of


class _State(ctypes.Structure):
    _fields_ = [("data", ctypes.c_void_p), ("length", ctypes.c_size_t), ("at", ctypes.c_uint64)]
    at: int


class Reader:
    """A reader of bits over bytes."""

    def __init__(self, data: bytes | bytearray | memoryview) -> None:
        """Returns a reader at the first bit of a copy of the bytes."""
        self._data, self._state = bytes(data), _State()
        self._reader = ctypes.byref(self._state)
        done(library.bits_open(self._reader, self._data, len(self._data)))

    def read_unsigned(self, width: int) -> int:
        """Reads a number of `width` bits, 0 to 64, the highest bit first.

        Raises `Width`, else `EndOfInput`.
        """
        value = ctypes.c_uint64()
        done(library.bits_read_unsigned(self._reader, width_of(width), ctypes.byref(value)))
        return value.value

    def read_signed(self, width: int) -> int:
        """Reads a signed number of `width` bits, 1 to 64, the highest bit first.

        Raises `Width`, else `EndOfInput`.
        """
        value = ctypes.c_int64()
        done(library.bits_read_signed(self._reader, width_of(width), ctypes.byref(value)))
        return value.value

    def read_bytes(self, count: int) -> bytes:
        """Reads `count` bytes, the highest bit first.

        Raises `EndOfInput`.
        """
        if count > self.left() // 8:
            raise EndOfInput()
        buffer = ctypes.create_string_buffer(number(count, 0, 2**63 - 1))
        done(library.bits_read_bytes(self._reader, buffer, count))
        return buffer.raw

    def read_unary(self, stop: bool) -> int:
        """Reads a unary number, the highest bit first: the bits before the first bit that is `stop`, and that bit.

        Raises `EndOfInput`.
        """
        value = ctypes.c_uint64()
        done(library.bits_read_unary(self._reader, bool(stop), ctypes.byref(value)))
        return value.value

    def read_ue(self) -> int:
        """Reads an exponential Golomb number, the highest bit first. It is below 2^32 - 1.

        Raises `TooLong` for more than 31 zeros, else `EndOfInput`.
        """
        value = ctypes.c_uint32()
        done(library.bits_read_ue(self._reader, ctypes.byref(value)))
        return value.value

    def read_se(self) -> int:
        """Reads a signed exponential Golomb number, the highest bit first.

        Raises `TooLong` for more than 31 zeros, else `EndOfInput`.
        """
        value = ctypes.c_int32()
        done(library.bits_read_se(self._reader, ctypes.byref(value)))
        return value.value

    def read_unsigned_le(self, width: int) -> int:
        """Reads a number of `width` bits, 0 to 64, the lowest bit first.

        Raises `Width`, else `EndOfInput`.
        """
        value = ctypes.c_uint64()
        done(library.bits_read_unsigned_le(self._reader, width_of(width), ctypes.byref(value)))
        return value.value

    def read_signed_le(self, width: int) -> int:
        """Reads a signed number of `width` bits, 1 to 64, the lowest bit first.

        Raises `Width`, else `EndOfInput`.
        """
        value = ctypes.c_int64()
        done(library.bits_read_signed_le(self._reader, width_of(width), ctypes.byref(value)))
        return value.value

    def read_bytes_le(self, count: int) -> bytes:
        """Reads `count` bytes, the lowest bit first.

        Raises `EndOfInput`.
        """
        if count > self.left() // 8:
            raise EndOfInput()
        buffer = ctypes.create_string_buffer(number(count, 0, 2**63 - 1))
        done(library.bits_read_bytes_le(self._reader, buffer, count))
        return buffer.raw

    def read_unary_le(self, stop: bool) -> int:
        """Reads a unary number, the lowest bit first: the bits before the first bit that is `stop`, and that bit.

        Raises `EndOfInput`.
        """
        value = ctypes.c_uint64()
        done(library.bits_read_unary_le(self._reader, bool(stop), ctypes.byref(value)))
        return value.value

    def read_ue_le(self) -> int:
        """Reads an exponential Golomb number, the lowest bit first. It is below 2^32 - 1.

        Raises `TooLong` for more than 31 zeros, else `EndOfInput`.
        """
        value = ctypes.c_uint32()
        done(library.bits_read_ue_le(self._reader, ctypes.byref(value)))
        return value.value

    def read_se_le(self) -> int:
        """Reads a signed exponential Golomb number, the lowest bit first.

        Raises `TooLong` for more than 31 zeros, else `EndOfInput`.
        """
        value = ctypes.c_int32()
        done(library.bits_read_se_le(self._reader, ctypes.byref(value)))
        return value.value

    def skip(self, count: int) -> None:
        """Passes over `count` bits.

        Raises `EndOfInput`.
        """
        done(library.bits_skip(self._reader, number(count, 0, 2**64 - 1)))

    def align(self) -> None:
        """Goes on to the next whole byte."""
        done(library.bits_align(self._reader))

    def seek(self, at: int) -> None:
        """Goes to the bit after the first `at` bits.

        Raises `EndOfInput` if there are fewer bits.
        """
        done(library.bits_seek(self._reader, number(at, 0, 2**64 - 1)))

    def left(self) -> int:
        """Returns the number of bits that are left."""
        return int(library.bits_left(self._reader))

    def at(self) -> int:
        """Returns the number of bits that were read."""
        return self._state.at


if ctypes.sizeof(_State) != 24 or getattr(_State, "at").offset != 16:
    raise ImportError("the library has another layout")
_READER = ctypes.POINTER(_State)
library.bits_open.argtypes = [_READER, ctypes.c_char_p, ctypes.c_size_t]
library.bits_skip.argtypes = [_READER, ctypes.c_uint64]
library.bits_align.argtypes = [_READER]
library.bits_seek.argtypes = [_READER, ctypes.c_uint64]
library.bits_left.argtypes = [_READER]
library.bits_left.restype = ctypes.c_uint64
_READS: dict[str, list[object]] = {
    "unsigned": [ctypes.c_uint32, ctypes.POINTER(ctypes.c_uint64)],
    "signed": [ctypes.c_uint32, ctypes.POINTER(ctypes.c_int64)],
    "bytes": [ctypes.c_char_p, ctypes.c_size_t],
    "unary": [ctypes.c_bool, ctypes.POINTER(ctypes.c_uint64)],
    "ue": [ctypes.POINTER(ctypes.c_uint32)],
    "se": [ctypes.POINTER(ctypes.c_int32)],
}
for _name, _types in _READS.items():
    getattr(library, f"bits_read_{_name}").argtypes = [_READER, *_types]
    getattr(library, f"bits_read_{_name}_le").argtypes = [_READER, *_types]
