"""Calls the reader and the writer in both orders at random places. A list of bits says what is right, the tables of H.264
say what exponential Golomb numbers are, and a stored block of zlib is read. Prints the number of calls."""
from __future__ import annotations

import random
import zlib
from typing import Callable

from bits.error import BitsError, DoesNotFit, EndOfInput, NoRoom, TooLong, Width
from bits.reader import Reader
from bits.writer import Writer

# Table 9-2 of H.264: the bits of the first numbers; and table 9-3: the signed numbers in their order.
UE = ["1", "010", "011", "00100", "00101", "00110", "00111", "0001000", "0001001", "0001010"]
SE = [0, 1, -1, 2, -2, 3, -3, 4, -4, 5]
calls = 0


def attempt(call: Callable[[], object]) -> object:
    """Returns the result of a call, or the class of its exception."""
    global calls
    calls += 1
    try:
        return call()
    except BitsError as it:
        return type(it)


def bits_of(data: bytes | bytearray, low: bool) -> list[int]:
    """Returns the bits of bytes."""
    return [byte >> (k if low else 7 - k) & 1 for byte in data for k in range(8)]


def bytes_of(bits: list[int], low: bool) -> bytes:
    """Returns the bytes of bits, which are whole bytes."""
    parts = [bits[at : at + 8] for at in range(0, len(bits), 8)]
    return bytes(sum(bit << (k if low else 7 - k) for k, bit in enumerate(it)) for it in parts)


def word(value: int, width: int, low: bool) -> list[int]:
    """Returns the bits of a number; a negative one is in two's complement."""
    bits = [value >> k & 1 for k in range(width)]
    return bits if low else bits[::-1]


def golomb(value: int, low: bool) -> list[int]:
    """Returns the bits of an exponential Golomb number."""
    zeros = (value + 1).bit_length() - 1
    return [0] * zeros + [1] + word(value + 1 - (1 << zeros), zeros, low)


def place(value: int) -> int:
    """Returns the place of a number in the order 0, 1, -1, 2, -2."""
    return 2 * value - 1 if value > 0 else -2 * value


def written(name: str, low: bool) -> tuple[list[int] | type[BitsError], tuple[int, ...] | tuple[bytes]]:
    """Returns random values of a call, and the bits that it is to write or its exception."""
    width = random.choice([0, 1, 7, 8, 13, 32, 63, 64, 65, random.randrange(64)])
    value = random.getrandbits(max(width, 1)) >> random.randrange(max(width, 1))
    if name == "unsigned":
        fits = value < 1 << width
        return Width if width > 64 else word(value, width, low) if fits else DoesNotFit, (width, value)
    if name == "signed":
        value = value - (1 << max(width, 1) - 1)
        fits = width > 0 and -(1 << width - 1) <= value < 1 << width - 1
        return Width if not 0 < width <= 64 else word(value, width, low) if fits else DoesNotFit, (width, value)
    if name == "bytes":
        data = random.randbytes(random.randrange(6))
        return bits_of(data, low), (data,)
    if name == "unary":
        stop, count = random.randrange(2), random.randrange(140)
        return [1 - stop] * count + [stop], (stop, count)
    value = random.choice([random.getrandbits(32), random.randrange(70), 2**32 - 1, 2**32 - 2])
    if name == "ue":
        return golomb(value, low) if value < 2**32 - 1 else DoesNotFit, (value,)
    value -= 2**31
    return golomb(place(value), low) if value > -(2**31) else DoesNotFit, (value,)


def write(low: bool) -> None:
    """Makes one write at a random place, and reads it back."""
    name = random.choice(["unsigned", "signed", "bytes", "unary", "ue", "se"])
    made, values = written(name, low)
    buffer = bytearray(random.randbytes(random.randrange(30)))
    at = random.randrange(8 * len(buffer) + 9)
    before, writer, order = bits_of(buffer, low), Writer(buffer), "_le" * low
    writer.seek(at)
    if isinstance(made, list) and at + len(made) > len(before):
        made = NoRoom
    found = attempt(lambda: getattr(writer, f"write_{name}{order}")(*values))
    if not isinstance(made, list):
        assert found is made and writer.written() == at and bits_of(buffer, low) == before, (name, values, found)
        return
    end = at + len(made)
    assert found is None and writer.written() == end, (name, values, found)
    assert writer.room() == len(before) - end
    assert bits_of(buffer, low) == before[:at] + made + before[end:], (name, values)
    reader = Reader(buffer)
    assert attempt(lambda: reader.seek(at)) is None
    given = {"bytes": [len(made) // 8], "ue": [], "se": []}.get(name, [values[0]])
    found = attempt(lambda: getattr(reader, f"read_{name}{order}")(*given))
    assert found == values[-1] and reader.at() == end and reader.left() == len(before) - end, (name, values, found)


def read_unary(bits: list[int], stop: int) -> tuple[object, int]:
    """Returns the unary number that bits begin with, and the number of its bits."""
    return (bits.index(stop), bits.index(stop) + 1) if stop in bits else (EndOfInput, 0)


def read_ue(bits: list[int], low: bool) -> tuple[object, int]:
    """Returns the exponential Golomb number that bits begin with, and the number of its bits."""
    zeros = bits.index(1) if 1 in bits else len(bits)
    if zeros > 31:
        return TooLong, 0
    rest = bits[zeros + 1 : 2 * zeros + 1]
    if len(bits) < 2 * zeros + 1:
        return EndOfInput, 0
    return (1 << zeros) - 1 + sum(bit << (k if low else zeros - 1 - k) for k, bit in enumerate(rest)), 2 * zeros + 1


def read(low: bool) -> None:
    """Makes reads of each kind at a random place of bytes, of which many are 0 or 255."""
    data = bytes(random.choice([0, 255, random.randrange(256)]) for _ in range(random.randrange(30)))
    at, width, order = random.randrange(8 * len(data) + 1), random.randrange(67), "_le" * low
    bits = bits_of(data, low)[at:]
    stop, count = random.randrange(2), random.randrange(4)
    number = sum(bit << (k if low else width - 1 - k) for k, bit in enumerate(bits[:width]))
    negative = number - (1 << width) if width and number >> width - 1 else number
    few = EndOfInput if width > len(bits) else None
    ue, ue_bits = read_ue(bits, low)
    se = (ue + 1) // 2 * (1 if ue % 2 else -1) if isinstance(ue, int) else ue
    bytes_wanted = EndOfInput if 8 * count > len(bits) else bytes_of(bits[: 8 * count], low)
    rows: list[tuple[str, list[int], object, int]] = [
        ("unsigned", [width], Width if width > 64 else few or number, width),
        ("signed", [width], Width if not 0 < width <= 64 else few or negative, width),
        ("bytes", [count], bytes_wanted, 8 * count),
        ("unary", [stop], *read_unary(bits, stop)),
        ("ue", [], ue, ue_bits),
        ("se", [], se, ue_bits),
    ]
    for name, given, wanted, taken in rows:
        reader = Reader(data)
        reader.skip(at)
        found = attempt(lambda: getattr(reader, f"read_{name}{order}")(*given))
        fails = isinstance(wanted, type)
        assert found == wanted and reader.at() == at + (0 if fails else taken), (name, given, data, at, found, wanted)
    reader = Reader(data)
    assert attempt(lambda: reader.seek(8 * len(data) + 1)) is EndOfInput and reader.at() == 0
    reader.seek(at)
    reader.align()
    assert reader.at() == (at + 7) // 8 * 8


def tables() -> None:
    """Reads and writes the rows of H.264, and a stored block of zlib."""
    for value, code in enumerate(UE):
        data = int(code.ljust(16, "0"), 2).to_bytes(2, "big")
        assert Reader(data).read_ue() == value and Reader(data).read_se() == SE[value]
        buffer = bytearray(2)
        Writer(buffer).write_ue(value)
        assert buffer == data
        Writer(buffer).write_se(SE[value])
        assert buffer == data
    text = b"bits"
    packer = zlib.compressobj(0, wbits=-15)
    reader = Reader(packer.compress(text) + packer.flush())
    assert (reader.read_unsigned_le(1), reader.read_unsigned_le(2)) == (1, 0)
    reader.align()
    assert reader.read_unsigned_le(16) == 4 and reader.read_unsigned_le(16) == 65531
    assert reader.read_bytes_le(4) == text and reader.left() == 0


def limits() -> None:
    """No bytes, and numbers that C does not have."""
    empty = Writer(bytearray())
    assert empty.room() == 0 and attempt(lambda: empty.write_unsigned(1, 1)) is NoRoom
    assert attempt(lambda: empty.write_unsigned(64, 2**64)) is DoesNotFit
    assert attempt(lambda: empty.write_unsigned(-1, 0)) is Width
    assert attempt(lambda: empty.write_ue(-1)) is DoesNotFit
    assert attempt(empty.align) is None and attempt(empty.align_le) is None
    nothing = Reader(b"")
    assert nothing.left() == 0 and attempt(lambda: nothing.read_bytes(1)) is EndOfInput
    assert attempt(nothing.read_ue) is EndOfInput and attempt(lambda: nothing.skip(2**64 - 1)) is EndOfInput
    assert str(TooLong()) == "the number begins with more than 31 zeros"


random.seed(1)
tables()
limits()
for turn in range(20000):
    write(turn % 2 == 0)
    read(turn % 2 == 0)
print(calls, "calls")
