"""Calls the library with the rows of standard input, a row of bytes in hex on each line, and with random values. Plain
shifts say what is right. Prints the number of calls."""
from __future__ import annotations

import random
import sys

from ccsds.primary_header import DoesNotFit, EndOfInput, PrimaryHeader, PrimaryHeaderError, WrongVersion

calls = 0


def parsed(data: bytes) -> PrimaryHeader | type[PrimaryHeaderError]:
    """Returns the fields, or the class of the exception."""
    global calls
    calls += 1
    try:
        return PrimaryHeader.parse(data)
    except PrimaryHeaderError as it:
        return type(it)


def packed(it: PrimaryHeader) -> bytes | type[PrimaryHeaderError]:
    """Returns the bytes, or the class of the exception."""
    global calls
    calls += 1
    try:
        return it.pack()
    except PrimaryHeaderError as error:
        return type(error)


def fields(data: bytes) -> PrimaryHeader:
    """Returns the fields of 6 bytes."""
    bits = int.from_bytes(data, "big")
    numbers = [bits >> at & (1 << width) - 1 for at, width in ((44, 1), (43, 1), (32, 11), (30, 2), (16, 14), (0, 16))]
    return PrimaryHeader(bool(numbers[0]), bool(numbers[1]), *numbers[2:])


def check(data: bytes) -> None:
    """Parses bytes, and packs their fields again."""
    found = parsed(data)
    if data and data[0] >> 5:
        assert found is WrongVersion, data
    elif len(data) < 6:
        assert found is EndOfInput, data
    else:
        assert isinstance(found, PrimaryHeader) and found == fields(data[:6]), data
        assert packed(found) == data[:6], data
        assert parsed(bytearray(data)) == found == parsed(memoryview(data))  # type: ignore[arg-type]


def check_random() -> None:
    """Packs random fields, some of which do not fit, and parses them again."""
    wide = random.randrange(16)
    most = [2047, 3, 16383, 65535]
    if wide < 4:
        most[wide] = 2**17
    numbers = [random.randint(-(wide == 4), it) for it in most]
    it = PrimaryHeader(random.random() < 0.5, random.random() < 0.5, *numbers)
    data = packed(it)
    if any(not 0 <= n <= m for n, m in zip(numbers, (2047, 3, 16383, 65535))):
        assert data is DoesNotFit, it
    else:
        assert isinstance(data, bytes) and fields(data) == it == parsed(data), it


def why_not(count: object) -> str:
    """Returns what is said of a count that the format does not have."""
    try:
        PrimaryHeader(True, False, 6, 3, count, 1).pack()  # type: ignore[arg-type]
    except (DoesNotFit, TypeError) as it:
        return f"{type(it).__name__}: {it}"
    return "packed"


random.seed(1)
for line in sys.stdin:
    row = bytes.fromhex(line)
    for length in range(len(row) + 1):
        check(row[:length])
for _ in range(20000):
    check(bytes([random.randrange(256) & random.choice([31, 31, 255]), *random.randbytes(5)]))
    check_random()
assert str(WrongVersion()) == "the version is not 0"
assert why_not(16383) == "packed"
assert why_not(16384) == "DoesNotFit: count: 16384 is not from 0 to 16383"
assert why_not("1") == "TypeError: count: an int is wanted, and not str"
print(calls, "calls")
