"""Faults of a file, each drawn at random."""
from __future__ import annotations

import random


def flip(draw: random.Random, data: bytearray) -> None:
    for _ in range(draw.randint(1, 4)):
        data[draw.randrange(len(data))] ^= 1 << draw.randrange(8)


def change(draw: random.Random, data: bytearray) -> None:
    data[draw.randrange(len(data))] = draw.choice((0, 1, 127, 128, 255, draw.randrange(256)))


def cut(draw: random.Random, data: bytearray) -> None:
    del data[draw.randrange(len(data)) :]


def insert(draw: random.Random, data: bytearray) -> None:
    at = draw.randint(0, len(data))
    data[at:at] = draw.randbytes(draw.choice((1, 2, 3, draw.randint(1, 400))))


def leave_out(draw: random.Random, data: bytearray) -> None:
    at = draw.randrange(len(data))
    del data[at : at + draw.choice((1, 2, draw.randint(1, 200)))]


def repeat(draw: random.Random, data: bytearray) -> None:
    at = draw.randrange(len(data))
    part = data[at : at + draw.randint(1, 300)]
    data[at:at] = part * draw.choice((1, 2, draw.randint(1, 30)))


def zeros(draw: random.Random, data: bytearray) -> None:
    at, count = draw.randrange(len(data)), draw.choice((1, 4, draw.randint(1, 500)))
    data[at : at + count] = bytes(count)


FAULTS = (flip, flip, change, cut, insert, leave_out, repeat, zeros)
