"""Headers of slices of H.264 with random values, and the parameter sets that they name, as units of a byte stream.

They have what x264 does not write: fields, both other codings of the order of pictures, planes that are coded alone, lists
of pictures that are changed in each way, weights of both lists, each command on references, and slices that switch
between streams. Each value is in the range that ffmpeg allows.
"""
import random
import re
from dataclasses import dataclass

from parameter_sets import Bits


@dataclass(frozen=True)
class Sequence:
    """What slices need of a sequence parameter set."""

    number: int
    chroma: int
    separate: bool
    frame_bits: int
    order: int
    order_bits: int
    always_zero: bool
    references: int
    frames_only: bool


@dataclass(frozen=True)
class Picture:
    """What slices need of a picture parameter set."""

    number: int
    sequence: Sequence
    arithmetic: bool
    bottom: bool
    last: tuple[int, int]
    weighted: bool
    both: int
    deblocking: bool
    redundant: bool


def unit(text: str, reference: int, kind: int) -> bytes:
    """The unit of a type with these bits and its trailing bits, with its start code."""
    bits = f"0{reference:02b}{kind:05b}{text}1"
    bits += "0" * (-len(bits) % 8)
    data = int(bits, 2).to_bytes(len(bits) // 8, "big")
    return b"\0\0\0\1" + re.sub(rb"\x00\x00(?=[\x00-\x03])", b"\0\0\3", data)


def sps(draw: random.Random, number: int) -> tuple[bytes, Sequence]:
    """A sequence parameter set."""
    bits = Bits(draw)
    high = draw.random() < 0.7
    bits.u(8, 244 if high else draw.choice((66, 77, 88)))
    bits.u(8, 0)
    bits.u(8, 40)
    bits.ue(number)
    chroma, separate = 1, False
    if high:
        chroma = bits.ue(draw.randint(0, 3))
        if chroma == 3:
            separate = bits.flag()
        bits.ue(0)
        bits.ue(0)
        bits.flag()
        bits.u(1, 0)
    frame_bits = bits.range(0, 12) + 4
    order, order_bits, always_zero = bits.ue(draw.randint(0, 2)), 0, False
    if order == 0:
        order_bits = bits.range(0, 12) + 4
    elif order == 1:
        always_zero = bits.flag(0.3)
        bits.signed(-99, 99)
        bits.signed(-99, 99)
        for _ in range(bits.range(0, 9)):
            bits.signed(-99, 99)
    references = bits.range(1, 16)
    bits.flag()
    bits.ue(5)
    bits.ue(5)
    frames_only = bits.flag()
    if not frames_only:
        bits.flag()
    bits.u(1, 1)
    bits.u(2, 0)
    return unit(bits.text, 3, 7), Sequence(
        number, chroma, separate, frame_bits, order, order_bits, always_zero, references, frames_only
    )


def pps(draw: random.Random, number: int, sequence: Sequence) -> tuple[bytes, Picture]:
    """A picture parameter set."""
    bits = Bits(draw)
    bits.ue(number)
    bits.ue(sequence.number)
    arithmetic, bottom = bits.flag(), bits.flag()
    bits.ue(0)
    last = bits.range(0, 31), bits.range(0, 31)
    weighted, both = bits.flag(), bits.u(2, draw.randint(0, 2))
    bits.signed(-9, 9)
    bits.signed(-9, 9)
    bits.signed(-12, 12)
    deblocking = bits.flag()
    bits.flag()
    redundant = bits.flag()
    return unit(bits.text, 3, 8), Picture(
        number, sequence, arithmetic, bottom, last, weighted, both, deblocking, redundant
    )


def modification(bits: Bits, references: int) -> None:
    """How a list of pictures is changed."""
    if bits.flag():
        for _ in range(bits.draw.randint(0, 5)):
            bits.ue(bits.draw.randint(0, 2))
            bits.range(0, references - 1)
        bits.ue(3)


def weights(bits: Bits, has_chroma: bool, lasts: list[int]) -> None:
    """The weights of one list or of both."""
    bits.range(0, 7)
    if has_chroma:
        bits.range(0, 7)
    for last in lasts:
        for _ in range(last + 1):
            if bits.flag():
                bits.signed(-128, 127)
                bits.signed(-128, 127)
            if has_chroma and bits.flag():
                for _ in range(4):
                    bits.signed(-128, 127)


def marking(bits: Bits, is_idr: bool, references: int) -> None:
    """How decoded pictures are marked as references."""
    if is_idr:
        bits.any(2)
    elif bits.flag():
        for _ in range(bits.draw.randint(0, 6)):
            command = bits.ue(bits.draw.randint(1, 6))
            for _ in range({1: 1, 2: 1, 3: 2, 4: 1, 6: 1}.get(command, 0)):
                bits.range(0, references - 1)
        bits.ue(0)


def order(bits: Bits, picture: Picture, has_bottom: bool) -> None:
    """The order of a picture."""
    sequence = picture.sequence
    if sequence.order == 0:
        bits.any(sequence.order_bits)
        if has_bottom:
            bits.signed(-99, 99)
    elif sequence.order == 1 and not sequence.always_zero:
        bits.signed(-99, 99)
        if has_bottom:
            bits.signed(-99, 99)


def slice_unit(draw: random.Random, picture: Picture) -> bytes:
    """A slice: its header, and some bits in place of its data."""
    bits, sequence = Bits(draw), picture.sequence
    is_idr, reference = draw.random() < 0.3, draw.randint(0, 3)
    reference = max(reference, int(is_idr))
    bits.range(0, 35)
    number = bits.ue(draw.choice((2, 4, 7, 9)) if is_idr else draw.randint(0, 9))
    kind = number % 5
    bits.ue(picture.number)
    if sequence.separate:
        bits.u(2, draw.randint(0, 2))
    bits.any(sequence.frame_bits)
    is_field = not sequence.frames_only and bits.flag()
    if is_field:
        bits.flag()
    if is_idr:
        bits.range(0, 65535)
    order(bits, picture, picture.bottom and not is_field)
    if picture.redundant:
        bits.range(0, 127)
    if kind == 1:
        bits.flag()
    if kind in (0, 1, 3):
        lasts = list(picture.last)[: 1 + (kind == 1)]
        if bits.flag():
            lasts = [bits.range(0, 31) for _ in lasts]
        for _ in lasts:
            modification(bits, sequence.references)
        if picture.both == 1 if kind == 1 else picture.weighted:
            weights(bits, sequence.chroma > 0 and not sequence.separate, lasts)
    if reference:
        marking(bits, is_idr, sequence.references)
    coding(bits, picture, kind)
    return unit(bits.text, reference, 5 if is_idr else 1)


def coding(bits: Bits, picture: Picture, kind: int) -> None:
    """The elements on the coding of the data, and the data."""
    if picture.arithmetic and kind in (0, 1, 3):
        bits.range(0, 2)
    bits.signed(-20, 20)
    if kind == 3:
        bits.flag()
    if kind in (3, 4):
        bits.signed(-20, 20)
    if picture.deblocking and bits.range(0, 2) != 1:
        bits.signed(-6, 6)
        bits.signed(-6, 6)
    if picture.arithmetic:
        bits.text += "1" * (-len(bits.text) % 8)
    bits.any(bits.draw.randint(1, 99))


def with_slices(draw: random.Random, stream: bytes) -> bytes:
    """A stream with more parameter sets and slices after it."""
    data = b""
    for number in range(1, draw.randint(2, 5)):
        made, sequence = sps(draw, number)
        data += made
        for _ in range(draw.randint(1, 3)):
            made, picture = pps(draw, draw.randint(1, 255), sequence)
            data += made + b"".join(slice_unit(draw, picture) for _ in range(draw.randint(1, 4)))
    return stream + data
