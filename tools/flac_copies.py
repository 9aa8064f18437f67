"""Makes small FLAC files by `flac` and ffmpeg, and damages copies of them, each in one way."""
from __future__ import annotations

import importlib.machinery
import importlib.util
import random
import subprocess
import sys
from collections.abc import Callable
from dataclasses import dataclass
from pathlib import Path
from types import ModuleType
from typing import Any

import faults

TOOLS = Path(__file__).resolve().parent


def script(name: str) -> ModuleType:
    """A script of this folder, as a module."""
    if name in sys.modules:
        return sys.modules[name]
    loader = importlib.machinery.SourceFileLoader(name, str(TOOLS / name))
    spec = importlib.util.spec_from_loader(name, loader)
    assert spec
    module = importlib.util.module_from_spec(spec)
    sys.modules[name] = module
    loader.exec_module(module)
    return module


# ---- checksums


def table(width: int, polynomial: int) -> list[int]:
    """The remainders of a byte and `width` bits of zeros."""
    found = []
    for byte in range(256):
        rest = byte << (width - 8)
        for _ in range(8):
            rest = (rest << 1) ^ (polynomial if rest >> (width - 1) else 0)
            rest &= (1 << width) - 1
        found.append(rest)
    return found


CRC8, CRC16 = table(8, 0x07), table(16, 0x8005)


def crc8(data: bytes) -> int:
    rest = 0
    for byte in data:
        rest = CRC8[rest ^ byte]
    return rest


def crc16(data: bytes) -> int:
    rest = 0
    for byte in data:
        rest = (rest << 8) & 0xFFFF ^ CRC16[rest >> 8 ^ byte]
    return rest


# ---- bits

# The fields of STREAMINFO, by their first bit in the file and their number of bits.
INFO = {"min_block": (64, 16), "max_block": (80, 16), "min_frame": (96, 24), "max_frame": (120, 24), "rate": (144, 20),
        "channels": (164, 3), "bits": (167, 5), "samples": (172, 36), "md5": (208, 128)}  # fmt: skip


def bits_at(data: bytes, bit: int, count: int) -> int:
    """The number that the bits from a place on are."""
    return int.from_bytes(data, "big") >> 8 * len(data) - bit - count & (1 << count) - 1


def set_bits(data: bytearray, bit: int, count: int, value: int) -> None:
    """Sets the bits from a place on to a number."""
    size = 8 * len(data)
    shift = size - bit - count
    number = int.from_bytes(data, "big") & ~(((1 << count) - 1) << shift)
    data[:] = (number | value << shift).to_bytes(size // 8, "big")


# ---- the places of a file


def coded_size(byte: int) -> int:
    """The bytes of a coded number by its first one."""
    ones = 8 - (~byte & 0xFF).bit_length()
    return 1 if ones < 2 else min(ones, 7)


def head_size(frame: bytes) -> int:
    """The bytes of the header of a frame, its checksum included."""
    size = 4 + coded_size(frame[4])
    size += {6: 1, 7: 2}.get(frame[2] >> 4, 0)
    return size + {12: 1, 13: 2, 14: 2}.get(frame[2] & 15, 0) + 1


@dataclass(frozen=True)
class File:
    """A FLAC file, and the places of its blocks of metadata and of its frames, each with its end."""

    name: str
    data: bytes
    blocks: tuple[tuple[int, int], ...]
    frames: tuple[tuple[int, int], ...]


def places(name: str, data: bytes) -> File:
    """The places of a file that is not damaged."""
    assert data[:4] == b"fLaC"
    blocks, at, last = [], 4, False
    while not last:
        last, start = data[at] >= 128, at
        at += 4 + int.from_bytes(data[at + 1 : at + 4], "big")
        blocks.append((start, at))
    starts = [at] if at < len(data) else []
    for place in range(at + 1, len(data) - 10):
        if data[place] == 0xFF and data[place + 1] & 0xFE == 0xF8 and crc16(data[starts[-1] : place]) == 0:
            starts.append(place)
    frames = tuple(zip(starts, [*starts[1:], len(data)]))
    assert all(crc16(data[start:end]) == 0 for start, end in frames), name
    return File(name, data, tuple(blocks), frames)


# ---- files


def sound(streams: ModuleType, draw: random.Random, stream: Any, path: Path) -> None:
    """A short WAV file of 8 to 24 bits and one to eight channels."""
    bits = draw.choice((8, 12, 16, 16, 20, 24, draw.randint(8, 24)))
    channels = draw.choice((1, 1, 2, 2, 2, 2, 3, 4, 5, 6, 7, 8))
    rate = draw.choice((8000, 44100, 48000, 96000, 192000, 22255, 655350, 11025, 65535, 255000, 12345))
    size = channels * ((bits + 7) // 8)
    data: bytes = streams.samples(stream, bits, channels)[: size * draw.randint(1, 1 + 3000 // size)]
    if bits == 8:
        data = bytes(byte ^ 0x80 for byte in data)
    streams.write_wave(path, data, bits, channels, rate)


def make(name: str, seed: int, number: int, folder: Path) -> File | None:
    """A file with random settings, or none if there is none with them. Some do not have their number of samples and MD5."""
    streams, draw, path = script("random_streams"), random.Random(f"{seed} {number}"), folder / "sound.wav"
    stream = streams.Stream(draw, folder, name)
    sound(streams, draw, stream, path)
    block_size = draw.choice((16, 17, 32, 64, 100, 192, 256, 576, 4096))
    try:
        if draw.random() < 0.2:
            level = str(draw.randint(0, 12))
            stream.ffmpeg("-i", str(path), "-compression_level", level, "-frame_size", str(block_size))
            stream.run("metaflac", "--remove", "--block-type=PADDING", "--dont-use-padding", str(stream.path))
        else:
            words = ["flac", "-f", "-s", "--lax", "--channel-map=none", f"-{draw.randint(0, 8)}", "-b", str(block_size)]
            words += stream.some(
                0.3, "-e", "-p", f"-l {draw.randint(0, min(block_size - 1, 32))}", f"-r {draw.randint(0, 3)},{draw.randint(3, 8)}",
                "--tag=TITLE=x", "--disable-constant-subframes", "--disable-fixed-subframes", "--no-md5-sum",
            )  # fmt: skip
            words += stream.some(0.3, "--padding=40") or ["--no-padding"]
            words += stream.some(0.2, "-S 5x") or ["--no-seektable"]
            stream.run(*words, "-o", str(stream.path), str(path))
    except subprocess.CalledProcessError:
        return None
    data = bytearray(stream.path.read_bytes())
    if draw.random() < 0.2:
        set_bits(data, *INFO["samples"], 0)
        set_bits(data, *INFO["md5"], 0)
    return places(name, bytes(data))


# ---- faults, each of one kind


def mended(frame: bytearray) -> bytearray:
    """Makes the checksums of a frame right."""
    size = head_size(frame)
    frame[size - 1] = crc8(frame[: size - 1])
    frame[-2:] = crc16(frame[:-2]).to_bytes(2, "big")
    return frame


def turn(data: bytearray, bit: int) -> None:
    data[bit // 8] ^= 128 >> bit % 8


def one_bit(draw: random.Random, file: File) -> bytes:
    data = bytearray(file.data)
    turn(data, draw.randrange(8 * len(data)))
    return bytes(data)


def plain(fault: Callable[[random.Random, bytearray], None]) -> Callable[[random.Random, File], bytes]:
    """A fault of any file, as one of FLAC."""

    def damage(draw: random.Random, file: File) -> bytes:
        data = bytearray(file.data)
        fault(draw, data)
        return bytes(data)

    return damage


def seams(file: File) -> list[int]:
    """The places between the blocks, the frames and what precedes and follows them."""
    return [0, 4, *(end for _, end in (*file.blocks, *file.frames))]


def garbage(draw: random.Random, file: File) -> bytes:
    """Puts bytes in, half of the time between two parts."""
    at = draw.choice(seams(file)) if draw.random() < 0.5 else draw.randint(0, len(file.data))
    tags = (
        b"ID3\4\0\0\0\0\0\5" + draw.randbytes(5),
        b"TAG" + bytes(125),
        b"fLaC",
        b"\xff\xf8",
        bytes(draw.randint(1, 300)),
    )
    piece = draw.choice((draw.randbytes(draw.choice((1, 2, 3, draw.randint(1, 400)))), draw.choice(tags)))
    return file.data[:at] + piece + file.data[at:]


def parts(draw: random.Random, file: File) -> bytes:
    """Leaves out, doubles or moves whole frames or blocks."""
    spans = list(file.frames if draw.random() < 0.7 else file.blocks) or list(file.blocks)
    first, last = spans[0][0], spans[-1][1]
    at, to = draw.randrange(len(spans)), draw.randrange(len(spans))
    kind = draw.randrange(3)
    if kind == 0:
        del spans[at]
    elif kind == 1:
        spans.insert(to, spans[at])
    else:
        spans[at], spans[to] = spans[to], spans[at]
    return file.data[:first] + b"".join(file.data[start:end] for start, end in spans) + file.data[last:]


# The fields of the header of a block, and of that of a frame.
BLOCK = ((0, 1), (1, 7), (8, 24))
HEAD = ((0, 14), (14, 1), (15, 1), (16, 4), (20, 4), (24, 4), (28, 3), (31, 1), (32, 8), (32, 16), (40, 16))


def set_field(draw: random.Random, data: bytearray, place: int, count: int) -> None:
    """Sets a field of some bits to a value."""
    most, old = (1 << count) - 1, bits_at(data, place, count)
    set_bits(data, place, count, draw.choice((0, 1, most, draw.randint(0, most), max(old - 1, 0), min(old + 1, most))))


def info_field(draw: random.Random, file: File) -> bytes:
    """Sets a field of STREAMINFO."""
    data = bytearray(file.data)
    set_field(draw, data, *draw.choice(list(INFO.values())))
    return bytes(data)


def block_field(draw: random.Random, file: File) -> bytes:
    """Sets a field of the header of a block."""
    data, (start, _) = bytearray(file.data), draw.choice(file.blocks)
    head = data[start : start + 4]
    set_field(draw, head, *draw.choice(BLOCK))
    data[start : start + 4] = head
    return bytes(data)


def block(draw: random.Random, file: File) -> bytes:
    """Puts a block in, of any type and with any bytes."""
    last, at = file.blocks[-1], draw.choice(file.blocks)[1]
    body = draw.choice((bytes(draw.randint(0, 60)), draw.randbytes(draw.randint(0, 60)), file.data[8:42]))
    kind = draw.choice((0, 1, 2, 3, 4, 5, 6, 7, 126, 127))
    data = bytearray(file.data[:at] + bytes([kind]) + len(body).to_bytes(3, "big") + body + file.data[at:])
    if at == last[1]:
        data[last[0]] &= 127
        data[at] |= 128
    return bytes(data)


def in_frame(draw: random.Random, file: File, change: Callable[[bytearray], None]) -> bytes:
    """Changes a frame and makes its checksums right. Half of the time the MD5 is not known."""
    if not file.frames:
        return one_bit(draw, file)
    data, (start, end) = bytearray(file.data), draw.choice(file.frames)
    frame = data[start:end]
    change(frame)
    if head_size(frame) + 2 <= len(frame):
        mended(frame)
    data[start:end] = frame
    if draw.random() < 0.5:
        set_bits(data, *INFO["md5"], 0)
    return bytes(data)


def head_field(draw: random.Random, file: File) -> bytes:
    """Sets a field of the header of a frame, whose checksums are made right."""

    def change(frame: bytearray) -> None:
        set_field(draw, frame, *draw.choice(HEAD))

    return in_frame(draw, file, change)


def inside(draw: random.Random, file: File) -> bytes:
    """Turns a bit after the header of a frame, half of the time one of the first ones, and makes the checksums right."""

    def change(frame: bytearray) -> None:
        first, last = 8 * head_size(frame), 8 * len(frame) - 16
        turn(frame, draw.randrange(first, min(first + 80, last) if draw.random() < 0.5 else last))

    return in_frame(draw, file, change)


def longer(draw: random.Random, file: File) -> bytes:
    """Puts bytes into a frame, at its end, or takes some out, and makes the checksums right."""

    def change(frame: bytearray) -> None:
        at = draw.choice((head_size(frame), len(frame) - 2))
        frame[at:at] = draw.randbytes(draw.randint(1, 4))
        if draw.random() < 0.5:
            del frame[at : at + draw.randint(2, 6)]

    return in_frame(draw, file, change)


FAULTS: dict[str, Callable[[random.Random, File], bytes]] = {
    "a bit turned": one_bit,
    "a byte replaced": plain(faults.change),
    "cut short": plain(faults.cut),
    "a piece taken out": plain(faults.leave_out),
    "a piece doubled": plain(faults.repeat),
    "garbage put in": garbage,
    "zeros": plain(faults.zeros),
    "frames or blocks left out, doubled, moved": parts,
    "a field of STREAMINFO": info_field,
    "a field of a block": block_field,
    "a block put in": block,
    "a field of a frame, checksums right": head_field,
    "a bit in a frame, checksums right": inside,
    "bytes in a frame, checksums right": longer,
}


def copy_of(seed: int, number: int, files: list[File]) -> tuple[str, File, bytes]:
    """A damaged copy: its fault, its file and its bytes. It depends on the seed, the number and the files alone."""
    draw = random.Random(f"{seed} {number} damage")
    fault = draw.choice(list(FAULTS))
    while True:
        file = draw.choice(files)
        data = FAULTS[fault](draw, file)
        if data != file.data:
            return fault, file, data
