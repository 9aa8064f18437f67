"""Parameter sets of H.265 with random values, as units of a byte stream.

They have what encoders seldom write: sub-layers with profiles of their own, HRD parameters of parts of pictures, predicted
reference picture sets, tiles, and the extensions of format ranges and screen content. Each value is in the range that
ffmpeg allows.
"""
import random
import re


class Bits:
    """Bits that are written one element after the other."""

    def __init__(self, draw: random.Random) -> None:
        self.draw = draw
        self.text = ""

    def u(self, bits: int, value: int) -> int:
        if bits:
            self.text += f"{value:0{bits}b}"
        return value

    def any(self, bits: int) -> int:
        return self.u(bits, self.draw.getrandbits(bits) if bits else 0)

    def flag(self, part: float = 0.5) -> bool:
        return bool(self.u(1, int(self.draw.random() < part)))

    def ue(self, value: int) -> int:
        word = f"{value + 1:b}"
        self.text += "0" * (len(word) - 1) + word
        return value

    def se(self, value: int) -> int:
        self.ue(2 * value - 1 if value > 0 else -2 * value)
        return value

    def range(self, least: int, most: int) -> int:
        return self.ue(self.small(least, most))

    def signed(self, least: int, most: int) -> int:
        return self.se(self.draw.randint(least, most))

    def small(self, least: int, most: int) -> int:
        """A number that is mostly small, and now and then the greatest."""
        if self.draw.random() < 0.1:
            return most
        return min(most, least + int(self.draw.expovariate(1.0) * min(4, most - least + 1) / 2))

    def tick(self) -> None:
        """A number of 32 bits that is not 0."""
        self.u(32, self.draw.choice((1, 1001, 25, 2**32 - 1, self.draw.randint(1, 2**32 - 1))))

    def unit(self, kind: int) -> bytes:
        """The unit of this type, with its start code."""
        text = f"0{kind:06b}000000001" + self.text + "1"
        text += "0" * (-len(text) % 8)
        data = int(text, 2).to_bytes(len(text) // 8, "big")
        return b"\0\0\0\1" + re.sub(rb"\x00\x00(?=[\x00-\x03])", b"\0\0\3", data)


def profile(bits: Bits) -> None:
    """The profile of a stream or of a sub-layer."""
    bits.u(2, 0)
    bits.flag()
    idc = bits.u(5, bits.draw.choice((1, 2, 3, 4, 4, 5, 6, 7, 8, 9, 10, 11, 0, 12, 31)))
    flags = [bits.draw.random() < 0.04 for _ in range(32)]
    if bits.draw.random() < 0.7 and idc < 32:
        flags[idc] = True
    for flag in flags:
        bits.u(1, int(flag))
    bits.any(4)
    known = {idc} | {at for at, flag in enumerate(flags) if flag}
    if known & {4, 5, 6, 7, 8, 9, 10, 11}:
        bits.any(9)
        if known & {5, 9, 10, 11}:
            bits.any(1)
            bits.u(33, 0)
        else:
            bits.u(34, 0)
    elif 2 in known:
        bits.u(7, 0)
        bits.any(1)
        bits.u(35, 0)
    else:
        bits.u(43, 0)
    if known & {1, 2, 3, 4, 5, 9, 11}:
        bits.any(1)
    else:
        bits.u(1, 0)


def profile_tier_level(bits: Bits, lower: int) -> None:
    profile(bits)
    bits.any(8)
    present = [(bits.flag(), bits.flag()) for _ in range(lower)]
    if lower:
        bits.u(2 * (8 - lower), 0)
    for has_profile, has_level in present:
        if has_profile:
            profile(bits)
        if has_level:
            bits.any(8)


def ordering(bits: Bits, lower: int) -> None:
    """How many pictures are kept."""
    first = 0 if bits.flag() else lower
    for _ in range(first, lower + 1):
        kept = bits.range(0, 15)
        bits.range(0, kept)
        bits.range(0, 2**32 - 2)


def schedules(bits: Bits, count: int, parts: bool) -> None:
    for _ in range(count):
        for _ in range(4 if parts else 2):
            bits.range(0, 2**32 - 2)
        bits.flag()


def hrd(bits: Bits, lower: int) -> None:
    units, slices, parts = bits.flag(), bits.flag(), False
    if units or slices:
        parts = bits.flag()
        if parts:
            bits.any(19)
        bits.any(8)
        if parts:
            bits.any(4)
        bits.any(15)
    for _ in range(lower + 1):
        low_delay = False
        if bits.flag() or bits.flag():
            bits.range(0, 2047)
        else:
            low_delay = bits.flag()
        count = 1 if low_delay else bits.range(0, 31) + 1
        for _ in range(units + slices):
            schedules(bits, count, parts)


def vps(draw: random.Random, number: int, lower: int, nested: bool) -> bytes:
    """A video parameter set."""
    bits = Bits(draw)
    bits.u(4, number)
    least = 0 if bits.flag() else 1
    bits.flag()
    bits.u(6, draw.randint(0, 62))
    bits.u(3, lower)
    bits.u(1, int(nested))
    bits.u(16, 0xFFFF)
    profile_tier_level(bits, lower)
    ordering(bits, lower)
    highest = bits.u(6, draw.randint(0, 8))
    more = bits.range(0, 6)
    bits.any(more * (highest + 1))
    if bits.flag():
        bits.tick()
        bits.tick()
        if bits.flag():
            bits.range(0, 2**32 - 2)
        # ffmpeg forgets what several HRD parameters share, so there is one at most.
        if bits.range(0, 1 if more >= least else 0):
            bits.ue(draw.randint(least, more))
            hrd(bits, lower)
    if bits.flag(0.2):
        bits.any(draw.randint(0, 40))
    return bits.unit(32)


def scaling_lists(bits: Bits) -> None:
    for size in range(4):
        for matrix in range(0, 6, 3 if size == 3 else 1):
            if bits.flag(0.3):
                if size > 1:
                    bits.signed(-7, 247)
                for _ in range(16 if size == 0 else 64):
                    bits.signed(-128, 127)
            else:
                bits.ue(bits.draw.randint(0, matrix // 3 if size == 3 else matrix))


def reference_sets(bits: Bits) -> None:
    """Short-term reference picture sets, some of them made of the set before."""
    before: list[int] = []
    after: list[int] = []
    for at in range(bits.range(0, 64)):
        if at > 0 and bits.flag():
            before, after = predicted_set(bits, before, after)
            continue
        count = bits.draw.choice((0, 1, 2, 3, bits.draw.randint(0, 15)))
        bits.ue(count)
        others = bits.draw.randint(0, min(15 - count, bits.draw.choice((2, 15))))
        bits.ue(others)
        before = [-distance for distance in distances(bits, count)]
        after = distances(bits, others)


def distances(bits: Bits, count: int) -> list[int]:
    found, place = [], 0
    for _ in range(count):
        place += bits.range(0, 9) + 1
        bits.flag()
        found.append(place)
    return found


def predicted_set(bits: Bits, before: list[int], after: list[int]) -> tuple[list[int], list[int]]:
    """A set that is made of another one. At most 15 pictures are used."""
    sign = bits.flag()
    by = (bits.range(0, 7) + 1) * (-1 if sign else 1)
    moved: list[int] = []
    for at, distance in enumerate(before + after + [0]):
        part = 0.5 if len(moved) < 15 else 0
        is_used = bits.flag(part) or bits.flag(part)
        if is_used and distance + by:
            moved.append(distance + by)
    return sorted((it for it in moved if it < 0), reverse=True), sorted(it for it in moved if it > 0)


def usability(bits: Bits, lower: int) -> None:
    """Video usability information."""
    if bits.flag():
        if bits.u(8, bits.draw.choice((1, 255, 16))) == 255:
            bits.any(32)
    if bits.flag():
        bits.any(1)
    if bits.flag():
        bits.any(4)
        if bits.flag():
            bits.any(24)
    if bits.flag():
        bits.range(0, 5)
        bits.range(0, 5)
    bits.any(3)
    if bits.flag():
        for _ in range(4):
            bits.range(0, 20)
    if bits.flag():
        bits.tick()
        bits.tick()
        if bits.flag():
            bits.range(0, 2**32 - 2)
        if bits.flag():
            hrd(bits, lower)
    if bits.flag():
        bits.any(3)
        bits.range(0, 4095)
        for _ in range(4):
            bits.range(0, 15)


class Sequence:
    """What picture parameter sets need of a sequence parameter set."""

    def __init__(self, draw: random.Random) -> None:
        self.chroma = draw.choice((0, 1, 1, 2, 3))
        self.luma, self.chroma_depth = draw.choice(((0, 0), (2, 2), (0, 8), (8, 4)))
        self.block = draw.randint(0, 1)
        self.more = draw.randint(1, 3 - self.block)
        self.width, self.height = (8 << self.block) * draw.randint(8, 60), (8 << self.block) * draw.randint(8, 60)

    def blocks(self, samples: int) -> int:
        size = 8 << self.block << self.more
        return (samples + size - 1) // size


def sps(draw: random.Random, number: int, video: int, lower: int, nested: bool) -> tuple[bytes, Sequence]:
    """A sequence parameter set."""
    bits, facts = Bits(draw), Sequence(draw)
    bits.u(4, video)
    bits.u(3, lower)
    bits.u(1, int(nested))
    profile_tier_level(bits, lower)
    bits.ue(number)
    if bits.ue(facts.chroma) == 3:
        bits.flag()
    bits.ue(facts.width)
    bits.ue(facts.height)
    if bits.flag():
        for _ in range(4):
            bits.range(0, 3)
    bits.ue(facts.luma)
    bits.ue(facts.chroma_depth)
    order = bits.range(0, 12)
    ordering(bits, lower)
    bits.ue(facts.block)
    bits.ue(facts.more)
    bits.ue(draw.randint(0, facts.block))
    bits.ue(0)
    bits.range(0, 1)
    bits.range(0, 1)
    if bits.flag():
        if bits.flag():
            scaling_lists(bits)
    bits.any(2)
    if bits.flag():
        bits.u(4, draw.randint(0, facts.luma + 7))
        bits.u(4, draw.randint(0, facts.chroma_depth + 7))
        bits.ue(facts.block)
        bits.ue(0)
        bits.flag()
    reference_sets(bits)
    if bits.flag():
        for _ in range(bits.range(0, 32)):
            bits.any(order + 4)
            bits.flag()
    bits.any(2)
    if bits.flag():
        usability(bits, lower)
    if bits.flag():
        sps_extensions(bits, facts)
    return bits.unit(33), facts


def sps_extensions(bits: Bits, facts: Sequence) -> None:
    has_range = bits.flag()
    bits.u(2, 0)
    screen = bits.flag()
    more = bits.u(4, bits.draw.choice((0, 0, 5)))
    if has_range:
        bits.any(9)
    if screen:
        bits.flag()
        if bits.flag():
            bits.range(0, 64)
            bits.ue(bits.draw.randint(100, 128))
            if bits.flag():
                count = bits.range(0, 90) + 1
                depths = [facts.luma + 8] + ([facts.chroma_depth + 8] * 2 if facts.chroma else [])
                for depth in depths:
                    bits.any(depth * count)
        bits.u(2, bits.draw.randint(0, 2))
        bits.flag()
    if more:
        bits.any(bits.draw.randint(0, 30))


def pps(draw: random.Random, number: int, sequence: int, facts: Sequence) -> bytes:
    """A picture parameter set."""
    bits = Bits(draw)
    bits.ue(number)
    bits.ue(sequence)
    bits.any(2)
    bits.any(3)
    bits.any(2)
    bits.range(0, 14)
    bits.range(0, 14)
    bits.signed(-26 - 6 * facts.luma, 25)
    bits.flag()
    skips = bits.flag()
    if bits.flag():
        bits.range(0, facts.more)
    bits.signed(-12, 12)
    bits.signed(-12, 12)
    bits.any(4)
    tiles = bits.flag()
    bits.flag()
    if tiles:
        columns = bits.range(0, min(20, facts.blocks(facts.width)) - 1)
        rows = bits.range(0, min(22, facts.blocks(facts.height)) - 1)
        if not bits.flag():
            for _ in range(columns + rows):
                bits.ue(0)
        bits.flag()
    bits.flag()
    if bits.flag():
        bits.flag()
        if not bits.flag():
            bits.signed(-6, 6)
            bits.signed(-6, 6)
    if bits.flag():
        scaling_lists(bits)
    bits.flag()
    bits.range(0, facts.block + facts.more + 1)
    bits.flag()
    if bits.flag():
        pps_extensions(bits, facts, skips)
    return bits.unit(34)


def pps_extensions(bits: Bits, facts: Sequence, skips: bool) -> None:
    has_range = bits.flag()
    bits.u(2, 0)
    screen = bits.flag()
    more = bits.u(4, bits.draw.choice((0, 0, 9)))
    if has_range:
        if skips:
            bits.range(0, 3)
        bits.flag()
        if bits.flag():
            bits.range(0, facts.more)
            for _ in range(bits.range(0, 5) + 1):
                bits.signed(-12, 12)
                bits.signed(-12, 12)
        bits.ue(0)
        bits.ue(0)
    if screen:
        bits.flag()
        if bits.flag():
            bits.flag()
            bits.signed(-7, 17)
            bits.signed(-7, 17)
            bits.signed(-9, 15)
        if bits.flag():
            count = bits.range(0, 128)
            if count:
                gray = bits.flag()
                depths = [bits.range(0, 8) + 8] + ([] if gray else [bits.range(0, 8) + 8] * 2)
                for depth in depths:
                    bits.any(depth * count)
    if more:
        bits.any(bits.draw.randint(0, 30))


def sets(draw: random.Random) -> bytes:
    """Video, sequence and picture parameter sets of random values, with numbers from 1 on."""
    data = b""
    for number in range(1, draw.randint(2, 4)):
        lower = draw.choice((0, 0, 1, 2, 6))
        nested = lower == 0 or draw.random() < 0.5
        video, sequence = draw.randint(1, 15), draw.randint(1, 15)
        data += vps(draw, video, lower, nested)
        unit, facts = sps(draw, sequence, video, lower, nested)
        data += unit
        for _ in range(draw.randint(1, 3)):
            data += pps(draw, draw.randint(1, 63), sequence, facts)
    return data


def with_sets(draw: random.Random, stream: bytes) -> bytes:
    """A stream with more parameter sets before its first one. ffmpeg reads SEI by the last set, so its own come later."""
    starts = [it.start() for it in re.finditer(rb"\x00?\x00\x00\x01", stream)]
    first = [at for at in starts if stream[at:].lstrip(b"\0")[1] >> 1 == 32][:1]
    return stream[: first[0]] + sets(draw) + stream[first[0] :] if first else stream
