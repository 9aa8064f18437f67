"""The bits of an input, which may be a stream: bytes are fetched when a read needs them, and dropped after a record."""
from __future__ import annotations

from typing import Callable, TypeAlias, Union

Value: TypeAlias = Union[None, bool, int, str, bytes, list["Value"], dict[str, "Value"]]
Fetch: TypeAlias = Callable[[], bytes]


class ReadError(Exception):
    """A read that fails: the case of the error, the bit where it began, the path of the field, and the reason.

    `inner` is the case of the error of a part that the case holds, or an empty text.
    """

    def __init__(self, answer: str, place: int, path: str = "", why: str = "", inner: str = "") -> None:
        super().__init__(answer)
        self.answer, self.place, self.path, self.why, self.inner = answer, place, path, why, inner

    def __str__(self) -> str:
        why = f": {self.why}" if self.why else ""
        return f"{self.case} at {place_text(self.place)} ({self.path}){why}"

    @property
    def case(self) -> str:
        """The case of the error, with the case that it holds."""
        return f"{self.answer}({self.inner})" if self.inner else self.answer

    @property
    def clause(self) -> str:
        """The reason as the end of a sentence."""
        return self.why[:1].lower() + self.why[1:].removesuffix(".")

    def inside(self, name: str) -> ReadError:
        """Returns this error with the name of a record or a list before its path."""
        return ReadError(self.answer, self.place, joined(name, self.path), self.why, self.inner)


def place_text(bit: int) -> str:
    """Returns a position in bits as text."""
    return f"byte {bit // 8}" + f", bit {bit % 8}" * (bit % 8 != 0)


def joined(name: str, path: str) -> str:
    """Returns a path with one name more at its start."""
    return name + ("." if path and name and path[0] != "[" else "") + path


class Input:
    """Bits from the position `at` up to `end`, both counted from the start of the input.

    `end` is the end of the bytes that are there, or of a size: only in the first case more bytes are fetched.
    """

    __slots__ = ("data", "base", "big", "at", "end", "fetch")

    def __init__(self, data: bytes, order: str, fetch: Fetch | None = None) -> None:
        self.data, self.base, self.big = bytearray(data), 0, order == "BE"
        self.at, self.end, self.fetch = 0, 8 * len(data), fetch

    def reach(self, to: int) -> bool:
        """Fetches bytes until the input has the bits before `to`, and returns false if it ends earlier."""
        while to > self.end and self.fetch:
            more = self.fetch()
            if not more:
                self.fetch = None
            self.data += more
            self.end += 8 * len(more)
        return to <= self.end

    def need(self, to: int) -> None:
        """Fetches the bits before `to`; if the input ends earlier, the read fails with `EndOfInput`."""
        if to > self.end and not self.reach(to):
            raise ReadError("EndOfInput", self.at)

    def finish(self) -> None:
        """Fetches all bytes up to the end."""
        while self.fetch:
            self.reach(self.end + 1)

    def drop(self) -> None:
        """Drops the bytes before the position."""
        done = min((self.at >> 3) - self.base, len(self.data))
        if done >= 1 << 16 or done == len(self.data):
            del self.data[:done]
            self.base += done

    def skip(self, count: int) -> int:
        """Skips bytes, of which few are kept at a time, and returns how many are missing at the end of the input."""
        to = self.at + 8 * count
        while self.end < to:
            self.at = self.end
            self.drop()
            if not self.reach(self.end + 1):
                return (to - self.end) // 8
        self.at = to
        self.drop()
        return 0

    def number(self, count: int) -> int:
        """Takes `count` bits as an unsigned number."""
        at = self.at
        to = at + count
        if to > self.end:
            self.need(to)
        self.at = to
        first, last = (at >> 3) - self.base, ((to + 7) >> 3) - self.base
        if self.big:
            found = int.from_bytes(self.data[first:last], "big") >> (-to & 7)
        else:
            found = int.from_bytes(self.data[first:last], "little") >> (at & 7)
        return found & ((1 << count) - 1)

    def signed(self, count: int) -> int:
        """Takes `count` bits as a number in two's complement."""
        found = self.number(count)
        return found - (found >> (count - 1) << count)

    def bytes(self, count: int) -> bytes:
        """Takes `count` bytes."""
        at, to = self.at, self.at + 8 * count
        self.need(to)
        if at & 7:
            return self.number(8 * count).to_bytes(count, "big" if self.big else "little")
        self.at = to
        first = (at >> 3) - self.base
        return bytes(self.data[first : first + count])

    def unary(self, stop: int) -> int:
        """Takes bits up to the first that is `stop`, and returns their count without it."""
        found = 0
        while self.number(1) != stop:
            found += 1
        return found
