"""The words of one line of a description, taken from left to right."""
from __future__ import annotations

import re
from dataclasses import dataclass
from typing import Callable

from describing.model import Position, Refused


class Early(Exception):
    """A line ends before its last word."""


@dataclass
class Words:
    """The words of a line before its colon, each with its column; `behind` is the text after the colon."""

    line: int
    found: list[tuple[int, str]]
    behind: str
    at: int = 0

    def place(self, back: int = 0) -> Position:
        """Returns the position of the next word, or of the word `back` words before it."""
        index = self.at - back
        last = self.found[-1]
        column = self.found[index][0] if index < len(self.found) else last[0] + len(last[1])
        return Position(self.line, column + 1)

    def peek(self, ahead: int = 0) -> str:
        """Returns a later word without taking it, or an empty text after the last one."""
        index = self.at + ahead
        return self.found[index][1] if index < len(self.found) else ""

    def next(self) -> str:
        """Takes the next word."""
        if self.at == len(self.found):
            raise Early
        self.at += 1
        return self.found[self.at - 1][1]

    def skip(self, word: str) -> bool:
        """Takes `word` if it is the next one, and returns true if it was."""
        if self.peek() != word:
            return False
        self.at += 1
        return True

    def refuse(self, why: str, back: int = 1) -> Refused:
        """Returns the refusal of the word `back` words before the next one."""
        return Refused(why, self.place(back))

    def number(self, least: int, most: int, what: str) -> int:
        """Takes a number in a range; `what` names it in the refusal."""
        word = self.next()
        return number(word, least, most, what, self.place(1))

    def end(self, form: Callable[[Words], str]) -> None:
        """Refuses the words that are left; `form` returns the form of the line."""
        words = [it for _, it in self.found]
        if self.at < len(words):
            at, behind = self.place(), " ".join(words[self.at :])
            remark = "a comment follows a colon" if behind.startswith(("#", "//", "--", ";", "/*")) else ""
            why = f"`{behind}` is not understood after `{' '.join(words[: self.at])}`"
            raise Refused(f"{why}: {remark or f'it is {form(self)}'}", at)


def number(word: str, least: int, most: int, what: str, at: Position) -> int:
    """Returns the number that a word spells, if it is in a range."""
    try:
        found = int(word if word.isascii() else "", 0)
    except ValueError:
        hint = f": a number in hex is `0x{word}`" * bool(re.fullmatch("[0-9]*[A-Fa-f][0-9A-Fa-f]*", word))
        raise Refused(f"{what} is `{word[:40]}`, which is no number{hint}", at) from None
    if not least <= found <= most:
        raise Refused(f"{what} is {found}, and not in {least}..={most}", at)
    return found
