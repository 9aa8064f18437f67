"""The statuses of the functions for C: their numbers, names and texts."""
from __future__ import annotations

from dataclasses import dataclass, replace

from describing import model as m
from describing.layout import UNENDED, Format, reader_errors
from describing.model import snake
from describing.rust.calls import error_cases
from describing.text import article

OK, END_OF_INPUT, NO_ROOM, DOES_NOT_FIT, NULL, BAD_NUMBER = range(6)


@dataclass(frozen=True, slots=True)
class Status:
    """A status: its name in capitals, its text as a sentence, and the case of the error if it is the format's own."""

    number: int
    name: str
    text: str
    case: str = ""

    @property
    def camel(self) -> str:
        """The name as Rust and Python spell a type."""
        return self.case or "".join(it.capitalize() for it in self.name.split("_"))

    @property
    def short(self) -> str:
        """The text in lower case, without its full stop."""
        first = self.text.split(" ")[0]
        text = self.text if first != first.capitalize() else self.text[0].lower() + self.text[1:]
        return text.removesuffix(".")


FIRST = (
    Status(OK, "OK", "The call did its work."),
    Status(END_OF_INPUT, "END_OF_INPUT", "The bytes end before the fields do."),
    Status(NO_ROOM, "NO_ROOM", "The buffer is too short."),
    Status(DOES_NOT_FIT, "DOES_NOT_FIT", "A field has a value that the format does not allow."),
    Status(NULL, "NULL", "A pointer is null."),
)
UNENDED_TOO = ", or the byte that ends a list is not among the first 2^32."
NUMBER = Status(
    BAD_NUMBER, "BAD_NUMBER", "A number of variable width is too large, or ends in a group of 0 behind others."
)


# The status of the same number in a format without such numbers.
RUN = Status(BAD_NUMBER, "RUN_TOO_LONG", "The byte that ends a list is not among the first 2^32.")


UNARY = "A unary number is not below 2^32."


def has_unary(kinds: tuple[m.Kind, ...]) -> bool:
    """Returns true if lines have a unary number."""
    return any(isinstance(it, m.Unary) for it in kinds)


def has_numbers(kinds: tuple[m.Kind, ...]) -> bool:
    """Returns true if numbers of variable width may be refused by the reader."""
    return has_unary(kinds) or any(True for _ in reader_errors(kinds))


def numbers(f: Format) -> list[Status]:
    """Returns the status of numbers of variable width that are refused, if there are any."""
    errors = {it for it, _ in reader_errors(f.description.kinds)}
    if errors <= {UNENDED[0]} and has_unary(f.description.kinds):
        return [replace(RUN, text=UNARY[:-1] + UNENDED_TOO if errors else UNARY)]
    if errors == {UNENDED[0]}:
        return [RUN]
    number = replace(NUMBER, text=NUMBER.text[:-1] + UNENDED_TOO) if UNENDED[0] in errors else NUMBER
    return [number] * bool(errors)


def rooms(f: Format) -> list[Status]:
    """Returns the statuses of lists without room for their items."""
    names = [it.name for it in f.description.fields if isinstance(it, m.List | m.Sized | m.Fill | m.Rest | m.Until)]
    last = len(FIRST) + len(numbers(f))
    return [
        Status(last + k, f"NO_ROOM_{it.upper()}", f"The storage has no room for the items of `{it}`.")
        for k, it in enumerate(names)
    ]


def first(f: Format) -> list[Status]:
    """Returns the statuses that are not the format's own errors."""
    return [*FIRST, *numbers(f), *rooms(f)]


def own(f: Format) -> list[Status]:
    """Returns the statuses of the format's own errors."""
    texts = dict[str, str]()
    for it in f.tests:
        texts = {case: said[0].strip().removeprefix("/// ") for case, said in error_cases(it).items()} | texts
        for use in m.uses(it.kind):
            texts |= {use.error: f"Bits of {article(use.name)} are refused."} if use.error else {}
    cases = dict.fromkeys(case for it in f.tests for case in error_cases(it))
    return [Status(len(first(f)) + k, snake(it).upper(), texts[it], it) for k, it in enumerate(cases)]


def held(f: Format) -> set[str]:
    """Returns the cases of the error that hold the error of a part."""
    return {case for it in f.tests for case, error in m.refusals(it.kind) if error}


def unless_refused(f: Format) -> str:
    """Returns when the end of the bytes is the error of a parse that may refuse bits, after `the bytes end before ..`."""
    names = " or ".join(f"`{it.name}`" for it in f.description.fields if isinstance(it, m.Fill))
    return ", if nothing in them is refused" + f", or if they end inside {names}" * bool(names)


def statuses(f: Format) -> list[Status]:
    """Returns all statuses, in the order of their numbers."""
    return [*first(f), *own(f)]


def refused(f: Format) -> list[Status]:
    """Returns the statuses that a caller in Rust or Python may see as an error."""
    without = [OK, NULL, *[it.number for it in rooms(f)]]
    return [it for it in statuses(f) if it.number not in without]
