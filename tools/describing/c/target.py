"""A format and the crate for C that it is printed into."""
from __future__ import annotations

from dataclasses import dataclass

from describing.layout import Format
from describing.model import Refused


@dataclass(frozen=True, eq=False)
class Target:
    """A format `f`, the crate for C `crate`, and the first line of each printed file, which says what printed it."""

    f: Format
    crate: str
    made: str

    @property
    def library(self) -> str:
        """The name of the library: the crate's, without `_c`."""
        return self.crate.removesuffix("_c")


def target(f: Format, crate: str) -> Target:
    """Returns the target of a format."""
    if not crate.endswith("_c") or crate == "_c":
        raise Refused(f"`{crate}` is no name of a crate for C: it ends in `_c`, after the name of the library")
    said = f"Made by `./format --c` from {f.path}: edit that file and make this one anew."
    return Target(f, crate, said)
