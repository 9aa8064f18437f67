"""The gallery: the descriptions in tools/shown, and the sums of the printed code that `tools/prove_gallery` proved.

A line of tools/shown/proved.txt has the sum of the library, the sum of the code, and the description's place in tools/shown.
"""

from __future__ import annotations

import functools
import glob
import hashlib
import os
import subprocess
from dataclasses import dataclass
from typing import Iterable

from crates import with_below
from describing import model as m
from describing.layout import UNPRINTED, Format
from describing.model import Refused
from describing.printing import files_of, format_of, put, text_of, write_all

FOLDER = "tools/shown"
PROVED = f"{FOLDER}/proved.txt"
CRATE = "gallery"  # the printed text names its crate
USES = "bitstream_io bitstream_format thiserror"
HEAD = "# of the library, of the printed code, and the description: tools/prove_gallery writes these sums of what it proved\n"
DIGITS = 16  # of a sum of the library


@dataclass(frozen=True, slots=True)
class Proof:
    """The sums of what was proved of a description: of the library below, and of the printed code."""

    library: str
    code: str


# ---- the descriptions


def names() -> list[str]:
    """Returns the descriptions of the gallery, as `messages/ipv6_headers`."""
    found = glob.glob(f"{FOLDER}/**/*.fields", recursive=True)
    return sorted(os.path.relpath(it, FOLDER).removesuffix(".fields") for it in found)


def path_of(name: str) -> str:
    """Returns the path of a description."""
    return f"{FOLDER}/{name}.fields"


@functools.lru_cache(maxsize=None)
def format_at(path: str) -> Format:
    """Returns the format of a file."""
    return format_of(path, f"crates/{CRATE}", os.path.basename(path).removesuffix(".fields"))


def format_named(name: str) -> Format:
    """Returns the format of a description, if code is printed of it; an error names its file."""
    try:
        return format_at(path_of(name))
    except OSError:
        raise Refused(f"there is no `{path_of(name)}`: see tools/prove_gallery --list") from None
    except Refused as why:
        raise Refused(f"{path_of(name)}: {why}") from None


def refusal(name: str) -> str:
    """Returns why no code is printed of a description, or an empty text."""
    try:
        format_named(name)
    except Refused as why:
        return str(why).removeprefix(f"{path_of(name)}: ").replace(f"{UNPRINTED}: ", "")
    return ""


def parts_of(name: str) -> list[str]:
    """Returns the parts that a description names."""
    uses = [use.module for it in format_named(name).description.kinds for use in m.uses(it)]
    return [os.path.join(os.path.dirname(name), it) for it in dict.fromkeys(uses)]


def with_parts(wanted: Iterable[str]) -> list[str]:
    """Returns descriptions and all their parts, each after its own parts."""
    found: list[str] = []

    def visit(name: str) -> None:
        if name not in found:
            for part in parts_of(name):
                visit(part)
            found.append(name)

    for name in wanted:
        visit(name)
    return found


def by_folder(wanted: Iterable[str]) -> list[list[str]]:
    """Returns descriptions by their folders: a crate has one module of a name."""
    found: dict[str, list[str]] = {}
    for name in with_parts(wanted):
        found.setdefault(os.path.dirname(name), []).append(name)
    return list(found.values())


# ---- the sums


def sum_of(texts: dict[str, str]) -> str:
    """Returns the sum of texts by their places."""
    return hashlib.sha256("".join(f"{place}\0{texts[place]}\0" for place in sorted(texts)).encode()).hexdigest()


def code_sums(wanted: Iterable[str]) -> dict[str, str]:
    """Returns the sums of the code of descriptions and of their parts, before `rt fmt` lays it out."""
    return {it: sum_of(files_of(format_named(it))) for it in with_parts(wanted)}


def library() -> list[str]:
    """Returns the crates that the scratch crate uses."""
    return with_below(USES.split())


def library_sum() -> str:
    """Returns the sum of the library's files that a proof reads, without lines of comments, and of the toolchain's name."""
    version = subprocess.run(["rt", "version"], capture_output=True, text=True, check=True).stdout
    texts = {"": version}
    for crate in library():
        for part in ("src", "specs", "proofs"):
            for place in glob.glob(f"crates/{crate}/{part}/**", recursive=True):
                if place.endswith((".rt", ".antt")):
                    lines = [it.strip() for it in text_of(place).splitlines()]
                    texts[place] = "\n".join(it for it in lines if it and not it.startswith(("//", "--")))
    return sum_of(texts)[:DIGITS]


def proofs() -> dict[str, Proof]:
    """Returns what was proved, by description."""
    lines = text_of(PROVED).splitlines() if os.path.exists(PROVED) else []
    words = [it.split() for it in lines if it and it[0] != "#"]
    for k, it in enumerate(words):
        if len(it) != 3:
            raise Refused(f"{PROVED}: `{' '.join(it)}` is no line of two sums and a description")
    return {name: Proof(low, code) for low, code, name in words}


def note(proved: dict[str, Proof]) -> None:
    """Writes what was proved."""
    lines = [f"{it.library} {it.code} {name}\n" for name, it in sorted(proved.items())]
    put(".", PROVED, HEAD + "".join(lines))


# ---- the scratch crate


def write_crate(group: list[str], folder: str) -> int:
    """Writes the code of descriptions of one folder into a new crate, and returns how many lines it has."""
    put(folder, "src/lib.rt", "//! Descriptions of the gallery.\n#![tactic(auto)]\n")
    return write_all({path_of(it): os.path.basename(it) for it in group}, folder)
