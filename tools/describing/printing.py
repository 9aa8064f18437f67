"""Prints the files of a format into a crate, laid out as `rt fmt` wants them."""
from __future__ import annotations

import os
import re
import shutil
import subprocess
import tempfile
from typing import Collection, Mapping

from describing import model as m
from describing import reserved
from describing.examples import described
from describing.layout import Format
from describing.model import Refused
from describing.names import TAKEN
from describing.parse import description_text
from describing.proofs import calls
from describing.proofs import printed as proofs
from describing.renamed import renamed, shown
from describing.rust import printed as rust
from describing.specs import printed as specs


def files_of(f: Format) -> dict[str, str]:
    """Returns the texts by their places in the crate."""
    found = rust.files(f) | specs.files(f) | proofs.files(f) | specs.fields_files(f) | proofs.answer_files(f)
    return {shown(place, ".rt"): shown(text, place) for place, text in (found | calls.files(f)).items()}


def put(folder: str, place: str, text: str) -> None:
    """Writes a file of a folder."""
    path = os.path.join(folder, place)
    os.makedirs(os.path.dirname(path), exist_ok=True)
    with open(path, "w", encoding="utf-8") as file:
        file.write(text)


def text_of(*path: str) -> str:
    """Returns the text of a file."""
    with open(os.path.join(*path), encoding="utf-8") as file:
        return file.read()


def format_of(description: str, folder: str, name: str) -> Format:
    """Returns the format of a description, as a module of the crate in `folder`, with hidden names (`renamed.py`)."""
    f = plain_format(description, folder, name)
    return Format(f.crate, f.m, renamed(f.description), f.path)


def plain_format(description: str, folder: str, name: str) -> Format:
    """Returns the same with the names of the description."""
    check_module(name)
    taken = {f"{name}_{it}" for it in ("decoder", "writes", "bits", "size", "at")} & (TAKEN | {"groups_at"})
    if taken:
        raise Refused(f"the library has a `{min(taken)}`: take another name for the module")
    inside = os.path.relpath(description, folder)
    path = os.path.basename(description) if inside.startswith("..") else inside
    said = described(description_text(description), description, name)
    for it in said.kinds:
        if isinstance(it, m.Choose) and m.snake(it.type) == name:
            raise Refused(f"`{it.type}` has the name of the module: take another one", it.at)
    return Format(os.path.basename(os.path.abspath(folder)), name, said, path)


def check_module(name: str) -> None:
    """Refuses a name that no module of a crate can have."""
    if not re.fullmatch("[a-z][a-z0-9_]*", name):
        why = "a module has lower-case letters, digits and `_`: rename the file, or name the module after the folder"
        raise Refused(f"`{name}` is no name of a module: {why}")
    if name in reserved.WORDS or name in ("lib", "main"):
        raise Refused(f"`{name}` is a name that no module has: rename the file, or name the module after the folder")


def root_of(folder: str) -> str:
    """Returns the root file of a crate: of the program if it has one, and else of the library."""
    return "src/main.rt" if os.path.exists(os.path.join(folder, "src", "main.rt")) else "src/lib.rt"


def lay_out(crate: str) -> None:
    """Runs `rt fmt` in a crate."""
    if not shutil.which("rt"):
        raise Refused("there is no `rt` in the path, which lays out what is printed")
    ran = subprocess.run(["rt", "fmt"], cwd=crate, capture_output=True, text=True, check=False)
    if ran.returncode:
        raise Refused(f"rt fmt: {(ran.stdout + ran.stderr).strip()}")


def check_parts(f: Format, folder: str, printed_now: set[str]) -> None:
    """Refuses a part whose module is not printed."""
    for it in f.lines:
        for use in m.uses(it.kind):
            if use.module not in printed_now and not os.path.exists(os.path.join(folder, "src", f"{use.module}.rt")):
                why = f"`{use.module}` is not printed: run `./format` on `{use.module}.fields` first"
                raise Refused(why, it.kind.at)


def printed(descriptions: Mapping[str, str], folder: str) -> list[tuple[Format, dict[str, str]]]:
    """Returns the format of each description, by path and module, and the texts of its files by place."""
    found = [format_of(it, folder, name) for it, name in descriptions.items()]
    for k, f in enumerate(found):
        check_parts(f, folder, {it.m for it in found[:k]})
    with tempfile.TemporaryDirectory() as room:
        crate = os.path.join(room, "crates", os.path.basename(os.path.abspath(folder)))
        files = [files_of(it) for it in found]
        for place, text in (it for one in files for it in one.items()):
            put(crate, place, text)
        put(room, "crates.txt", f"{os.path.basename(crate)}:\n")
        put(crate, root_of(folder), "".join(f"mod {it.m};\n" for it in found))
        lay_out(crate)
        return [(it, {place: text_of(crate, place) for place in named}) for it, named in zip(found, files)]


# ---- the lines that name the files


def listed(f: Format, root: str) -> dict[str, list[str]]:
    """Returns the lines that name the files, by the file that has them; `root` is the root file of the crate."""
    unnamed = any(isinstance(it.kind, m.Choose) and it.kind.unnamed for it in f.lines)
    others = [f"pub mod {f.spec}Bytes"] * unnamed
    return {
        root: ["pub " * (root == "src/lib.rt") + f"mod {f.m};"],
        "specs/Lib.antt": [f"pub mod {f.spec}"] + [f"pub mod {f.spec}Fields"] * f.grows + others,
        "proofs/Lib.antt": [f"pub mod {f.spec}Lemmas"] + [f"mod {f.spec}Rows"] * bool(f.description.examples),
    }


def add_line(folder: str, place: str, line: str) -> None:
    """Adds a line that names a file, if it is not there, before the first line like it with a greater name."""
    path = os.path.join(folder, place)
    lines = text_of(path).rstrip("\n").split("\n") if os.path.exists(path) else []
    if line not in lines:
        like = [k for k, it in enumerate(lines) if it.split(" ")[:-1] == line.split(" ")[:-1]]
        at = next((k for k in like if lines[k].rstrip(";") > line.rstrip(";")), like[-1] + 1 if like else len(lines))
        apart = [""] * (place.endswith(".rt") and bool(lines) and not like)
        put(folder, place, "\n".join([*lines[:at], *apart, line, *lines[at:]]) + "\n")


def drop_line(folder: str, place: str, line: str) -> None:
    """Removes a line that names a file, if it is there."""
    lines = text_of(folder, place).split("\n")
    put(folder, place, "\n".join(it for it in lines if it != line))


def remove_others(folder: str, home: str, made: str, places: Collection[str]) -> None:
    """Removes what an earlier run printed into a folder of proofs, and this one did not; `made` is in the first line."""
    for at, _, names in os.walk(os.path.join(folder, home), topdown=False):
        for name in names:
            path = os.path.join(at, name)
            if os.path.relpath(path, folder) not in places and made in text_of(path).split("\n")[0]:
                os.remove(path)
        if not os.listdir(at):
            os.rmdir(at)


def remove_stale(f: Format, folder: str, places: Collection[str]) -> None:
    """Removes what an earlier run printed for a format whose description has changed."""
    remove_others(folder, f"proofs/{f.m}", f.made, places)
    for of, name in (("specs", f"{f.spec}Fields"), ("specs", f"{f.spec}Bytes"), ("proofs", f"{f.spec}Rows")):
        place = f"{of}/{name}.antt"
        path = os.path.join(folder, place)
        if place not in places and os.path.exists(path) and f.made in text_of(path):
            os.remove(path)
            drop_line(folder, f"{of}/Lib.antt", f"{'pub ' * (of == 'specs')}mod {name}")


def write(description: str, folder: str, name: str = "") -> int:
    """Writes the files of a format, and the lines that name them; returns how many lines are written."""
    name = name or os.path.splitext(os.path.basename(description))[0]
    own = os.path.join(folder, "src", f"{name}.rt")
    if os.path.exists(own) and (text := text_of(own)) and "Made by `./format` from" not in text:
        raise Refused(
            f"{own} is there, and `./format` did not print it: move it, or name another module after the folder"
        )
    return write_all({description: name}, folder)


def write_all(descriptions: Mapping[str, str], folder: str) -> int:
    """Does so for formats by path and module, each after its parts."""
    written = 0
    for f, files in printed(descriptions, folder):
        remove_stale(f, folder, files)
        for place, text in files.items():
            put(folder, place, text)
            written += text.count("\n")
        for place, lines in listed(f, root_of(folder)).items():
            for line in lines:
                add_line(folder, place, line)
    return written
