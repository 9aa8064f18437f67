"""Prints the files of a format into a crate for C."""
from __future__ import annotations

import glob
import os
import re
import tempfile
from collections.abc import Collection

from describing.c import fills, header, list_shared, python, rests, rust, shared, sum_proofs, sums, untils, varied
from describing.c.code import code
from describing.c.cross import check_alone, has_lemmas, is_mapped, lists, parts, stated
from describing.c.proofs import answer_files
from describing.c.specs import specs
from describing.c.target import Target, target
from describing.layout import Format
from describing.model import Refused
from describing.parse import description_text
from describing.printing import add_line, drop_line, format_of, lay_out, plain_format, put, remove_others, text_of
from describing.renamed import shown_for_c

ROOT = """//! The functions of the library `LIBRARY` that C, Rust and Python call: a module for each format.
//!
//! Each function is proved to do what its contract says, in each call that meets the conditions in the header.
#![tactic(auto)]

mod shared;
"""


def files_of(t: Target, plain: Target) -> dict[str, str]:
    """Returns the texts of the crate by their places in it; `plain` has no hidden names (`renamed.py`)."""
    f = t.f
    found = {f"src/{f.m}.rt": code(t), f"specs/{f.spec}.antt": specs(t)} | answer_files(t) | shared.files(t.crate)
    if is_varied(f):
        found |= varied.files(t.crate)
    if lists(f.description):
        found |= list_shared.files(t.crate, bool(stated(f.description)), any(map(is_mapped, f.description.kinds)))
    if sums.check_of(f):
        found |= sum_proofs.shared_files(t.crate)
    if fills.fills(f):
        found |= fills.files(t.crate)
    if rests.given(f):
        found |= rests.files()
    if untils.untils(f):
        found |= untils.files(t.crate)
    shown = {shown_for_c(place, ".rt"): shown_for_c(text, place) for place, text in found.items()}
    return shown | binding_files(plain)


def is_varied(f: Format) -> bool:
    """Returns true if the texts for formats whose number of bytes is not constant are needed."""
    return not f.sized and has_lemmas(f.description)


def binding_files(t: Target) -> dict[str, str]:
    """Returns the texts for other languages by their places in the crate."""
    m = t.f.m
    return {
        f"bindings/{m}.h": header.header(t),
        f"bindings/{m}.c": header.source(t),
        f"bindings/{m}.rs": rust.module(t),
        f"bindings/{m}.py": python.module(t),
        "bindings/_library.py": python.library_module(t.library),
    }


def target_of(description: str, folder: str) -> tuple[Target, Target]:
    """Returns the target of a description `crates/NAME/formats/MODULE.fields`, whose format is printed already.

    The second one has the names of the description.
    """
    home = os.path.dirname(os.path.dirname(os.path.abspath(description)))
    name = os.path.basename(description).removesuffix(".fields")
    description_text(description)
    if not os.path.exists(os.path.join(home, "src", f"{name}.rt")):
        raise Refused(f"`{name}` is not printed: run `./format {description} {os.path.relpath(home)}` first")
    path, crate = os.path.relpath(description, folder), os.path.basename(os.path.abspath(folder))
    formats = format_of(description, home, name), plain_format(description, home, name)
    check_alone(formats[1].description)
    hidden, plain = (target(Format(f.crate, f.m, f.description, path), crate) for f in formats)
    return hidden, plain


def check_parts(f: Format, folder: str) -> None:
    """Refuses a part that is not printed for C."""
    for it in parts(f.description):
        if not os.path.exists(os.path.join(folder, "src", f"{it.module}.rt")):
            raise Refused(f"`{it.module}` is not printed for C: run `./format --c` on `{it.module}.fields` first")


def printed(description: str, folder: str) -> tuple[Target, dict[str, str]]:
    """Returns the target of a description, and the texts of its files by place, as `rt fmt` lays them out."""
    t, plain = target_of(description, folder)
    with tempfile.TemporaryDirectory() as room:
        crate = os.path.join(room, "crates", t.crate)
        texts = files_of(t, plain)
        for place, text in texts.items():
            put(crate, place, text)
        put(room, "crates.txt", f"{t.crate} staticlib:\n")
        modules = [it.removeprefix("src/").removesuffix(".rt") for it in texts if it.startswith("src/")]
        put(crate, "src/lib.rt", "".join(f"mod {it};\n" for it in modules))
        lay_out(crate)
        return t, {place: text_of(crate, place) for place in texts}


def listed(t: Target) -> dict[str, list[str]]:
    """Returns the lines that name the files, by the file that has them."""
    more, some = is_varied(t.f), bool(lists(t.f.description))
    return {
        "src/lib.rt": [f"mod {t.f.m};", *["mod status;"] * more],
        "specs/Lib.antt": [
            f"pub mod {t.f.spec}",
            "pub mod Shared",
            *["pub mod Varied"] * more,
            *["pub mod Lists"] * some,
            *["pub mod Parts"] * any(map(is_mapped, t.f.description.kinds)),
            *["pub mod Fills"] * bool(fills.fills(t.f)),
            *["pub mod Untils"] * bool(untils.untils(t.f)),
            *["pub mod Sums"] * bool(sums.check_of(t.f)),
        ],
        "proofs/Lib.antt": [
            *[f"pub mod {t.f.spec}Lemmas"] * has_lemmas(t.f.description),
            "pub mod SharedLemmas",
            *["pub mod VariedLemmas"] * more,
            *["pub mod ListLemmas"] * some,
            *["pub mod PartLemmas"] * any(map(is_mapped, t.f.description.kinds)),
            *["pub mod FillLemmas"] * bool(fills.fills(t.f)),
            *["pub mod RestLemmas"] * bool(rests.given(t.f)),
            *["pub mod UntilLemmas"] * bool(untils.untils(t.f)),
            *["pub mod StatedLemmas"] * bool(stated(t.f.description)),
            *["pub mod SumLemmas"] * bool(sums.check_of(t.f)),
        ],
    }


def descriptions_for_c(folder: str) -> list[str]:
    """Returns the descriptions that the headers of a crate were printed from, parts first."""
    texts = {os.path.basename(it): text_of(it) for it in glob.glob(os.path.join(folder, "bindings", "*.h"))}
    found = list[tuple[int, str]]()
    for name, text in texts.items():
        said = re.match(r"/\* Made by `./format --c` from (\S+): ", text)
        if said:
            found.append((depth(texts, name), os.path.normpath(os.path.join(folder, said.group(1)))))
    return [it for _, it in sorted(found)]


def depth(texts: dict[str, str], name: str) -> int:
    """Returns how deep headers that a header includes are inside one another."""
    inner = re.findall(r'#include "(\S+)"', texts.get(name, ""))
    return max([0, *(1 + depth(texts, it) for it in inner)])


def remove_stale(t: Target, folder: str, places: Collection[str]) -> None:
    """Removes what an earlier run printed for a format whose description has changed."""
    remove_others(folder, f"proofs/{t.f.m}", t.made, places)
    place = f"proofs/{t.f.spec}Lemmas.antt"
    if place not in places and os.path.exists(os.path.join(folder, place)) and t.made in text_of(folder, place):
        os.remove(os.path.join(folder, place))
        drop_line(folder, "proofs/Lib.antt", f"pub mod {t.f.spec}Lemmas")


def write(description: str, folder: str) -> int:
    """Writes the files of a format, and the lines that name them; returns the number of lines."""
    t, texts = printed(description, folder)
    check_parts(t.f, folder)
    remove_stale(t, folder, texts)
    for place, text in texts.items():
        put(folder, place, text)
    if not os.path.exists(os.path.join(folder, "src", "lib.rt")):
        put(folder, "src/lib.rt", ROOT.replace("LIBRARY", t.library))
    for place, lines in listed(t).items():
        for line in lines:
            add_line(folder, place, line)
    return sum(text.count("\n") for text in texts.values())
