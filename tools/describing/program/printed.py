"""Prints the files of a program over a printed format: records as JSON Lines, and back."""
from __future__ import annotations

import os
import re
import tempfile

from describing import model as m
from describing.checks import new_enums
from describing.examples import described
from describing.layout import lines_of
from describing.model import Refused, snake
from describing.parse import description_text
from describing.printing import lay_out, put, text_of, write
from describing.program import values

HERE = os.path.dirname(os.path.abspath(__file__))
MADE = re.compile(r"^//! Made by `./format --program` from (\S+): ", re.MULTILINE)
HELPERS = (
    "at_item boolean check_names check_object field fill_octets inside items list misfit octets other_case part_item "
    "put_octets put_wide put_wide_signed signed unsigned unsigned_or_null wide_signed wide_unsigned wide_unsigned_or_null"
).split()


GHOSTS = ("◌≡◌", "◌≤◌", "◌≤ℤ◌", "Ok", "IfOk", "IfSome", "IsErr", "length")


class Program:
    """A program: its crate, its description, and the crate that has the code of the format."""

    def __init__(self, path: str, folder: str) -> None:
        self.path, self.folder = path, folder
        self.crate = os.path.basename(os.path.abspath(folder))
        self.module = os.path.basename(path).removesuffix(".fields")
        self.it = described(description_text(path), path, self.module)
        lines_of(self.it)
        values.check(self.it)
        self.library = self.library_of()

    def library_of(self) -> str:
        """Returns the library beside the description that has its module, or an empty text."""
        crate = os.path.dirname(os.path.dirname(os.path.abspath(self.path)))
        there = os.path.exists(os.path.join(crate, "src", "lib.rt"))
        if not there or not os.path.exists(os.path.join(crate, "src", f"{self.module}.rt")):
            return ""
        return os.path.basename(crate)

    @property
    def made(self) -> str:
        """The sentence that says how a file was made."""
        path = os.path.relpath(self.path, self.folder)
        path = os.path.basename(path) if path.startswith("../../") else path
        return f"Made by `./format --program` from {path}: edit that file and make this one anew."

    def modules(self) -> list[tuple[str, m.Description]]:
        """Returns the module of each description, the parts first."""
        parts = [(use.module, use.description) for use in values.all_uses(self.it)]
        return [*parts, (self.module, self.it)]

    def place(self, module: str) -> str:
        """Returns the path of the module of a format."""
        return f"{self.library or 'crate'}::{module}"

    def needs(self) -> str:
        """Returns the line of crates.txt."""
        own = [self.library] * bool(self.library)
        hexed = ["hex"] * any(isinstance(m.held_item(kind), m.Octet) for _, it in self.modules() for kind in it.kinds)
        return f"{self.crate}: {' '.join([*own, 'bitstream_io', *hexed, 'serde_json', 'thiserror'])}"


def replaced(text: str, words: dict[str, str]) -> str:
    """Returns a text with its words replaced."""
    return re.sub(r"\{\{([A-Z_]+)\}\}", lambda found: words[found[1]], text)


def filled(name: str, words: dict[str, str]) -> str:
    """Returns a text of this folder with its words replaced."""
    return replaced(text_of(HERE, f"{name}.txt"), words)


def words_of(p: Program) -> dict[str, str]:
    """Returns the words that the texts have in capitals."""
    it, error = p.it, p.it.error
    names = f"{{{it.name}, {error}}}" if error else it.name
    words = {
        "CRATE": p.crate,
        "DOC": it.doc,
        "MADE": p.made,
        "MODULES": "\n".join(modules_of(p)),
        "TYPE": it.name,
        "RECORD": snake(it.name),
        "JSON": f"{p.module}_json",
        "USE": f"{p.place(p.module)}::{names}",
        "TYPE_PATH": f"{p.place(p.module)}::{it.name}",
        "ERROR_USE": f"use {p.place(p.module)}::{error};\n" if error else "",
        "ERROR": error or "Error",
        "OWN_ERROR": error or "bitstream_io::Error",
        "TORN": reader_error(error, "EndOfInput"),
        "ORDER": it.order,
    }
    return words | read_words(it) | write_words(it, words)


# The error of a list for which no memory is left.
FAILED = """impl<T: Drop> From<AllocFailed<T>> for Unfit {
    fn from(_refused: AllocFailed<T>) -> Unfit {
        Unfit::Memory
    }
}

"""


def reader_error(error: str, case: str) -> str:
    """Returns an error of the reader, inside the error of the format if it has one."""
    return f"{error}::Reader(Error::{case})" if error else f"Error::{case}"


def read_words(it: m.Description) -> dict[str, str]:
    """Returns the words of reading, which takes memory if a record has a list."""
    refused = reader_error(it.error, "OutOfMemory")
    stop = f"Err({refused}) => return Err(Ended::Io(io::Error::from(ErrorKind::OutOfMemory))),\n"
    words = {"ALLOC": ", alloc", "ALLOC_FIRST": "alloc, ", "ALLOC_PARAMETER": "alloc: Global,\n", "MEMORY": stop}
    words |= {"FAILED_USE": "AllocFailed, ", "ALLOC_FAILED": FAILED}
    return words if values.has_list(it) else dict.fromkeys(words, "")


def write_words(it: m.Description, words: dict[str, str]) -> dict[str, str]:
    """Returns the words of writing: into an array if the greatest number of bits is a constant, else into a vector."""
    most = values.most_bits(it)
    if most is not None:
        fixed = replaced(text_of(HERE, "pack_fixed.txt"), words | {"BYTES": str(-(-most // 8))})
        return {"BITS_USE": "", "ROOM": "", "RECORD_AND_ROOM": "record", "WRITE_RECORD": fixed}
    return {
        "BITS_USE": f"use bitstream_io::{{{it.order}, BitWrite, BitWriter, Error}};\n",
        "ROOM": "let mut room: Vec<u8> = Vec::new(alloc);\n",
        "RECORD_AND_ROOM": "&record, &mut room",
        "WRITE_RECORD": replaced(text_of(HERE, "pack_held.txt"), words),
    }


def modules_of(p: Program) -> list[str]:
    """Returns the lines that name the modules of the formats."""
    found = [f"mod {module}_json;" for module, _ in p.modules()]
    return sorted(found + [f"mod {module};" for module, _ in p.modules()] * (not p.library))


def json_code(p: Program, module: str, it: m.Description) -> str:
    """Returns the module that prints the records of a description as JSON, and reads them."""
    body = "\n".join(values.functions(it)).rstrip("\n")
    helpers = [name for name in ("Unfit", *HELPERS) if re.search(rf"\b{name}\b", body)]
    types = [it.name, *(enum.name for _, enum in new_enums(it))]
    uses = [f"use crate::fields::{{{', '.join(helpers)}}};"]
    for use in {use.module: use for kind in it.kinds for use in m.uses(kind)}.values():
        part = snake(use.name)
        named = [name for name in (f"print_{part}", f"{part}_number", f"{part}_of") if re.search(rf"\b{name}\b", body)]
        uses.append(f"use crate::{use.module}_json::{{{', '.join(named)}}};")
        named_type = re.search(rf"^.*Result<.*[<( ]{use.name}[>,)]", body, re.MULTILINE)
        uses += [f"use {p.place(use.module)}::{use.name};"] * bool(named_type)
    uses.append(
        f"use {p.place(module)}::{{{', '.join(types)}}};" if types[1:] else f"use {p.place(module)}::{it.name};"
    )
    uses += ["use serde_json::Value;", "use std::alloc::Global;", "use std::io;", "use std::io::Write;"]
    uses += ["use std::num::NonZero;"] * ("NonZero" in body)
    return "\n".join([f"//! `{it.name}` as JSON.", "//!", f"//! {p.made}", "", *uses, "", body]) + "\n"


def fields_code(p: Program, used: str) -> str:
    """Returns the module of the functions that other modules use."""
    head, *blocks = re.split(r"\n\n(?=/// )", filled("fields", words_of(p)))
    named = {block: found[1] for block in blocks if (found := re.search(r"^(?:pub )?(?:fn|const) (\w+)", block, re.M))}
    kept, text = list[str](), used
    while more := [it for it, name in named.items() if it not in kept and re.search(rf"\b{name}\(", text)]:
        kept += more
        text = "\n".join([*more])
    body = "\n\n".join(it for it in blocks if it in kept or it not in named)
    said = " ".join(re.findall(r"^    ensures .*", body, re.MULTILINE))
    names = [it for it in GHOSTS if re.search(rf"(?<!\w){it.strip('◌')}(?!\w)", said)]
    ghost = f"ghost use Rattle.std.specs.Prelude.{{{', '.join(names)}}};\n" * bool(names)
    head = re.sub("^ghost use .*\n", ghost, head, flags=re.MULTILINE)
    if "Write" not in body:
        head = head.replace("use std::io;\nuse std::io::Write;\n", "")
    return f"{head}\n\n{body.rstrip()}\n"


def files_of(p: Program) -> dict[str, str]:
    """Returns the texts by their places in the crate."""
    found = {f"src/{module}_json.rt": json_code(p, module, it) for module, it in p.modules()}
    found |= {f"src/{name}.rt": filled(name, words_of(p)) for name in ("main", "ended", "show", "skip", "pack")}
    return found | {"src/fields.rt": fields_code(p, "\n".join(found.values()))}


def printed(p: Program) -> dict[str, str]:
    """Returns the texts by their places in the crate, laid out."""
    with tempfile.TemporaryDirectory() as room:
        crate = os.path.join(room, "crates", p.crate)
        files = files_of(p)
        for place, text in files.items():
            put(crate, place, text)
        if not p.library:
            for module, _ in p.modules():
                put(crate, f"src/{module}.rt", "")
        put(room, "crates.txt", f"{p.crate}:\n")
        lay_out(crate)
        return {place: text_of(crate, place) for place in files}


def program(path: str, folder: str) -> str:
    """Writes the files of a program, and those of its format unless a library has them; returns what is left to do."""
    main = os.path.join(folder, "src", "main.rt")
    if os.path.exists(main) and not MADE.search(text_of(main)):
        raise Refused(f"{main} is not printed by `./format --program`: remove it first")
    p = Program(path, folder)
    for place, text in printed(p).items():
        put(folder, place, text)
    if not p.library:
        for module, _ in p.modules():
            write(os.path.join(os.path.dirname(path), f"{module}.fields"), folder)
    return f"{path}: {folder} prints and packs `{p.it.name}`; its line in crates.txt is `{p.needs()}`"
