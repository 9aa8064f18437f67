"""The text of the files of specs."""
from __future__ import annotations

import re

from describing import model as m
from describing.imports import parts_specs, types
from describing.layout import Format, Line
from describing.names import ENUMS, SPECS, VALUES, uses
from describing.specs import limits, values
from describing.specs.definitions import definitions
from describing.specs.terms import binds, fits, place, size, spec_type
from describing.text import article, wrapped


def files(f: Format) -> dict[str, str]:
    """Returns the definitions by their place in the crate."""
    return {f"specs/{f.spec}.antt": specs(f)}


def fields_files(f: Format) -> dict[str, str]:
    """Returns what contracts see of a format with lists, by its place in the crate."""
    found = {f"specs/{f.spec}Fields.antt": fields_specs(f)} if f.grows else {}
    unnamed = [it.kind.unnamed for it in f.lines if isinstance(it.kind, m.Choose) and it.kind.unnamed]
    return found | ({f"specs/{f.spec}Bytes.antt": bytes_specs(f, unnamed)} if unnamed else {})


def bytes_specs(f: Format, unnamed: list[str]) -> str:
    """Returns the text of the file of what contracts see of other numbers and the bytes after them."""
    out = [f"-- The values of other numbers of {article(f.type)}, with the bytes after them, in contracts."]
    out += ["use Rattle.std.specs.Prelude.{ℕ, List}", "", f"-- {f.made}"]
    for name in unnamed:
        fields = ["  pub number : ℕ", "  pub bytes : List ℕ"]
        out += ["", "-- the number, and the bytes", f"pub record {name}Fields : Type 0 where", *fields]
    return "\n".join(out) + "\n"


def specs(f: Format) -> str:
    """Returns the text of the definitions."""
    out = becomes(f) + (BITS_AT if f.sized else [])
    out += [line for it in f.lines for line in definitions(f, it)]
    out += [line for it in sums_in_order(f) for line in sum_definitions(f, it)]
    out += [*values.lines(f), *values.reads(f), *values.writes(f)] if f.valued else [*entries(f), *writes(f)]
    out += [*fits_record(f), *sizes(f), *(values.value(f) if f.valued else []), *all_bits(f)]
    out += at_places(f) if f.sized else []
    text = "\n".join(out)
    # here `bits` is bound in each definition that names it
    own = VALUES if f.valued else ENUMS
    imports = uses(re.sub(r"\bbits\b", "", text), types(f), parts_specs(f), own, SPECS)
    imports += [values.ATOMS] * (" atom." in text or "(atom." in text)
    return wrapped("\n".join([f"-- {f.doc}", *imports, "", f"-- {f.made}", "", text.rstrip()])) + "\n"


BITS_AT = [
    "-- n bits after the first k",
    "abbrev pub bits_at : ℕ → ℕ → List Bool → List Bool",
    "bits_at k n bits = take n (drop k bits)",
    "",
]


def becomes(f: Format) -> list[str]:
    """Returns the definition of the errors of the reader among those of the format."""
    if not f.error:
        return []
    return [
        "-- an error of the reader is one of the type's",
        f"abbrev pub becomes_{f.m} : Error → {f.error} → Type 0",
        f"becomes_{f.m} error own = own ≡ Reader error",
        "",
    ]


def entries(f: Format) -> list[str]:
    """Returns the definitions of the reads, the last one first."""
    parts, seen, out, refused = f.entry_parts(), list(f.given), list[str](), 0
    for k, part in enumerate(parts):
        more = ""
        if k:
            more = f", after {refused} that may be refused" if parts[k - 1][-1].error else ", the next of them"
        out = [*entry_definition(f, k, part, seen, more), "", *out]
        seen = seen + [it for it in part if it.name]
        refused += bool(part and part[-1].error)
    return out


def entry_definition(f: Format, k: int, part: list[Line], seen: list[Line], more: str) -> list[str]:
    """Returns the definition of the reads of some lines, which takes the values of the `seen` ones."""
    args, kinds = "".join(f" {it.name}" for it in seen), "".join(f" {spec_type(it.kind)} →" for it in seen)
    behind = f"{f.m}_decoder_{k + 1} o" + "".join(f" {it.name}" for it in [*seen, *part] if it.name)
    name = f"{f.m}_decoder_{k}" if k else f"{f.m}_decoder"
    block = [binds(f, it, behind) for it in part]
    if k == len(f.entry_parts()) - 1:
        block.append(gives(f))
    elif not part[-1].stops:
        block.append(f"  {behind}")
    says = f"{name} o{args} = do"
    if len(block) == 1 and block[0].startswith(("  and_then", "  pure", "  if")):
        says, block = f"{name} o{args} ={block[0][1:]}", []
    head = [f"-- the reads, in order{more}", f"abbrev pub {name} : Order →{kinds} Decoder {f.result}"]
    return [*head, says, *block]


def gives(f: Format) -> str:
    """Returns the end of the reads: the record of what was read."""
    return f"  pure (Ok ({f.gives()}))" if f.own else f"  pure ({f.gives()})"


def writes(f: Format) -> list[str]:
    """Returns the definitions of the writes, the last one first."""
    return writes_of(f, f"{f.m}_writes", "the writes, in order", f.pieces())


def writes_of(f: Format, called: str, says: str, pieces: list[tuple[Line, ...]]) -> list[str]:
    """Returns the definitions of the writes of some lines, the last one first."""
    out: list[str] = []
    for k, piece in enumerate(pieces):
        name, more = (f"{called}_{k + 1}", ", the next of them") if k else (called, "")
        head = [f"-- {says}{more}", f"abbrev pub {name} : Order → {f.type} → List Encoder"]
        out = [*head, f"{name} o value =", *written_list(piece, after(called, pieces, k)), "", *out]
    return out


def after(called: str, pieces: list[tuple[Line, ...]], k: int) -> str:
    """Returns the writes after a piece."""
    return f"{called}_{k + 2} o value" if k + 1 < len(pieces) else "[]"


def sums_in_order(f: Format) -> list[m.Check]:
    """Returns the checksums of lines, each after those that it covers."""
    found: list[m.Check] = []
    for it in f.summed:
        found += [one for one in [*m.sums_below(f.description.kinds, it), it] if one not in found]
    return found


def sum_definitions(f: Format, kind: m.Check) -> list[str]:
    """Returns the definitions of the lines of a checksum, and of the checksum."""
    called = f"{kind.word}_writes"
    what = f"number of {kind.sum}" if isinstance(kind, m.Computed) else kind.sum
    out = [
        *writes_of(f, called, f"the writes that the {kind.word} covers, in order", f.covered(kind)),
        f"-- the {what} of these lines",
        f"abbrev pub {kind.word}_sum : {f.type} → ℕ",
        f"{kind.word}_sum value = lines_sum {kind.function} {f.o} ({called} {f.o} value)",
        "",
    ]
    if isinstance(kind, m.Computed) and kind.units:
        out += [
            f"-- the number that states these bytes, in units of {kind.unit}",
            f"abbrev pub {kind.name}_number : {f.type} → ℕ",
            f"{kind.name}_number value = stored_size {kind.units} ({kind.word}_sum value)",
            "",
        ]
    return out


def written_list(lines: tuple[Line, ...], behind: str) -> list[str]:
    """Returns the writes of some lines, and of what follows them."""
    lines = tuple(it for it in lines if not isinstance(it.kind, m.Verify))
    # `++` associates to the left: the text after a list of writes that others follow is in brackets
    opened = [k for k, it in enumerate(lines) if it.many][:-1]
    out, join = list[str](), ""
    for k, it in enumerate(lines):
        out.append(f"    {join}{limits.written(it)}")
        join = f"++ {'(' * (k in opened)}" if it.many else "∷ "
    return [*out, f"    {join}{behind}{')' * len(opened)}"]


def fields_specs(f: Format) -> str:
    """Returns the text of the file of what contracts see of a format with lists."""
    name, fields = f"{f.type}Fields", [f"  pub {it.name} : {spec_type(it.kind)}" for it in f.fields]
    out = ["-- the fields, and the items of the lists", f"pub record {name} : Type 0 where", *fields]
    imports = uses("\n".join(out), types(f), parts_specs(f), SPECS)
    head = f"-- The value of {article(f.type)} in contracts."
    return "\n".join([head, *imports, "", f"-- {f.made}", "", *out]) + "\n"


def fits_record(f: Format) -> list[str]:
    """Returns the record of the facts that each field fits its bits."""
    fields = [f"  pub {name} : {what}" for it in f.lines for name, what in fits(f, it)]
    return ["-- each field fits its bits", f"pub record Fits (value : {f.type}) : Type 0 where", *fields, ""]


def sizes(f: Format) -> list[str]:
    """Returns the definition of the number of bits: those of constant widths first."""
    known = sum(it.wide for it in f.lines)
    total = " + ".join([str(known)] * (known > 0 or f.sized) + [size(it) for it in f.lines if it.bits is None])
    total = values.size(f) if f.valued else total
    head = f"abbrev pub {f.m}_size : Order → {f.type} → ℕ"
    return ["-- the number of bits", head, f"{f.m}_size o value = {total}", ""]


def all_bits(f: Format) -> list[str]:
    """Returns the definition of the bits of a record."""
    return [
        "-- the bits of all fields, up to a whole byte",
        f"unfoldable pub {f.m}_bits : {f.type} → List Bool",
        f"{f.m}_bits value = write_sequence ({f.m}_writes {f.o} value ++ align ∷ []) 0",
        "",
    ]


def at_places(f: Format) -> list[str]:
    """Returns the definition of the record of bits by their places."""
    kinds = [it for it in f.tests if it.is_field]
    arrows, args = "".join(f"{spec_type(it.kind)} → " for it in kinds), "".join(f" {it.name}" for it in kinds)
    return [
        "-- the fields in bits, each by its place",
        f"abbrev pub {f.m}_at : {arrows}List Bool → {f.type}",
        f"{f.m}_at{args} bits = record {{",
        *[f"  {it.name} = {place(it, 'bits', f.o)};" for it in f.fields],
        "}",
    ]
