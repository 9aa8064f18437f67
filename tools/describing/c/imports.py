"""The modules where the names in the texts of a format for C come from."""
from __future__ import annotations

import re

from describing.c import choices, optional, sums, varying
from describing.c.cross import enums, is_narrow, listed_enums, lists, parts
from describing.c.target import Target
from describing.imports import own_specs, types
from describing.model import snake
from describing.names import SPECS, Table, spec_of, uses
from describing.rust.clauses import clauses

# The names of the standard library that texts for C use.
PRELUDE: Table = {
    "Rattle.std.specs.Prelude": "≡ ≢ ^ < ≤ + - * / ++ ∷ [] == ↔ if ℕ ℤ Bool true false not List Result Ok Err Option"
    " Some None IsTrue IsSomeAnd All length take drop map pos negsuc is_some"
    " option_map nat_lt filter_map is_some",
    "Rattle.bitstream_io.specs.Reads": "BitSource",
    "Rattle.std.specs.Option": "ForSome",
    "Rattle.bitstream_io.specs.Codec": "Prefix Incomplete Done",
    "Rattle.std.specs.List": "flat_map",
}


def own_names(t: Target) -> Table:
    """Returns where the definitions of the crate for C come from."""
    f, base = t.f, f"Rattle.{t.crate}.specs.declared"
    words = ("to_c", "from_c", "made", "zero", "parsed", "answer", "held")
    more = [f"{f.m}_{it}" for it in varying.WORDS] * (not f.sized)
    more += [f"{f.m}_{snake(it.name)}_from" for it in enums(f.description) if is_narrow(it)]
    more += [f"{f.m}_{snake(it.name)}_{word}" for it in listed_enums(f.description) for word in ("item", "there")]
    if lists(f.description):
        more += [f"{f.m}_packable", f"{f.m}_of", f"{f.m}_short", f"{f.type}Read"]
    more += sums.names(f)
    found: Table = {
        f"Rattle.{t.crate}.specs.{f.spec}": " ".join(
            [*(f"{f.m}_{it}" for it in words), *more, optional.names(f), choices.names(f)]
        ),
        f"Rattle.{t.crate}.specs.Varied": "IsDecided reader_status",
        f"Rattle.{t.crate}.specs.Lists": "ReadsInto ReadsStated ItemsKept stored",
        f"Rattle.{t.crate}.specs.Untils": "ReadsUntil",
        f"Rattle.{t.crate}.specs.Parts": "ItemsInto PartsInto PartsKept ItemFits all_made",
        f"Rattle.{t.crate}.specs.Fills": "FillsInto PartsFilled",
        f"Rattle.{t.crate}.specs.Sums": "tested",
        f"{base}.{f.m}.{f.type}Found": f"{f.type}Found",
        f"{base}.{f.m}.{f.type}Given": f"{f.type}Given",
        f"Rattle.{t.crate}.specs.Shared": "PacksInto",
        f"{base}.{f.m}.{f.type}C": f"{f.type}C",
        f"{base}.{f.m}.{f.type}Parsed": f"{f.type}Parsed",
        f"{base}.shared.Packed": "Packed",
    }
    for it in parts(f.description):
        shared = " ".join(f"{it.module}_{word}" for word in ("to_c", "from_c", "zero"))
        found[f"Rattle.{t.crate}.specs.{spec_of(it.module)}"] = shared
        found[f"{base}.{it.module}.{it.name}C"] = f"{it.name}C"
    return found


def ghost_uses(t: Target, text: str) -> list[str]:
    """Returns the imports of the contracts of some code."""
    # but before an order `number` is a parameter there
    said = re.sub(r"\bnumber\b(?! (?:High|Low))", "", clauses(text))
    tables = (own_names(t), own_specs(t.f), types(t.f), PRELUDE, SPECS)
    return uses(said, *tables, begins="ghost use ", ends=";")


def spec_uses(t: Target, text: str) -> list[str]:
    """Returns the imports of specs."""
    f = t.f
    own = {module: names for module, names in own_names(t).items() if module != f"Rattle.{t.crate}.specs.{f.spec}"}
    return uses(text, own, own_specs(f), types(f), PRELUDE, SPECS)


# The lemmas that proofs for C use.
LEMMAS: Table = {
    "Rattle.std.proofs.Common": "≡ ≢ < ≤ ++ ∷ [] ∙ + - * / ℕ ℤ Bool List Result Ok Err length map refl sym ap ap₂ subst arith rules",
    "Rattle.std.specs.Prelude": "^ pos take drop Option None Some true false option_map IsSomeAnd nat_le",
    "Rattle.std.proofs.lemmas.List": "take-append-drop length-take-le take_at drop_at",
    "Rattle.std.proofs.lemmas.Bool": "cases_lt",
    "Rattle.std.proofs.lemmas.Bool.Decides": "nat_tests eqb_tells",
    "Rattle.bitstream_io.proofs.WordLemmas": "length-bits bits-append",
    "Rattle.bitstream_io.proofs.CallerLemmas": "inl inr packs-is packs-whole is_error slice_ends",
    "Rattle.bitstream_io.proofs.SequenceLemmas": "counted",
    "Rattle.bitstream_format.proofs.RestLemmas": "rest-back",
    "Rattle.bitstream_io.proofs.UnaryLemmas": "length-unary",
    "Rattle.bitstream_io.proofs.VbrLemmas": "zig-lt",
    "Rattle.bitstream_io.specs.Word": "zig",
    "Rattle.bitstream_format.specs.Varint": "varint_length varint_width",
    "Rattle.bitstream_format.specs.SizeLaws": "stored-whole",
    "Rattle.bitstream_io.specs.Callers": "EndOfInput Error Order High Low write_sequence align OwnAnswer ReadsOwn BitSource result_map bits optional_size same_error",
    "Rattle.std.specs.Result": "IsErrAnd",
    "Rattle.bitstream_io.specs.Codec": "Prefix Incomplete Done",
}


def lemma_uses(t: Target, text: str) -> list[str]:
    """Returns the imports of the lemmas of a format."""
    f = t.f
    shared = {f"Rattle.{t.crate}.proofs.SharedLemmas": "failed", f.lemmas_path: f"{f.m}_packs {f.m}_goes told"}
    parts_most = {
        f"Rattle.{t.crate}.proofs.{spec_of(it.module)}Lemmas": f"{it.module}_most"
        for it in parts(f.description)
        if it.description.bits is None
    }
    return uses(text, own_names(t), own_specs(f), types(f), shared, parts_most, varied(t), LEMMAS)


def varied(t: Target) -> Table:
    """Returns where the lemmas about reads of bytes in memory come from."""
    return {
        f"Rattle.{t.crate}.proofs.SharedLemmas": "bytes_of packs-begun",
        f"Rattle.{t.crate}.proofs.VariedLemmas": "counted_past groups_most optional_most padded read_decided",
        f"Rattle.{t.crate}.proofs.RestLemmas": "whole_packed",
        f"Rattle.{t.crate}.proofs.SumLemmas": "Tests done-tested if-ok room-same stored-first stored-length tests-end"
        " tests-if tests-part tests-read",
        f"Rattle.{t.crate}.proofs.ListLemmas": "bytes_into failed_ok kept_none kept_more kept_begin",
        f"Rattle.{t.crate}.proofs.PartLemmas": "failed_own item_fit item_free made_all made_fit made_none made_written none_written part_kept parts_failed"
        " parts_more parts_most parts_none some_written",
    }


def parse_uses(t: Target, text: str) -> list[str]:
    """Returns the imports of the proof of a parse."""
    return answer_uses(t, f"proved_{t.f.m}_parse", text)


def answer_uses(t: Target, function: str, text: str) -> list[str]:
    """Returns the imports of the proof of a function."""
    f = t.f
    names = f"first_bytes ok_only decided found_is packed within splits summed_is {f.m}_most"
    own = {f"Rattle.{t.crate}.proofs.{f.spec}Lemmas": names}
    own |= {f.lemmas_path: f"{f.m}_packs{' told' * (not f.sized)}"}
    goal = f"use Rattle.{t.crate}.proofs.{f.m}.{function}.Goals as goal"
    return [*uses(text, own_names(t), own_specs(f), own, varied(t), LEMMAS), goal]
