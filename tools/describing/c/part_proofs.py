"""The proofs of the functions for C of lists of parts and of enums."""
from __future__ import annotations

from describing import model as m
from describing.c import part_lists
from describing.c.cross import Listed, lists
from describing.c.imports import own_names, varied
from describing.c.part_lists import Shape, keep, shape
from describing.c.target import Target
from describing.imports import own_specs
from describing.names import Table, uses

# The lemmas that these proofs use.
LEMMAS: Table = {
    "Rattle.std.proofs.Common": "≡ < ^ ∙ + ++ ∷ [] Ok Err length map refl sym arith length-append",
    "Rattle.std.proofs.lemmas.List": "length-map",
    "Rattle.bitstream_io.specs.Callers": "Reads ReadsOwn items_decoder list_item parts_decoder optional_writes unsigned",
    "Rattle.bitstream_io.specs.Loop": "ItemsWritten",
    "Rattle.bitstream_io.proofs.CallerLemmas": "item-read items-begin items-push items-stop own_made written-begin written-more"
    " written-stop",
    "Rattle.bitstream_io.proofs.EachLemmas": "own_map_err",
}


def laid_out(t: Target, function: str, text: str, goals: str = "Goals") -> str:
    """Returns the text of a file of proofs, with its imports."""
    imports = uses(text, own_names(t), own_specs(t.f), varied(t), LEMMAS)
    goal = f"use Rattle.{t.crate}.proofs.{t.f.m}.{function}.{goals} as goal"
    return "\n".join([f"-- {t.made}", *imports, goal, "", text])


def write_uses(t: Target, text: str) -> list[str]:
    """Returns the imports of the proof of the write of all fields."""
    if "made_written" not in text:
        return []
    made = {f"Rattle.{t.crate}.proofs.PartLemmas": "made_written"}
    items = {"Rattle.bitstream_io.specs.Callers": "unsigned", "Rattle.std.proofs.Common": "∷ []"}
    return uses(text, made, own_names(t), own_specs(t.f), items)


def files(t: Target) -> dict[str, str]:
    """Returns the proofs of the functions of lists of parts and of enums, by their places in the crate."""
    found = dict[str, str]()
    for it in lists(t.f.description):
        if one := shape(t.f, it):
            found |= shape_files(t, it, one) | list_files(t, it, one)
    return found


def shape_files(t: Target, kind: Listed, one: Shape) -> dict[str, str]:
    """Returns the proofs of the functions for an item, by their places in the crate."""
    word, home = one.word, f"proofs/{t.f.m}"
    there = "c.fields.ensures" if one.fields.endswith("fields()") else f"c.{word}_item.ensures"
    wrote = "c.write.ensures"
    if one.spec == "ℕ":
        wrote = "(rw c.number.ensures at c.write.ensures.writes)"
    calls, sink = part_lists.given_writes(kind), "g.W.BitWrite.sink"
    answers = {
        f"{word}_items": f"""pub returns-then-are_{word} : goal.returns-then-are_{word}
returns-then-are_{word} c = sym (made_all {one.from_c} _ (c.are_{word}.ensures.0 c.if-are_{word}.true))

pub returns : goal.returns
returns c = sym (made_none {one.from_c} _ (λ all. let yes = c.are_{word}.ensures.1 all in let other = c.if-are_{word}.false in cc))
""",
        f"write_{word}_item": f"""pub returns-in-Some : goal.returns-in-Some
returns-in-Some g c = some_written {sink} {calls} _ _ _ _ _ (sym {there} ∙ c.in-Some.is) {wrote}

pub returns-in-None : goal.returns-in-None
returns-in-None g c = none_written {sink} {calls} _ c.args.writer.now (sym {there} ∙ c.in-None.is)
""",
    }
    if one.fits and one.spec != "ℕ":
        item = f"{one.from_c} {one.says} c.args.item.now"
        answers[
            f"{word}_item_fits"
        ] = f"""pub returns-in-Some : goal.returns-in-Some
returns-in-Some c = item_fit {item} _ _ (sym {there} ∙ c.in-Some.is) c.is_fit.ensures

pub returns-in-None : goal.returns-in-None
returns-in-None c = item_free {item} (sym {there} ∙ c.in-None.is)
"""
    if one.fits:
        answers[
            f"all_{word}_fit"
        ] = f"""pub returns : goal.returns
returns c =
    let same = made_fit {one.from_c} {one.says} c.args.items.now in
    (λ yes. same.0 (c.{word}_items_fit.ensures.0 yes), λ all. c.{word}_items_fit.ensures.1 (same.1 all))
"""
    return {f"{home}/{function}/Answers.antt": laid_out(t, function, text) for function, text in answers.items()}


def list_files(t: Target, kind: Listed, one: Shape) -> dict[str, str]:
    """Returns the proofs of the functions that read and write a list, by their places in the crate."""
    read, write, home = f"read_{kind.name}", f"write_{kind.name}", f"proofs/{t.f.m}"
    reads = {
        f"{home}/{read}/Invariants.antt": laid_out(t, read, invariant(t, kind, one), "Given"),
        f"{home}/{read}/Answers.antt": laid_out(t, read, read_answers(t, kind, one)),
    }
    return ({} if isinstance(kind, m.Fill) else reads) | {
        f"{home}/{write}/Invariants.antt": laid_out(t, write, write_invariant(kind, one), "Given"),
        f"{home}/{write}/Answers.antt": laid_out(t, write, write_answers(kind, one)),
    }


def invariant(t: Target, kind: Listed, one: Shape) -> str:
    """Returns the invariant of the loop that reads a list."""
    own, decoder = part_lists.line_of(t.f, kind).own, part_lists.decoder(t.f, kind, "K.order", "l.place")
    reads = f"ReadsOwn K {t.f.becomes_name}" if own else "Reads K"
    return f"""-- the items so far were read and kept
abbrev pub invariant-loop-place : goal.invariant-loop-place
invariant-loop-place g l =
    let K = g.R.BitRead.source in
    PartsKept (λ all. {reads} {decoder} l.fn.reader (Ok all) l.reader) {one.to_c} l.place
    l.initial.items l.items
"""


ALL = "let all : c.loop-place.place ≡ c.args.count = omega (arith, c.loop-place-test.false, c.loop-place.auto.place-end) in"


def steps(t: Target, kind: Listed, one: Shape) -> tuple[str, str, str]:
    """Returns what is read before any item, up to an item that fails, and with one item more."""
    if not part_lists.line_of(t.f, kind).own:
        return (
            "items-begin _ refl",
            "items-stop _ _ _ (λ _. was.all) c.from_residual.result c.loop-place-test.true was.reads\n"
            "          (item-read c.in_err-item.ensures) c.from_residual.ensures.1",
            "items-push _ _ refl was.reads (item-read c.in_ok-item.ensures)",
        )
    item, failed, read = part_lists.one_decoder(t.f, kind, "g.R.BitRead.source.order"), "c.in_err-item.ensures", ""
    read = "c.in_ok-item.ensures"
    if t.f.mapped(kind):
        failed, read = (
            f"(own_made _ (Err _) {failed} (λ error is. rw is refl))",
            f"(own_made _ (Ok _) {read} (λ error is. absurd is))",
        )
    return (
        f"parts_none ({item}) _",
        "rw (own_map_err _ c.from_residual.result c.from_residual.ensures.1)\n"
        f"          (parts_failed ({item}) _ c.args.count c.loop-place-test.true was.reads\n          {failed})",
        f"parts_more ({item}) _ was.reads\n          {read}",
    )


def read_answers(t: Target, kind: Listed, one: Shape) -> str:
    """Returns the answers of the function that reads a list."""
    begin, stop, push = steps(t, kind, one)
    return f"""pub loop-place-init : goal.loop-place-init
loop-place-init g c = record {{ all = []; reads = {begin}; size = refl; keeps = kept_begin _ }}

pub returns-in_err-item : goal.returns-in_err-item
returns-in_err-item g c =
    let was = c.loop-place.invariant in
    record {{
      all = was.all;
      reads = {stop};
      size = failed_own _ c.from_residual.result c.from_residual.ensures.1;
      keeps = was.keeps;
    }}

pub loop-place-preserved : goal.loop-place-preserved
loop-place-preserved g c =
    let was = c.loop-place.invariant in
    let count = length-map was.all {one.to_c} ∙ was.size in
    record {{
      all = was.all ++ c.in_ok-item.item ∷ [];
      reads = {push};
      size = omega (arith, length-append was.all (c.in_ok-item.item ∷ []), was.size);
      keeps = part_kept {one.to_c} was.all c.in_ok-item.item _ _ _ c.{one.step}.ensures
          (c.{keep(t.f, kind)}.ensures (map {one.to_c} was.all) _ count was.keeps);
    }}

pub returns : goal.returns
returns g c =
    {ALL}
    let was = c.loop-place.invariant in
    record {{ all = was.all; reads = rw (← all) was.reads; size = λ _. was.size ∙ all; keeps = was.keeps }}
"""


def write_invariant(kind: Listed, one: Shape) -> str:
    """Returns the invariant of the loop that writes a list."""
    return f"""-- the items so far were written
abbrev pub invariant-loop-item : goal.invariant-loop-item
invariant-loop-item g l =
    let K = g.W.BitWrite.sink in
    ItemsWritten K ({part_lists.writes(one, kind, 'K.order')}) l.items l.item-index
    l.initial.writer l.writer
"""


def write_answers(kind: Listed, one: Shape) -> str:
    """Returns the answers of the function that writes a list."""
    label, calls = f"write_{one.word}_item", f"({part_lists.writes(one, kind, 'K.order')})"
    after = "c.loop-item-test.true refl c.loop-item.invariant"
    return f"""pub loop-item-init : goal.loop-item-init
loop-item-init g c =
    let K = g.W.BitWrite.sink in
    written-begin K {calls} c.args.items.now _

pub returns-in_err-{label} : goal.returns-in_err-{label}
returns-in_err-{label} g c =
    let K = g.W.BitWrite.sink in
    written-stop K {calls} c.args.items.now _ _ _ _ _ _ _ _
    {after} c.in_err-{label}.ensures c.from_residual.ensures.1

pub loop-item-preserved : goal.loop-item-preserved
loop-item-preserved g c =
    let K = g.W.BitWrite.sink in
    written-more K {calls} c.args.items.now _ _ _ _ _ _
    {after} c.in_ok-{label}.ensures
"""
