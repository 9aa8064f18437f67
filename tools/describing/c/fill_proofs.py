"""The proofs of the functions for C of parts that fill a size."""
from __future__ import annotations

from describing import model as m
from describing.c import cross, fills, part_lists
from describing.c.imports import own_names, varied
from describing.c.part_lists import Shape, keep
from describing.c.target import Target
from describing.imports import own_specs, types
from describing.layout import Format, Line
from describing.names import Table, uses
from describing.proofs.sizes import count_answers, grown
from describing.specs.sizes import overrun
from describing.specs.terms import inside

# The lemmas that these proofs use.
LEMMAS: Table = {
    "Rattle.std.proofs.Common": "≡ ∙ + ++ ∷ [] ℕ Ok Err false length map filter_map refl sym arith rules length-append",
    "Rattle.std.proofs.lemmas.List": "length-map",
    "Rattle.bitstream_io.specs.Callers": "memory_source bits High Low plain_reads optional_writes",
    "Rattle.bitstream_io.proofs.CallerLemmas": "slice_ends next_own_read exit_own_read own_end own_made grown if_grown"
    " plainly_written",
    "Rattle.bitstream_io.proofs.GrowsLemmas": "go_grown stop_grown grown_end",
    "Rattle.bitstream_io.proofs.EachLemmas": "own_map_err",
    "Rattle.bitstream_io.proofs.LengthLemmas": "count_done count_stopped",
    "Rattle.bitstream_format.proofs.FilledLemmas": "ItemsSoFar so_far-begin so_far-end so_far-more so_far-push",
}


def laid_out(t: Target, function: str, text: str, goals: str = "Goals") -> str:
    """Returns the text of a file of proofs, with its imports."""
    crate = f"Rattle.{t.crate}"
    own = {
        f"{crate}.proofs.FillLemmas": "fill_bytes fill_done fill_stop fill_whole",
        f"{crate}.proofs.PartLemmas": "made_written",
        f"{crate}.proofs.ListLemmas": "bytes_into failed_if",
    }
    imports = uses(text, own_names(t), own_specs(t.f), types(t.f), own, varied(t), LEMMAS)
    goal = f"use {crate}.proofs.{t.f.m}.{function}.{goals} as goal"
    return "\n".join([f"-- {t.made}", *imports, goal, "", text])


def files(t: Target) -> dict[str, str]:
    """Returns the proofs by their places in the crate."""
    found, home = dict[str, str](), f"proofs/{t.f.m}"
    for line, kind, one in fills.fills(t.f):
        inside, read, bits = f"{kind.name}_in", f"read_{kind.name}", f"{kind.name}_bits"
        found |= {
            f"{home}/{inside}/Invariants.antt": laid_out(t, inside, invariant(t, line, kind, one), "Given"),
            f"{home}/{inside}/Answers.antt": laid_out(t, inside, in_answers(t, line, kind, one)),
            f"{home}/{read}/Answers.antt": laid_out(t, read, read_answers(t, line, kind)),
            f"{home}/{bits}/Answers.antt": laid_out(t, bits, bits_answers(t, kind, one)),
            f"{home}/{kind.name}_bytes/Answers.antt": laid_out(t, f"{kind.name}_bytes", bytes_answers()),
            f"{home}/{kind.name}_fit/Answers.antt": laid_out(t, f"{kind.name}_fit", fit_answers(kind, one)),
        }
    return found


def shape_of(kind: m.Fill, one: Shape, items: str) -> str:
    """Returns what says that each of some items of C has the same number of bytes."""
    return f"{kind.use.module}_size {cross.item_width(kind) // 8} (λ o it. refl) (filter_map {one.from_c} {items})"


def whole(f: Format) -> list[str]:
    """Returns the facts that the items next to other fields have whole bytes."""
    found = fills.beside(f)
    return [f"fill_whole {shape_of(kind, one, f'c.args.value.now.{kind.name}.now')}" for kind, one in found]


def fit_answers(kind: m.Fill, one: Shape) -> str:
    """Returns the answers of the function that tests the size of the items."""
    shape = shape_of(kind, one, "c.args.items.now")
    return f"""pub returns-clause-fits : goal.returns-clause-fits
returns-clause-fits c =
    let fit_0 = fill_bytes {shape} in
    search rules

pub returns-clause-whole : goal.returns-clause-whole
returns-clause-whole c = fill_whole {shape}
"""


def bytes_answers() -> str:
    """Returns the answer of the function that reads the bytes of a size."""
    return """pub returns : goal.returns
returns g c = rw (← c.requires) c.read_bytes.ensures.reads
"""


def invariant(t: Target, line: Line, kind: m.Fill, one: Shape) -> str:
    """Returns the invariant of the loop over the items."""
    f = t.f
    so_far = f"ItemsSoFar (memory_source {f.o}) {fills.known(f, line, kind)} (bits {f.o} l.bytes) l.size l.place"
    return f"""-- the items so far were read and kept
abbrev pub invariant-loop-place : goal.invariant-loop-place
invariant-loop-place l =
    PartsKept (λ found. {so_far} found l.inside) {one.to_c} l.place l.initial.items l.items
"""


def in_answers(t: Target, line: Line, kind: m.Fill, one: Shape) -> str:
    """Returns the answers of the function that reads the items over their bytes."""
    f = t.f
    so_far = f"{fills.known(f, line, kind)} (bits {f.o} c.args.bytes.now) c.args.size"
    here = f"{so_far} c.loop-place.place was.reads"
    left = "c.if-is_at_end.ensures.left"
    failed = "exit_own_read _ refl c.in-Err.ensures"
    if f.mapped(kind):
        failed = "own_made _ (Err _) c.in-Err.ensures (λ error is. rw is refl)"
    kept = "size = {}; keeps = was.keeps"
    return f"""pub loop-place-init : goal.loop-place-init
loop-place-init c = record {{
  all = [];
  reads = so_far-begin {so_far} 0 c.over-inside.ensures.state refl refl refl;
  size = refl;
  keeps = kept_begin _;
}}

pub returns-then-is_at_end : goal.returns-then-is_at_end
returns-then-is_at_end c =
    let was = c.loop-place.invariant in
    record {{ all = was.all; told = so_far-end {here} {left}; {kept.format("was.size")} }}

pub returns-in-Err : goal.returns-in-Err
returns-in-Err c =
    let was = c.loop-place.invariant in
    record {{
      all = was.all;
      told = rw (c.{kind.name}_ended.ensures, c.from.ensures)
          (fill_stop {here} c.loop-place-test.true {left} _ _ slice_ends refl ({failed}));
      {kept.format("tt")};
    }}

pub loop-place-preserved : goal.loop-place-preserved
loop-place-preserved c =
    let was = c.loop-place.invariant in
    let count = length-map was.all {one.to_c} ∙ was.size in
    record {{
      all = was.all ++ c.in-Ok.item ∷ [];
      reads = so_far-push {here} c.loop-place-test.true {left} c.in-Ok.item _ _ refl {grown(f, line, kind, "in-Ok", True)};
      size = omega (arith, length-append was.all (c.in-Ok.item ∷ []), was.size);
      keeps = part_kept {one.to_c} was.all c.in-Ok.item _ _ _ c.{one.step}.ensures
          (c.{keep(f, kind)}.ensures (map {one.to_c} was.all) _ count was.keeps);
    }}

pub returns-then-is_at_end-2 : goal.returns-then-is_at_end-2
returns-then-is_at_end-2 c =
    let was = c.loop-place.invariant in
    let all : c.loop-place.place ≡ c.args.size = omega (arith, c.loop-place-test.false, c.loop-place.auto.place-end) in
    record {{ all = was.all; told = so_far-end {here} c.if-is_at_end-2.ensures.left; {kept.format("was.size ∙ all")} }}

pub returns : goal.returns
returns c =
    let was = c.loop-place.invariant in
    record {{
      all = was.all;
      told = so_far-more {here} (omega (arith, c.loop-place-test.false)) c.if-is_at_end-2.ensures.left;
      {kept.format("tt")};
    }}
"""


def read_answers(t: Target, line: Line, kind: m.Fill) -> str:
    """Returns the answers of the function that reads the bytes of the size, and then the items."""
    f = t.f
    decoder = f"(λ o. {inside(f, line, 'o')})"
    shape = f"{decoder} {overrun(kind)} {kind.name}_ended c.args.size c.requires.order"
    return f"""pub returns-in_err-{kind.name}_bytes : goal.returns-in_err-{kind.name}_bytes
returns-in_err-{kind.name}_bytes g c = record {{
  all = [];
  reads = rw (own_map_err _ c.from_residual.result c.from_residual.ensures.1)
      (exit_own_read _ refl (bytes_into _ _ c.in_err-{kind.name}_bytes.ensures));
  size = failed_if _ _ c.from_residual.result c.from_residual.ensures.1;
  keeps = kept_begin _;
}}

pub returns : goal.returns
returns g c =
    let was = c.{kind.name}_in.ensures in
    record {{
      all = was.all;
      reads = fill_done (λ error. Reader error) {shape} c.in_ok-{kind.name}_bytes.ensures was.told;
      size = was.size;
      keeps = was.keeps;
    }}
"""


def bits_answers(t: Target, kind: m.Fill, one: Shape) -> str:
    """Returns the answers of the function that counts the bits of the items."""
    text = "\n".join(count_answers(t.f, kind.name)[1:]).strip("\n")
    made = f"made_written {one.from_c} ({part_lists.item_calls(kind, 'High')}) _"
    for arm in ("in_err", "in_ok"):
        wrote = f"c.{arm}-write_{kind.name}.ensures"
        text = text.replace(wrote, f"(rw ({made}) at {wrote})")
    return text + "\n"
