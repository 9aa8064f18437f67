"""Parts that fill a size, for C: the bytes of the size are read first, and then the parts over these bytes alone."""
from __future__ import annotations

from describing import model as m
from describing.c import cross, part_lists
from describing.c.part_lists import Shape
from describing.c.shared import MADE
from describing.layout import Format, Line
from describing.rust.sizes import ended_code, overrun_code
from describing.specs.sizes import overrun, reader_error
from describing.specs.terms import inside


def fills(f: Format) -> list[tuple[Line, m.Fill, Shape]]:
    """Returns the lists that fill a size, each with its line and its item."""
    found = [(it, it.kind) for it in f.lines if isinstance(it.kind, m.Fill)]
    return [(line, kind, one) for line, kind in found if (one := part_lists.shape(f, kind))]


def most(f: Format, kind: m.Fill) -> int:
    """Returns the greatest number of bytes of a size."""
    line = cross.counted(f.description, kind)
    assert isinstance(line, m.Size)
    return line.most


def item(f: Format, line: Line) -> str:
    """Returns the read of an item, with the errors of the format."""
    return f"({inside(f, line, f.o)})"


def known(f: Format, line: Line, kind: m.Fill) -> str:
    """Returns what reads the items of some bits, up to these bits."""
    return f"{item(f, line)} {overrun(kind)} {reader_error(kind)} {kind.name}_ended"


def beside(f: Format) -> list[tuple[m.Fill, Shape]]:
    """Returns the lists that fill a size next to other fields, each with its item."""
    return [(kind, one) for _, kind, one in fills(f)] if len(cross.fields(f.description)) > 1 else []


# ---- code


def firsts(f: Format) -> dict[str, str]:
    """Returns the tests of sizes next to other fields, of which a proof names the results, each with this name."""
    return {f"{kind.name}_fit(value.{kind.name})": f"{kind.name}_size_fits" for kind, _ in beside(f)}


def read_code(f: Format, kind: m.Fill, one: Shape) -> list[str]:
    """Returns the functions that read the items."""
    line = part_lists.line_of(f, kind)
    return [*ended_code(f, kind), *in_code(f, line, kind, one), *bytes_code(f, kind, one)]


def in_code(f: Format, line: Line, kind: m.Fill, one: Shape) -> list[str]:
    """Returns the function that reads the items over their bytes."""
    return [
        f"/// Parses these bytes as the items of `{kind.name}`, of which there are at most `size`, and keeps those for which",
        "/// there is room. Returns their number.",
        f"fn {kind.name}_in(bytes: &[u8], items: &mut [{one.item}], size: u64) -> Result<u64, {f.e}>",
        f"    ensures {{ FillsInto (items_from {known(f, line, kind)} 0 (bits {f.o} bytes.now) size) {one.to_c}",
        "        items.old result items.new }",
        "{",
        f"    let mut inside = SliceReader::<{f.order}>::over(bytes);",
        "    for place in 0..size {",
        "        if inside.is_at_end() {",
        "            return Ok(place);",
        "        }",
        f"        match {kind.use.name}::read(&mut inside) {{",
        f"            Ok(item) => {part_lists.keep(f, kind)}(items, place, {one.crossed}),",
        f"            Err(error) => return Err({kind.name}_ended({f.error}::from(error))),",
        "        }",
        "    }",
        "    if inside.is_at_end() {",
        "        return Ok(size);",
        "    }",
        f"    Err({f.e}::{overrun_code(kind)})",
        "}",
        "",
    ]


def bytes_code(f: Format, kind: m.Fill, one: Shape) -> list[str]:
    """Returns the function that reads the bytes of the size, and then the items."""
    return [
        f"/// Reads the `size` bytes of `{kind.name}`.",
        f"fn {kind.name}_bytes<R: BitRead>(reader: &mut R, bytes: &mut [u8], size: u64) -> Result<(), Error>",
        "    requires { length bytes.now ≡ size }",
        "    ensures { Reads R.source (bytes_decoder R.source.order size) reader.old (result_map (λ _. bytes.new) result)",
        "        reader.new }",
        "{",
        "    reader.read_bytes(bytes)",
        "}",
        "",
        f"/// Reads `{kind.name}`, which has `size` bytes, and keeps the items for which there is room. Returns their number.",
        f"fn read_{kind.name}<R: BitRead>(reader: &mut R, items: &mut [{one.item}], size: u64) -> Result<u64, {f.e}>",
        f"    requires order {{ R.source.order ≡ {f.o} }}",
        f"    requires most {{ size ≤ {most(f, kind)} }}",
        f"    ensures {{ PartsFilled R.source {f.becomes_name} ({kind.name}_sized R.source.order size) {one.to_c}",
        "        reader.old items.old result reader.new items.new }",
        "{",
        f"    let mut whole = [0u8; {most(f, kind)}];",
        "    let bytes = &mut whole[..size as usize];",
        f"    {kind.name}_bytes(reader, bytes, size)?;",
        f"    {kind.name}_in(bytes, items, size)",
        "}",
        "",
    ]


def fit_code(f: Format, kind: m.Fill, one: Shape) -> list[str]:
    """Returns the function that tests whether the size of the items fits its bits."""
    width, items = cross.counted(f.description, kind).width, f"(filter_map {one.from_c} items.now)"
    held = f"parts_size ({kind.use.module}_size High) {items} / 8"
    return [
        f"/// Returns true if the size of the items of `{kind.name}` fits its bits.",
        f"fn {kind.name}_fit(items: &[{one.item}]) -> bool",
        f"    ensures fits {{ IsTrue result ↔ {held} < 2 ^ {width} }}",
        f"    ensures whole {{ (o : Order) → parts_size ({kind.use.module}_size o) {items}",
        f"        ≡ 8 * ({held}) }}",
        "{",
        f"    count_{one.word}(items) <= {cross.most_items(f.description, kind)}",
        "}",
        "",
    ]


def tests_code(f: Format) -> list[str]:
    """Returns the functions that test the sizes of the lists."""
    return [line for _, kind, one in fills(f) for line in fit_code(f, kind, one)]


def writing_code(f: Format) -> list[str]:
    """Returns the functions that count the bits of the items."""
    out = list[str]()
    for _, kind, one in fills(f):
        writes = f"flat_map ({kind.use.module}_writes High) (filter_map {one.from_c} items.now)"
        out += [
            f"/// Returns the number of bits of the items of `{kind.name}` that stand for a `{one.type}`.",
            f"fn {kind.name}_bits(items: &[{one.item}]) -> Result<u64, Error>",
            f"    ensures {{ CountsBits (λ bits. bits) {2**64 - 1} same_error ({writes})",
            "        (Ok tt) result }",
            "{",
            "    let mut counter = BitsWritten::<u64>::new();",
            f"    write_{kind.name}(&mut counter, items)?;",
            "    Ok(counter.into_written())",
            "}",
            "",
        ]
    return out


# ---- the texts that each crate has alike

SPECS = """-- Parts that fill a size, of which the caller has structs of C.
use Rattle.std.specs.Prelude.{◌≡◌, ℕ, List, Result, IfOk, length, map}
use Rattle.bitstream_io.specs.Callers.{Decoder, Error, BitSource, ReadsOwn, result_map}
use Rattle.CRATE.specs.Lists.{stored}

-- Parts that were read over their bytes alone: `known` is what these bytes are read as, and the slice holds the parts for
-- which there is room, as structs of C. The result is the number of parts.
pub record FillsInto {A C E : Type 0} (known : Result (List A) E) (to_c : A → C) (was : List C) (result : Result ℕ E)
    (now : List C) : Type 0 where
  pub all : List A
  pub told : result_map (λ _. all) result ≡ known
  pub size : IfOk result (λ n. length all ≡ n)
  pub keeps : now ≡ stored (map to_c all) was

-- A read of the bytes of a size, and then of the parts.
pub record PartsFilled {R A C E : Type 0} (K : BitSource R) (becomes : Error → E → Type 0)
    (decoder : Decoder (Result (List A) E)) (to_c : A → C) (old : R) (was : List C) (result : Result ℕ E) (new : R)
    (now : List C) : Type 0 where
  pub all : List A
  pub reads : ReadsOwn K becomes decoder old (result_map (λ _. all) result) new
  pub size : IfOk result (λ n. length all ≡ n)
  pub keeps : now ≡ stored (map to_c all) was
"""

LEMMAS = """-- Parts that fill a size, by reads that do not allocate.
use Rattle.std.proofs.Common.{◌≡◌, ◌∙◌, ◌+◌, ◌-◌, ◌*◌, ◌/◌, ◌<◌, ◌++◌, ◌∷◌, [], ℕ, suc, Bool, true, false, List, Result, Ok, Err, length, refl, sym, ap, subst, arith}
use Rattle.std.specs.Prelude.{◌↔◌, IsTrue, IfSome, option_map}
use Rattle.bitstream_io.specs.Callers.{Decoder, Done, Error, EndOfInput, Order, High, BitSource, OwnAnswer, Reads, ReadsOwn, bits, bits_left, bytes_decoder, sure_answer}
use Rattle.bitstream_io.specs.Codec.{Prefix, Incomplete}
use Rattle.bitstream_io.specs.Loop.{parts_size}
use Rattle.bitstream_io.specs.Refusal.{TrueEnds}
use Rattle.bitstream_io.proofs.CallerLemmas.{next_own_read}
use Rattle.bitstream_io.proofs.ReadsLemmas.{Reads-pure, Reads-same}
use Rattle.bitstream_io.proofs.SliceLemmas.{Reads-answer}
use Rattle.bitstream_format.specs.Filled.{filled_decoder, items_from, next_item}
use Rattle.bitstream_format.specs.Sizes.{answered}
use Rattle.bitstream_format.specs.SizeLaws.{items_and, items-next}
use Rattle.bitstream_format.proofs.FilledLemmas.{ItemsSoFar}
use Rattle.CRATE.proofs.ListLemmas.{bytes_into}

-- parts of n bytes each
parts_same : {A : Type 0} (size : A → ℕ) (n : ℕ) → ((it : A) → size it ≡ 8 * n) → (items : List A)
    → parts_size size items ≡ 8 * (length items * n)
parts_same size n same [] = omega arith
parts_same size n same (item ∷ items) =
    let one = same item in
    let rest = parts_same size n same items in
    omega (arith, one, rest)

pub fill_bytes : {A : Type 0} (size : Order → A → ℕ) (n : ℕ) → ((o : Order) (it : A) → size o it ≡ 8 * n)
    → (items : List A) → parts_size (size High) items / 8 ≡ length items * n
fill_bytes size n same items =
    let high = parts_same (size High) n (same High) items in
    omega (arith, high)

pub fill_whole : {A : Type 0} (size : Order → A → ℕ) (n : ℕ) → ((o : Order) (it : A) → size o it ≡ 8 * n)
    → (items : List A) (o : Order) → parts_size (size o) items ≡ 8 * (parts_size (size High) items / 8)
fill_whole size n same items o =
    let here = parts_same (size o) n (same o) items in
    let high = parts_same (size High) n (same High) items in
    omega (arith, here, high)

-- what bits with an error are read as
stopped_by : {A E : Type 0} (err : E) (own : Error → E) (ended : E → E) {x : E} (rest : ℕ → Result (List A) E)
    → ended (own EndOfInput) ≡ err → (p : Prefix (Result A E))
    → OwnAnswer (λ error y. y ≡ own error) (λ y. y) (sure_answer p) (Err x)
    → Err (ended x) ≡ next_item err own ended p rest
stopped_by err own ended rest ends Incomplete is = ap (λ z. Err (ended z)) is ∙ ap Err ends
stopped_by err own ended rest ends (Done m (Ok (Ok a))) is = cc
stopped_by err own ended {x = x} rest ends (Done m (Ok (Err y))) is =
    let same : x ≡ y = cc in ap (λ z. Err (ended z)) same
stopped_by err own ended rest ends (Done m (Err y)) is = ap (λ z. Err (ended z)) is

-- a part whose error ends the read
pub fill_stop : {R A E : Type 0} {K : BitSource R} (decoder : Decoder (Result A E)) (err : E) (own : Error → E)
    (ended : E → E) (w : List Bool) (most count : ℕ) {found : List A} {s : R}
    (so : ItemsSoFar K decoder err own ended w most count found s) → count < most
    → ((K.state s).failed ≡ false → IfSome (bits_left K.order (K.state s)) (λ l. IsTrue false ↔ (length l ≡ 0)))
    → (x : E) (t : R) → TrueEnds K.may → ended (own EndOfInput) ≡ err
    → ReadsOwn K (λ error y. y ≡ own error) decoder s (Err x) t
    → Err (ended x) ≡ items_from decoder err own ended 0 w most
fill_stop {K = K} decoder err own ended w most count {found = found} {s = s} so less end x t sure ends h =
    let known : IsTrue false ↔ (length ((K.state s).queue ++ bits K.order so.bytes) ≡ 0) =
    subst (λ o. IfSome o (λ l. IsTrue false ↔ (length l ≡ 0)))
    (ap (λ b. option_map (λ xs. (K.state s).queue ++ bits K.order xs) b) so.known) (end so.fine) in
    let some : length ((K.state s).queue ++ bits K.order so.bytes) ≡ 0 → ⊥ =
    λ none. (let no : false ≡ true = known.1 none in cc) in
    let more : most - count ≡ suc (most - (count + 1)) = omega (arith, less) in
    let is = Reads-answer {s = s} {t = t} sure so.bytes so.fine so.known h.called in
    let answer = subst (λ z. OwnAnswer (λ error y. y ≡ own error) (λ y. y) z (Err x)) is h.answer in
    ap (items_and found)
    (stopped_by err own ended _ ends (decoder.reads (K.state s).taken ((K.state s).queue ++ bits K.order so.bytes)) answer)
    ∙ sym (so.same
    ∙ ap (λ k. items_and found (items_from decoder err own ended (K.state s).taken ((K.state s).queue ++ bits K.order so.bytes) k)) more
    ∙ ap (items_and found)
    (items-next decoder err own ended (K.state s).taken (most - (count + 1)) ((K.state s).queue ++ bits K.order so.bytes) some))

answered_end : {R A E : Type 0} {K : BitSource R} {becomes : Error → E → Type 0} (r : Result A E) (s : R)
    → ReadsOwn K becomes (answered true r) s r s
answered_end r s = record {
  plain = Ok r;
  called = Reads-same (record { reads = λ p b. refl; on_failed = refl }) (Reads-pure r s);
  answer = refl;
}

-- the bytes of a size, and then the parts
pub fill_done : {R A E : Type 0} {K : BitSource R} {becomes : Error → E → Type 0} (own : Error → E) {r : Result (List A) E}
    (decoder : Order → Decoder (Result A E)) (err : E) (ended : E → E) {o p : Order} (n : ℕ) {xs : List ℕ} {s t : R}
    → o ≡ p → Reads K (bytes_decoder o n) s (Ok xs) t → r ≡ items_from (decoder p) err own ended 0 (bits p xs) n
    → ReadsOwn K becomes (filled_decoder decoder err own ended o n) s r t
fill_done {K = K} {becomes = becomes} own {r = r} decoder err ended {o = o} n {xs = xs} {t = t} same read told =
    next_own_read _ (bytes_into o n read)
    (subst (λ v. ReadsOwn K becomes (answered true v) t r t)
    (subst (λ q. r ≡ items_from (decoder q) err own ended 0 (bits q xs) n) (sym same) told) (answered_end r t))
"""


def files(crate: str) -> dict[str, str]:
    """Returns the texts by their places in the crate."""
    return {
        "specs/Fills.antt": f"-- {MADE}\n{SPECS.replace('CRATE', crate)}",
        "proofs/FillLemmas.antt": f"-- {MADE}\n{LEMMAS.replace('CRATE', crate)}",
    }
