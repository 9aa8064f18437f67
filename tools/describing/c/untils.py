"""Bytes up to a terminator, for C: a loop reads them into storage of the caller."""
from __future__ import annotations

from describing import model as m
from describing.c import cross
from describing.c.shared import MADE
from describing.c.target import Target
from describing.layout import Format

FUNCTION = "keep_until"


def untils(f: Format) -> list[m.Until]:
    """Returns the bytes up to a terminator."""
    return [it for it in cross.lists(f.description) if isinstance(it, m.Until)]


def test_name(kind: m.Until) -> str:
    """Returns the name of the function that tests that no byte is the terminator."""
    return f"all_but_{kind.stop}"


# ---- code


def test_code(kind: m.Until) -> list[str]:
    """Returns the function that tests that no byte is the terminator."""
    return [
        f"/// Returns true if no byte is {kind.stop}.",
        f"fn {test_name(kind)}(items: &[u8]) -> bool",
        f"    ensures {{ IsTrue result ↔ IsUnended {kind.stop} items.now }}",
        "{",
        f"    items.iter().all(|x| u16::from(*x) < 256 && *x != {kind.stop})",
        "}",
        "",
    ]


def read_code(f: Format) -> list[str]:
    """Returns the function that reads bytes up to a terminator."""
    if not untils(f):
        return []
    return [
        "/// Reads bytes up to the first `stop`, keeps those for which there is room, and returns their number.",
        f"fn {FUNCTION}<R: BitRead>(reader: &mut R, items: &mut [u8], stop: u8) -> Result<u64, Error>",
        "    ensures { ReadsUntil R.source (until_decoder R.source.order stop) reader.old items.old result reader.new items.new }",
        "{",
        f"    for place in 0..{2**32}_u64 {{",
        "        let byte: u8 = reader.read_unsigned_var(8)?;",
        "        if byte == stop {",
        "            return Ok(place);",
        "        }",
        "        keep_u8(items, place, byte);",
        "    }",
        "    reader.fail();",
        "    Err(Error::RunTooLong)",
        "}",
        "",
    ]


# ---- proofs


def answer_files(t: Target) -> dict[str, str]:
    """Returns the proofs of the function that reads bytes up to a terminator."""
    home = f"proofs/{t.f.m}/{FUNCTION}"
    if not untils(t.f):
        return {}
    return {f"{home}/Invariants.antt": invariant(t), f"{home}/Answers.antt": answers(t)}


def invariant(t: Target) -> str:
    """Returns the invariant of the loop."""
    return f"""-- {t.made}
use Rattle.{t.crate}.specs.Lists.{{ItemsKept}}
use Rattle.{t.crate}.proofs.UntilLemmas.{{UntilRead}}
use Rattle.{t.crate}.proofs.{t.f.m}.{FUNCTION}.Given as goal

-- the bytes so far were read and kept, and none of them is the terminator
abbrev pub invariant-loop-place : goal.invariant-loop-place
invariant-loop-place g l =
    let K = g.R.BitRead.source in
    ItemsKept (λ all. UntilRead K l.stop l.place l.fn.reader all l.reader) l.place l.initial.items l.items
"""


def answers(t: Target) -> str:
    """Returns the answers of the loop."""
    return f"""-- {t.made}
use Rattle.std.proofs.Common.{{◌≡◌, ◌∙◌, ◌+◌, ◌++◌, ◌∷◌, [], refl, arith, length-append}}
use Rattle.std.proofs.lemmas.Bool.{{eq-eqb, ne_eqb}}
use Rattle.bitstream_io.proofs.ReadsLemmas.{{map_err}}
use Rattle.{t.crate}.proofs.ListLemmas.{{failed_if, kept_begin}}
use Rattle.{t.crate}.proofs.UntilLemmas.{{until_begin, until_end, until_push, until_stop, until_too_long}}
use Rattle.{t.crate}.proofs.{t.f.m}.{FUNCTION}.Goals as goal

pub loop-place-init : goal.loop-place-init
loop-place-init g c = record {{ all = []; reads = until_begin c.args.stop _; size = refl; keeps = kept_begin _ }}

pub returns-in_err-byte : goal.returns-in_err-byte
returns-in_err-byte g c =
    let was = c.loop-place.invariant in
    record {{
      all = was.all;
      reads = rw (map_err (λ _. was.all) c.from_residual.result c.from_residual.ensures.1)
          (until_stop c.args.stop c.loop-place.place was.reads _ _ c.loop-place-test.true c.in_err-byte.ensures.reads);
      size = failed_if _ _ c.from_residual.result c.from_residual.ensures.1;
      keeps = was.keeps;
    }}

pub returns-then-byte-stop : goal.returns-then-byte-stop
returns-then-byte-stop g c =
    let was = c.loop-place.invariant in
    record {{
      all = was.all;
      reads = until_end c.args.stop c.loop-place.place was.reads _ _ c.loop-place-test.true c.in_ok-byte.ensures.reads
          (eq-eqb _ _ c.if-byte-stop.true);
      size = was.size;
      keeps = was.keeps;
    }}

pub loop-place-preserved : goal.loop-place-preserved
loop-place-preserved g c =
    let was = c.loop-place.invariant in
    record {{
      all = was.all ++ c.in_ok-byte.byte ∷ [];
      reads = until_push c.args.stop c.loop-place.place was.reads _ _ c.loop-place-test.true c.in_ok-byte.ensures.reads
          (ne_eqb _ _ c.if-byte-stop.false);
      size = omega (arith, length-append was.all (c.in_ok-byte.byte ∷ []), was.size);
      keeps = c.keep_u8.ensures was.all _ was.size was.keeps;
    }}

pub returns : goal.returns
returns g c =
    let was = c.loop-place.invariant in
    record {{
      all = was.all;
      reads = until_too_long c.args.stop c.loop-place.place was.reads _
          (omega (arith, c.loop-place-test.false, c.loop-place.auto.place-end)) c.fail.ensures;
      size = tt;
      keeps = was.keeps;
    }}
"""


# ---- the texts that each crate has alike

SPECS = """-- Bytes up to a terminator, in storage of the caller.
use Rattle.std.specs.Prelude.{◌≡◌, ℕ, List, Result, IfOk, length}
use Rattle.bitstream_io.specs.Callers.{Decoder, Error, BitSource, Reads, result_map}
use Rattle.CRATE.specs.Lists.{stored}

-- A read of items whose number is known once they are read. The slice has those for which there is room, and the result is
-- the number of all.
pub record ReadsUntil {R A : Type 0} (K : BitSource R) (decoder : Decoder (List A)) (old : R) (was : List A)
    (result : Result ℕ Error) (new : R) (now : List A) : Type 0 where
  pub all : List A
  pub reads : Reads K decoder old (result_map (λ _. all) result) new
  pub size : IfOk result (λ n. length all ≡ n)
  pub keeps : now ≡ stored all was
"""

LEMMAS = """-- Bytes up to a terminator, by reads that do not allocate.
use Rattle.std.proofs.Common.{◌≡◌, ℕ, suc, ◌+◌, ◌-◌, ◌<◌, ◌==◌, true, false, List, [], ◌∷◌, ◌++◌, Result, Ok, Err, refl, sym, subst, arith}
use Rattle.std.specs.Prelude.{if◌then◌else◌}
use Rattle.bitstream_io.specs.Error.TheVariants.{RunTooLong, Failed}
use Rattle.bitstream_io.specs.Callers.{Decoder, Error, BitSource, Reads, and_then, fail, pure, stores}
use Rattle.bitstream_io.specs.ReadTable.{unsigned_decoder}
use Rattle.bitstream_io.specs.Reads.{was_done, failed_reader}
use Rattle.bitstream_io.proofs.ReadsLemmas.{Reads-and_then-ok, Reads-and_then-err, Reads-pure, Reads-same, Took-nil, Took-too_long, none_needed, ok_prefix}
use Rattle.bitstream_format.specs.Until.{until_decoder, until_from}
use Rattle.bitstream_format.specs.UntilLaws.{until_from-suc}

-- the bytes so far: what the reads after them return is what all reads return
pub record UntilRead {R : Type 0} (K : BitSource R) (stop count : ℕ) (start : R) (found : List ℕ) (reader : R) : Type 0 where
  pub fine : 0 < count → (K.state reader).failed ≡ false
  pub same : (r : Result (List ℕ) Error) (end : R)
      → Reads K (until_from (unsigned_decoder K.order 8 8) stop (4294967296 - count) found) reader r end
      → Reads K (until_decoder K.order stop) start r end

fine_after : {R A : Type 0} {K : BitSource R} {e : Decoder A} {a : A} {s t : R} → e.on_failed ≡ Err Failed → Reads K e s (Ok a) t
    → (K.state t).failed ≡ false
fine_after failed h = (ok_prefix failed h).failed

module _ {R : Type 0} {K : BitSource R} (stop : ℕ) where
  pub until_begin : (s : R) → UntilRead K stop 0 s [] s
  until_begin s = record { fine = λ some. absurd (omega (arith, some)); same = λ r end h. h }

  module _ (count : ℕ) {found : List ℕ} {s t : R} (so : UntilRead K stop count s found t) where
    one_more : count < 4294967296 → 4294967296 - count ≡ suc (4294967296 - (count + 1))
    one_more less = omega (arith, less)

    step : (r : Result (List ℕ) Error) (end : R) → count < 4294967296
        → Reads K (until_from (unsigned_decoder K.order 8 8) stop (suc (4294967296 - (count + 1))) found) t r end
        → Reads K (until_decoder K.order stop) s r end
    step r end less h =
        so.same r end (subst (λ n. Reads K (until_from (unsigned_decoder K.order 8 8) stop n found) t r end) (sym (one_more less)) h)

    -- a read that fails
    pub until_stop : (x : Error) (z : R) → count < 4294967296 → Reads K (unsigned_decoder K.order 8 8) t (Err x) z
        → Reads K (until_decoder K.order stop) s (Err x) z
    until_stop x z less h =
        step (Err x) z less (rw (until_from-suc (unsigned_decoder K.order 8 8) stop (4294967296 - (count + 1)) found)
        (Reads-and_then-err _ _ h))

    module _ (x : ℕ) (z : R) (less : count < 4294967296) (read : Reads K (unsigned_decoder K.order 8 8) t (Ok x) z) where
      behind : (r : Result (List ℕ) Error) (end : R)
          → Reads K (if x == stop then pure found
          else and_then (stores (found ++ x ∷ [])) (λ more. until_from (unsigned_decoder K.order 8 8) stop (4294967296 - (count + 1)) more)) z r end
          → Reads K (until_decoder K.order stop) s r end
      behind r end h =
          step r end less (rw (until_from-suc (unsigned_decoder K.order 8 8) stop (4294967296 - (count + 1)) found)
          (Reads-and_then-ok _ _ read h))

      -- the terminator
      pub until_end : (x == stop) ≡ true → Reads K (until_decoder K.order stop) s (Ok found) z
      until_end is = behind (Ok found) z (rw is (Reads-pure found z))

      fine_here : (K.state z).failed ≡ false
      unfolding unsigned_decoder
      fine_here = fine_after refl read

      -- one byte more
      pub until_push : (x == stop) ≡ false → UntilRead K stop (count + 1) s (found ++ x ∷ []) z
      until_push other = record {
        fine = λ some. fine_here;
        same = λ r end h. behind r end (rw other (Reads-and_then-ok _ _
            (Reads-same (record { reads = λ p b. refl; on_failed = refl }) (Reads-pure (found ++ x ∷ []) z)) h));
      }

    -- too many bytes: the reader was made to fail
    pub until_too_long : (z : R) → count ≡ 4294967296 → K.state z ≡ failed_reader (K.state t)
        → Reads K (until_decoder K.order stop) s (Err RunTooLong) z
    unfolding until_from
    until_too_long z all broken =
        let fine = so.fine (omega (arith, all)) in
        let none : 4294967296 - count ≡ 0 = omega (arith, all) in
        so.same (Err RunTooLong) z
        (subst (λ n. Reads K (until_from (unsigned_decoder K.order 8 8) stop n found) t (Err RunTooLong) z) (sym none)
        (was_done (Took-too_long K.order (fail RunTooLong) [] (K.state t) (K.state t) (K.state z)
        (Took-nil K.order (K.state t) fine) broken (λ more. refl) (λ prefix b back is. absurd (none_needed prefix b back is)))))
"""


def files(crate: str) -> dict[str, str]:
    """Returns the texts by their places in the crate."""
    return {
        "specs/Untils.antt": f"-- {MADE}\n{SPECS.replace('CRATE', crate)}",
        "proofs/UntilLemmas.antt": f"-- {MADE}\n{LEMMAS}",
    }
