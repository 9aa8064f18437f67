"""The texts that each crate for C has alike if it has a format with lists."""
from __future__ import annotations

from describing.c.shared import MADE

SPECS = """-- Lists whose items the caller has.
use Rattle.std.specs.Prelude.{◌≡◌, ◌++◌, ℕ, List, Result, IfOk, IsOk, length, take, drop}
use Rattle.bitstream_io.specs.Callers.{Decoder, Error, BitSource, Reads, ReadsOwn, result_map}

-- The items of a list in a slice that held others: as many as there is room for. The others are read and not kept.
abbrev pub stored : {A : Type 0} → List A → List A → List A
stored all was = take (length was) all ++ drop (length all) was

-- a read of `count` items, of which the slice has those for which there is room
pub record ReadsInto {R A : Type 0} (K : BitSource R) (decoder : Decoder (List A)) (count : ℕ) (old : R) (was : List A)
    (result : Result (Unit {0}) Error) (new : R) (now : List A) : Type 0 where
  pub all : List A
  pub reads : Reads K decoder old (result_map (λ _. all) result) new
  pub size : IsOk result → length all ≡ count
  pub keeps : now ≡ stored all was

-- The same for a size that a number states, of which some numbers state none. The result is the number of items.
pub record ReadsStated {R A E : Type 0} (K : BitSource R) (becomes : Error → E → Type 0)
    (decoder : Decoder (Result (List A) E)) (old : R) (was : List A) (result : Result ℕ E) (new : R)
    (now : List A) : Type 0 where
  pub all : List A
  pub reads : ReadsOwn K becomes decoder old (result_map (λ _. all) result) new
  pub size : IfOk result (λ n. length all ≡ n)
  pub keeps : now ≡ stored all was

-- so many items were read and kept
pub record ItemsKept {A : Type 0} (read : List A → Type 0) (n : ℕ) (was now : List A) : Type 0 where
  pub all : List A
  pub reads : read all
  pub size : length all ≡ n
  pub keeps : now ≡ stored all was
"""

LEMMAS = """-- Items of lists in slices.
use Rattle.std.proofs.Common.{◌≡◌, ◌∙◌, ◌<◌, ◌≤◌, ◌+◌, ◌++◌, ◌∷◌, [], ℕ, List, Result, Ok, Err, length, take, drop, set, get_or, refl, sym, ap, ap₂, arith, append_assoc, length-append, length-drop}
use Rattle.std.specs.Prelude.{IfOk, IsOk}
use Rattle.std.specs.Result.{IsErrAnd}
use Rattle.std.proofs.lemmas.Grind.{common_steps}
use Rattle.std.proofs.lemmas.Bool.{cases_lt}
use Rattle.std.proofs.lemmas.List.{drop_more, length-take-le, set_at, take_all}
use Rattle.bitstream_io.proofs.CallerLemmas.{inl, inr}
use Rattle.bitstream_io.specs.Callers.{Error, Order, BitSource, Reads, bytes_decoder, vec_decoder}
use Rattle.bitstream_io.proofs.ReadsLemmas.{Reads-same}
use Rattle.CRATE.specs.Lists.{stored}

-- a read of bytes is one of a vector that never asks for memory
pub bytes_into : {R : Type 0} {K : BitSource R} (o : Order) (n : ℕ) {r : Result (List ℕ) Error} {s t : R}
    → Reads K (bytes_decoder o n) s r t → Reads K (vec_decoder o n) s r t
bytes_into o n h = Reads-same (record { reads = λ p b. refl; on_failed = refl }) h

-- what is no success
pub failed_ok : {X : Type 0} (P : Error → Type 0) (r : Result (Unit {0}) Error) → IsErrAnd r P → IsOk r → X
failed_ok P (Ok u) bad ok = absurd bad
failed_ok P (Err e) is ok = cc

pub failed_if : {A E : Type 0} (P : E → Type 0) (Q : A → Type 0) (r : Result A E) → IsErrAnd r P → IfOk r Q
failed_if P Q (Ok x) bad = absurd bad
failed_if P Q (Err e) is = tt

-- no item
pub kept_begin : {A : Type 0} (was : List A) → was ≡ stored [] was
kept_begin was = grind (arith, common_steps)

-- an item without room
pub kept_none : {A : Type 0} (all was now : List A) (item : A) → length now ≤ length all → now ≡ stored all was
    → now ≡ stored (all ++ item ∷ []) was
kept_none all was now item le is = grind (arith, common_steps)

-- and one with room
pub kept_more : {A : Type 0} (all was now : List A) (item : A) → length all < length now → now ≡ stored all was
    → set now (length all) item ≡ stored (all ++ item ∷ []) was
kept_more all was now item less is =
    elim (cases_lt (length all) (length was)) [
      | inl room ↦
          let some = drop_more was (length all) item room in
          let whole = is ∙ ap₂ (λ x y. x ++ y) (take_all (length was) all (omega (arith, room))) some in
          let count : length (all ++ item ∷ []) ≡ length all + 1 = length-append all (item ∷ []) in
          ap (λ xs. set xs (length all) item) whole
          ∙ set_at all (get_or was (length all) item) (drop (length all + 1) was) item (length all) refl
          ∙ sym (append_assoc all (item ∷ []) (drop (length all + 1) was))
          ∙ ap₂ (λ x y. x ++ y) (sym (take_all (length was) (all ++ item ∷ []) (omega (arith, count, room))))
          (ap (λ k. drop k was) (sym count))
      | inr full ↦
          let size = ap length is ∙ length-append (take (length was) all) (drop (length all) was) in
          let first = length-take-le (length was) all full in
          let rest = length-drop (length all) was in
          absurd (omega (arith, less, size, first, rest, full))
    ]
"""

STATED = """-- Bytes whose size a number states, of which some numbers state none.
use Rattle.std.proofs.Common.{◌≡◌, ℕ, None, Some, Result, Ok, Err, subst}
use Rattle.bitstream_io.specs.Callers.{Decoder, Error, Order, BitSource, ReadsOwn}
use Rattle.bitstream_io.proofs.CallerLemmas.{own_end}
use Rattle.bitstream_format.specs.Stated.{if_stated, stated_decoder, stated_size}

module _ {R A E : Type 0} {K : BitSource R} {own : Error → E → Type 0} (unit plus less : ℕ) (err : E)
    (decoder : Order → ℕ → Decoder (Result A E)) (o : Order) (number : ℕ) where
  -- bytes whose size is stated
  pub stated_own-some : {n : ℕ} {s t : R} {r : Result A E} → Some n ≡ stated_size unit plus less number
      → ReadsOwn K own (decoder o n) s r t → ReadsOwn K own (stated_decoder unit plus less err decoder o number) s r t
  stated_own-some {s = s} {t = t} {r = r} is read =
      subst (λ size. ReadsOwn K own (if_stated err (decoder o) size) s r t) is read

  -- bytes whose size is not
  pub stated_own-none : {s : R} → None ≡ stated_size unit plus less number
      → ReadsOwn K own (stated_decoder unit plus less err decoder o number) s (Err err) s
  stated_own-none {s = s} is =
      subst (λ size. ReadsOwn K own (if_stated err (decoder o) size) s (Err err) s) is (own_end _ _)
"""


PART_SPECS = """-- Lists of parts and of enums, of whose items the caller has structs and numbers of C.
use Rattle.std.specs.Prelude.{◌≡◌, ◌∷◌, [], ℕ, List, Option, Some, None, Result, IsOk, length, map}
use Rattle.bitstream_io.specs.Callers.{Decoder, Error, BitSource, Reads, ReadsOwn, result_map}
use Rattle.CRATE.specs.Lists.{stored}

-- A read of `count` parts, which the slice holds as structs of C.
pub record ItemsInto {R A C : Type 0} (K : BitSource R) (decoder : Decoder (List A)) (to_c : A → C) (count : ℕ) (old : R)
    (was : List C) (result : Result (Unit {0}) Error) (new : R) (now : List C) : Type 0 where
  pub all : List A
  pub reads : Reads K decoder old (result_map (λ _. all) result) new
  pub size : IsOk result → length all ≡ count
  pub keeps : now ≡ stored (map to_c all) was

-- the same for parts with errors of their own
pub record PartsInto {R A C E : Type 0} (K : BitSource R) (becomes : Error → E → Type 0)
    (decoder : Decoder (Result (List A) E)) (to_c : A → C) (count : ℕ) (old : R) (was : List C)
    (result : Result (Unit {0}) E) (new : R) (now : List C) : Type 0 where
  pub all : List A
  pub reads : ReadsOwn K becomes decoder old (result_map (λ _. all) result) new
  pub size : IsOk result → length all ≡ count
  pub keeps : now ≡ stored (map to_c all) was

-- so many parts were read and kept
pub record PartsKept {A C : Type 0} (read : List A → Type 0) (to_c : A → C) (n : ℕ) (was now : List C) : Type 0 where
  pub all : List A
  pub reads : read all
  pub size : length all ≡ n
  pub keeps : now ≡ stored (map to_c all) was

-- what an item of C stands for fits its bits, if it stands for a value
pub record ItemFits {A C : Type 0} (from_c : C → Option A) (Fits : A → Type 0) (item : C) : Type 0 where
  pub fits : (value : A) → from_c item ≡ Some value → Fits value

-- a value before others, unless there is none
abbrev pub both_made : {A : Type 0} → Option A → Option (List A) → Option (List A)
both_made (Some value) (Some values) = Some (value ∷ values)
both_made (Some value) None = None
both_made None values = None

-- the values of all structs of C, or none if one of them has none
abbrev pub all_made : {A C : Type 0} → (C → Option A) → List C → Option (List A)
all_made from_c [] = Some []
all_made from_c (item ∷ items) = both_made (from_c item) (all_made from_c items)
"""

PARTS = """-- Lists of parts in slices, as structs of C.
use Rattle.std.proofs.Common.{◌≡◌, ◌∙◌, ◌+◌, ◌*◌, ◌<◌, ◌≤◌, ◌++◌, ◌∷◌, [], ℕ, zero, suc, List, Bool, true, Option, Some, None, Result, Ok, Err, length, map, flat_map, filter_map, is_some, refl, sym, ap, subst, arith}
use Rattle.std.specs.Prelude.{◌↔◌, ◌⊎◌, All, IsOk, IsTrue}
use Rattle.std.specs.Result.{IsErrAnd}
use Rattle.std.proofs.lemmas.List.{map-append}
use Rattle.std.proofs.lemmas.List.Elements.{All-nil, All-cons, All-head, All-tail}
use Rattle.bitstream_io.specs.Callers.{Decoder, Encoder, Error, BitSource, ReadsOwn, Sink, WritesAll, and_then, part_then, stores, optional_writes}
use Rattle.bitstream_io.specs.Grows.{parts_decoder}
use Rattle.bitstream_io.specs.Loop.{parts_size}
use Rattle.bitstream_io.proofs.CallerLemmas.{inl, inr}
use Rattle.bitstream_io.proofs.GrowsLemmas.{nat_le_split}
use Rattle.bitstream_io.proofs.OwnSteps.{own_end, part_stops, then_part}
use Rattle.bitstream_io.proofs.ReadsLemmas.{Reads-pure, Reads-same}
use Rattle.bitstream_io.proofs.WriteParts.{all_none}
use Rattle.CRATE.specs.Lists.{stored}
use Rattle.CRATE.specs.Parts.{ItemFits, all_made}

-- ---- what the slice holds

-- one part more
pub part_kept : {A C : Type 0} (to_c : A → C) (all : List A) (item : A) (c : C) (was now : List C) → c ≡ to_c item
    → now ≡ stored (map to_c all ++ c ∷ []) was → now ≡ stored (map to_c (all ++ item ∷ [])) was
part_kept to_c all item c was now is keeps =
    keeps ∙ ap (λ d. stored (map to_c all ++ d ∷ []) was) is
    ∙ ap (λ l. stored l was) (sym (map-append to_c all (item ∷ [])))

-- what is no success, for an error of any type
pub failed_own : {X E : Type 0} (P : E → Type 0) (r : Result (Unit {0}) E) → IsErrAnd r P → IsOk r → X
failed_own P (Ok u) bad ok = absurd bad
failed_own P (Err e) is ok = cc

-- ---- what structs of C stand for

one_made : {A C : Type 0} (from_c : C → Option A) (item : C) (items : List C) (v : Option A) → from_c item ≡ v
    → is_some (from_c item) ≡ true → all_made from_c items ≡ Some (filter_map from_c items)
    → all_made from_c (item ∷ items) ≡ Some (filter_map from_c (item ∷ items))
one_made from_c item items None is some rest = let same = ap is_some is in cc
one_made from_c item items (Some v) is some rest = rw (is, rest) refl

-- each has a value
pub made_all : {A C : Type 0} (from_c : C → Option A) (items : List C)
    → All (λ item. is_some (from_c item) ≡ true) items → all_made from_c items ≡ Some (filter_map from_c items)
made_all from_c [] all = refl
made_all from_c (item ∷ items) all =
    one_made from_c item items (from_c item) refl (All-head (λ x. is_some (from_c x) ≡ true) item items all)
    (made_all from_c items (All-tail (λ x. is_some (from_c x) ≡ true) item items all))

none_made : {A C : Type 0} (from_c : C → Option A) (item : C) (items : List C) (v : Option A) → from_c item ≡ v
    → (All (λ x. is_some (from_c x) ≡ true) (item ∷ items) → ⊥)
    → ((All (λ x. is_some (from_c x) ≡ true) items → ⊥) → all_made from_c items ≡ None)
    → all_made from_c (item ∷ items) ≡ None
none_made from_c item items None is never rest = rw is refl
none_made from_c item items (Some v) is never rest =
    let more = rest (λ all. never (All-cons (λ x. is_some (from_c x) ≡ true) item items (ap is_some is) all)) in
    rw (is, more) refl

-- one has none
pub made_none : {A C : Type 0} (from_c : C → Option A) (items : List C)
    → (All (λ item. is_some (from_c item) ≡ true) items → ⊥) → all_made from_c items ≡ None
made_none from_c [] never = absurd (never (All-nil (λ x. is_some (from_c x) ≡ true)))
made_none from_c (item ∷ items) never =
    none_made from_c item items (from_c item) refl never (made_none from_c items)

module _ {A C : Type 0} (from_c : C → Option A) (P : A → Type 0) (item : C) where
  pub item_fit : (v : A) (r : Bool) → from_c item ≡ Some v → (IsTrue r ↔ P v) → (IsTrue r ↔ ItemFits from_c P item)
  item_fit v r is fit = (
    λ yes. record { fits = λ w some. let same : v ≡ w = let both = sym is ∙ some in cc in subst P same (fit.0 yes) },
    λ held. fit.1 (held.fits v is)
  )

  pub item_free : from_c item ≡ None → (IsTrue true ↔ ItemFits from_c P item)
  item_free is = (λ yes. record { fits = λ w some. absurd (let same = sym is ∙ some in cc) }, λ held. refl)

fits_one : {A C : Type 0} (from_c : C → Option A) (P : A → Type 0) (item : C) (items : List C) (v : Option A)
    → from_c item ≡ v → (All (ItemFits from_c P) items ↔ All P (filter_map from_c items))
    → (All (ItemFits from_c P) (item ∷ items) ↔ All P (filter_map from_c (item ∷ items)))
fits_one from_c P item items None is rest = (
  λ all. rw is (rest.0 (All-tail (ItemFits from_c P) item items all)),
  λ all. All-cons (ItemFits from_c P) item items ((item_free from_c P item is).0 refl) (rest.1 (rw is at all))
)
fits_one from_c P item items (Some v) is rest = (
  λ all. rw is (All-cons P v (filter_map from_c items) ((All-head (ItemFits from_c P) item items all).fits v is)
      (rest.0 (All-tail (ItemFits from_c P) item items all))),
  λ all. let found : All P (v ∷ filter_map from_c items) = rw is at all in
      All-cons (ItemFits from_c P) item items
      ((item_fit from_c P item v true is (λ yes. All-head P v (filter_map from_c items) found, λ p. refl)).0 refl)
      (rest.1 (All-tail P v (filter_map from_c items) found))
)

-- each value fits, and what each item of C stands for does
pub made_fit : {A C : Type 0} (from_c : C → Option A) (P : A → Type 0) (items : List C)
    → (All (ItemFits from_c P) items ↔ All P (filter_map from_c items))
made_fit from_c P [] = (λ all. All-nil P, λ all. All-nil (ItemFits from_c P))
made_fit from_c P (item ∷ items) = fits_one from_c P item items (from_c item) refl (made_fit from_c P items)

one_written : {A C : Type 0} (from_c : C → Option A) (writes : A → List Encoder) (item : C) (items : List C)
    (v : Option A) → from_c item ≡ v
    → flat_map (λ x. optional_writes writes (from_c x)) items ≡ flat_map writes (filter_map from_c items)
    → flat_map (λ x. optional_writes writes (from_c x)) (item ∷ items) ≡ flat_map writes (filter_map from_c (item ∷ items))
one_written from_c writes item items None is rest = rw is rest
one_written from_c writes item items (Some v) is rest = rw is (ap (λ more. writes v ++ more) rest)

-- the writes of the values, and those of structs of C
pub made_written : {A C : Type 0} (from_c : C → Option A) (writes : A → List Encoder) (items : List C)
    → flat_map (λ x. optional_writes writes (from_c x)) items ≡ flat_map writes (filter_map from_c items)
made_written from_c writes [] = refl
made_written from_c writes (item ∷ items) =
    one_written from_c writes item items (from_c item) refl (made_written from_c writes items)

-- ---- the greatest number of bits

-- parts of at most n bits
pub parts_most : {A : Type 0} (size : A → ℕ) (n : ℕ) (P : A → Type 0) (items : List A) → All P items
    → ((item : A) → P item → size item ≤ n) → parts_size size items ≤ length items * n
parts_most size n P [] all most = omega arith
parts_most size n P (item ∷ items) all most =
    let one = most item (All-head P item items all) in
    let rest = parts_most size n P items (All-tail P item items all) most in
    omega (arith, one, rest)

-- ---- writes of what a struct of C stands for

module _ {S A : Type 0} (K : Sink S) (writes : A → List Encoder) (v : Option A) where
  pub none_written : (s : S) → v ≡ None → WritesAll K (optional_writes writes v) s (Ok tt) s
  none_written s is = rw is (all_none K s)

  pub some_written : (a : A) (r : Result (Unit {0}) Error) (s t : S) → v ≡ Some a → WritesAll K (writes a) s r t
      → WritesAll K (optional_writes writes v) s r t
  some_written a r s t is h = rw is h

-- ---- parts with errors of their own, one after another

parts_suc : {A E : Type 0} (e : Decoder (Result A E)) (n : ℕ) → parts_decoder e (suc n)
    ≡ and_then (parts_decoder e n) (part_then (λ xs. and_then e (part_then (λ x. stores (Ok (xs ++ x ∷ []))))))
unfolding parts_decoder
parts_suc e n = refl

stored_end : {R A E : Type 0} {K : BitSource R} {becomes : Error → E → Type 0} (r : Result A E) (s : R)
    → ReadsOwn K becomes (stores r) s r s
stored_end r s = record {
  plain = Ok r;
  called = Reads-same (record { reads = λ p b. refl; on_failed = refl }) (Reads-pure r s);
  answer = refl;
}

module _ {R A E : Type 0} {K : BitSource R} {becomes : Error → E → Type 0} (e : Decoder (Result A E)) where
  -- none yet
  pub parts_none : (s : R) → ReadsOwn K becomes (parts_decoder e 0) s (Ok []) s
  unfolding parts_decoder
  parts_none s = own_end (Ok []) s

  -- one more
  pub parts_more : (n : ℕ) {items : List A} {item : A} {s t z : R}
      → ReadsOwn K becomes (parts_decoder e n) s (Ok items) t → ReadsOwn K becomes e t (Ok item) z
      → ReadsOwn K becomes (parts_decoder e (n + 1)) s (Ok (items ++ item ∷ [])) z
  parts_more n {items = items} {item = item} {z = z} before one =
      let more : n + 1 ≡ suc n = omega arith in
      rw (more, parts_suc e n)
      (then_part _ before refl refl (then_part _ one refl refl (stored_end (Ok (items ++ item ∷ [])) z)))

  later : (k all : ℕ) (x : E) (s t : R) → ReadsOwn K becomes (parts_decoder e k) s (Err x) t → (k ≡ all) ⊎ (k < all)
      → ReadsOwn K becomes (parts_decoder e all) s (Err x) t
  later k all x s t h (inl is) = subst (λ n. ReadsOwn K becomes (parts_decoder e n) s (Err x) t) is h
  later k zero x s t h (inr less) = absurd (omega (arith, less))
  later k (suc n) x s t h (inr less) =
      let there = later k n x s t h (nat_le_split k n (omega (arith, less))) in
      rw (parts_suc e n) (part_stops _ x there.plain refl there.called there.answer)

  -- one whose error a `?` returned
  pub parts_failed : (n all : ℕ) {items : List A} {x : E} {s t z : R} → n < all
      → ReadsOwn K becomes (parts_decoder e n) s (Ok items) t → ReadsOwn K becomes e t (Err x) z
      → ReadsOwn K becomes (parts_decoder e all) s (Err x) z
  parts_failed n all {x = x} {s = s} {z = z} less before one =
      let here : ReadsOwn K becomes (parts_decoder e (suc n)) s (Err x) z =
      rw (parts_suc e n)
      (then_part _ before refl refl (part_stops _ x one.plain refl one.called one.answer)) in
      later (suc n) all x s z here (nat_le_split (suc n) all (omega (arith, less)))
"""


def files(crate: str, stated: bool, parts: bool) -> dict[str, str]:
    """Returns the texts by their places in the crate.

    `stated` is true for a format with bytes of a stated size, and `parts` for one with lists of parts.
    """
    found = {
        "specs/Lists.antt": f"-- {MADE}\n{SPECS}",
        "proofs/ListLemmas.antt": f"-- {MADE}\n{LEMMAS.replace('CRATE', crate)}",
    }
    if parts:
        found["specs/Parts.antt"] = f"-- {MADE}\n{PART_SPECS.replace('CRATE', crate)}"
        found["proofs/PartLemmas.antt"] = f"-- {MADE}\n{PARTS.replace('CRATE', crate)}"
    return found | ({"proofs/StatedLemmas.antt": f"-- {MADE}\n{STATED}"} if stated else {})
