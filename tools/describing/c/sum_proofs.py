"""A checksum next to lists, for C: the lemmas of a format, the proofs of its functions, and the texts that all formats share."""
from __future__ import annotations

from describing import model as m
from describing.c import cross, lists, rests, sums, varying
from describing.c.cross import spec_item
from describing.c.shared import MADE
from describing.c.target import Target
from describing.layout import Format
from describing.names import PROOFS, uses
from describing.proofs.checks import answers as sum_answers

# ---- the lemmas of a format


def lemmas(f: Format) -> str:
    """Returns the lemmas of a format: what its reads and the test say together, and what a read says."""
    return "\n".join(
        [splits_lemma(f), refilled_lemma(f), decided_lemmas(f), read_lemmas(f), packed_lemma(f)]
    ) + varying.most_lemma(f)


def splits_lemma(f: Format) -> str:
    """Returns the lemma that the reads of the format are those without the test, and then the test."""
    number, given = rests.given(f), parameters(f)
    return f"""-- the format's reads are those without the test of the checksum, and then the test
pub splits : (o : Order){''.join(f' ({it})' for it in given)}
    → Tests {f.m}_tested ({sums.whole_decoder(f, 'o', number)}) ({sums.decoder(f, 'o', number)})
splits {f'o {sums.given_names(f)}'.strip()} =
    {split_term(f)}
"""


def parameters(f: Format) -> list[str]:
    """Returns the names of what the reads are given, with their types."""
    handed = [f"{it.name} : {it.use.name}" for it in cross.givens(f.description)]
    return [*handed, *[f"{rests.given(f)} : ℕ"] * bool(rests.given(f))]


def split_term(f: Format) -> str:
    """Returns the proof by the lines, the last one first."""
    term = "tests-end _ _ _ _ _ refl"
    for it in reversed(f.written):
        value = f"x_{it.index}"
        if isinstance(it.kind, m.Const):
            term = f"λ {value}. tests-if _ {value} _ ({term})"
        elif m.is_limited(it.kind):
            term = f"λ {value}. tests-if _ (nat_le {value} {it.kind.limit}) _ ({term})"
        elif it.stops:
            term = f"tests-part _ (λ {value}. {term})"
        else:
            term = f"λ {value}. {term}"
        term = f"tests-read _ _ ({term})"
    return term


def refilled_lemma(f: Format) -> str:
    """Returns the lemma that the items in slices are those of the fields, unless there is no room for them."""
    mod, kinds = f.m, cross.lists(f.description)
    was, now = lists.list_arguments(f)
    rooms = " ".join(f"(length {it.name}_was)" for it in kinds)
    kept = "".join(f"\n    → {it.name}_now ≡ stored it.value.{it.name} {it.name}_was" for it in kinds)
    names = " ".join(f"{it.name}_kept" for it in kinds)
    given = " ".join(f"({it.name}_{when} : List {spec_item(it)})" for when in ("was", "now") for it in kinds)
    counts = "".join(
        f"    let {it.name}_count = ap length {it.name}_kept ∙ stored-length it.value.{it.name} {it.name}_was in\n"
        for it in kinds
    )
    term = refilled_term(f)
    return f"""-- the items in slices are those of the fields, unless there is no room for them
refilled : (it : {sums.stored_type(f)}) (taken : ℕ) {given}{kept}
    → {mod}_summed taken {now} (Ok ({mod}_found it)) ≡ {mod}_parsed taken {rooms} (Ok it)
refilled it taken {was} {now} {names} =
{counts}    {term}

-- what C gets for what a read left in slices is what it gets for the fields
pub summed_is : (found : Result {sums.stored_type(f)} {f.e}) (taken : ℕ) {given}
    → ((it : {sums.stored_type(f)}) → found ≡ Ok it → {' × '.join(f'({it.name}_now ≡ stored it.value.{it.name} {it.name}_was)' for it in kinds)})
    → {mod}_summed taken {now} (result_map {mod}_found found) ≡ {mod}_parsed taken {rooms} found
summed_is (Ok it) taken {was} {now} kept = refilled it taken {was} {now} {facts('(kept it refl)', len(kinds))}
summed_is (Err e) taken {was} {now} kept = refl
"""


def facts(term: str, count: int) -> str:
    """Returns the parts of a fact."""
    return term if count == 1 else " ".join(f"{term}.{k}" for k in range(count))


def refilled_term(f: Format) -> str:
    """Returns the proof by the lists: the first one without room decides."""
    mod, kinds = f.m, cross.lists(f.description)
    steps, held = list[str](), [f"(take (length it.value.{it.name}) {it.name}_now)" for it in kinds]
    for k, it in enumerate(kinds):
        same = f"(ap (take (length it.value.{it.name})) {it.name}_kept ∙ stored-first it.value.{it.name} {it.name}_was {it.name}_le)"
        around = [*held[:k], "items", *held[k + 1 :]]
        steps.append(
            f"ap (λ (items : List {spec_item(it)}). {mod}_told taken ({mod}_tested ({record(f, around)}))) {same}"
        )
        held[k] = f"it.value.{it.name}"
    term = "\n    ∙ ".join(steps)
    for k, it in reversed(list(enumerate(kinds))):
        term = f"room-same _ _ {it.name}_count (λ {it.name}_le. {term})"
    return term


def record(f: Format, items: list[str]) -> str:
    """Returns the record of the fields and the checksum of `it` with other items of lists."""
    left, fields = list(items), list[str]()
    for it in cross.fields(f.description):
        fields.append(f"{it.name} = {left.pop(0) if cross.is_listed(it) else f'it.value.{it.name}'}")
    return f"record {{ {sums.label(f)} = it.{sums.label(f)}; value = record {{ {'; '.join(fields)} }} }}"


def decided_lemmas(f: Format) -> str:
    """Returns the lemmas that what the reads say decides the result."""
    mod, result = f.m, f"Result {sums.stored_type(f)} {f.e}"
    names, own = (
        " ".join(f"{it.name}_room" for it in cross.lists(f.description)),
        f"OwnAnswer {f.becomes_name} (λ y. y)",
    )
    return f"""-- what C gets is decided by what the reads say
answered : (plain : Result ({result}) Error) (found : {result}) (taken n {names} : ℕ)
    → {own} plain found → taken ≡ (n + 7) / 8
    → {mod}_parsed taken {names} found ≡ {mod}_answer {names} (Done n plain)
answered (Ok x) found taken n {names} is count = ap₂ (λ k r. {mod}_parsed k {names} r) count is
answered (Err e) found taken n {names} is count =
    ap (λ r. {mod}_parsed taken {names} r) (is_error found {varying.reader_error(f)} is)

pub decided : (prefix : Prefix ({result})) (plain : Result ({result}) Error) (found : {result}) (taken {names} : ℕ)
    → IsDecided prefix taken plain → {own} plain found
    → {mod}_parsed taken {names} found ≡ {mod}_answer {names} prefix
decided Incomplete plain found taken {names} is own =
    ap (λ r. {mod}_parsed taken {names} r)
    (is_error found (Reader EndOfInput) (subst (λ x. {own} x found) is own))
decided (Done n x) plain found taken {names} is own =
    answered x found taken n {names} (subst (λ y. {own} y found) is.0 own) is.1

-- reads that found fields
pub found_is : (prefix : Prefix ({result})) (plain : Result ({result}) Error) (found : {result}) (taken n : ℕ)
    (it : {sums.stored_type(f)}) → IsDecided prefix taken plain → {own} plain found
    → prefix ≡ Done n (Ok (Ok it)) → found ≡ Ok it
found_is prefix plain found taken n it is own done =
    let both = subst (λ p. IsDecided p taken plain) done is in
    subst (λ x. {own} x found) both.0 own
"""


def read_lemmas(f: Format) -> str:
    """Returns the lemmas of what a read says."""
    mod, stored, kinds = f.m, sums.stored_type(f), cross.lists(f.description)
    was, now = lists.list_arguments(f)
    head, reads, read = read_words(f)
    kept = "".join(f"\n    → {it.name}_now ≡ stored it.value.{it.name} {it.name}_was" for it in kinds)
    names = " ".join(f"{it.name}_kept" for it in kinds)
    implicits = "} {".join(f"{it} = {it}" for it in f"{was} {now}".split())
    some = "".join(
        f"\n  {it.name}_items = λ v is. subst (λ (x : {stored}). {it.name}_now ≡ stored x.value.{it.name} {it.name}_was)"
        f" (stored_is is) {it.name}_kept;"
        for it in kinds
    )
    result = f"Result {sums.found_type(f)} {f.e}"
    return f"""abbrev ok_of : {stored} → Result {stored} {f.e}
ok_of x = Ok x

stored_is : {{x y : {stored}}} → ok_of x ≡ ok_of y → x ≡ y
stored_is is = cc

-- a read whose error a `?` returned
pub stopped : {head} {{P : {f.e} → Type 0}}
    (r : {result}) → IsErrAnd r P → ((s : Result {stored} {f.e}) → IsErrAnd s P → {reads} s new)
    → {read} old {was} r new {now}
stopped (Ok c) bad reads = absurd bad
stopped (Err e) is reads = record {{ found = Err e; reads = reads (Err e) is; told = refl;{no_items(f)} }}

{refused_lemma(f)}-- a read of all fields
pub read_done : {head} {{it : {stored}}}
    {{r : {result}}} → {reads} (Ok it) new → r ≡ Ok ({mod}_found it){kept}
    → {read} old {was} r new {now}
read_done {{{implicits}}} {{it = it}} reads says {names} = record {{
  found = Ok it;
  reads = reads;
  told = says;{some}
}}
"""


def read_words(f: Format) -> tuple[str, str, str]:
    """Returns the parameters of a lemma about a read, what its reads say, and its relation."""
    kinds = cross.lists(f.description)
    given = [f"{it.name}_{when} : List {spec_item(it)}" for when in ("was", "now") for it in kinds]
    head = " ".join(f"{{{it}}}" for it in ["R : Type 0", "K : BitSource R", "old new : R", *parameters(f), *given])
    reads = f"ReadsOwn K {f.becomes_name} ({sums.decoder(f, 'K.order', rests.given(f))}) old"
    return head, reads, f"{f.type}Read K {sums.given_names(f)}".strip()


def no_items(f: Format) -> str:
    """Returns what is known of the items of lists after an error."""
    return "".join(f" {it.name}_items = λ it no. cc;" for it in cross.lists(f.description))


def refused_lemma(f: Format) -> str:
    """Returns the lemma about a read that a test ended, for a format with greatest values."""
    if not any(map(m.is_limited, f.description.kinds)):
        return ""
    (head, reads, read), (was, now) = read_words(f), lists.list_arguments(f)
    return f"""-- a read that a test ended
pub refused_by : {head} {{e : {f.e}}} {{r : Result {sums.found_type(f)} {f.e}}}
    → {reads} (Err e) new → r ≡ Err e → {read} old {was} r new {now}
refused_by {{e = e}} reads is = record {{ found = Err e; reads = reads; told = is;{no_items(f)} }}

"""


def packed_lemma(f: Format) -> str:
    """Returns the lemma that packed bytes are parsed again."""
    mod, o, number = f.m, f.o, rests.given(f)
    names = " ".join(f"{it.name}_room" for it in cross.lists(f.description))
    given = rests.bytes_given(f, "length bytes") if number else ""
    part = "".join(f"value.{it.name}" for it in cross.givens(f.description))
    unsummed, whole = sums.decoder(f, o, given, part), sums.whole_decoder(f, o, given, part)
    first = f"bits {o} bytes" if number else f"bits {o} (take ({mod}_bytes value) bytes)"
    lets, term = rests.whole_terms(f) if number else plain_terms(f)
    return f"""-- fields whose stored checksum is theirs
test_is : (it : {sums.stored_type(f)}) (value : {f.type}) → {mod}_tested it ≡ Ok value → it.value ≡ value
test_is it value is = if-ok _ it.value value {sums.the_check(f).error} is

-- packed bytes are parsed again
pub packed : (value : {f.type}) (bytes : List ℕ) ({names} : ℕ) → Fits value → {first} ≡ {mod}_bits value
    → {mod}_answer {names} (({unsummed}).reads 0 (bits {o} bytes))
    ≡ {mod}_within ({mod}_bytes value) {names} value (Ok value)
packed value bytes {names} fits is =
    let all = {mod}_packs {o} value fits in
{lets}    let done : ({whole}).reads 0 (bits {o} bytes)
    ≡ Done (length (write_sequence ({mod}_writes {o} value) 0)) (Ok (Ok value)) = {term} in
    let found = done-tested {mod}_tested _ _ value (sym ((splits {o} {f'{part} {given}'.strip()}).same 0 (bits {o} bytes)) ∙ done) in
    ap ({mod}_answer {names}) found.1
    ∙ ap₂ (λ v r. {mod}_within ((length (write_sequence ({mod}_writes {o} value) 0) + 7) / 8) {names} v r)
    (test_is found.0 value found.2) found.2
    ∙ ap (λ k. {mod}_within ((k + 7) / 8) {names} value (Ok value)) (all.size 0)
"""


def plain_terms(f: Format) -> tuple[str, str]:
    """Returns what is known of packed bytes and others behind them, and that the format's reads find the fields in them."""
    mod, o = f.m, f.o
    lets = f"    let parts = padded {o} ({mod}_writes {o} value) ({mod}_bytes value) bytes _ (told value) is in\n"
    part = "".join(f"value.{it.name}" for it in cross.givens(f.description))
    reads = sums.whole_decoder(f, o, "", part)
    return lets, f"ap (({reads}).reads 0) parts ∙ ({mod}_goes {o} value fits).back 0 0 _"


# ---- the proofs of functions


def parse_answers(f: Format) -> str:
    """Returns the proof of the function that parses bytes."""
    names = lists.items_names(f)
    blanks, read = " ".join("_" for _ in names), "c.read-answer.ensures"
    if rests.given(f):
        read = f"(rw c.rest_of-{rests.given(f)}.ensures at c.read-answer.ensures)"
    is_decided = varying.DECIDED.format(".reads.called").replace("c.read-answer.ensures", read)
    items = ", ".join(f"{read}.{it} it is" for it in names)
    left = f"(λ it is. {items if len(names) == 1 else f'({items})'})"
    found = (
        f"c.parsed.ensures ∙ ap ({f.m}_summed _ {blanks}) {read}.told\n"
        f"    ∙ summed_is {read}.found _ {blanks} {blanks} {left}\n"
        f"    ∙ decided _ {read}.reads.plain _ _ {blanks} {is_decided}\n"
        f"    {read}.reads.answer"
    )
    handed = [f"c.args.{it.name}" for it in cross.givens(f.description)]
    number = " ".join([*handed, *[rests.bytes_given(f, "length c.args.bytes.now")] * bool(rests.given(f))])
    out = f"""pub returns-clause-answer : goal.returns-clause-answer
returns-clause-answer c =
{varying.COUNT}    {found}

pub returns-clause-tested : goal.returns-clause-tested
returns-clause-tested c = (splits {f.o} {number}).same 0 _
"""
    for it in names:
        out += f"""
pub returns-clause-{it} : goal.returns-clause-{it}
returns-clause-{it} c = λ n it is.
{varying.COUNT}    {read}.{it} it
    (found_is _ {read}.reads.plain _ _ n it {is_decided} {read}.reads.answer is)
"""
    return f"""{out}
pub returns-clause-round_trip : goal.returns-clause-round_trip
returns-clause-round_trip c = λ value fits {'same ' * bool(handed)}is.
{varying.COUNT}    {found}
    ∙ {packed_again(f)}
"""


def packed_again(f: Format) -> str:
    """Returns that packed bytes are parsed again, for what a parse is given."""
    room = " ".join(f"(length c.args.{it}.now)" for it in lists.items_names(f))
    term = f"packed value c.args.bytes.now {room} fits is"
    if not cross.givens(f.description):
        return term
    says = f"{f.m}_answer {room} (({sums.decoder(f, f.o, '', 'part')}).reads 0 (bits {f.o} c.args.bytes.now))"
    value = f"{f.m}_within ({f.m}_bytes value) {room} value (Ok value)"
    return f"subst (λ part. {says}\n    ≡ {value}) same ({term})"


def files(t: Target, written: str) -> dict[str, str]:
    """Returns the proofs of the functions that compute the checksum, by their places in the crate.

    `written` are the answers of the function that writes the lines of a checksum.
    """
    f, check, found = t.f, sums.the_check(t.f), dict[str, str]()
    goals, given = f"Rattle.{t.crate}.proofs.{f.m}", lists.given(f)
    for path, out in sum_answers(f, check, sums.covers(f)).items():
        text = "\n".join(out).replace(f"{f.goals}.{f.type}.", f"{goals}.{given}.").replace(f.goals, goals)
        place = path.replace(f"{f.type}/", f"{given}/")
        found[f"proofs/{f.m}/{place}/Answers.antt"] = "\n".join([f"-- {t.made}", *uses(text, PROOFS), text]) + "\n"
    if check.lines:
        text = written.replace("GOALS", f"{goals}.{given}.write_for_{check.word}.Goals")
        found[f"proofs/{f.m}/{given}/write_for_{check.word}/Answers.antt"] = f"-- {t.made}\n{text}\n"
    return found


SPECS = """-- A checksum that is tested behind the reads.
use Rattle.std.specs.Prelude.{Result, Ok, Err}
use Rattle.bitstream_io.specs.Codec.{Prefix, Incomplete, Done}

-- a result, and then a test of its value; an error is kept
abbrev pub and_tested : {A B E : Type 0} → (A → Result B E) → Result A E → Result B E
and_tested test (Ok a) = test a
and_tested test (Err e) = Err e

-- what reads say of bits, and then a test of what they found
abbrev pub tested : {A B E : Type 0} → (A → Result B E) → Prefix (Result A E) → Prefix (Result B E)
tested test Incomplete = Incomplete
tested test (Done n (Ok r)) = Done n (Ok (and_tested test r))
tested test (Done n (Err e)) = Done n (Err e)
"""

LEMMAS = """-- Reads, and then a test of a checksum; items of lists that slices hold.
use Rattle.std.proofs.Common.{◌≡◌, ◌∙◌, ◌≤◌, ◌+◌, ◌++◌, ℕ, Bool, true, false, List, Result, Ok, Err, length, take, drop, nat_lt, refl, sym, ap, arith, length-append, length-drop}
use borrow.Author.Tests.{ltb-false}
use Rattle.std.specs.Prelude.{if◌then◌else◌}
use Rattle.std.proofs.lemmas.Bool.{cases_lt}
use Rattle.std.proofs.lemmas.List.{length-take-le, take_all, take_at}
use Rattle.bitstream_io.proofs.CallerLemmas.{inl, inr}
use Rattle.bitstream_io.specs.Callers.{Decoder, part_then, pure}
use Rattle.bitstream_io.specs.Codec.{Prefix, Incomplete, Done, advance, and_then, prefix_then}
use Rattle.CRATE.specs.Lists.{stored}
use Rattle.CRATE.specs.Sums.{tested}

-- ---- reads with a test, and without it

module _ {A B E : Type 0} (test : A → Result B E) where
  -- reads that are others, and then the test
  pub record Tests (d : Decoder (Result B E)) (u : Decoder (Result A E)) : Type 0 where
    pub same : (p : ℕ) (bits : List Bool) → d.reads p bits ≡ tested test (u.reads p bits)

  tested-advance : (n : ℕ) (u : Prefix (Result A E)) → advance n (tested test u) ≡ tested test (advance n u)
  tested-advance n Incomplete = refl
  tested-advance n (Done m (Ok r)) = refl
  tested-advance n (Done m (Err e)) = refl

  then-tested : {C : Type 0} (x : Prefix C) (f : ℕ → C → Prefix (Result B E)) (g : ℕ → C → Prefix (Result A E))
      → ((n : ℕ) (c : C) → f n c ≡ tested test (g n c)) → prefix_then x f ≡ tested test (prefix_then x g)
  then-tested Incomplete f g same = refl
  then-tested (Done n (Ok c)) f g same = ap (advance n) (same n c) ∙ tested-advance n (g n c)
  then-tested (Done n (Err e)) f g same = refl

  -- a read before them
  pub tests-read : {C : Type 0} (e : Decoder C) {f : C → Decoder (Result B E)} {g : C → Decoder (Result A E)}
      → ((c : C) → Tests (f c) (g c)) → Tests (and_then e f) (and_then e g)
  unfolding and_then
  tests-read e each = record {
    same = λ p bits. then-tested (e.reads p bits) _ _ (λ n c. (each c).same (p + n) (drop n bits))
  }

  -- a test of a constant before them
  pub tests-if : (is : Bool) (err : E) {d : Decoder (Result B E)} {u : Decoder (Result A E)} → Tests d u
      → Tests (if is then d else pure (Err err)) (if is then u else pure (Err err))
  tests-if true err all = all
  tests-if false err all = record { same = λ p bits. refl }

  -- a read with errors of its own before them
  pub tests-part : {C : Type 0} {f : C → Decoder (Result B E)} {g : C → Decoder (Result A E)}
      → ((c : C) → Tests (f c) (g c)) → (r : Result C E) → Tests (part_then f r) (part_then g r)
  tests-part each (Ok c) = each c
  tests-part each (Err e) = record { same = λ p bits. refl }

  -- the test
  pub tests-end : (a : A) (is : Bool) (b : B) (err : E) → test a ≡ (if is then Ok b else Err err)
      → Tests (if is then pure (Ok b) else pure (Err err)) (pure (Ok a))
  tests-end a true b err is = record { same = λ p bits. ap (λ r. Done 0 (Ok r)) (sym is) }
  tests-end a false b err is = record { same = λ p bits. ap (λ r. Done 0 (Ok r)) (sym is) }

  -- the ends of these reads
  abbrev read_end : ℕ → Result A E → Prefix (Result A E)
  read_end n r = Done n (Ok r)

  abbrev test_end : ℕ → Result B E → Prefix (Result B E)
  test_end n r = Done n (Ok r)

  done_ok : (n k : ℕ) (a : A) (b : B) → test_end n (test a) ≡ test_end k (Ok b)
      → (c : A) × (read_end n (Ok a) ≡ read_end k (Ok c)) × (test c ≡ Ok b)
  done_ok n k a b is = let count : n ≡ k = cc in (a, ap (λ j. read_end j (Ok a)) count, cc)

  -- what passed the test
  pub done-tested : (u : Prefix (Result A E)) (k : ℕ) (b : B) → tested test u ≡ test_end k (Ok b)
      → (a : A) × (u ≡ read_end k (Ok a)) × (test a ≡ Ok b)
  done-tested Incomplete k b is = absurd (let no = is in cc)
  done-tested (Done n (Ok (Ok a))) k b is = done_ok n k a b is
  done-tested (Done n (Ok (Err e))) k b is = absurd (let no = is in cc)
  done-tested (Done n (Err e)) k b is = absurd (let no = is in cc)

-- a test that held
pub if-ok : {B E : Type 0} (is : Bool) (a b : B) (err : E) → (if is then Ok a else Err err) ≡ Ok b → a ≡ b
if-ok true a b err is = cc
if-ok false a b err is = absurd (let no = is in cc)

-- ---- items in slices

-- the room of a slice stays as it is
pub stored-length : {A : Type 0} (all was : List A) → length (stored all was) ≡ length was
stored-length all was =
    let size = length-append (take (length was) all) (drop (length all) was) in
    let rest = length-drop (length all) was in
    elim (cases_lt (length all) (length was)) [
      | inl room ↦
          let first = ap length (take_all (length was) all (omega (arith, room))) in
          omega (arith, size, rest, first, room)
      | inr full ↦
          let first = length-take-le (length was) all full in
          omega (arith, size, rest, first, full)
    ]

-- all items, if there is room for them
pub stored-first : {A : Type 0} (all was : List A) → length all ≤ length was → take (length all) (stored all was) ≡ all
stored-first all was room =
    ap (λ xs. take (length all) (xs ++ drop (length all) was)) (take_all (length was) all room)
    ∙ take_at all (drop (length all) was) (length all) refl

if-same : {X : Type 0} (less : Bool) (few some same : X) → (less ≡ false → some ≡ same)
    → (if less then few else some) ≡ (if less then few else same)
if-same true few some same is = refl
if-same false few some same is = is refl

-- a test of the room, of the same room
pub room-same : {X : Type 0} {room now all : ℕ} (few : X) (some : X) {same : X} → now ≡ room → (all ≤ room → some ≡ same)
    → (if nat_lt now all then few else some) ≡ (if nat_lt room all then few else same)
room-same {room = room} {all = all} few some {same = same} count is =
    ap (λ n. if nat_lt n all then few else some) count
    ∙ if-same (nat_lt room all) few some same (λ no. is (ltb-false room all no))
"""


def shared_files(crate: str) -> dict[str, str]:
    """Returns the texts by their places in the crate."""
    return {
        "specs/Sums.antt": f"-- {MADE}\n{SPECS}",
        "proofs/SumLemmas.antt": f"-- {MADE}\n{LEMMAS.replace('CRATE', crate)}",
    }
