"""The proofs of a format for C."""
from __future__ import annotations

from describing import model as m
from describing.c import cross, decided, fill_proofs, fills, list_proofs, lists, optional, sum_proofs, sums, varying
from describing.c.cross import base, fields
from describing.c.imports import answer_uses, lemma_uses, parse_uses
from describing.c.target import Target
from describing.layout import Line
from describing.specs.terms import only_constants


HEAD = "-- The bits of a `{}` before others, and when a parse succeeds."


def lemmas(t: Target) -> str:
    """Returns the lemmas of a format: its number of bytes, and its bits before others."""
    if not t.f.description.whole:
        text = varying.most_lemma(t.f).lstrip("\n")
        said = f"-- The greatest number of bits of a `{t.f.type}`."
        return "\n".join([f"-- {t.made}", said, *lemma_uses(t, text), "", text])
    if not t.f.sized:
        text = lists.lemmas(t.f) if cross.lists(t.f.description) else varying.lemmas(t.f)
        text = sum_proofs.lemmas(t.f) if sums.check_of(t.f) else text
        return "\n".join(
            [f"-- {t.made}", f"-- When a parse of a `{t.f.type}` succeeds.", *lemma_uses(t, text), "", text]
        )
    f, o, n = t.f, t.f.o, t.f.bytes
    all_bits = f"bits {o} bytes"
    text = f"""-- the bits of bytes whose first ones are known
pub first_bytes : (value : {f.type}) (bytes : List ℕ) → bits {o} (take {n} bytes) ≡ {f.m}_bits value
    → {all_bits} ≡ {f.m}_bits value ++ bits {o} (drop {n} bytes)
first_bytes value bytes is =
    ap (bits {o}) (sym (take-append-drop {n} bytes)) ∙ bits-append {o} (take {n} bytes) (drop {n} bytes)
    ∙ ap (λ first. first ++ bits {o} (drop {n} bytes)) is
"""
    text += decided.lemma(t)
    return "\n".join([f"-- {t.made}", HEAD.format(f.type), *lemma_uses(t, text), "", text])


def put_answers(t: Target) -> str:
    """Returns the proof of the function that packs fields."""
    f, o, value = t.f, t.f.o, "c.args.fields.now"
    fits, packs = f"let fits : Fits {value} = search rules in", f"{f.m}_packs {o} {value} fits"
    return f"""-- {t.made}
use Rattle.std.proofs.Common.{{refl, arith, rules}}
use {f.specs_path}.{{Fits}}
use {f.lemmas_path}.{{{f.m}_packs, told}}
use Rattle.bitstream_io.specs.Callers.{{{o}}}
use Rattle.{t.crate}.proofs.SharedLemmas.{{bytes_of, packs-begun}}
use Rattle.{t.crate}.proofs.{f.m}.put.Goals as goal

pub write_first-requires-clause-accepted : goal.write_first-requires-clause-accepted
write_first-requires-clause-accepted c =
    {fits}
    ({packs}).accepted 0

pub write_first-requires-clause-room : goal.write_first-requires-clause-room
write_first-requires-clause-room c =
    {fits}
    omega (arith, bytes_of ({packs}))

pub returns : goal.returns
returns c =
    {fits}
    packs-begun fits ({packs}) refl (omega arith) (told {value}) c.write_first.ensures
"""


def parse_answers(t: Target) -> str:
    """Returns the proof of the function that parses bytes."""
    f = t.f
    text = f"""pub returns-clause-round_trip : goal.returns-clause-round_trip
returns-clause-round_trip c = λ value fits is.
    c.parsed.ensures ∙ ap {f.m}_parsed (c.parse.ensures.back value (bits {f.o} (drop {f.bytes} c.args.bytes.now)) fits
    (first_bytes value _ is))
"""
    text += decided.answer(t) + places(t)
    return "\n".join([f"-- {t.made}", *parse_uses(t, text), "", text])


def places(t: Target) -> str:
    """Returns the proofs of the clauses by places, of which a search proves those of a format with one constant only."""
    f = t.f
    if only_constants(f) and len(f.tests) < 2:
        return ""
    out = place_answer(t, "there", f.tests, f.tests)
    out += place_answer(t, "short", [] if only_constants(f) else f.tests, f.tests)
    for k, it in enumerate(f.tests):
        out += place_answer(t, it.clause, f.tests[:k], f.tests[: k + 1])
    return out


def place_answer(t: Target, clause: str, cases: list[Line], tests: list[Line]) -> str:
    """Returns the proof of a clause, whose premises are a length, the cases of enums and what tests of bits say."""
    given = " ".join(["count", *[it.name for it in cases if it.is_field], *[f"is_{it.index}" for it in tests]])
    goal = f"returns-clause-{clause}"
    said = f"c.parsed.ensures ∙ ap {t.f.m}_parsed (c.parse.ensures.{clause} {given})"
    return f"\npub {goal} : goal.{goal}\n{goal} c = λ {given}.\n    {said}\n"


def option_answers(t: Target, number: str) -> str:
    """Returns the proof of the function from a number to a `NonZero`."""
    kind, get = f"NonZero{number.upper()}", f"non_zero_{number}_get"
    return f"""-- {t.made}
use Rattle.std.proofs.Common.{{◌≡◌, ◌∙◌, ℕ, Option, None, Some, ap, sym, refl}}
use Rattle.std.specs.Prelude.{{MatchOption}}
use Rattle.std.specs.Int.NonZero.{{{get}}}
use Rattle.std.specs.declared.num.{kind}.{{{kind}}}
use Rattle.bitstream_io.specs.Callers.{{if_any, non_zero_{number}, number_or_zero}}
use Rattle.bitstream_io.proofs.CallerLemmas.{{option_{number}-again}}
use Rattle.{t.crate}.proofs.{t.f.m}.option_{number}.Goals as goal

made : (r : Option {kind}) (n : ℕ) → MatchOption r (n ≡ 0) (λ x. {get} x ≡ n) → r ≡ if_any non_zero_{number} n
made None n is = ap (if_any non_zero_{number}) (sym is)
made (Some x) n is = sym (option_{number}-again (Some x)) ∙ ap (if_any non_zero_{number}) is

pub returns : goal.returns
returns c = made _ _ c.new.ensures
"""


def answer_files(t: Target) -> dict[str, str]:
    """Returns the proofs of the functions by their places."""
    m_ = t.f.m
    numbers = [base(it) for it in fields(t.f.description) if isinstance(it, m.NonZero | m.MaybeNonZero)]
    found = {f"proofs/{m_}/option_{it}/Answers.antt": option_answers(t, it) for it in numbers}
    if cross.has_lemmas(t.f.description):
        found[f"proofs/{t.f.spec}Lemmas.antt"] = lemmas(t)
    if optional.listed(t.f) or fills.beside(t.f):
        text = optional.fit_answers(t.f, fill_proofs.whole(t.f))
        found[f"proofs/{m_}/is_fit/Answers.antt"] = fill_proofs.laid_out(t, "is_fit", text)
    if not t.f.description.whole:
        return found
    if t.f.sized:
        found[f"proofs/{m_}/proved_{m_}_parse/Answers.antt"] = parse_answers(t)
        return found | {f"proofs/{m_}/put/Answers.antt": put_answers(t)}
    if cross.lists(t.f.description):
        return found | list_proofs.files(t)
    for function, text in varying.answers(t.f).items():
        lines = [f"-- {t.made}", *answer_uses(t, function, text), "", text]
        found[f"proofs/{m_}/{function}/Answers.antt"] = "\n".join(lines)
    return found
