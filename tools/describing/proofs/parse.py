"""The answers of `parse`: the value or the error of bytes, the clauses by places, and the round trip."""
from __future__ import annotations

from typing import Sequence

from describing import model as m
from describing.layout import Format, Line, is_some_bytes
from describing.proofs.found import found as line_found
from describing.proofs.found import missed
from describing.specs.choices import pattern
from describing.specs.terms import (
    at_bits,
    bytes_name,
    fails,
    handed,
    known_of,
    only_constants,
    rest_count,
    some_bits,
    spec_type,
)

Clause = tuple[str, str, str]  # a clause, the parameters of its answer, and the term
OVER = "slice_ends c.over.ensures.state refl c.read.ensures"


def parse_lines(f: Format) -> list[str]:
    """Returns the answers of `parse`."""
    out = [f"use {f.goals}.{f.type}.parse.Goals as goal", "", *some_sizes(f), *(finds(f) if f.sized else [])]
    places = there(f) if f.sized else []
    for clause, given, term in [("answer", "c", answer_term(f)), *places, ("back", "c", back_term(f))]:
        goal = f"returns-clause-{clause}"
        out += [f"pub {goal} : goal.{goal}", f"{goal} {given} = {term}", ""]
    return out


def some_parts(f: Format) -> list[m.Optional | m.If | m.Choose]:
    """Returns the optional parts, and the choices without a size, before the rest."""
    return [it.kind for it in f.before_rest if is_some_bytes(it.kind)]


def some_sizes(f: Format) -> list[str]:
    """Returns the lemmas that the optional parts and the choices before the rest have whole bytes."""
    out: list[str] = []
    for name, kind in {bytes_name(it): it for it in some_parts(f)}.items():
        bits, cases = some_bits(kind, "value"), ["None", "(Some value)"]
        if isinstance(kind, m.Choose):
            cases = [pattern(kind, it) for it in kind.arms]
        out += [
            f"-- a `{kind.type if isinstance(kind, m.Choose) else kind.use.name}` has whole bytes",
            f"{name} : (value : {spec_type(kind)}) → {bits} ≡ 8 * ({bits} / 8)",
            *(f"{name} {it} = refl" for it in cases),
            "",
        ]
    return out


def answer_term(f: Format) -> str:
    """Returns the term of the clause of the result."""
    if f.grows:
        return or_refused_term(f, "found", "(is_error _ _ lack.0, lack.1)")
    return f"own_answered {OVER}" if f.own else "new_answer slice_ends _ _ c.over.ensures.state c.read.ensures"


def back_term(f: Format) -> str:
    """Returns the term of the clause of the round trip."""
    is_ = "is"
    if f.sized:
        is_ = f"(is ∙ ap (λ w. w ++ more) (sym (told value) ∙ packs-whole ({f.m}_packs {f.o} value fits) refl))"
    back = f"c.{f.m}_round_trip.ensures.back {f.o} value 0 0 more fits"
    front = f"(ap (({f.decoder(f.o, handed(f))}).reads 0) {is_} ∙ {back})"
    if f.rest:
        written, size = f"({f.m}_writes {f.o} value)", "omega arith"
        wholes = {f"{it.name}_whole": f"{bytes_name(it)} value.{it.name}" for it in some_parts(f)}
        if f.rest_line and f.rest_line.measured:
            wholes["whole"] = f"fits.{f.rest.name}_whole {f.o}"
        if wholes:
            facts = "".join(f"let {name} = {term} in " for name, term in wholes.items())
            size = f"{facts}omega ({', '.join(['arith', *wholes])})"
        packs = f"(packs-is ({f.m}_packs {f.o} value fits) ({size}))"
        shape = f"({f.decoder(f.o, handed(f))}) {f.o} c.args.packet.now {written} {f.head} {rest_count(f)} _"
        front = f"(rest-back {shape} {packs} is (λ more. {back}))"
    if f.grows:
        motive = f"(λ prefix. OwnAnswer {f.becomes_name} (λ answer. answer) (sure_answer prefix) c.read.result)"
        names = "value fits" if f.rest else "value more fits"
        same = "".join(f" same_{it.name}" for it in f.handed)
        return f"λ {names}{same} is.\n    {or_refused_term(f, f'subst {motive} {front} found', same=True)}"
    same = "".join(f" same_{it.name}" for it in f.handed)
    return f"λ value more fits{same} is.\n    {'own_' * f.own}prefix_answered {over(f, True)} {front}"


def over(f: Format, same: bool = False) -> str:
    """Returns what is known of the read; with `same`, its given parts are those of the value."""
    read = "c.read.ensures"
    for it in f.given:
        if it not in f.handed:
            read = f"(rw c.rest_of-{it.name}.ensures at {read})"
        elif same:
            read = f"(rw (← same_{it.name}) at {read})"
    return OVER.replace("c.read.ensures", read)


def or_refused_term(f: Format, term: str, lack: str = "(is_error _ _ lack.0)", same: bool = False) -> str:
    """Returns the term of a fact from a term of it for `found`, or that an allocation failed."""
    return f"elim (own_grown_answered {over(f, same)}) [ | inl found ↦ inl ({term}) | inr lack ↦ inr {lack} ]"


# ---- by places


def case_names(tests: Sequence[Line]) -> list[str]:
    """Returns the cases of the enums among some tests."""
    return [it.name for it in tests if it.is_field]


def fact_names(tests: Sequence[Line]) -> list[str]:
    """Returns the names of the facts that tests hold."""
    return [f"is_{it.index}" for it in tests]


def finds(f: Format) -> list[str]:
    """Returns what the reads find if nothing is refused, and at each line that may be refused."""
    bits = f"bits {f.o} packet"
    ok = f"Ok ({at_bits(f, bits)})" if f.own else at_bits(f, bits)
    out = found(f, "found", f.tests, None, f"Ok ({ok})", "pure-finds _ _ _")
    for k, it in enumerate(f.tests):
        out += found(f, f"other_{it.index}", f.tests[:k], it, f"Ok (Err {it.error})", missed(it, f.o))
    return out


def found(f: Format, name: str, held: list[Line], failed: Line | None, answer: str, term: str) -> list[str]:
    """Returns the lemma of what the reads find if the tests `held` hold, and `failed` fails."""
    lines, total = f.lines, f.total or 0
    if failed:
        lines, total = f.lines[: failed.index], (failed.at or 0) + failed.wide
    for it in reversed(lines):
        term = line_found(it, total - (it.at or 0), term, f.o)
    given = case_names(held) + fact_names(held) + ["differs"] * bool(failed)
    bits = f"bits {f.o} packet"
    fails_here = [fails(f, failed, bits)] if failed else []
    return [
        " → ".join([f"{name} : (packet : List ℕ)", *known_of(f, held, bits), *fails_here]),
        f"    → Finds ({bits}) 0 ({f.m}_decoder {f.o}) {total} ({answer})",
        f"{name} {' '.join(['packet', *given])} = {term}",
        "",
    ]


def there(f: Format) -> list[Clause]:
    """Returns the answers of the clauses by places."""
    own, out = "own_" * f.own, list[Clause]()
    for k, it in enumerate(f.tests):
        names = [*case_names(f.tests[:k]), *fact_names(f.tests[:k]), "differs"]
        finding = f"({' '.join([f'other_{it.index}', '_', *names])}) (omega arith)"
        out.append((it.clause, "c", f"λ {' '.join(['enough', *names])}. {own}fields_there {OVER} {finding}"))
    names = [*case_names(f.tests), *fact_names(f.tests)]
    finding = f"({' '.join(['found', '_', *names])}) (omega arith)"
    out.append(("there", "c", f"λ {' '.join(['enough', *names])}. {own}fields_there {OVER} {finding}"))
    if f.tests and only_constants(f):
        return [*out, ("short", "c", short(f))]
    # the cases of enums come after the number of bytes there
    few = f"{own}fields_short {OVER} {finding}"
    return [*out, ("short", "c", f"λ {' '.join(['few', *names])}. {f'is_error _ _ ({few})' if f.own else few}")]


def short(f: Format) -> str:
    """Returns the term that too few bytes end the input: by whether each constant is there."""
    names = fact_names(f.tests)
    whole, size = " ".join(["found _", *(f"{it}.1" for it in names)]), "length c.args.packet.now"
    term = f"ended {f.total} _ ({whole}) (omega arith)"
    for k in reversed(range(len(f.tests))):
        it, known = f.tests[k], "".join(f" {name}.1" for name in names[:k])
        assert isinstance(it.kind, m.Const)
        other = f"ended {(it.at or 0) + it.wide} _ (other_{it.index} _{known} differs.1) (omega arith)"
        enough = f"absurd (differs.1 (at_{it.index} enough))"
        few = f"elim (cases_lt ({size}) {it.least()}) [ | inl less ↦ {other} | inr enough ↦ {enough} ]"
        tells = f"eqb_tells (const_at_{it.at} all) {it.kind.value}"
        term = f"elim ({tells}) [ | inl {names[k]} ↦ {term} | inr differs ↦ {few} ]"
    found_type = f"Finds all 0 ({f.m}_decoder {f.o}) n x"
    return f"""λ few {' '.join(f'at_{it.index}' for it in f.tests)}.
    let all = bits {f.o} c.args.packet.now in
    let ended = λ (n : ℕ) (x : _) (found : {found_type}) (less : 8 * {size} < n). is_error _ _
    (own_fields_short {OVER} found less) in
    {term}"""
