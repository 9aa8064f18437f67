"""When a parse succeeds, for a format that refuses nothing but other constants: the clause, and its proof."""
from __future__ import annotations

from describing.c.status import END_OF_INPUT, own
from describing.c.target import Target
from describing.layout import Format
from describing.specs.terms import fails, holds, known_of, only_constants


def facts(f: Format, all_bits: str, count: str) -> list[str]:
    """Returns what has to hold for a parse to succeed."""
    return [f"({f.bytes} ≤ {count})", *[f"({it})" for it in known_of(f, f.tests, all_bits)]]


def clause(f: Format) -> list[str]:
    """Returns the clause, if each line that may be refused is a constant."""
    if not only_constants(f):
        return []
    held = " × ".join(facts(f, f"bits {f.o} bytes.now", "length bytes.now"))
    return [f"    ensures ok {{ result.status ≡ pos 0 ↔ ({held}) }}"]


def lemma(t: Target) -> str:
    """Returns the lemma that a parse succeeds only then."""
    f, all_bits = t.f, f"bits {t.f.o} bytes"
    if not only_constants(f):
        return ""
    end = "(Reader EndOfInput)" if f.error else "EndOfInput"
    there = [f"({it.least()} ≤ length bytes → {holds(f, it, all_bits)[0]})" for it in f.tests]
    premises = ["".join(f"{it} → " for it in [f"length bytes < {f.bytes}", *there]) + f"r ≡ Err {end}"]
    for k, it in enumerate(f.tests):
        earlier = [f"{it.least()} ≤ length bytes", *known_of(f, f.tests[:k], all_bits), fails(f, it, all_bits)]
        premises.append("".join(f"{fact} → " for fact in earlier) + f"r ≡ Err {it.error}")
    return f"""
-- a parse succeeds only if all bits are there, and each constant is
pub ok_only : (bytes : List ℕ) (r : Result {f.type} {f.e})
{chr(10).join(f"    → ({it})" for it in premises)}
    → ({f.m}_parsed r).status ≡ pos 0 → {' × '.join(facts(f, all_bits, 'length bytes'))}
ok_only bytes r short {' '.join(f'other_{k}' for k in range(len(f.tests)))} ok =
{tree(t, 0, "    ")}
"""


def refused(t: Target, number: int, why: str) -> str:
    """Returns the contradiction that a parse failed."""
    return f"absurd (failed {number} (omega arith) (ap (λ it. ({t.f.m}_parsed it).status) ({why})) ok)"


def tree(t: Target, k: int, indent: str) -> str:
    """Returns the proof by cases from the k-th constant on."""
    f = t.f
    known = [f"is_{j}.1" for j in range(k)]
    if k == len(f.tests):
        few = refused(t, END_OF_INPUT, " ".join(["short few", *[f"(λ _. {it})" for it in known]]))
        done = ", ".join(["enough", *known])
        cases = [f"| inl few ↦ {few}", f"| inr enough ↦ {f'({done})' if known else done}"]
        return by_cases(f"cases_lt (length bytes) {f.bytes}", cases, indent)
    line = f.tests[k]
    absent = "(λ enough. absurd (omega (arith, enough, few)))"
    premises = [*[f"(λ _. {it})" for it in known], *[absent] * (len(f.tests) - k)]
    number = next(it.number for it in own(f) if it.case == line.error)
    few = refused(t, END_OF_INPUT, " ".join(["short (omega (arith, few))", *premises]))
    other = refused(t, number, " ".join([f"other_{k} some", *known, "differs.1"]))
    inner = by_cases(
        f"cases_lt (length bytes) {line.least()}", [f"| inl few ↦ {few}", f"| inr some ↦ {other}"], indent + "    "
    )
    held = holds(f, line, f"bits {f.o} bytes")[0].split(" ≡ ")
    first = f"| inl is_{k} ↦\n{tree(t, k + 1, indent + '    ')}"
    return by_cases(f"eqb_tells ({held[0]}) {held[1]}", [first, f"| inr differs ↦\n{inner}"], indent)


def by_cases(term: str, cases: list[str], indent: str) -> str:
    """Returns a proof by cases of a term."""
    return "\n".join([f"{indent}elim ({term}) [", *[f"{indent}  {it}" for it in cases], f"{indent}]"])


def answer(t: Target) -> str:
    """Returns the proof of the clause."""
    f = t.f
    if not only_constants(f):
        return ""
    errors = " ".join(f"c.parse.ensures.{it.clause}" for it in f.tests)
    held = " ".join(f"all.{k}" for k in range(len(f.tests) + 1))
    there = f"c.parse.ensures.there {held if f.tests else 'all'}"
    return f"""
pub returns-clause-ok : goal.returns-clause-ok
returns-clause-ok c =
    let told : c.parsed.result.status ≡ ({f.m}_parsed c.parse.result).status =
        ap (λ (it : {f.type}Parsed). it.status) c.parsed.ensures in
    ((λ ok. ok_only _ c.parse.result c.parse.ensures.short {errors} (sym told ∙ ok)),
    (λ all. told ∙ ap (λ it. ({f.m}_parsed it).status) ({there})))
"""
