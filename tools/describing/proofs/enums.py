"""The lemmas of an enum, and the answers of its functions."""
from __future__ import annotations

from describing import model as m
from describing.layout import Format, Line
from describing.model import snake
from describing.proofs.loops import write_answers, write_invariants
from describing.specs.terms import called

Answers = dict[str, list[str]]


def ok(line: Line) -> str:
    """Returns the function from a case to what its number says."""
    return "(λ x. Ok x)" if line.error else "(λ x. x)"


def answers(f: Format, line: Line, enum: m.EnumType) -> Answers:
    """Returns the answers of the functions of an enum."""
    if line.repeats:
        return {}
    goals = f"use {f.goals}.{enum.name}"
    found = {f"{enum.name}/of": of_answers(enum, goals)}
    if len(enum.names()) > 1:  # of one case a search finds the number
        found[f"{enum.name}/number"] = number_answers(enum, goals)
    if not isinstance(line.kind, m.Array):
        return found | {f"{enum.name}/read": read_answers(line, goals, "read", "number", "of")}
    found[f"{enum.name}/read_each"] = read_answers(line, goals, "read_each", "numbers", "each")
    found[f"{enum.name}/each"] = each_answers(line, enum, goals)
    return found | write_answers(f, line.kind)


def of_answers(enum: m.EnumType, goals: str) -> list[str]:
    """Returns the answers of the function from a number to its case."""
    tests = [(f"if-number-eq{value}", value) for value, _ in enum.tested]
    misses = [f"ne_eqb _ {value} c.{label}.false" for label, value in tests]
    out = [f"{goals}.of.Goals as goal", ""]
    for k, (label, value) in enumerate(tests):
        known = ", ".join([*misses[:k], f"eq-eqb _ {value} c.{label}.true"])
        goal = f"returns-then-{label.removeprefix('if-')}"
        out += [f"pub {goal} : goal.{goal}", f"{goal} c = rw ({known}) refl", ""]
    return out + ["pub returns : goal.returns", f"returns c = rw ({', '.join(misses)}) refl"]


def number_answers(enum: m.EnumType, goals: str) -> list[str]:
    """Returns the answers of the function from a case to its number."""
    out = [f"{goals}.number.Goals as goal", ""]
    for case in enum.names():
        goal = f"returns-in-{case}"
        out += [f"pub {goal} : goal.{goal}", f"{goal} c = rw c.in-{case}.is refl", ""]
    return out


def read_answers(line: Line, goals: str, read: str, name: str, made: str) -> list[str]:
    """Returns the answers of a function that reads `name`, and returns what `made` makes of it."""
    steps = ("next_own_read _", "own_end _ _", "exit_own_read _")
    first, end, stop = steps if line.error else ("Reads-and_then-ok _ _", "Reads-pure _ _", "exit _ _")
    return [
        f"{goals}.{read}.Goals as goal",
        "",
        f"pub returns-in_err-{name} : goal.returns-in_err-{name}",
        f"returns-in_err-{name} g c = {stop} c.from_residual.ensures.1 c.in_err-{name}.ensures.reads",
        "",
        "pub returns : goal.returns",
        f"returns g c = {first} c.in_ok-{name}.ensures.reads (rw c.{made}.ensures ({end}))",
    ]


def each_answers(line: Line, enum: m.EnumType, goals: str) -> list[str]:
    """Returns the answers of the loop from numbers to their cases."""
    s, inside = snake(enum.name), "(omega (arith, c.loop-i.invariant.1))"
    said = "c.in_ok-found.ensures" if line.error else "c.of.ensures"
    sofar = "c.loop-i.invariant.0"
    put = f"made-put {s}_of {ok(line)} c.args.numbers _ _ _ _ {inside} {inside} {sofar} (sym {said})"
    all_made = f"made-all {s}_of {ok(line)} c.args.numbers _ _ {inside} {inside} {sofar}"
    out = [f"{goals}.each.Goals as goal", "", "pub loop-i-init : goal.loop-i-init"]
    out += ["loop-i-init c = (refl, refl)", ""]
    out += ["pub loop-i-preserved : goal.loop-i-preserved"]
    out += [f"loop-i-preserved c = ({put}, simp length-set c.loop-i.invariant.1)", ""]
    if not line.error:
        return [*out, "pub returns : goal.returns", f"returns c = sym ({all_made} ∙ map-id _)"]
    stop = f"made-stop {s}_of c.args.numbers _ _ _ _ {inside} {sofar} (sym c.in_err-found.ensures)"
    out += ["pub returns-in_err-found : goal.returns-in_err-found"]
    out += [f"returns-in_err-found c = is_error _ _ c.from_residual.ensures.1 ∙ sym ({stop})", ""]
    return [*out, "pub returns : goal.returns", f"returns c = sym (ap all_ok ({all_made}) ∙ all_ok-items _)"]


def array_invariants(f: Format, line: Line, enum: m.EnumType, kind: m.Array) -> Answers:
    """Returns the invariants of the loops over an array of cases."""
    made = f"map {snake(enum.name)}_of (take l.i l.numbers) ≡ map {ok(line)} (take l.i l.found)"
    return write_invariants(f, kind) | {
        f"{enum.name}/each": [
            f"use {f.goals}.{enum.name}.each.Given as goal",
            "-- the items so far are the cases of their numbers",
            "abbrev pub invariant-loop-i : goal.invariant-loop-i",
            f"invariant-loop-i l = ({made}) × (length l.found ≡ {kind.count})",
        ]
    }
