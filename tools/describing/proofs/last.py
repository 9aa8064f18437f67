"""The invariants and the answers of the functions that read and write parts up to the last one."""
from __future__ import annotations

from describing import model as m
from describing.layout import Format, Line
from describing.proofs.lists import own_read, stopped
from describing.proofs.loops import write_answers, write_invariants
from describing.proofs.sizes import put
from describing.proofs.unfolds import opened
from describing.specs.terms import own_decoder, placed

Answers = dict[str, list[str]]
ALL = "(omega (arith, c.loop-test.false, c.loop.auto.counter-end))"


def invariants(f: Format, line: Line, kind: m.UpToLast) -> Answers:
    """Returns the invariants of the loops, by the function."""
    read = f"read_{kind.name}"
    lines = [
        f"use {f.goals}.{read}.Given as goal",
        "-- the parts so far were read, and none of them is the last one",
        "abbrev pub invariant-loop : goal.invariant-loop",
        "invariant-loop g l =",
        "    let K = g.R.BitRead.source in",
        f"    UpToLastSoFar K {f.becomes_name} ({placed(own_decoder(f, line), 'K.order')}) {kind.name}_last l.counter"
        " l.initial.reader l.found.items l.reader",
    ]
    return {read: lines} | write_invariants(f, kind)


def part_read(f: Format, line: Line, use: m.Use, arm: str) -> str:
    """Returns what is known of the read of a part."""
    if f.mapped(line.kind) or m.allocating(use):
        return own_read(f, line, use, arm, "item")
    fact = f"(grown c.in_{arm}-item.ensures)"
    then = "(λ value. pure (Ok value))"
    return f"(go_grown {then} {fact} (grown_end _ _))" if arm == "ok" else f"(stop_grown {then} {fact} refl)"


def answers(f: Format, line: Line, kind: m.UpToLast) -> Answers:
    """Returns the answers of the functions."""
    shape = (
        f"({placed(own_decoder(f, line), 'g.R.BitRead.source.order')}) {kind.name}_last c.loop.counter c.loop.invariant"
    )
    ok, err = (part_read(f, line, kind.use, arm) for arm in ("ok", "err"))
    item = f"{shape} _ _ c.loop-test.true {ok}"
    out = [f"use {f.goals}.read_{kind.name}.Goals as goal"]
    put(out, "loop-init", "g c", f"last-begin _ {kind.name}_last _ c.new-found.ensures.items")
    put(out, "returns-in_err-item", "g c", f"{stopped('from_residual')} (last-stop {shape} _ _ c.loop-test.true {err})")
    refused = f"last-refused {item} refl _ refl"
    put(out, "returns-in_err-push", "g c", f"{stopped('from_residual-in_err-push')} ({refused})", opened(line))
    ends = f"(rw (sym c.{kind.name}_last-last.ensures) c.if-last.true)"
    put(out, "returns-then-last", "g c", f"last-end {item} c.in_ok-push.ensures.items {ends}")
    more = f"(rw (sym c.{kind.name}_last-last.ensures) c.if-last.false)"
    put(out, "loop-preserved", "g c", f"last-push {item} refl c.in_ok-push.ensures.items {more}", opened(line))
    put(out, "returns", "g c", f"last-too_long {shape} _ _ {ALL} c.fail.ensures refl")
    return {f"read_{kind.name}": out} | write_answers(f, kind)
