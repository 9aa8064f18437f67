"""The invariants and the answers of the function that reads the items of a list."""
from __future__ import annotations

from describing import model as m
from describing.layout import Format, Line
from describing.proofs.loops import write_answers, write_invariants
from describing.proofs.unfolds import opened
from describing.specs.terms import item_decoder, placed, stored, width

Answers = dict[str, list[str]]
COUNTED = "let all : c.loop.counter ≡ c.args.count = omega (arith, c.loop-test.false, c.loop.auto.counter-end) in"


def invariants(f: Format, line: Line, kind: m.List) -> Answers:
    """Returns the invariants of the loops, by the function."""
    read = f"read_{kind.name}"
    so_far = f"PartsRead K {f.becomes_name}" if line.own else "ItemsRead K"
    stored_at = placed(stored(f, line, kind), "K.order")
    lines = [
        f"use {f.goals}.{read}.Given as goal",
        "-- the items so far were read",
        "abbrev pub invariant-loop : goal.invariant-loop",
        "invariant-loop g l =",
        "    let K = g.R.BitRead.source in",
        f"    {so_far} ({stored_at}) l.counter l.initial.reader l.found.items l.reader",
    ]
    return {read: lines} | write_invariants(f, kind)


def answers(f: Format, line: Line, kind: m.List) -> Answers:
    """Returns the answers of the functions of a list."""
    goals = f"use {f.goals}.read_{kind.name}.Goals as goal"
    found = own_answers(f, line, kind) if line.own else list_answers(f, line, kind)
    return {f"read_{kind.name}": [goals, *found]} | write_answers(f, kind)


def count_answers(f: Format, kind: m.Count) -> Answers:
    """Returns the answers of the function that writes an Exp-Golomb number that counts items."""
    write = f"write_{kind.target}_count"
    return {
        write: [
            f"use {f.goals}.{write}.Goals as goal",
            "",
            "pub returns : goal.returns",
            "returns g c = rw (le-leb 4294967295 c.args.number (omega arith)) c.write_ue-2.ensures",
        ]
    }


def read_clause(item: m.Item, arm: str) -> str:
    """Returns the clause of the read of an item, which succeeds (`ok`) or fails (`err`)."""
    return f"c.in_{arm}-read.ensures" + ("" if isinstance(item, m.EnumType | m.Use) else ".reads")


def pushed(item: m.Item) -> str:
    """Returns what is known of the list with one item more."""
    if isinstance(item, m.Integer) and item.signed:
        term = f"to_z-of_z w{width(item)} c.in_ok-read.field-0 (search (sfits_of, c.in_ok-read))"
        return f"(rw ({term}) at c.in_ok-push.ensures.items)"
    return "c.in_ok-push.ensures.items"


def list_answers(f: Format, line: Line, kind: m.List) -> list[str]:
    """Returns the answers of a list whose items are never refused."""
    item = f"({placed(item_decoder(f, line, kind.item), 'g.R.BitRead.source.order')})"
    ok, err, residual = read_clause(kind.item, "ok"), read_clause(kind.item, "err"), "c.from_residual-in_err-push"
    return [
        "",
        "pub loop-init : goal.loop-init",
        "loop-init g c = items-begin _ c.new-found.ensures.items",
        "",
        "pub returns-in_err-read : goal.returns-in_err-read",
        "returns-in_err-read g c =",
        "    grown (items-stop _ _ _ _ c.from_residual.result c.loop-test.true c.loop.invariant"
        f" (item-read {err}) c.from_residual.ensures.1)",
        "",
        "pub returns-in_err-push : goal.returns-in_err-push",
        f"unfolding {opened(line)}",
        "returns-in_err-push g c =",
        f"    rw (map_err _ {residual}.result {residual}.ensures.1)",
        f"    (items-refused {item} _ c.args.count refl c.loop-test.true c.loop.invariant {ok})",
        "",
        "pub loop-preserved : goal.loop-preserved",
        f"loop-preserved g c = items-push _ _ {pushed(kind.item)} c.loop.invariant (item-read {ok})",
        "",
        "pub returns : goal.returns",
        "returns g c =",
        f"    {COUNTED}",
        "    grown (rw (← all) c.loop.invariant)",
    ]


def own_read(f: Format, line: Line, item: m.Item, arm: str, label: str = "read") -> str:
    """Returns what is known of the read of an item that may be refused, or that allocates."""
    fact = read_clause(item, arm).replace("-read.", f"-{label}.")
    allocates = isinstance(item, m.Use) and m.allocating(item)
    if isinstance(item, m.Use) and f.mapped(line.kind):
        term, shown = ("(Ok _)", "absurd is") if arm == "ok" else ("(Err _)", "rw is refl")
        fact = f"({'grown_made' if allocates else 'own_made'} _ {term} {fact} (λ error is. {shown}))"
    return fact if allocates else f"(if_grown false {fact})"


def stopped(residual: str) -> str:
    """Returns the words that rewrite a result by the error that a `?` returned."""
    return f"rw (own_map_err _ c.{residual}.result c.{residual}.ensures.1)"


def own_answers(f: Format, line: Line, kind: m.List) -> list[str]:
    """Returns the answers of a list whose items may be refused."""
    item = f"({placed(item_decoder(f, line, kind.item), 'g.R.BitRead.source.order')})"
    ok, err = own_read(f, line, kind.item, "ok"), own_read(f, line, kind.item, "err")
    return [
        "",
        "pub loop-init : goal.loop-init",
        "loop-init g c = parts-begin _ c.new-found.ensures.items",
        "",
        "pub returns-in_err-read : goal.returns-in_err-read",
        "returns-in_err-read g c =",
        f"    {stopped('from_residual')} (parts-stop {item} _ c.args.count c.loop-test.true c.loop.invariant"
        f" {err})",
        "",
        "pub returns-in_err-push : goal.returns-in_err-push",
        f"unfolding {opened(line)}",
        "returns-in_err-push g c =",
        f"    {stopped('from_residual-in_err-push')}",
        f"    (parts-refused {item} _ c.args.count refl c.loop-test.true c.loop.invariant {ok} refl)",
        "",
        "pub loop-preserved : goal.loop-preserved",
        f"loop-preserved g c = parts-push {item} _ {pushed(kind.item)} c.loop.invariant {ok}",
        "",
        "pub returns : goal.returns",
        "returns g c =",
        f"    {COUNTED}",
        "    rw (← all) c.loop.invariant",
    ]
