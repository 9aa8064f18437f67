"""The invariants and the answers of the function that writes the items of a list or an array."""
from __future__ import annotations

from typing import TypeAlias

from describing import model as m
from describing.layout import Format
from describing.specs.terms import item_writes, placed, width

Answers = dict[str, list[str]]
Many: TypeAlias = m.List | m.Array | m.Fill | m.UpToLast


def wrote(item: m.Item, arm: str) -> str:
    """Returns what is known of the write of an item, which succeeds (`ok`) or fails (`err`)."""
    if isinstance(item, m.Use):
        return f"c.in_{arm}-write.ensures"
    known = f"c.in_{arm}-write.ensures.writes"
    if isinstance(item, m.EnumType):
        return f"(rw c.number.ensures at {known})"
    if isinstance(item, m.Integer) and item.signed:
        return f"(signed_value _ _ _ _ w{width(item)} _ _ _ _ {known} (search sfits_of))"
    return known


def item_of(kind: Many) -> m.Item:
    """Returns the item of a line that has many."""
    return kind.use if isinstance(kind, m.Fill | m.UpToLast) else kind.item


def write_invariants(f: Format, kind: Many) -> Answers:
    """Returns the invariant of the loop."""
    write = f"write_{kind.name}"
    return {
        write: [
            f"use {f.goals}.{write}.Given as goal",
            "-- the items so far were written",
            "abbrev pub invariant-loop-item : goal.invariant-loop-item",
            "invariant-loop-item g l =",
            "    let K = g.W.BitWrite.sink in",
            f"    ItemsWritten K ({placed(item_writes(item_of(kind)), 'K.order')}) l.items l.item-index"
            " l.initial.writer l.writer",
        ]
    }


def has_non_zero(use: m.Use) -> bool:
    """Returns true if a part has a `NonZero`, or an optional one, also in a part of its own."""
    kinds, own = use.description.kinds, (m.NonZero, m.MaybeNonZero)
    return any(isinstance(it, own) or any(map(has_non_zero, m.uses(it))) for it in kinds)


def write_answers(f: Format, kind: Many) -> Answers:
    """Returns the answers of the function."""
    sink, item = "g.W.BitWrite.sink", item_of(kind)
    calls = f"({placed(item_writes(item), 'K.order')})"
    # contracts see an item that has a list, or a `NonZero`, by its model
    same = "c.item-item.is" if isinstance(item, m.Use) and (m.allocating(item) or has_non_zero(item)) else "refl"
    after = f"c.loop-item-test.true {same} c.loop-item.invariant"
    lines = [f"use {f.goals}.write_{kind.name}.Goals as goal", ""]
    lines += ["pub loop-item-init : goal.loop-item-init", f"loop-item-init g c = let K = {sink} in"]
    lines += [f"    written-begin K {calls} c.args.items.now _", ""]
    lines += ["pub returns-in_err-write : goal.returns-in_err-write", "returns-in_err-write g c ="]
    lines += [f"    let K = {sink} in", f"    written-stop K {calls} c.args.items.now _ _ _ _ _ _ _ _"]
    lines += [f"    {after} {wrote(item, 'err')} c.from_residual.ensures.1"]
    lines += ["", "pub loop-item-preserved : goal.loop-item-preserved", "loop-item-preserved g c ="]
    lines += [f"    let K = {sink} in", f"    written-more K {calls} c.args.items.now _ _ _ _ _ _"]
    lines += [f"    {after} {wrote(item, 'ok')}"]
    return {f"write_{kind.name}": lines}
