"""The answers of the functions that write numbers with a greatest value."""
from __future__ import annotations

from describing import model as m
from describing.layout import Format, Line, is_part_size
from describing.specs.terms import measured_writes

Answers = dict[str, list[str]]


def answers(f: Format, line: Line, kind: m.Capped) -> Answers:
    """Returns the answers of the function that writes a number, or the size of a part."""
    write = f"write_{line.name}"
    out = [f"use {f.goals}.{write}.Goals as goal"]
    if is_part_size(line):
        assert isinstance(kind, m.Size)
        return {write: out + size_answers(line, kind)}
    put(out, "returns-then-is_most", f"rw (le-leb _ _ c.if-is_most.true) {wrote(kind)}")
    put(out, "returns", f"rw (above-leb _ _ c.if-is_most.false) c.write{'-2' * is_write(kind)}.ensures.writes")
    return {write: out}


def is_write(kind: m.Capped) -> bool:
    """Returns true for a number that a call `write` writes."""
    return not (m.is_golomb(kind) or m.is_varint(kind))


def wrote(kind: m.Capped) -> str:
    """Returns the clause of the call that writes a number."""
    if is_write(kind):
        return "c.write.ensures.writes"
    return "c.write_ue.ensures" if m.is_golomb(kind) else "c.write_varint.ensures"


def size_answers(line: Line, kind: m.Size) -> list[str]:
    """Returns the answers of the function that writes the size of a part."""
    assert line.measures
    fills = isinstance(line.measures, m.Fill)
    writes = measured_writes(line.measures, "High").replace(
        f"value.{kind.target}", f"c.args.{'items' if fills else 'value'}.now"
    )
    counts = f"count_{kind.target}.ensures" if fills else "bits.ensures.counts"
    encoder, write = "size_encoder", "write_size"
    if kind.units:
        encoder, write = "stored_encoder", "write_stored_size"
    if kind.groups:
        encoder, write = "grouped_encoder", "write_size_in_groups"
    true, false = "c.if-is_most.true", "c.if-is_most.false"
    if kind.units:
        true, false = (f"(rw c.stored_size-is_most.ensures at {it})" for it in (true, false))
    out, known = list[str](), f"counts-is ({writes}) c.{counts} ∙ c.in-{{}}.is"
    for goal, terms in {
        "returns-in-Err": f"({known.format('Err')}) c.{write}-in-Err.ensures",
        "returns-then-is_most": f"({known.format('Ok')}, le-leb _ _ {true}) c.{write}.ensures",
        "returns-else-is_most": f"({known.format('Ok')}, above-leb _ _ {false}) c.write.ensures.writes",
    }.items():
        put(out, goal, f"rw {terms}", encoder)
    return out


def put(out: list[str], goal: str, term: str, opened: str = "") -> None:
    """Appends an answer, in which a definition is unfolded."""
    out += ["", f"pub {goal} : goal.{goal}", *[f"unfolding {opened}"] * bool(opened), f"{goal} g c = {term}"]
