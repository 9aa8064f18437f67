"""The answers of the function that computes a checksum."""
from __future__ import annotations

from typing import Sequence

from describing import model as m
from describing.layout import Format
from describing.rust.checks import CALLS, number_width

Answers = dict[str, list[str]]
# The step and the scale of each check of a remainder.
STEPS = {
    "crc32": "(low_step 0xEDB88320) 1",
    "crc32-mpeg": "(high_step 0x80000000 0x04C11DB7) 0x1000000",
    "crc16-ccitt": "(high_step 0x8000 0x1021) 0x100",
    "crc16-x25": "(low_step 0x8408) 1",
    "crc16-kermit": "(low_step 0x8408) 1",
}
# The last step of each checksum that has one.
ENDS = {
    "crc32": "λ (crc : ℕ). bit_xor crc 0xFFFFFFFF",
    "crc16-x25": "λ (crc : ℕ). bit_xor crc 0xFFFF",
    "sum16": "λ (sum : ℕ). 65535 - sum",
}


def state(kind: m.Check, k: int, covered: m.Kind) -> str:
    """Returns what is known of the state after a field."""
    fact, wide = f"c.{CALLS[kind.sum][0]}-state_{k}.ensures", number_width(covered)
    return f"(rw c.octets_of_u{wide}-octets_{k}.ensures at {fact})" if wide else fact


def answers(f: Format, kind: m.Check, covers: Sequence[m.Kind]) -> Answers:
    """Returns the answers of the function that computes a checksum."""
    if kind.lines:
        return lines_answers(f, kind)
    name, then = f"{kind.word}_of", f"over-then {STEPS.get(kind.sum, '')}" if kind.sum in STEPS else "sum-then 0 0"
    blanks = "_ _ _ _ _" if kind.sum in STEPS else "_ _ _ _"
    term = state(kind, 1, covers[0])
    for k, it in enumerate(covers[1:], 2):
        term = f"{then} {blanks} ({term}) {state(kind, k, it)}"
    if kind.sum in ENDS:
        term = f"ap ({ENDS[kind.sum]}) ({term})"
    out = [f"use {f.goals}.{name}.Goals as goal", "", "pub returns : goal.returns", f"returns c = {term}"]
    return {name: out}


def lines_answers(f: Format, kind: m.Check) -> Answers:
    """Returns the answers of the function that computes the checksum of lines."""
    path, given = f"{f.type}/{kind.word}", "_ _ _ _ _ _ _ _ c.summing_writer-writer.ensures"
    out = [f"use {f.goals}.{f.type}.{kind.word}.Goals as goal", ""]
    out += ["pub returns-in-Ok : goal.returns-in-Ok"]
    out += [f"returns-in-Ok c = summed {given} c.in-Ok.ensures _ c.sum_of.ensures", ""]
    out += ["pub returns-in-Err : goal.returns-in-Err"]
    found = {path: [*out, f"returns-in-Err c = unsummed {given} (λ x may. may.refused) _ c.in-Err.ensures"]}
    if isinstance(kind, m.Computed) and kind.units:
        goals = [f"use {f.goals}.{f.type}.{kind.called}.Goals as goal", "", "pub returns : goal.returns"]
        found[f"{f.type}/{kind.called}"] = [*goals, f"returns c = rw c.{kind.word}.ensures at c.stored_size.ensures"]
    return found
