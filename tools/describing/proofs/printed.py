"""The text of the files of proofs."""
from __future__ import annotations

from describing import model as m
from describing.imports import own_lemmas, own_specs, parts_lemmas, types
from describing.layout import Format, Line
from describing.names import PROOFS, VALUES, Table, modules_of, uses
from describing.proofs import checks, choices, enums, last, limits, lists, parts, sizes
from describing.proofs.laws import lemmas
from describing.proofs.parse import parse_lines
from describing.proofs.rows import rows
from describing.specs.values import ATOMS
from describing.text import article, wrapped

Answers = dict[str, list[str]]


def files(f: Format) -> dict[str, str]:
    """Returns the lemmas and the test vectors by their places in the crate."""
    head = f"-- A written `{f.type}` is read back, and its number of bits."
    own = {} if f.valued else VALUES
    found = {f"proofs/{f.spec}Lemmas.antt": text(f, [head], lemmas(f), parts_lemmas(f), own)}
    if f.description.examples:
        out, unfolded = rows(f)
        found[f"proofs/{f.spec}Rows.antt"] = text(f, [f"-- Worked rows of {article(f.type)}."], out, unfolded)
    return found


def answer_files(f: Format) -> dict[str, str]:
    """Returns the invariants and the answers of functions by their places in the crate."""
    found: dict[str, str] = {}
    for it in f.lines:
        for path, lines in line_invariants(f, it).items():
            found[f"proofs/{f.m}/{path}/Invariants.antt"] = text(f, [], lines, own_lemmas(f))
    answers = law(f) | {f"{f.type}/parse": parse_lines(f)} | pack(f) | traits(f)
    for it in f.lines:
        answers |= line_answers(f, it)
        if isinstance(it.kind, m.Choose):
            found[answers_path(f, f"{it.kind.type}/read")] = choices.read_answers(f, it, it.kind)
            unnamed = choices.unnamed_answers(f, it.kind) if it.kind.unnamed else {}
            found |= {answers_path(f, path): said for path, said in unnamed.items()}
    return found | {answers_path(f, path): text(f, [], lines, own_lemmas(f)) for path, lines in answers.items()}


def answers_path(f: Format, path: str) -> str:
    """Returns the place of the answers of a function."""
    return f"proofs/{f.m}/{path}/Answers.antt"


def text(f: Format, head: list[str], lines: list[str], *tables: Table) -> str:
    """Returns the text of a file: its head, the imports that its lines need, the import of the goals, and the rest."""
    goals, rest = [it for it in lines if it.startswith("use ")], [it for it in lines if not it.startswith("use ")]
    unfolded = modules_of({name for it in rest if it.startswith("unfolding ") for name in it.split()[1:]})
    found = uses("\n".join(rest), own_specs(f), unfolded, *tables, types(f), PROOFS)
    found += [ATOMS] * any("(atom." in it or " atom." in it for it in rest)
    return wrapped("\n".join([f"-- {f.made}", *head, *found, *goals, *[""] * bool(rest[0]), *rest]).rstrip()) + "\n"


def line_invariants(f: Format, line: Line) -> Answers:
    """Returns the invariants of the loops of a line."""
    kind = line.kind
    if isinstance(kind, m.Array) and line.enum:
        return enums.array_invariants(f, line, line.enum, kind)
    if isinstance(kind, m.List) and not isinstance(kind.item, m.Octet):
        return lists.invariants(f, line, kind)
    if isinstance(kind, m.UpToLast):
        return last.invariants(f, line, kind)
    return sizes.invariants(f, line, kind) if isinstance(kind, m.Fill) else {}


def line_answers(f: Format, line: Line) -> Answers:
    """Returns the answers of the functions of a line."""
    kind = line.kind
    found: Answers = {}
    if line.enum:
        found |= enums.answers(f, line, line.enum)
    for it in line.parts:
        found |= parts.answers(f, it, it.use) if it.use else {}
    if isinstance(kind, m.Choose):
        found |= choices.answers(f, line, kind)
        found |= to_answers(f, kind.type) if line.size else {}
    if line.measured:
        found |= sizes.answers(f, line, line.measured)
    elif isinstance(kind, m.Sized) and kind.error:
        found |= sizes.stated_answers(f, line, kind)
    if isinstance(kind, m.List) and not isinstance(kind.item, m.Octet):
        found |= lists.answers(f, line, kind)
    if isinstance(kind, m.Pad):
        found |= sizes.padding_answers(f, kind)
    if m.is_capped(kind):
        found |= limits.answers(f, line, kind)
    elif m.is_golomb(kind):
        found |= lists.count_answers(f, kind)
    if isinstance(kind, m.UpToLast):
        found |= last.answers(f, line, kind)
    if isinstance(kind, m.Check):
        found |= checks.answers(f, kind, line.covers)
    return found


def answer(f: Format, path: str, *answers: tuple[str, str, str]) -> Answers:
    """Returns the answers of a function from goals, each with its parameters and its term."""
    out = [f"use {f.goals}.{path.replace('/', '.')}.Goals as goal"]
    for goal, given, term in answers:
        out += ["", f"pub {goal} : goal.{goal}", f"{goal} {given} = {term}"]
    return {path: out}


def law(f: Format) -> Answers:
    """Returns the answers of the law of the round trip."""
    back = f"λ o value at from more fits. ({f.m}_goes o value fits).back at from more"
    size = f"λ o value at fits. ({f.m}_packs o value fits).size at"
    clauses = ("returns-clause-back", "c", back), ("returns-clause-size", "c", size)
    return answer(f, f"{f.m}_round_trip", *clauses)


def traits(f: Format) -> Answers:
    """Returns the answers of the impls of the traits of the library."""
    around = "" if f.own else "plainly_read "
    read = f"record {{ reads = {around}c.read.ensures }}"
    found = answer(f, f"{f.type}FromBitStream{'Using' * f.grows}/from_reader", ("returns", "g c", read))
    return ({} if f.ordered or f.given else found) | to_answers(f, f.type)


def to_answers(f: Format, type: str) -> Answers:
    """Returns the answers of the impl of `ToBitStream` for a type."""
    write = "record { writes = plainly_written _ _ _ _ _ c.write.ensures }"
    return answer(f, f"{type}ToBitStream/to_writer", ("returns", "g c", write))


def pack(f: Format) -> Answers:
    """Returns the answers of `pack_into`."""
    o, v, packs = f.o, "c.args.self.now", "c.pack_into.ensures"
    length = f"({f.m}_packs {o} {v} fits)"
    enough, few = ("(omega arith)", "(omega arith)") if f.sized else ("enough", "few")
    name, fits = ("accepted", f"packed-accepted {packs} done")
    if f.fitting:
        name, fits = "fits", f"{f.m}_fits {o} {v} 0 (packed-accepted {packs} done)"
    return answer(
        f,
        f"{f.type}/pack_into",
        ("returns-clause-packed", "c", f"packed-bits {packs} (told {v})"),
        ("returns-clause-first", "c", f"{packs}.first"),
        (f"returns-clause-{name}", "c", f"λ done. {fits}"),
        ("returns-clause-misfit", "c", f"{packs}.misfit"),
        ("returns-clause-room", "c", f"λ fits enough. packed-room {packs} {length} {enough}"),
        ("returns-clause-short", "c", f"λ fits few. packed-short {packs} {length} {few}"),
    )
