"""The answers of the functions that read a part of a stated size."""
from __future__ import annotations

from describing import model as m
from describing.layout import Format, Line, by_size, head_bits, is_octets, padded
from describing.proofs.loops import write_answers, write_invariants
from describing.specs.sizes import is_plain, overrun, reader_error
from describing.specs.terms import inside

Answers = dict[str, list[str]]


def answers(f: Format, line: Line, kind: m.Measured) -> Answers:
    """Returns the answers of the functions of a part of a stated size, except those that a search finds."""
    inner = in_answers(f, line, kind) if not isinstance(kind, m.Fill) else items_answers(f, line, kind)
    found = {f"{kind.name}_in": inner, f"read_{kind.name}": read_answers(f, line, kind)}
    found |= stated_answers(f, line, kind) if line.units else {}
    if not isinstance(kind, m.Fill):
        return found
    counts = {f"count_{kind.name}": count_answers(f, kind.name)} if line.size else {}
    return found | counts | write_answers(f, kind)


def stated_answers(f: Format, line: Line, kind: m.Measured) -> Answers:
    """Returns the answers of the function that reads a part, or bytes, by the number that states the size."""
    decoder = f"(λ o n. {kind.name}_sized o c.args.number n)" if isinstance(kind, m.Choose) else f"{kind.name}_sized"
    shape = f"{line.units} {overrun(kind)} {'sized_bytes' if is_octets(kind) else decoder} _ _"
    is_known = "(sym c.in-{}.is ∙ c.stated_size.ensures)"
    some = f"stated-some {shape} {is_known.format('Some')}"
    out = [f"use {f.goals}.read_stated_{kind.name}.Goals as goal"]
    put(out, "returns-in-None", "g c", f"stated-none {shape} {is_known.format('None')}")
    if is_octets(kind):
        arm, read = "{}-read_to_vec-in-Some", "(vec-grown _ _ c.{}.ensures.reads)"
        ok, err = arm.format("in_ok"), arm.format("in_err")
        seen = "own_map_err _ c.from_residual.result c.from_residual.ensures.1"
        put(out, f"returns-{err}", "g c", f"rw ({seen}) ({some} (stop_grown _ {read.format(err)} refl))")
        put(out, f"returns-{ok}", "g c", f"{some} (go_grown _ {read.format(ok)} (grown_end _ _))")
    else:
        put(out, "returns-in-Some", "g c", f"{some} c.read_{kind.name}.ensures")
    return {f"read_stated_{kind.name}": out}


def invariants(f: Format, line: Line, kind: m.Fill) -> Answers:
    """Returns the invariants of the loops over items, by the function."""
    read, shape = inside(f, line, f.o), f"{overrun(kind)} {reader_error(kind)} {kind.name}_ended"
    lines = [
        f"use {f.goals}.{kind.name}_in.Given as goal",
        "-- the items so far were read",
        "abbrev pub invariant-loop : goal.invariant-loop",
        "invariant-loop l =",
        f"    ItemsSoFar (memory_source {f.o}) ({read}) {shape} (bits {f.o} l.bytes) l.size l.counter l.found.items l.inside",
    ]
    return {f"{kind.name}_in": lines} | write_invariants(f, kind)


def items_answers(f: Format, line: Line, kind: m.Fill) -> list[str]:
    """Returns the answers of the function that reads items over their bytes."""
    read, shape = inside(f, line, f.o), f"{overrun(kind)} {reader_error(kind)} {kind.name}_ended"
    so_far = f"({read}) {shape} (bits {f.o} c.args.bytes.now) c.args.size"
    here = f"{so_far} c.loop.counter c.loop.invariant"
    more = f"{here} c.loop-test.true c.if-is_at_end.ensures.left"
    ok, err = grown(f, line, kind, "in-Ok", True), grown(f, line, kind, "in-Err", False)
    out = [f"use {f.goals}.{kind.name}_in.Goals as goal"]
    put(
        out,
        "loop-init",
        "c",
        f"so_far-begin {so_far} 0 c.over-inside.ensures.state refl c.new-found.ensures.items refl",
    )
    put(out, "returns-then-is_at_end", "c", f"inl (so_far-end {here} c.if-is_at_end.ensures.left)")
    put(out, "loop-preserved", "c", f"so_far-push {more} _ _ _ c.in_ok-push-in-Ok.ensures.items {ok}")
    known = f"c.{kind.name}_ended.ensures" if is_plain(kind) else f"(c.{kind.name}_ended.ensures, c.from.ensures)"
    put(out, "returns-in-Err", "c", f"rw {known} (so_far-stop {more} _ _ slice_ends refl refl {err})")
    put(out, "returns-then-is_at_end-2", "c", f"inl (so_far-end {here} c.if-is_at_end-2.ensures.left)")
    all_read = "(omega (arith, c.loop-test.false))"
    put(out, "returns", "c", f"inl (so_far-more {here} {all_read} c.if-is_at_end-2.ensures.left)")
    return out


def padding_answers(f: Format, kind: m.Pad) -> Answers:
    """Returns the answers of the functions that count the zeros up to a multiple of bits."""
    out = [f"use {f.goals}.{kind.counted}.Goals as goal"]
    use = m.held_item(padded(f.description, kind))
    assert isinstance(use, m.Use)
    written = f"(flat_map ({use.module}_writes High) c.args.items.now)"
    for arm in ("Ok", "Err"):
        known = f"counts-is {written} c.count_{kind.target}.ensures ∙ c.in-{arm}.is"
        put(out, f"returns-in-{arm}", "c", f"rw ({known}) refl", kind.counted)
    return {kind.counted: out, f"count_{kind.target}": count_answers(f, kind.target)}


def count_answers(f: Format, name: str) -> list[str]:
    """Returns the answers of the function that counts the bits of items."""
    out = [f"use {f.goals}.count_{name}.Goals as goal"]
    shape = "_ 18446744073709551615 (λ x. x) _ _ _ _ _ refl (λ _. refl) (λ _ x. x) c.new-counter.ensures"
    wrote = f"(plainly_written _ _ _ _ _ c.in_{{}}-write_{name}.ensures)"
    stop = f"count_stopped {shape} _ _ c.from_residual.ensures.1 {wrote.format('err')}"
    put(out, f"returns-in_err-write_{name}", "c", stop)
    put(out, "returns", "c", f"count_done {shape} _ c.into_written.ensures {wrote.format('ok')}")
    return out


def put(out: list[str], goal: str, given: str, term: str, opened: str = "") -> None:
    """Appends an answer, in which some definitions are unfolded."""
    unfolding = [f"unfolding {opened}"] * bool(opened)
    out += ["", f"pub {goal} : goal.{goal}", *unfolding, f"{goal} {given} = {term}"]


def grown(f: Format, line: Line, kind: m.Measured, arm: str, ok: bool) -> str:
    """Returns the term of the read of the part, with the errors of the format, from the clause of its call."""
    fact = f"c.{arm}.ensures"
    if line.use and by_size(kind) and head_bits(line.use.description):
        fact = f"(rw c.bytes_after.ensures at {fact})"
    if isinstance(kind, m.Choose):
        return fact
    if not f.mapped(kind):
        return f"(go_grown _ (grown {fact}) (grown_end _ _))" if ok else f"(stop_grown _ (grown {fact}) refl)"
    allocates = any(m.allocating(it) for it in m.uses(kind))
    lemma = "grown_made" if allocates else "own_made"
    made = f"({lemma} _ {'(Ok _)' if ok else '(Err _)'} {fact} (λ error is. {'absurd is' if ok else 'rw is refl'}))"
    return made if allocates else f"(if_grown false {made})"


def in_answers(f: Format, line: Line, kind: m.Measured) -> list[str]:
    """Returns the answers of the function that reads a part over its bytes."""
    read = inside(f, line, f.o, "c.args.size").replace(" number", " c.args.number")
    shape = f"{overrun(kind)} (λ error. Reader error) {kind.name}_ended {{e = {read}}} c.over-inside.ensures.state"
    value = f"{shape} c.in-Ok.found"
    found = grown(f, line, kind, "in-Ok", True)
    out = [f"use {f.goals}.{kind.name}_in.Goals as goal"]
    end = "c.if-is_at_end.ensures.left"
    put(out, "returns-then-is_at_end", "c", f"inl (sym (within-ok {value} true {found} {end}))")
    put(out, "returns-else-is_at_end", "c", f"inl (sym (within-ok {value} false {found} {end}))")
    known = f"c.{kind.name}_ended.ensures" + ", c.from.ensures" * (not isinstance(kind, m.Choose))
    known = f"({known})" if "," in known else known
    refused = f"within-err {shape} slice_ends refl refl {grown(f, line, kind, 'in-Err', False)}"
    put(out, "returns-in-Err", "c", f"rw {known} ({refused})")
    return out


def read_answers(f: Format, line: Line, kind: m.Measured) -> list[str]:
    """Returns the answers of the function that reads the bytes of the size, and then the part."""
    inner = inside(f, line, "o", "c.args.size").replace(" number", " c.args.number")
    read = f"(λ o. {inner})"
    shape = f"{{own = {reader_error(kind)[1:-1]}}} {read} {overrun(kind)} {kind.name}_ended c.args.size c.requires"
    told = f"(rw c.deref.ensures.value at c.{kind.name}_in.ensures)"
    out = [f"use {f.goals}.read_{kind.name}.Goals as goal"]
    read_bytes = "(vec-grown _ _ c.in_err-bytes.ensures.reads)"
    stop = f"stop_grown _ {read_bytes} c.from_residual.ensures.1"
    if isinstance(kind, m.Fill):
        seen = "own_map_err _ c.from_residual.result c.from_residual.ensures.1"
        stop = f"rw ({seen}) (stop_grown _ {read_bytes} refl)"
    put(out, "returns-in_err-bytes", "g c", stop)
    lemma = "filled-grown" if isinstance(kind, m.Fill) else "sized-grown"
    put(out, "returns", "g c", f"{lemma} {shape} c.in_ok-bytes.ensures.reads {told}")
    return out
