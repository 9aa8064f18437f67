"""The proofs of the functions for C of a format with lists."""
from __future__ import annotations

import re
from collections.abc import Sequence

from describing import model as m
from describing.c import cross, fill_proofs, part_lists, part_proofs, rests, sum_proofs, sums, untils, varying
from describing.c.cross import Listed, base, is_mapped, is_stated, lists, spec_item
from describing.c.imports import answer_uses
from describing.c.lists import count_name, decoder, given, parse_answers
from describing.c.target import Target
from describing.layout import Format, Line
from describing.proofs import calls
from describing.proofs.chains import Answers, Call
from describing.proofs.limits import answers as limit_answers
from describing.proofs.loops import write_answers, write_invariants
from describing.proofs.parts import write_answers as part_writes
from describing.specs.terms import asked_enums, by_enum

RESIDUAL = re.compile(r"c\.from_residual(?:-in_err-[^\s.]+)?\.ensures\.1")


SIGNED = "use Rattle.bitstream_io.proofs.WriteSteps.{signed_value}\n"


class Reads(Answers):
    """The answers of the function that reads the fields, whose relation says of its result what lemmas do."""

    def __init__(self, f: Format) -> None:
        super().__init__("ReadsOwn", "", "", True)
        self.f = f

    def laid_out(self, head: str, text: str) -> str:
        """Returns a term after its head, as what a lemma takes."""
        found = RESIDUAL.search(text)
        if "returns-then-not-is_" in head:
            text = f"refused_by ({text}) {self.term('refl')}"
        elif found and "returns-" in head:
            text = f"stopped _ {found[0]} (λ s residual. {text.replace(found[0], 'residual')})"
        else:
            kept = " ".join(f"c.in_ok-{label(self.f, it)}.ensures.keeps" for it in lists(self.f.description))
            text = f"read_done ({text}) (search rules) {kept}"
        return super().laid_out(head, text)


def label(f: Format, kind: Listed) -> str:
    """Returns the name of the call that reads a list."""
    return count_name(f, kind) if is_stated(kind) or isinstance(kind, m.Fill | m.Until) else f"read_{kind.name}"


def read_size(f: Format, kind: Listed) -> str:
    """Returns the equation of the number of items that were read of a list."""
    return f"c.in_ok-{label(f, kind)}.ensures.size{' refl' * (not is_stated(kind))}"


def read_answers(f: Format) -> str:
    """Returns the answers of the function that reads the fields."""
    labels, steps, made = calls.Labels(), calls.Labels(), list[Call]()
    for it in f.written:
        form, fact, wide = calls.read_call(f, it)
        asks = asked_enums(f, it.kind) or isinstance(it.kind, m.Choose) and by_enum(f, it.kind) is not None
        known = (f"c.{steps.next('number')}.ensures",) if asks else ()
        if isinstance(it.kind, m.If) and it.kind.due:
            known = (f"c.is_{it.kind.due}.ensures",)
        named = calls.read_label(it)
        if cross.is_listed(it.kind):
            own = is_stated(it.kind) or isinstance(it.kind, m.Fill) or is_mapped(it.kind) and it.own
            form, fact, named = "part" if own else "read", "reads", label(f, it.kind)
            known = (
                (f"c.size_in_units-{count_name(f, it.kind)}.ensures",) if it.units and not is_stated(it.kind) else ()
            )
        if isinstance(it.kind, m.Rest):
            known = rests.known(f, {one.name: read_size(f, one) for one in lists(f.description)})
        made.append(Call(form, fact, labels.next(named), "", wide=wide, known=known))
        if m.is_limited(it.kind):
            test = f"not-is_{it.name}"
            made.append(Call("most", "", test, test, "if", "not"))
    answers = Reads(f)
    parts = answers.all(made)
    return "\n\n".join([answers.uses("GOALS"), *parts])


class Writes(calls.Writes):
    """The calls that write the fields: their lists are slices."""

    def known_length(self, target: str) -> str:
        """Returns the equation of the length of a slice."""
        return f"c.{self.steps.next('len')}.ensures"

    def known(self, line: Line) -> tuple[str, ...]:
        """Returns the equations of the arguments of a call."""
        kind = line.kind
        if isinstance(kind, m.Check):
            numbers = (f"c.{self.steps.next('number')}.ensures" for it in line.covers if isinstance(it, m.Enum))
            return (f"c.{kind.called}.ensures", *numbers)
        if isinstance(line.measures, m.Fill):
            return (f"size-wrote _ _ _ _ _ _ _ _ c.{line.measures.name}_bits.ensures",)
        if isinstance(kind, m.Size):
            return (f"c.{self.steps.next('stored_size')}.ensures",) if kind.units else ()
        if cross.is_listed(kind) and (one := part_lists.shape(self.f, kind)):
            return (f"(made_written {one.from_c} {part_lists.given_writes(kind)} _)",)
        if isinstance(kind, m.Count) and (one := part_lists.shape(self.f, cross.target(self.f.description, kind))):
            return (f"c.{self.steps.next(f'count_{one.word}')}.ensures",)
        return () if isinstance(kind, m.List | m.Sized | m.Count | m.Rest | m.Until) else super().known(line)


def write_fields(f: Format, lines: Sequence[Line]) -> str:
    """Returns the answers of a function that writes lines."""
    writes = Writes(f)
    writes.fields = "c.args.self.now"
    answers = Answers("WritesAll", "", "", True)
    parts = answers.all([writes.call(it) for it in lines])
    return "\n\n".join([answers.uses("GOALS"), *parts])


def items_read(f: Format, kind: Listed, order: str, count: str) -> str:
    """Returns the read of items, before it is one of a list."""
    if isinstance(kind.item, m.Octet):
        return f"(bytes_decoder {order} {count})"
    return decoder(f, kind, order, count)


def invariant(t: Target, kind: Listed) -> str:
    """Returns the invariant of the loop that reads a list."""
    f = t.f
    reads = items_read(f, kind, "K.order", "l.place")
    names = "bytes_decoder" if isinstance(kind.item, m.Octet) else "items_decoder, list_item, unsigned_decoder"
    names = names.replace("unsigned", "signed") if spec_item(kind) == "ℤ" else names
    return f"""-- {t.made}
use Rattle.std.proofs.Common.{{Ok}}
use Rattle.bitstream_io.specs.Callers.{{Reads, {names}}}
use Rattle.{t.crate}.specs.Lists.{{ItemsKept}}
use Rattle.{t.crate}.proofs.{f.m}.read_{kind.name}.Given as goal

-- the items so far were read and kept
abbrev pub invariant-loop-place : goal.invariant-loop-place
invariant-loop-place g l =
    let K = g.R.BitRead.source in
    ItemsKept (λ all. Reads K {reads} l.fn.reader (Ok all) l.reader) l.place l.initial.items l.items
"""


def list_answers(t: Target, kind: Listed) -> str:
    """Returns the answers of the function that reads a list."""
    return octets_answers(t, kind) if isinstance(kind.item, m.Octet) else numbers_answers(t, kind)


ALL = "let all : c.loop-place.place ≡ c.args.count = omega (arith, c.loop-place-test.false, c.loop-place.auto.place-end) in"


def octets_answers(t: Target, kind: Listed) -> str:
    """Returns the answers for a list of bytes."""
    return f"""-- {t.made}
use Rattle.std.proofs.Common.{{◌≡◌, ◌∙◌, ◌+◌, ◌++◌, ◌∷◌, [], refl, sym, arith, length-append}}
use Rattle.bitstream_stream.proofs.Reading.BytesLemmas.{{map_stops, reads-byte, reads-more, reads-none, stops-byte, stops-more, stops-none, stops-prefix}}
use Rattle.{t.crate}.proofs.ListLemmas.{{bytes_into, failed_ok, kept_begin}}
use Rattle.{t.crate}.proofs.{t.f.m}.read_{kind.name}.Goals as goal

pub returns-in_err-read_unsigned_var : goal.returns-in_err-read_unsigned_var
returns-in_err-read_unsigned_var g c = record {{
  all = [];
  reads = bytes_into _ _ (map_stops _ c.from_residual.result c.from_residual.ensures.1
      (stops-prefix _ 0 _ _ _ _ (omega arith) (stops-none _ 8 _ _ _ c.in_err-read_unsigned_var.ensures.reads)));
  size = failed_ok _ c.from_residual.result c.from_residual.ensures.1;
  keeps = kept_begin _;
}}

pub loop-place-init : goal.loop-place-init
loop-place-init g c = record {{
  all = [];
  reads = reads-none _ 8 _ _ _ c.in_ok-read_unsigned_var.ensures.reads;
  size = refl;
  keeps = kept_begin _;
}}

pub returns-in_err-item : goal.returns-in_err-item
returns-in_err-item g c =
    let o = g.R.BitRead.source.order in
    let was = c.loop-place.invariant in
    record {{
      all = was.all;
      reads = bytes_into _ _ (map_stops _ c.from_residual-in_err-item.result c.from_residual-in_err-item.ensures.1
          (stops-more o c.loop-place.place 1 c.args.count _ _ _ _ _ (omega (arith, c.loop-place-test.true)) was.reads
          (stops-byte o _ _ _ c.in_err-item.ensures.reads)));
      size = failed_ok _ c.from_residual-in_err-item.result c.from_residual-in_err-item.ensures.1;
      keeps = was.keeps;
    }}

pub loop-place-preserved : goal.loop-place-preserved
loop-place-preserved g c =
    let o = g.R.BitRead.source.order in
    let was = c.loop-place.invariant in
    record {{
      all = was.all ++ c.in_ok-item.item ∷ [];
      reads = reads-more o c.loop-place.place 1 (c.loop-place.place + 1) was.all (c.in_ok-item.item ∷ []) _ _ _ _ refl refl
          was.reads (reads-byte o c.in_ok-item.item _ _ c.in_ok-item.ensures.reads);
      size = omega (arith, length-append was.all (c.in_ok-item.item ∷ []), was.size);
      keeps = c.keep_u8.ensures was.all _ was.size was.keeps;
    }}

pub returns : goal.returns
returns g c =
    {ALL}
    let was = c.loop-place.invariant in
    record {{ all = was.all; reads = bytes_into _ _ (rw (← all) was.reads); size = λ _. was.size ∙ all; keeps = was.keeps }}
"""


def kept(kind: Listed) -> str:
    """Returns what is known of the slice with one item more."""
    found, width = f"c.keep_{base(kind)}.ensures was.all _ was.size was.keeps", base(kind)[1:]
    if spec_item(kind) == "ℕ":
        return found
    return f"rw (to_z-of_z w{width} c.in_ok-item.item (search (sfits_of, c.in_ok-item))) at ({found})"


def signed_uses(kind: Listed) -> tuple[str, str]:
    """Returns the imports of the proofs of signed items, and the width among those of the standard library."""
    if spec_item(kind) == "ℕ":
        return "", ""
    return "use borrow.Author.Rules.{sfits_of}\n", f", w{base(kind)[1:]}"


def numbers_answers(t: Target, kind: Listed) -> str:
    """Returns the answers for a list of numbers."""
    more, width = signed_uses(kind)
    more += "use Rattle.std.proofs.lemmas.Int.{to_z-of_z}\n" * bool(more)
    return f"""-- {t.made}
{more}use Rattle.std.proofs.Common.{{◌≡◌, ◌∙◌, ◌+◌, ◌++◌, ◌∷◌, [], refl, sym, arith, length-append{width}}}
use Rattle.bitstream_io.proofs.CallerLemmas.{{item-read, items-begin, items-push, items-stop}}
use Rattle.{t.crate}.proofs.ListLemmas.{{failed_ok, kept_begin}}
use Rattle.{t.crate}.proofs.{t.f.m}.read_{kind.name}.Goals as goal

pub loop-place-init : goal.loop-place-init
loop-place-init g c = record {{ all = []; reads = items-begin _ refl; size = refl; keeps = kept_begin _ }}

pub returns-in_err-item : goal.returns-in_err-item
returns-in_err-item g c =
    let was = c.loop-place.invariant in
    record {{
      all = was.all;
      reads = items-stop _ _ _ (λ _. was.all) c.from_residual.result c.loop-place-test.true was.reads
          (item-read c.in_err-item.ensures.reads) c.from_residual.ensures.1;
      size = failed_ok _ c.from_residual.result c.from_residual.ensures.1;
      keeps = was.keeps;
    }}

pub loop-place-preserved : goal.loop-place-preserved
loop-place-preserved g c =
    let was = c.loop-place.invariant in
    record {{
      all = was.all ++ c.in_ok-item.item ∷ [];
      reads = items-push _ _ refl was.reads (item-read c.in_ok-item.ensures.reads);
      size = omega (arith, length-append was.all (c.in_ok-item.item ∷ []), was.size);
      keeps = {kept(kind)};
    }}

pub returns : goal.returns
returns g c =
    {ALL}
    let was = c.loop-place.invariant in
    record {{ all = was.all; reads = rw (← all) was.reads; size = λ _. was.size ∙ all; keeps = was.keeps }}
"""


def stated_answers(t: Target, line: Line) -> str:
    """Returns the answers of the function that reads bytes by the number that states their size."""
    f, name, goal = t.f, line.name, f"Rattle.{t.crate}.proofs.{t.f.m}.read_stated_{line.name}.Goals"
    shape = f"{line.units} {line.error} sized_bytes _ _"
    some = f"stated_own-some {shape} (sym c.in-Some.is ∙ c.stated_size.ensures)"
    return f"""-- {t.made}
use Rattle.bitstream_format.specs.Stated.{{sized_bytes}}
use Rattle.{f.crate}.specs.declared.{f.m}.{f.error}.TheVariants.{{{line.error}}}
use Rattle.std.proofs.Common.{{◌∙◌, [], refl, sym}}
use Rattle.bitstream_io.proofs.CallerLemmas.{{next_own_read, exit_own_read, own_end}}
use Rattle.bitstream_io.proofs.EachLemmas.{{own_map_err}}
use Rattle.{t.crate}.proofs.ListLemmas.{{failed_if, kept_begin}}
use Rattle.{t.crate}.proofs.StatedLemmas.{{stated_own-none, stated_own-some}}
use {goal} as goal

pub returns-in-None : goal.returns-in-None
returns-in-None g c = record {{
  all = [];
  reads = stated_own-none {shape} (sym c.in-None.is ∙ c.stated_size.ensures);
  size = tt;
  keeps = kept_begin _;
}}

pub returns-in_err-read_{name}-in-Some : goal.returns-in_err-read_{name}-in-Some
returns-in_err-read_{name}-in-Some g c =
    let was = c.in_err-read_{name}-in-Some.ensures in
    record {{
      all = was.all;
      reads = rw (own_map_err _ c.from_residual.result c.from_residual.ensures.1)
          ({some} (exit_own_read _ refl was.reads));
      size = failed_if _ _ c.from_residual.result c.from_residual.ensures.1;
      keeps = was.keeps;
    }}

pub returns-in_ok-read_{name}-in-Some : goal.returns-in_ok-read_{name}-in-Some
returns-in_ok-read_{name}-in-Some g c =
    let was = c.in_ok-read_{name}-in-Some.ensures in
    record {{
      all = was.all;
      reads = {some} (next_own_read _ was.reads (own_end _ _));
      size = was.size refl;
      keeps = was.keeps;
    }}
"""


def optional_files(t: Target, use: m.Use) -> dict[str, str]:
    """Returns the proofs of the functions that read and write a part that may be there or not."""
    f, name, out = t.f, m.snake(use.name), dict[str, str]()
    goals = f"Rattle.{t.crate}.proofs.{f.m}"
    read = calls.optional_answers(f, use).replace(f.made, t.made).replace(f.goals, goals)
    out[f"proofs/{f.m}/read_{name}_if/Answers.antt"] = read
    none = "use Rattle.bitstream_io.proofs.WriteParts.{all_none}"
    for path, lines in part_writes(f, use).items():
        text = "\n".join([f"-- {t.made}", none, *lines]).replace(f.goals, goals)
        out[f"proofs/{f.m}/{path}/Answers.antt"] = f"{text}\n"
    return out


def keep_answers(t: Target, kind: Listed) -> str:
    """Returns the answers of the function that keeps an item."""
    number, more, width, made = base(kind), "", "", ""
    signed = spec_item(kind) == "ℤ"
    if signed:
        more = "use Rattle.std.proofs.lemmas.Int.{to_z-of_z}\nuse borrow.Author.Rules.{sfits_of}\n"
        width, made = f", w{number[1:]}", f"rw (to_z-of_z w{number[1:]} c.args.item (search sfits_of)) "
    last = "ap (λ k. set c.args.items.now k c.args.item) (sym size) ∙ more"
    return f"""-- {t.made}
{more}use Rattle.std.proofs.Common.{{◌≡◌, ◌∙◌, ◌<◌, ◌≤◌, length, set, sym, ap, subst, arith{width}}}
use Rattle.{t.crate}.proofs.ListLemmas.{{kept_more, kept_none}}
use Rattle.{t.crate}.proofs.{t.f.m}.{part_lists.keep(t.f, kind)}.Goals as goal

pub returns : goal.returns
returns c = λ all was size is.
    let more = kept_more all was c.args.items.now c.args.item (omega (arith, size, c.if-place-items.false)) is in
    {f"{made}({last})" if signed else last}
"""


def files(t: Target) -> dict[str, str]:
    """Returns the proofs of the functions by their places in the crate."""
    f, home = t.f, f"proofs/{t.f.m}"
    found = dict[str, str]()
    check = sums.check_of(f)
    parsed = sum_proofs.parse_answers(f) if check else parse_answers(f)
    texts = {
        f"proved_{f.m}_pack": pack_answers(f),
        "parse_given" if cross.givens(f.description) else f"proved_{f.m}_parse": parsed,
        "size": varying.size_answers(f),
        "put": varying.put_answers(f),
    }
    for function, text in texts.items():
        found[f"{home}/{function}/Answers.antt"] = "\n".join(
            [f"-- {t.made}", *answer_uses(t, function, text), "", text]
        )
    crate = f"Rattle.{t.crate}.proofs"
    refused = "refused_by, " * any(map(m.is_limited, f.description.kinds))
    lemmas = f"use {crate}.{f.spec}Lemmas.{{read_done, {refused}stopped}}\nuse Rattle.std.proofs.Common.{{rules}}\n"
    goals = f"{crate}.{f.m}.read.Goals"
    found[f"{home}/read/Answers.antt"] = f"-- {t.made}\n{lemmas}{read_answers(f).replace('GOALS', goals)}\n"
    goals = f"{crate}.{f.m}.{given(f)}.write.Goals"
    text = write_fields(f, f.written).replace("GOALS", goals)
    more = "".join(f"{it}\n" for it in part_proofs.write_uses(t, text))
    found[f"{home}/{given(f)}/write/Answers.antt"] = f"-- {t.made}\n{more}{text}\n"
    found[f"{home}/{given(f)}ToBitStream/to_writer/Answers.antt"] = to_writer(t)
    for it in lists(f.description):
        if is_mapped(it) or isinstance(it, m.Until):
            continue
        found[f"{home}/read_{it.name}/Invariants.antt"] = invariant(t, it)
        found[f"{home}/read_{it.name}/Answers.antt"] = list_answers(t, it)
        if isinstance(it, m.List) and isinstance(it.item, m.Integer):
            found |= loops(t, it)
    for line in f.lines:
        found |= limit_files(t, line)
        if cross.is_listed(line.kind) and is_stated(line.kind):
            found[f"{home}/read_stated_{line.name}/Answers.antt"] = stated_answers(t, line)
    for use in cross.optional(f.description):
        found |= optional_files(t, use)
    for it in lists(f.description):
        found[f"{home}/{part_lists.keep(f, it)}/Answers.antt"] = keep_answers(t, it)
    if check:
        found |= sum_proofs.files(t, write_fields(f, f.covered(check)[0]) if check.lines else "")
    return found | part_proofs.files(t) | fill_proofs.files(t) | untils.answer_files(t)


def pack_answers(f: Format) -> str:
    """Returns the proof of the function that packs the struct of C, if it has fields."""
    says = f"PacksInto (IsSomeAnd it {varying.packable(f)}) {f.o} ({f.m}_room it) ({f.m}_held it)"
    return f"""pub returns-in-Some : goal.returns-in-Some
returns-in-Some c =
    let is = sym c.fields.ensures ∙ ap (option_map {f.m}_of) c.in-Some.is in
    subst (λ it. {says}
    c.args.buffer.now c.put.result c.put.new.buffer) (sym is) c.put.ensures
"""


def loops(t: Target, kind: m.List) -> dict[str, str]:
    """Returns the proofs of the function that writes a list of numbers."""
    f, out = t.f, dict[str, str]()
    more, width = signed_uses(kind)
    names = f"use Rattle.std.proofs.Common.{{◌∷◌, [], refl{width}}}\n"
    names += f"use Rattle.bitstream_io.specs.Callers.{{{'signed' if more else 'unsigned'}}}\n"
    names += "use Rattle.bitstream_io.proofs.CallerLemmas.{written-begin, written-more, written-stop}\n"
    loop = names + "use Rattle.bitstream_io.specs.Loop.{ItemsWritten}\n"
    for file, texts, head in (
        ("Invariants", write_invariants(f, kind), loop),
        ("Answers", write_answers(f, kind), names + (more and f"{more}{SIGNED}")),
    ):
        for function, lines in texts.items():
            text = "\n".join(lines).replace(f.goals, f"Rattle.{t.crate}.proofs.{f.m}")
            out[f"proofs/{f.m}/{function}/{file}.antt"] = f"-- {t.made}\n{head}{text}\n"
    return out


def limit_files(t: Target, line: Line) -> dict[str, str]:
    """Returns the proof of the function that writes a number with a greatest value."""
    found, f = dict[str, str](), t.f
    names = "use Rattle.std.proofs.lemmas.Bool.{le-leb}\n"
    names += "use Rattle.bitstream_format.proofs.InGroupsLemmas.{above-leb}\n"
    for function, lines in limit_answers(f, line, line.kind).items() if m.is_capped(line.kind) else ():
        text = "\n".join(lines).replace(f.goals, f"Rattle.{t.crate}.proofs.{f.m}")
        found[f"proofs/{f.m}/{function}/Answers.antt"] = f"-- {t.made}\n{names}{text}\n"
    return found


def to_writer(t: Target) -> str:
    """Returns the proof of the write of the trait."""
    return f"""-- {t.made}
use Rattle.bitstream_io.proofs.CallerLemmas.{{plainly_written}}
use Rattle.{t.crate}.proofs.{t.f.m}.{given(t.f)}ToBitStream.to_writer.Goals as goal

pub returns : goal.returns
returns g c = record {{ writes = plainly_written _ _ _ _ _ c.write.ensures }}
"""
