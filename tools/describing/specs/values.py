"""The definitions of a format as a value: its lines, each with its law, and what is read and written of them."""
from __future__ import annotations

import re

from describing import model as m
from describing.layout import Format, Line, by_size, enum_bits, is_octets, is_open
from describing.model import snake
from describing.specs import limits, measured
from describing.specs.terms import (
    Of,
    bit,
    as_read,
    byte_shape,
    called,
    count_bound,
    fits,
    in_bytes,
    list_count,
    measured_size,
    number_counted,
    number_stored,
    rest_count,
    rest_left,
    short,
    sign,
    spec_type,
    stated_number,
    tag_bits,
    tag_number,
    tag_of,
    when,
    width,
)

ATOMS = "use Rattle.bitstream_format.specs.Atoms as atom"
FEW = "λ k d below. tt"  # that nothing must fit, of each item of a list


def enum_value(f: Format, line: Line, enum: m.EnumType) -> list[str]:
    """Returns the format of the cases of an enum, with the facts about their numbers that it needs."""
    s, shape = snake(enum.name), f"{enum_bits(enum)} {enum.width} refl {snake(enum.name)}_of {snake(enum.name)}_number"
    kind = f"OwnFormat {f.error} {enum.name}" if line.error else f"PlainFormat {enum.name}"
    head = ["-- the cases, by their numbers", f"abbrev pub {s}_cases : {kind}"]
    if enum.other:
        return [*head, f"{s}_cases = open_cases {shape}", ""]
    return [*enum_laws(line, enum), *head, f"{s}_cases = cases {shape} {s}_small {s}_again", ""]


def enum_laws(line: Line, enum: m.EnumType) -> list[str]:
    """Returns the laws of the numbers of an enum."""
    s, cases = snake(enum.name), [called(line, case) for _, case in enum.cases]
    if enum.other:
        return []
    out = ["-- the number of each case fits its bits, and decodes to that case"]
    out += [f"pub {s}_small : (it : {enum.name}) → nat_lt ({s}_number it) (2 ^ {enum.width}) ≡ true"]
    out += [f"{s}_small {case} = refl" for case in cases]
    out += ["", f"pub {s}_again : (it : {enum.name}) → {s}_of ({s}_number it) ≡ {'Ok ' * bool(line.error)}it"]
    return [*out, *[f"{s}_again {case} = refl" for case in cases], ""]


def choice_values(f: Format, line: Line) -> list[str]:
    """Returns the laws of a line with a choice, or with items that fill a size."""
    kind = line.kind
    if isinstance(kind, m.Choose):
        written = measured.written_value(f, kind) if by_size(kind) and not kind.to_end else []
        return measured.choice_value(f, line, kind) + written
    if isinstance(kind, m.Sized) and line.use and is_open(line.use):
        return measured.written_part(kind, line.use)
    return measured.wide_value(f, kind) if isinstance(kind, m.Fill) else []


def array_value(f: Format, line: Line, enum: m.EnumType, count: int) -> list[str]:
    """Returns the format of an array of cases."""
    s, name = snake(enum.name), f"{snake(enum.name)}_array"
    kind = f"OwnFormat {f.error}" if line.error else "PlainFormat"
    head = ["-- the array of the cases", f"abbrev pub {name} : {kind} (List {enum.name})"]
    shape = f"{count} {enum_bits(enum)} {enum.width} refl {s}_of {s}_number"
    if enum.other:
        return [*head, f"{name} = open_cases_array {shape}", ""]
    laws = f"{s}_small {s}_again"
    return [*head, f"{name} = {'own_' * bool(line.error)}cases_array {shape} {laws}", ""]


def lines(f: Format) -> list[str]:
    """Returns the definitions of the lines, the last ones first."""
    parts, seen, out = f.entry_parts(), list(f.given), list[str]()
    for k, part in enumerate(parts):
        out = [*lines_definition(f, k, part, seen), "", *out]
        seen = seen + [it for it in part if it.name]
    return out


def lines_definition(f: Format, k: int, part: list[Line], seen: list[Line]) -> list[str]:
    """Returns the definition of some lines, which takes the values of the `seen` ones."""
    name, kinds = lines_name(f, k), "".join(f"{spec_type(it.kind)} → " for it in seen)
    ok = "(λ s. Ok s)" if f.own else "(λ s. s)"
    args = "".join(f" {it.name}" for it in seen)
    ends = end(f) if k == len(f.entry_parts()) - 1 else behind(f, k, part, seen)
    return [
        f"-- the lines, in order{', the next of them' * (k > 0)}",
        f"abbrev pub {name} : {kinds}FormatParts {f.type} {f.result} {ok}",
        f"{name}{args} = do",
        *[f"  {bound(it)} ← {line_part(f, it)}" for it in part],
        f"  {ends}",
    ]


def lines_name(f: Format, k: int) -> str:
    """Returns the name of the definition of some lines."""
    return f"{f.m}_lines_{k}" if k else f"{f.m}_lines"


def behind(f: Format, k: int, part: list[Line], seen: list[Line]) -> str:
    """Returns the term for the lines after some."""
    return f"{lines_name(f, k + 1)}" + "".join(f" {it.name}" for it in [*seen, *part] if it.name)


def bound(line: Line) -> str:
    """Returns the variable for a line."""
    return line.name or f"{'constant' if isinstance(line.kind, m.Const) else 'skipped'}_{line.index}"


def end(f: Format) -> str:
    """Returns the end of the lines: the record of their values."""
    record = "record { " + "; ".join(f"{it.name} = {it.name}" for it in f.fields) + " }"
    return f"{'own_' * f.own}done ({record})"


# ---- one line


def line_part(f: Format, line: Line, of: Of = as_read) -> str:
    """Returns a line as a part of the record `s`, after the values of the lines before it."""
    part = plain_part(f, line, of)
    return limits.limited_part(line, line.kind, part) if m.is_limited(line.kind) else part


def plain_part(f: Format, line: Line, of: Of) -> str:
    """Returns a line as a part, whatever its greatest value is."""
    kind, get = line.kind, f"(λ s. {of_record(line, 's')})"
    match kind:
        case m.Const():
            return f"const {kind.width} {kind.value} refl {kind.error}"
        case m.Optional():
            return if_there(f, line, kind, get, of)
        case m.If():
            return f"free ({if_there(f, line, kind, get, of)})"
        case m.List():
            part = list_part(f, line, kind, get, list_count(f, kind, of))
            return f"free ({part})" if kind.computed else part
        case m.Size():
            return measured.size_part(line, kind, of_record(line, "s"))
        case m.Number() | m.Count() | m.Pad():
            return f"field {line_format(f, line, of)} {get}"
    return f"{'own_' * line.stops}field {line_format(f, line, of)} {get}"


def of_record(line: Line, record: str) -> str:
    """Returns the value of a line, of a record."""
    kind = line.kind
    match kind:
        case m.Skip() | m.Const():
            return "tt"
        case m.Pad():
            return "0"
        case m.Flag():
            return f"is_some {record}.{kind.target}"
        case m.Count():
            return number_counted(kind, record)
        case m.Tag():
            return placed_in(tag_number(line), record)
        case m.Size():
            assert line.measures
            if is_octets(line.measures) or not kind.units:
                size = "" if is_octets(line.measures) else f"{measured_size(line.measures, 'High')} / 8"
                return placed_in(size or number_stored(line, kind), record)
            return placed_in(stated_number(kind, f"{measured_size(line.measures, 'High')} / 8"), record)
    return f"{record}.{line.name}"


def placed_in(term: str, record: str) -> str:
    """Returns a term of the record `value`, of another record."""
    return re.sub(r"\bvalue\.", f"{record}.", term)


def placed_at(term: str, record: str) -> str:
    """Returns a term of the record `s`, of another record."""
    return re.sub(r"(?<![\w.])s\.", f"{record}.", term)


def line_format(f: Format, line: Line, of: Of) -> str:
    """Returns the format of the value of a line."""
    kind = line.kind
    match kind:
        case m.Bool() | m.Flag():
            return "atom.bool"
        case m.Number():
            return ordered_number(kind) if kind.order else number(kind.integer)
        case m.NonZero():
            return f"(atom.non_zero_{kind.integer.base} {kind.integer.width} refl refl)"
        case m.MaybeNonZero():
            return f"(atom.option_{kind.integer.base} {kind.integer.width} refl)"
        case m.Skip():
            return f"(atom.pad {kind.width})"
        case m.Pad():
            items = of(f, kind.target)
            return f"(atom.unsigned 64 ({kind.counted} {items}) ({kind.counted}_few {items}))"
        case m.Count(golomb=True):
            return "atom.ue"
        case m.Count():
            return f"(atom.unsigned 64 {kind.width} refl)"
        case m.Unary():
            return f"(atom.unary {bit(kind.stop)})"
        case m.Groups():
            strict = "false" if kind.any else "true"
            return (
                f"(atom.{'signed_' * kind.integer.signed}groups {strict} {kind.group} {kind.integer.width} refl refl)"
            )
        case m.Golomb():
            return f"atom.{short(kind)}"
        case m.Enum():
            return f"{snake(kind.enum.name)}_cases"
        case m.Part():
            return part_format(f, line, kind.use)
        case m.Varint():
            return "varint"
        case m.Until():
            return f"(atom.until {kind.stop} refl)"
        case m.Blocks():
            return "atom.blocks"
        case m.Rest():
            return f"(vec {rest_left(f, kind.name, of)})"
        case m.Tag():
            return f"(atom.unsigned {tag_bits(kind.width)} {kind.width} refl)"
        case m.UpToLast():
            return f"(up_to_last {kind.name}_last {own_part_format(f, line, kind.use)})"
        case m.Choose(sized=False):
            return measured.choice_of(f, kind, "", of)
        case m.Choose() | m.Sized() | m.Fill():
            return measured.measured_format(f, line, kind, of)
        case m.Array(item=m.Octet()):
            return f"(atom.bytes {kind.count})"
        case m.Array(item=m.EnumType() as enum):
            return f"{snake(enum.name)}_array"
        case m.Array(item=m.Integer() as item):
            return f"(even_array {kind.count} {item.width} {number(item)} (λ x. refl))"
    raise AssertionError(kind)


def number(integer: m.Integer) -> str:
    """Returns the format of a number."""
    return f"(atom.{sign(integer)} {width(integer)} {integer.width} refl{' refl' * integer.signed})"


def ordered_number(kind: m.Number) -> str:
    """Returns the format of a number in a byte order of its own."""
    shape = byte_shape(kind.order, kind.integer.width)
    return f"(atom.{in_bytes(kind)} {shape}{' refl' * kind.integer.signed})"


def part_format(f: Format, line: Line, use: m.Use) -> str:
    """Returns the format of a part, with the errors of the format if there are any."""
    name = f"{use.module}_format"
    return f"(with_error {use.module}_error {name})" if f.mapped(line.kind) else name


def own_part_format(f: Format, line: Line, use: m.Use) -> str:
    """Returns a part as a format with errors of its own."""
    plain = not f.mapped(line.kind) and not m.allocating(use)
    return f"(as_own {{E = {f.e}}} {use.module}_format)" if plain else part_format(f, line, use)


def if_there(f: Format, line: Line, kind: m.Optional | m.If, get: str, of: Of) -> str:
    """Returns an optional part."""
    return f"{'own_' * line.own}optional {when(f, kind, of)} {part_format(f, line, kind.use)} {get}"


def list_part(f: Format, line: Line, kind: m.List, get: str, count: str) -> str:
    """Returns a list of so many items."""
    item, own = kind.item, "own_" * line.own
    match item:
        case m.Octet():
            return f"byte_list {count} {get}"
        case m.Use():
            return f"{own}list {count} {part_format(f, line, item)} {get}"
    one = number(item) if isinstance(item, m.Integer) else f"{snake(item.name)}_cases"
    found = f"{own}even_list {count} {item.width} {one} (λ x. refl) {get}"
    return found if fits(f, line) else f"sure ({found}) (λ s. {FEW})"


# ---- what the lines are as a whole


def reads(f: Format) -> list[str]:
    """Returns the definitions of the reads."""
    seen, out = list(f.given), list[str]()
    for k, part in enumerate(f.entry_parts()):
        args, kinds = "".join(f" {it.name}" for it in seen), "".join(f" {spec_type(it.kind)} →" for it in seen)
        name, more = (f"{f.m}_decoder_{k}", ", the next of them") if k else (f"{f.m}_decoder", "")
        whole = f"({lines_name(f, k)}{args})" if args else lines_name(f, k)
        out += [f"-- the reads, in order{more}", f"abbrev pub {name} : Order →{kinds} Decoder {f.result}"]
        out += [f"{name} o{args} = {whole}.read o", ""]
        seen = seen + [it for it in part if it.name]
    return out


def writes(f: Format) -> list[str]:
    """Returns the definitions of the writes."""
    seen, out = list[Line](), list[str]()
    for k, part in enumerate(f.entry_parts()):
        terms = [of_record(it, "value") for it in seen]
        args = rest_given(f) + "".join(f" ({it})" if " " in it else f" {it}" for it in terms)
        name, more = (f"{f.m}_writes_{k + 1}", ", the next of them") if k else (f"{f.m}_writes", "")
        whole = f"({lines_name(f, k)}{args})" if args else lines_name(f, k)
        out += [f"-- the writes, in order{more}", f"abbrev pub {name} : Order → {f.type} → List Encoder"]
        out += [f"{name} o value = {whole}.write o value", ""]
        seen = seen + [it for it in part if it.name]
    return out


def size(f: Format) -> str:
    """Returns the number of bits."""
    if f.sized:
        return str(f.total)
    return f"({f.m}_lines{rest_given(f)}).size value" if f.rest else f"{f.m}_lines.size value"


def rest_given(f: Format) -> str:
    """Returns the number of bytes of the rest of a record behind a blank, or an empty text if there is no rest."""
    return f" {rest_count(f)}" if f.rest else ""


def value(f: Format) -> list[str]:
    """Returns the definition of the format: of a rest, for a number of bytes that a record has to have."""
    made = ["refl"] * sum(is_made(it) for it in f.lines) + ["refl {a = s}"]
    facts = [fact for it in f.lines for fact in line_facts(f, it)]
    names = "; ".join(f"{it.removeprefix('fits.')} = facts{place(k, len(facts))}" for k, it in enumerate(facts))
    kind = f"OwnFormat {f.e}" if f.own else "PlainFormat"
    named, lines_of, given, terms = "Fits", f"{f.m}_lines", "", " & ".join(facts) or "tt"
    if f.rest:
        given = f" {f.given[0].name}"
        named = f"(λ s. Fits s × ({placed_in(rest_count(f)[1:-1], 's')} ≡{given}))"
        lines_of, terms = f"({f.m}_lines{given})", re.sub(r"\bfits\.(?!1\b)", "fits.0.", terms)
    out = [
        "-- the format, with the facts that must fit by name",
        f"abbrev pub {f.m}_format : {'ℕ → ' * bool(given)}{kind} {f.type}",
        f"{f.m}_format{given} = {'re' * f.fitting}named {named} (format {lines_of} (λ s. {pairs(made)}))",
        f"    (λ s fits. {terms})",
    ]
    if f.fitting:
        out.append(f"    (λ s facts. record {{{f' {names} ' * bool(names)}}})")
    return [*out, ""]


def is_made(line: Line) -> bool:
    """Returns true for a line whose number of items, or whose flag, a line before it has."""
    return isinstance(line.kind, m.Optional) or isinstance(line.kind, m.List) and not line.kind.computed


def line_facts(f: Format, line: Line) -> list[str]:
    """Returns the terms of what must fit of a line, in the order of its part."""
    kind = line.kind
    match kind:
        case m.Tag():
            assert line.choice
            s, name = snake(line.choice.type), line.choice.name
            return [f"{s}_small s.{name} fits.{name}"]
        case m.Size():
            return measured.size_facts(line, kind)
        case m.Choose(sized=False):
            return [f"fits.{kind.name}", "refl" if tag_of(f, kind) else f"fits.{kind.name}_tag"]
        case m.Choose() | m.Sized() | m.Fill():
            return measured.measured_facts(f, line, kind)
        case m.Pad():
            return [f"(pow_pos ({kind.counted} s.{kind.target}))", "(omega arith)"]
        case m.List(count=m.Count() as count) if kind.less:
            again = f"(units-again 1 {kind.less} (length s.{kind.name}) ({count_bound(count)}) fits.{kind.name}_count refl refl)"
            return [f"fits.{kind.name}", again]
        case m.Rest():
            return [f"fits.{kind.name}", measured.BEFORE if f.before_rest else "fits.1"]
    return [f"fits.{name}" for name, _ in fits(f, line)]


def pairs(terms: list[str]) -> str:
    """Returns the tuple of terms: none is `tt`, one is itself, more are pairs."""
    if len(terms) < 2:
        return terms[0] if terms else "tt"
    return f"({terms[0]}, {pairs(terms[1:])})"


def place(k: int, count: int) -> str:
    """Returns the fields that lead to a component of such a tuple."""
    return ".1" * k + ".0" * (k < count - 1)


def besides(f: Format) -> str:
    """Returns the term of what must hold too, for accepted writes to show that a value fits."""
    return pairs([f"({FEW})"] * numbers_listed(f.description))


def numbers_listed(it: m.Description) -> int:
    """Returns the number of lists of numbers, also in parts."""
    parts = sum(numbers_listed(kind.use.description) for kind in it.kinds if isinstance(kind, m.Part))
    return parts + sum(isinstance(kind, m.List) and isinstance(kind.item, m.Integer) for kind in it.kinds)
