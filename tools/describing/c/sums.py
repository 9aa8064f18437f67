"""A checksum next to lists, for C: it is tested when the items are in the storage of the caller. Code and specs."""
from __future__ import annotations

from dataclasses import replace

from describing import model as m
from describing.c import cross, lists, rests, varying
from describing.c.cross import base
from describing.c.status import DOES_NOT_FIT, END_OF_INPUT, rooms
from describing.layout import Format, Line, in_pieces
from describing.rust import calls as rust
from describing.rust.checks import arguments, check_code
from describing.rust.writes import number_code
from describing.specs import checks
from describing.specs.printed import entries


class Unsummed(Format):
    """A format without the test of its checksum: its reads say the stored checksum too."""

    def __init__(self, f: Format) -> None:
        kinds = tuple(it for it in f.description.kinds if not isinstance(it, m.Verify))
        super().__init__(f.crate, f.m, replace(f.description, kinds=kinds), f.path)
        self.whole, self.m = f, f"{f.m}_unsummed"
        self.result = f"(Result {stored_type(f)} {f.e})"

    def pieces(self) -> list[tuple[Line, ...]]:
        """Returns the lines that each function reads and writes."""
        return in_pieces(self.lines)

    def gives(self) -> str:
        """Returns the record of what was read."""
        return f"record {{ {label(self.whole)} = {label(self.whole)}; value = {super().gives()} }}"


def check_of(f: Format) -> m.Check | None:
    """Returns the checksum next to lists, if there is one."""
    return f.checks[0] if f.checks and cross.lists(f.description) else None


def the_check(f: Format) -> m.Check:
    """Returns the checksum next to lists."""
    return f.checks[0]


def error_of(f: Format) -> str:
    """Returns the case of the error for another checksum next to lists, or an empty text if other lines have it too."""
    check = check_of(f)
    if not check or [it.error for it in f.tests].count(check.error) > 1:
        return ""
    return check.error


def label(f: Format) -> str:
    """Returns the name of the stored checksum."""
    return m.label(the_check(f))


def covers(f: Format) -> tuple[m.Kind, ...]:
    """Returns the fields of a checksum of fields."""
    return next(it.covers for it in f.lines if it.kind is the_check(f))


def stored_type(f: Format) -> str:
    """Returns the name of the record of the fields and the stored checksum."""
    return f"{f.type}Stored"


def found_type(f: Format) -> str:
    """Returns the name of the struct of what a read found."""
    return f"{f.type}Found"


def sum_of(f: Format, value: str) -> str:
    """Returns the checksum of the fields of a value in specs."""
    check = the_check(f)
    return checks.stored(check, value) if check.lines else f"{check.word} ({checks.octets_of(covers(f), f'{value}.')})"


def names(f: Format) -> list[str]:
    """Returns the names of the definitions for a checksum next to lists."""
    if not check_of(f):
        return []
    later = [f"unsummed_decoder_{k}" for k in range(1, len(Unsummed(f).entry_parts()))]
    words = ["unsummed_decoder", *later, "tested", "found", "filled", "told", "within", "summed"]
    return [stored_type(f), *(f"{f.m}_{it}" for it in words)]


# ---- code


def found_code(f: Format) -> list[str]:
    """Returns the struct of what a read found."""
    out = [
        "/// What a read found: the checksum as it was stored, the fields, and the numbers of the items of lists.",
        "#[derive(Clone, Copy)]",
        f"struct {found_type(f)} {{",
        f"    {label(f)}: {rust.value_type(the_check(f))},",
    ]
    for it in cross.fields(f.description):
        out.append(f"    {it.name}: {'usize' if cross.is_listed(it) else m.rust_type(it)},")
    return [*out, "}", ""]


def read_code(f: Format) -> list[str]:
    """Returns the function that reads the fields and the checksum."""
    old, new = (" ".join(f"{it}.{when}" for it in lists.items_names(f)) for when in ("old", "new"))
    given = "".join(f", {it.name}: {it.use.name}" for it in cross.givens(f.description)) + rests.parameter(f)
    head = f"fn read<R: BitRead>(reader: &mut R, {', '.join(lists.items_parameters(f, '&mut '))}{given})"
    made = [f"        {label(f)}: {label(f)},"]
    for it in cross.fields(f.description):
        count = f"{lists.count_name(f, it)} as usize" if cross.is_listed(it) else it.name
        made.append(f"        {it.name}: {count},")
    return [
        "/// Reads the fields and the checksum, and keeps the items of lists for which there is room.",
        f"{head} -> Result<{found_type(f)}, {f.e}>",
        *[f"    requires {{ R.source.order ≡ {f.o} }}"] * f.ordered,
        f"    ensures {{ {f.type}Read R.source {given_names(f)}reader.old {old} result reader.new {new} }}",
        "{",
        *[f"    {lists.read_statement(f, it)}" for it in f.written],
        f"    Ok({found_type(f)} {{",
        *made,
        "    })",
        "}",
        "",
    ]


def sum_code(f: Format) -> list[str]:
    """Returns the functions that compute the checksum."""
    check = the_check(f)
    if not check.lines:
        return check_code(check, covers(f))
    name, now = f"write_for_{check.word}", f"({f.m}_of self.now)"
    what = "number of bytes" if isinstance(check, m.Computed) else check.sum
    return [
        f"impl {lists.given(f)}<'_> {{",
        *[it.replace("self.now", now) for it in number_code(check)],
        f"    /// Returns the {what} of its lines as they are written, or 0 if a field of theirs does not fit its bits.",
        f"    fn {check.word}(&self) -> u64",
        f"        ensures {{ result ≡ {check.word}_sum {now} }}",
        "    {",
        f"        let mut writer = summing_writer::<{f.order}, {check.type}>();",
        f"        match self.{name}(&mut writer) {{",
        "            Ok(()) => sum_of(writer),",
        "            Err(_) => 0,",
        "        }",
        "    }",
        "",
        f"    /// Writes the lines that the {what} covers.",
        f"    fn {name}<W: BitWrite>(&self, writer: &mut W) -> Result<(), Error>",
        f"        ensures {{ WritesAll W.sink ({check.word}_writes W.sink.order {now}) writer.old result writer.new }}",
        "    {",
        *[f"        {lists.write_statement(f, it)}" for it in f.covered(check)[0]],
        "        Ok(())",
        "    }",
        "}",
        "",
    ]


def computed(f: Format) -> str:
    """Returns the call that computes the checksum of `value`."""
    check = the_check(f)
    if check.lines:
        return f"value.{check.called}()"
    return f"{check.word}_of({lists.borrowed(f, arguments(covers(f), 'value.'), 'value.')})"


def tests_of(f: Format) -> list[str]:
    """Returns the test that a computed number of bytes fits its bits."""
    check = check_of(f)
    return [f"{computed(f)} <= {2**check.width - 1}"] if isinstance(check, m.Computed) else []


def answer_code(f: Format, to_c: lists.Terms) -> list[str]:
    """Returns the functions that make the result of a parse."""
    t, names, check = f.type, lists.items_names(f), the_check(f)
    wrong = next(number for case, number in varying.arms(f) if case == f"{f.error}::{check.error}")
    return [
        "/// Returns the result of a parse for C, after a read that took `taken` bytes and left these items of lists.",
        f"fn parsed(answer: Result<{found_type(f)}, {f.e}>, taken: usize, {', '.join(lists.items_parameters(f, '&'))}) -> {t}Parsed",
        f"    ensures {{ result ≡ {f.m}_summed taken {' '.join(f'{it}.now' for it in names)} answer }}",
        "{",
        "    match answer {",
        "        Ok(found) => {",
        *room_tests(f),
        *[
            f"            let {it.name} = found.{it.name};"
            for it in cross.fields(f.description)
            if isinstance(it, m.Array)
        ],
        f"            let value = {lists.given(f)} {{",
        *[f"                {it.name}: {found_field(it)}," for it in cross.fields(f.description)],
        "            };",
        f"            let is_{check.word} = found.{label(f)} == {computed(f)};",
        f"            if !is_{check.word} {{",
        f"                return short({wrong}, 0);",
        "            }",
        f"            {t}Parsed {{",
        "                status: 0,",
        "                taken,",
        f"                value: {t}C {{",
        *[
            f"                    {name}: {term},"
            for it in cross.fields(f.description)
            for name, term in told(it, to_c)
        ],
        "                },",
        "            }",
        "        }",
        *[f"        Err({case}) => short({status}, 0)," for case, status in varying.arms(f)],
        "    }",
        "}",
        "",
        *lists.short_code(f),
    ]


def room_tests(f: Format) -> list[str]:
    """Returns the tests that there is room for the items of each list."""
    out = list[str]()
    for it, status in zip(cross.lists(f.description), rooms(f)):
        out += [f"            if {it.name}_items.len() < found.{it.name} {{"]
        out += [f"                return short({status.number}, found.{it.name});", "            }"]
    return out


def found_field(kind: cross.Crossed) -> str:
    """Returns the value of a field of what a read found."""
    if isinstance(kind, m.Array):
        return kind.name
    first = f"found.{kind.name}"
    return f"&{kind.name}_items[..{first}]" if cross.is_listed(kind) else first


def told(kind: cross.Crossed, to_c: lists.Terms) -> list[tuple[str, str]]:
    """Returns the members of C for a field of `value`."""
    if isinstance(kind, m.Array):
        return [(kind.name, kind.name)]
    return [(kind.name, f"value.{kind.name}.len()")] if cross.is_listed(kind) else [*to_c(kind).items()]


def given_names(f: Format) -> str:
    """Returns the names of what the reads are given, each with a blank behind it."""
    return "".join(f"{it} " for it in [*(it.name for it in cross.givens(f.description)), rests.given(f)] if it)


def decoder(f: Format, order: str, number: str, part: str = "") -> str:
    """Returns the reads without the test of the checksum, with a term for the number that they are given.

    `part` is a term for the part that they are given, instead of its name.
    """
    return f"{f.m}_unsummed_decoder {order} {terms_given(f, number, part)}".strip()


def whole_decoder(f: Format, order: str, number: str, part: str = "") -> str:
    """Returns the reads of the format, in the same way."""
    return f"{f.m}_decoder {order} {terms_given(f, number, part)}".strip()


def terms_given(f: Format, number: str, part: str = "") -> str:
    """Returns the terms for what the reads are given."""
    handed = [part or it.name for it in cross.givens(f.description)]
    return " ".join([*handed, *[number] * bool(rests.given(f))])


def clauses(f: Format, part: str = "") -> list[tuple[str, list[str], str]]:
    """Returns the clauses about a parse: the name of each, its premises, and what it says."""
    b, names = rests.whole_bits(f), lists.items_names(f)
    held, number = " ".join(f"(length {it}.old)" for it in names), rests.bytes_given(f, "length bytes.now")
    all_bits = f"reads 0 (bits {f.o} bytes.now)"
    reads, whole = (f"({one(f, f.o, number, part)}).{all_bits}" for one in (decoder, whole_decoder))
    same = [f"value.{it.name} ≡ {part or it.name}" for it in cross.givens(f.description)]
    found = [("answer", list[str](), f"result ≡ {f.m}_answer {held} ({reads})")]
    found.append(("tested", [], f"{whole} ≡ tested {f.m}_tested ({reads})"))
    for it in cross.lists(f.description):
        premises = [f"(n : ℕ) (it : {stored_type(f)})", f"{reads} ≡ Done n (Ok (Ok it))"]
        says = f"{it.name}_items.new ≡ stored it.value.{it.name} {it.name}_items.old"
        found.append((f"{it.name}_items", premises, says))
    premises = [f"(value : {f.type})", "Fits value", *same, f"{b} ≡ {f.m}_bits value"]
    found.append(("round_trip", premises, f"result ≡ {f.m}_within ({f.m}_bytes value) {held} value (Ok value)"))
    return found


def clauses_code(clauses_: list[tuple[str, list[str], str]]) -> list[str]:
    """Returns clauses of a contract."""
    out = list[str]()
    for name, premises, says in clauses_:
        first, *rest = [*premises, says]
        lines = [f"    ensures {name} {{ {first}", *(f"        → {it}" for it in rest)]
        lines[-1] += " }"
        out += lines
    return out


def export_code(f: Format) -> list[str]:
    """Returns the proved function of a format whose parse is given parts: it makes them from structs of C."""
    handed, names = cross.givens(f.description), lists.items_names(f)
    if not handed:
        return []
    (it,) = handed
    of_c = f"{it.use.module}_from_c {it.name}.now"
    none = " × ".join([f"(result ≡ {f.m}_failed (pos {DOES_NOT_FIT}))", *(f"({one}.new ≡ {one}.old)" for one in names)])
    is_given = [f"(given : {it.use.name})", f"{of_c} ≡ Some given"]
    told = clauses_code([(name, [*is_given, *premises], says) for name, premises, says in clauses(f, "given")])
    return [
        f"/// Parses {rests.which_bytes(f, '`bytes`')}, and the items of lists into storage of the caller.",
        "#[unsafe(no_mangle)]",
        f'pub extern "C" fn proved_{f.m}_parse(bytes: &[u8], {", ".join(lists.items_parameters(f, "&mut "))}, {it.name}: &{base(it)}) -> {f.type}Parsed',
        f"    ensures misfit {{ {of_c} ≡ None → {none} }}",
        *told,
        "{",
        f"    match {it.name}.fields() {{",
        f"        Some({it.name}) => parse_given(bytes, {', '.join(names)}, {it.name}),",
        f"        None => short({DOES_NOT_FIT}, 0),",
        "    }",
        "}",
        "",
    ]


def parse_code(f: Format) -> list[str]:
    """Returns the function that parses bytes, and before it that with what is given to the parse, if it is given parts."""
    given, names, handed = rests.given(f), lists.items_names(f), cross.givens(f.description)
    parameters = [*lists.items_parameters(f, "&mut "), *(f"{it.name}: {it.use.name}" for it in handed)]
    head = f'pub extern "C" fn proved_{f.m}_parse' if not handed else "fn parse_given"
    passed = [*names, *(it.name for it in handed), *[given] * bool(given)]
    return [
        f"/// Parses {rests.which_bytes(f, '`bytes`')}, and the items of lists into storage of the caller.",
        *["#[unsafe(no_mangle)]"] * (not handed),
        f"{head}(bytes: &[u8], {', '.join(parameters)}) -> {f.type}Parsed",
        *clauses_code(clauses(f)),
        "{",
        f"    let mut reader = BitReader::<_, {f.order}>::over(bytes);",
        *rests.begins(f),
        f"    let answer = read(&mut reader, {', '.join(passed)});",
        "    let taken = bytes.len().saturating_sub(reader.rest().len());",
        f"    parsed(answer, taken, {', '.join(names)})",
        "}",
        "",
        *export_code(f),
    ]


# ---- specs


def specs(f: Format) -> list[str]:
    """Returns the definitions of what C gets for the result of a parse, and of what a read says."""
    t, e, check = f.type, f.e, the_check(f)
    return [
        *lists.of_specs(f),
        *varying.bytes_specs(f),
        *varying.packable_specs(f),
        "-- the fields, and the checksum that was stored with them",
        f"pub record {stored_type(f)} : Type 0 where",
        f"  pub {label(f)} : ℕ",
        f"  pub value : {t}",
        "",
        "-- the fields, if the stored checksum is theirs",
        f"abbrev pub {f.m}_tested : {stored_type(f)} → Result {t} {e}",
        f"{f.m}_tested it = if it.{label(f)} == {sum_of(f, 'it.value')} then Ok it.value else Err {check.error}",
        "",
        *entries(Unsummed(f)),
        *found_specs(f),
        *told_specs(f),
        *read_specs(f),
    ]


def found_specs(f: Format) -> list[str]:
    """Returns the definitions of what a read found, and of its fields with items of lists."""
    fields, names = cross.fields(f.description), " ".join(lists.items_names(f))
    stored = f"  {label(f)} = it.{label(f)};"
    of_items = "".join(f"List {cross.spec_item(it)} → " for it in cross.lists(f.description))
    counted = [
        f"  {it.name} = {f'length it.value.{it.name}' if cross.is_listed(it) else f'it.value.{it.name}'};"
        for it in fields
    ]
    filled = [
        f"    {it.name} = {f'take it.{it.name} {it.name}_items' if cross.is_listed(it) else f'it.{it.name}'};"
        for it in fields
    ]
    return [
        "-- what a read found, of fields and a stored checksum",
        f"abbrev pub {f.m}_found : {stored_type(f)} → {found_type(f)}",
        f"{f.m}_found it = record {{",
        stored,
        *counted,
        "}",
        "",
        "-- the fields and the stored checksum, whose lists are the first items of these",
        f"abbrev pub {f.m}_filled : {found_type(f)} → {of_items}{stored_type(f)}",
        f"{f.m}_filled it {names} = record {{",
        stored,
        "  value = record {",
        *filled,
        "  };",
        "}",
        "",
    ]


def told_specs(f: Format) -> list[str]:
    """Returns the definitions of what C gets for the result of a parse."""
    t, mod, errors, kinds = f.type, f.m, varying.spec_errors(f), cross.lists(f.description)
    rooms_, names = " ".join(f"{it.name}_room" for it in kinds), " ".join(lists.items_names(f))
    many, of_items = "ℕ → " * len(kinds), "".join(f"List {cross.spec_item(it)} → " for it in kinds)
    return [
        *lists.short_specs(f),
        "-- the result of a parse for C without a look at the room for items: 0, the number of bytes that were taken and the",
        "-- fields, or which error",
        f"abbrev pub {mod}_told : ℕ → Result {t} {f.e} → {t}Parsed",
        f"{mod}_told taken (Ok value) = record {{ status = pos 0; taken = taken; value = {mod}_to_c value }}",
        *[f"{mod}_told taken (Err {case}) = {mod}_failed {number}" for case, number in errors],
        "",
        "-- the same for fields of which the checksum says this: first, a list has more items than there is room for",
        f"abbrev pub {mod}_within : ℕ → {many}{t} → Result {t} {f.e} → {t}Parsed",
        f"{mod}_within taken {rooms_} value says = {room_terms(f, '{0}_room', 'length value.{0}')}{mod}_told taken says",
        "",
        "-- the result of a parse for C, of a read that finds fields and a stored checksum",
        f"abbrev pub {mod}_parsed : ℕ → {many}Result {stored_type(f)} {f.e} → {t}Parsed",
        f"{mod}_parsed taken {rooms_} (Ok it) = {mod}_within taken {rooms_} it.value ({mod}_tested it)",
        f"{mod}_parsed taken {rooms_} (Err e) = {mod}_told taken (Err e)",
        "",
        "-- the same, of what the read left in slices",
        f"abbrev pub {mod}_summed : ℕ → {of_items}Result {found_type(f)} {f.e} → {t}Parsed",
        f"{mod}_summed taken {names} (Ok it) = {room_terms(f, '(length {0}_items)', 'it.{0}')}{mod}_told taken ({mod}_tested ({mod}_filled it {names}))",
        f"{mod}_summed taken {names} (Err e) = {mod}_told taken (Err e)",
        "",
        "-- the same for what the reads say of all bits: too few, or their result after the first n",
        f"abbrev pub {mod}_answer : {many}Prefix (Result {stored_type(f)} {f.e}) → {t}Parsed",
        f"{mod}_answer {rooms_} Incomplete = {mod}_failed (pos {END_OF_INPUT})",
        f"{mod}_answer {rooms_} (Done n (Ok x)) = {mod}_parsed ((n + 7) / 8) {rooms_} x",
        f"{mod}_answer {rooms_} (Done n (Err e)) = {mod}_failed {errors[0][1]}",
        "",
    ]


def room_terms(f: Format, room: str, count: str) -> str:
    """Returns the tests that a list has more items than there is room for, with the result for each."""
    out = ""
    for it, status in zip(cross.lists(f.description), rooms(f)):
        few, all_ = room.format(it.name), count.format(it.name)
        out += f"if nat_lt {few} {all_ if ' ' not in all_ else f'({all_})'} then {f.m}_short (pos {status.number}) ({all_}) else "
    return out


def read_specs(f: Format) -> list[str]:
    """Returns the definition of what a read says."""
    was, now = (
        " ".join(f"({it.name}_{when} : List {cross.spec_item(it)})" for it in cross.lists(f.description))
        for when in ("was", "now")
    )
    number = "".join(f"({it.name} : {it.use.name}) " for it in cross.givens(f.description))
    number += f"({rests.given(f)} : ℕ) " * bool(rests.given(f))
    out = [
        "-- A read whose lists are stored: `found` is what the reads say, and the slices hold the items of its lists.",
        f"pub record {f.type}Read {{R : Type 0}} (K : BitSource R) {number}(old : R) {was}",
        f"    (result : Result {found_type(f)} {f.e}) (new : R) {now} : Type 0 where",
        f"  pub found : Result {stored_type(f)} {f.e}",
        f"  pub reads : ReadsOwn K {f.becomes_name} ({decoder(f, 'K.order', rests.given(f))}) old found new",
        f"  pub told : result ≡ result_map {f.m}_found found",
    ]
    for it in cross.lists(f.description):
        stored = f"{it.name}_now ≡ stored it.value.{it.name} {it.name}_was"
        out.append(f"  pub {it.name}_items : (it : {stored_type(f)}) → found ≡ Ok it → {stored}")
    return [*out, ""]
