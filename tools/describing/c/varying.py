"""The two functions for C of a format whose number of bits is not constant: their code, their specs and their proofs."""
from __future__ import annotations

from describing import model as m
from describing.c.choices import most_lemma as choice_lemma
from describing.c.cross import choices, lists, most, most_of, open_lists, open_most
from describing.c.status import DOES_NOT_FIT, END_OF_INPUT, NO_ROOM, has_numbers, held, own
from describing.layout import Format, Line

INLINE = "#[inline(always)]"
# The words of the definitions, after the name of the module.
WORDS = ("bytes", "room", "failed")


def uses(f: Format) -> list[str]:
    """Returns the names of the library in the code."""
    return [f.order, counter(f).split(":")[0], "BitReader", *["Error"] * (not f.error)]


def counter(f: Format) -> str:
    """Returns the type of a counter of bits."""
    return "BitsWritten::<u64>" if f.order == "BE" else f"BitCounter::<u64, {f.order}>"


# ---- code


def code(f: Format) -> list[str]:
    """Returns the functions of the module, up to the pack of the struct of C."""
    return [*answer_code(f), *parse_code(f), *size_code(f), *put_code(f)]


def cases(f: Format) -> list[tuple[str, str, str]]:
    """Returns the errors of a read: their patterns in code and in specs, and their statuses."""
    numbers = has_numbers(f.description.kinds)
    status = "reader_status" if numbers else str(END_OF_INPUT)
    said = (
        (f"{f.error}::Reader(error)" if f.error else "error")
        if numbers
        else (f"{f.error}::Reader(_)" if f.error else "_")
    )
    found = [(said, "(Reader e)" if f.error else "e", status)]
    for it in own(f):
        holds = it.case in held(f)
        found.append((f"{f.error}::{it.case}{'(_)' * holds}", f"({it.case} e)" if holds else it.case, str(it.number)))
    return found


def arms(f: Format) -> list[tuple[str, str]]:
    """Returns the errors of a read in code, each with its status."""
    return [(it, "reader_status(&error)" if status == "reader_status" else status) for it, _, status in cases(f)]


def answer_code(f: Format) -> list[str]:
    """Returns the functions that make the result of a parse."""
    t = f.type
    return [
        "/// Returns the result of a parse for C, after a read that took `taken` bytes.",
        INLINE,
        f"fn parsed(answer: Result<{t}, {f.e}>, taken: usize) -> {t}Parsed",
        f"    ensures {{ result ≡ {f.m}_parsed taken answer }}",
        "{",
        "    match answer {",
        f"        Ok(value) => {t}Parsed {{",
        "            status: 0,",
        "            taken,",
        f"            value: {t}C::new(&value),",
        "        },",
        *[f"        Err({case}) => failed({status})," for case, status in arms(f)],
        "    }",
        "}",
        "",
        "/// Returns the result of a parse that failed.",
        INLINE,
        f"fn failed(status: i32) -> {t}Parsed",
        f"    ensures {{ result ≡ {f.m}_failed status }}",
        "{",
        f"    {t}Parsed {{",
        "        status,",
        "        taken: 0,",
        "        value: zero(),",
        "    }",
        "}",
        "",
    ]


def parse_code(f: Format) -> list[str]:
    """Returns the function that parses bytes."""
    b = f"bits {f.o} (take ({f.m}_bytes value) bytes.now)"
    return [
        "/// Parses the fields at the start of `bytes`.",
        "#[unsafe(no_mangle)]",
        f'pub extern "C" fn proved_{f.m}_parse(bytes: &[u8]) -> {f.type}Parsed',
        f"    ensures answer {{ result ≡ {f.m}_answer (({f.m}_decoder {f.o}).reads 0 (bits {f.o} bytes.now)) }}",
        "    ensures within { result.taken ≤ length bytes.now }",
        f"    ensures round_trip {{ (value : {f.type}) → Fits value → {b} ≡ {f.m}_bits value",
        f"        → result ≡ {f.m}_parsed ({f.m}_bytes value) (Ok value) }}",
        "{",
        f"    let mut reader = BitReader::<_, {f.order}>::over(bytes);",
        f"    let answer = {f.type}::read(&mut reader);",
        "    let taken = bytes.len().saturating_sub(reader.rest().len());",
        "    parsed(answer, taken)",
        "}",
        "",
    ]


def value_of(f: Format, term: str) -> str:
    """Returns the fields that contracts see of a term."""
    return f"({f.m}_of {term})" if lists(f.description) else term


def given(f: Format) -> str:
    """Returns the type of the fields that are packed."""
    return f"{f.type}Given" if lists(f.description) else f.type


def size_code(f: Format) -> list[str]:
    """Returns the function that counts the bits of fields."""
    value = value_of(f, "fields.now")
    return [
        "/// Returns the number of bits of fields that fit.",
        f"fn size(fields: &{given(f)}) -> u64",
        f"    requires {{ {packable(f)} {value} }}",
        f"    ensures {{ result ≡ {f.m}_size {f.o} {value} }}",
        "{",
        f"    let mut counter = {counter(f)}::new();",
        "    match fields.write(&mut counter) {",
        "        Ok(()) => counter.into_written(),",
        "        Err(_) => unreachable!(),",
        "    }",
        "}",
        "",
    ]


def few_code(name: str, most_: int) -> list[str]:
    """Returns the test that a list without a greatest length has no more bytes than are packed."""
    return [f"    if fields.{name}.len() > {most_} {{", f"        return refused({DOES_NOT_FIT});", "    }"]


def packable(f: Format) -> str:
    """Returns what holds of the fields that a pack takes: they fit, and lists without a greatest length are not too long."""
    return f"{f.m}_packable" if open_lists(f.description) else "Fits"


def packable_specs(f: Format) -> list[str]:
    """Returns the definition of the fields that a pack takes."""
    few = " × ".join(f"(length value.{it.name} ≤ {most_})" for it, most_ in open_lists(f.description))
    if not few:
        return []
    return [
        "-- fields that a pack takes: they fit, and lists without a greatest length of their own are not longer",
        f"abbrev pub {packable(f)} : {f.type} → Type 0",
        f"{packable(f)} value = Fits value × {few}",
        "",
    ]


def few_terms(f: Format, all_: str) -> list[str]:
    """Returns the facts about the lengths of these lists, of the fact that a pack takes the fields."""
    count = len(open_lists(f.description))
    return [f"{all_}.{k}" for k in range(1, count + 1)]


def put_code(f: Format) -> list[str]:
    """Returns the function that packs fields."""
    value = value_of(f, "fields.now")
    size, held_ = f"({f.m}_bytes {value})", f"({f.m}_bits {value})"
    return [
        "/// Writes the fields to the first bytes of a buffer.",
        f"fn put(fields: &{given(f)}, buffer: &mut [u8]) -> Packed",
        f"    ensures {{ PacksInto ({packable(f)} {value}) {f.o} {size} {held_} buffer.old result buffer.new }}",
        "{",
        "    if !is_fit(fields) {",
        f"        return refused({DOES_NOT_FIT});",
        "    }",
        *[line for it, most_ in open_lists(f.description) for line in few_code(it.name, most_)],
        "    let written = size(fields).div_ceil(8);",
        "    if written > buffer.len() as u64 {",
        f"        return refused({NO_ROOM});",
        "    }",
        f"    write_first::<{f.order}, {given(f)}>(fields, buffer);",
        "    Packed {",
        "        status: 0,",
        "        written: written as usize,",
        "    }",
        "}",
        "",
    ]


# ---- specs


def spec_errors(f: Format) -> list[tuple[str, str]]:
    """Returns the errors of a read in specs, each with its status; the reader's is the first."""
    status = {"reader_status": "(reader_status e)"}
    return [(case, status.get(number, f"(pos {number})")) for _, case, number in cases(f)]


def reader_error(f: Format) -> str:
    """Returns the error of a format for the reader's error `e`."""
    return "(Reader e)" if f.error else "e"


def bytes_specs(f: Format) -> list[str]:
    """Returns the definitions of the number of bytes."""
    return [
        "-- the number of bytes of fields",
        f"abbrev pub {f.m}_bytes : {f.type} → ℕ",
        f"{f.m}_bytes value = ({f.m}_size {f.o} value + 7) / 8",
        "",
        "-- the number of bytes of the fields of a struct of C, if it has fields",
        f"abbrev pub {f.m}_room : Option {f.type} → ℕ",
        f"{f.m}_room (Some value) = {f.m}_bytes value",
        f"{f.m}_room None = 0",
        "",
    ]


def specs(f: Format) -> list[str]:
    """Returns the definitions of the number of bytes, and of what C gets for the result of a parse."""
    t, parsed, failed, errors = f.type, f"{f.m}_parsed", f"{f.m}_failed", spec_errors(f)
    value, done = (f.result, f"{parsed} ((n + 7) / 8) value") if f.own else (t, f"{parsed} ((n + 7) / 8) (Ok value)")
    return [
        *bytes_specs(f),
        "-- the result of a parse that failed",
        f"abbrev pub {failed} : ℤ → {t}Parsed",
        f"{failed} status = record {{ status = status; taken = 0; value = {f.m}_zero }}",
        "",
        "-- the result of a parse for C: 0, the number of bytes that were taken and the fields, or which error",
        f"abbrev pub {parsed} : ℕ → Result {t} {f.e} → {t}Parsed",
        f"{parsed} taken (Ok value) = record {{ status = pos 0; taken = taken; value = {f.m}_to_c value }}",
        *[f"{parsed} taken (Err {case}) = {failed} {number}" for case, number in errors],
        "",
        "-- the same for what the decoder says of all bits: too few, or its result after the first n",
        f"abbrev pub {f.m}_answer : Prefix {value} → {t}Parsed",
        f"{f.m}_answer Incomplete = {failed} (pos {END_OF_INPUT})",
        f"{f.m}_answer (Done n (Ok value)) = {done}",
        f"{f.m}_answer (Done n (Err e)) = {failed} {errors[0][1]}",
        "",
    ]


# ---- proofs


def lemmas(f: Format) -> str:
    """Returns the lemmas of a format: its result for what the decoder says, and its bits before others."""
    name, t, parsed = f.m, f.type, f"{f.m}_parsed"
    text = f"""-- what C gets is decided by what the decoder says
"""
    if f.own:
        text += f"""answered : (plain : Result {f.result} Error) (r : Result {t} {f.e}) (taken n : ℕ)
    → OwnAnswer {f.becomes_name} (λ y. y) plain r → taken ≡ (n + 7) / 8
    → {parsed} taken r ≡ {name}_answer (Done n plain)
answered (Ok x) r taken n is count = ap₂ {parsed} count is
answered (Err e) r taken n is count = ap ({parsed} taken) (is_error r (Reader e) is)

pub decided : (prefix : Prefix {f.result}) (plain : Result {f.result} Error) (r : Result {t} {f.e}) (taken : ℕ)
    → IsDecided prefix taken plain → OwnAnswer {f.becomes_name} (λ y. y) plain r
    → {parsed} taken r ≡ {name}_answer prefix
decided Incomplete plain r taken is own =
    ap ({parsed} taken) (is_error r (Reader EndOfInput)
    (subst (λ x. OwnAnswer {f.becomes_name} (λ y. y) x r) is own))
decided (Done n x) plain r taken is own =
    answered x r taken n (subst (λ y. OwnAnswer {f.becomes_name} (λ z. z) y r) is.0 own) is.1
"""
    else:
        text += f"""answered : (r : Result {t} Error) (taken n : ℕ) → taken ≡ (n + 7) / 8
    → {parsed} taken r ≡ {name}_answer (Done n r)
answered (Ok x) taken n count = ap (λ k. {parsed} k (Ok x)) count
answered (Err e) taken n count = refl

pub decided : (prefix : Prefix {t}) (r : Result {t} Error) (taken : ℕ) → IsDecided prefix taken r
    → {parsed} taken r ≡ {name}_answer prefix
decided Incomplete r taken is = ap ({parsed} taken) is
decided (Done n x) r taken is = ap ({parsed} taken) is.0 ∙ answered x taken n is.1
"""
    back = "Ok (Ok value)" if f.own else "Ok value"
    return (
        text
        + f"""
-- the bytes taken are some of the bytes
pub within : (r : Result {t} {f.e}) (taken : ℕ) → ({parsed} taken r).taken ≤ taken
within (Ok value) taken = omega arith
{chr(10).join(f"within (Err {case}) taken = omega arith" for _, case, _ in cases(f))}

-- packed bytes are parsed again
pub packed : (value : {t}) (bytes : List ℕ) → Fits value → bits {f.o} (take ({name}_bytes value) bytes) ≡ {name}_bits value
    → {name}_answer (({name}_decoder {f.o}).reads 0 (bits {f.o} bytes)) ≡ {parsed} ({name}_bytes value) (Ok value)
packed value bytes fits is =
    let all = {name}_packs {f.o} value fits in
    let parts = padded {f.o} ({name}_writes {f.o} value) ({name}_bytes value) bytes _ (told value) is in
    ap (λ b. {name}_answer (({name}_decoder {f.o}).reads 0 b)) parts
    ∙ ap {name}_answer (({name}_goes {f.o} value fits).back 0 0 _)
    ∙ ap (λ k. {name}_answer (Done k ({back}))) (all.size 0)
"""
        + most_lemma(f)
    )


COUNT = """    let count : c.saturating_sub-taken.result ≡ length c.args.bytes.now - length c.rest.result.now =
    omega (arith, c.saturating_sub-taken.ensures) in
"""
DECIDED = "(read_decided slice_ends c.over-reader.ensures.state c.rest.ensures count c.read-answer.ensures{})"


def parse_answers(f: Format) -> str:
    """Returns the proof of the function that parses bytes."""
    found = f"c.parsed.ensures ∙ decided _ _ _ {DECIDED.format('')}"
    if f.own:
        plain = "c.read-answer.ensures.plain"
        found = f"c.parsed.ensures ∙ decided _ {plain} _ _ {DECIDED.format('.called')} c.read-answer.ensures.answer"
    return f"""pub returns-clause-answer : goal.returns-clause-answer
returns-clause-answer c =
{COUNT}    {found}

pub returns-clause-within : goal.returns-clause-within
returns-clause-within c =
    let few = within c.read-answer.result c.saturating_sub-taken.result in
    let same : c.parsed.result.taken ≡ ({f.m}_parsed c.saturating_sub-taken.result c.read-answer.result).taken =
    ap (λ (it : {f.type}Parsed). it.taken) c.parsed.ensures in
    omega (arith, few, same, c.saturating_sub-taken.ensures)

pub returns-clause-round_trip : goal.returns-clause-round_trip
returns-clause-round_trip c = λ value fits is.
{COUNT}    {found}
    ∙ packed value c.args.bytes.now fits is
"""


def size_answers(f: Format) -> str:
    """Returns the proof of the function that counts the bits of fields."""
    name, o, value = f.m, f.o, value_of(f, "c.args.fields.now")
    writes, fits = f"({name}_writes {o} {value})", f"c.requires{'.0' * bool(open_lists(f.description))}"
    return f"""pub returns : goal.returns
returns c =
    let all = {name}_packs {o} {value} {fits} in
    c.into_written.ensures ∙ counted _ {writes} _ _ refl c.new-counter.ensures c.in-Ok.ensures ∙ all.size 0

pub unreachable-requires : goal.unreachable-requires
unreachable-requires c =
    let all = {name}_packs {o} {value} {fits} in
    let size = all.size 0 in
    let most = {name}_most {value} c.requires in
    let more = counted_past _ {2**64 - 1} refl (λ x may. may) {writes} _ _ _ c.new-counter.ensures
    refl (all.accepted 0) c.in-Err.ensures in
    omega (arith, more, size, most)
"""


def answers(f: Format) -> dict[str, str]:
    """Returns the proofs of the functions by their names."""
    return {
        f"proved_{f.m}_parse": parse_answers(f),
        "size": size_answers(f),
        "put": put_answers(f),
    }


def put_answers(f: Format) -> str:
    """Returns the proof of the function that packs fields."""
    name, o, value = f.m, f.o, value_of(f, "c.args.fields.now")
    opens = open_lists(f.description)
    packs = f"({name}_packs {o} {value} fits{'.0' * bool(opens)})"
    fits = f"""    let fits : Fits {value} = search rules in
"""
    if opens:
        few = [f"length {value}.{it.name} ≤ {most_}" for it, most_ in opens]
        fits = "".join(
            f"    let {name_} : {says} = search rules in\n"
            for name_, says in [("fit", f"Fits {value}"), *[(f"few_{k}", says) for k, says in enumerate(few)]]
        )
        fits += f"    let fits : {packable(f)} {value} = (fit, {', '.join(f'few_{k}' for k in range(len(few)))}) in\n"
    counts = f"""{fits}    let size = c.size.ensures in
    let whole = c.div_ceil-written.ensures in
    let same : c.div_ceil-written.result ≡ {name}_bytes {value} = omega arith in
"""
    return f"""pub write_first-requires-clause-accepted : goal.write_first-requires-clause-accepted
write_first-requires-clause-accepted c =
{fits}    {packs}.accepted 0

pub write_first-requires-clause-room : goal.write_first-requires-clause-room
write_first-requires-clause-room c =
{counts}    omega (arith, same, bytes_of {packs})

pub returns : goal.returns
returns c =
{counts}    rw same (packs-begun fits {packs} refl (omega arith) (told {value}) c.write_first.ensures)
"""


# ---- the greatest number of bits


def cited(kind: m.Kind) -> set[str]:
    """Returns the lemmas about the greatest numbers of bits of the parts of a line, or of a choice."""
    of_choice = {f"{m.snake(kind.type)}_most"} if isinstance(kind, m.Choose) else set[str]()
    return of_choice or {f"{it.module}_most" for it in m.uses(kind) if it.description.bits is None}


def fact_name(f: Format, line: Line) -> str:
    """Returns the name of a fact about the number of bits of a line, which is no lemma that a later line cites."""
    name = f"{line.name}_most"
    others = (it for one in f.lines if one.index > line.index for it in cited(one.kind))
    return f"{line.name}_bits_most" if name in others else name


def bound(f: Format, line: Line) -> tuple[str, str]:
    """Returns the statement of a fact about the number of bits of a line, and its name; empty if none is needed."""
    kind, v, fact = line.kind, f"value.{line.name}", fact_name(f, line)
    match kind:
        case m.Groups():
            width, number, small = kind.integer.width, v, f"fits.{line.name}"
            if kind.integer.signed:
                number, small = f"(zig {v})", f"(zig-lt {width} {v} (omega arith) {small})"
            term = f"groups_most High {kind.group} {width} {number} (omega arith) (omega arith) {small}"
            return f"let {fact} = {term} in", f"{fact}.1, {fact}.2"
        case m.Unary():
            return f"let {fact} = length-unary {'true' if kind.stop else 'false'} {v} in", fact
        case m.Varint():
            return f"let {fact} = width_most (varint_length {v}) in", fact
        case m.List(item=m.Use() as use):
            one = f"{use.module}_most" if use.description.bits is None else "(λ it fit. omega arith)"
            says = f"parts_most ({use.module}_size {f.o}) {most(use.description)} {use.name}Fits {v}"
            return f"let {fact} = {says} fits.{line.name} {one} in", fact
        case m.Sized() if line.size and line.size.varint:
            return f"let {fact} = width_most (varint_length (length {v})) in", fact
        case m.Sized() if line.size and line.units:
            most_ = f"(2 ^ {line.size.width})"
            whole = f"stored-whole {line.units} (length {v}) {most_} fits.{m.label(line.size)} refl refl"
            return f"let {fact} = {whole} in", fact
        case m.Part() if kind.use.description.bits is None:
            return f"let {fact} = {kind.use.module}_most {v} fits.{line.name} in", fact
        case m.Optional() | m.If():
            use = kind.use
            one = f"{use.module}_most" if use.description.bits is None else "(λ it fit. omega arith)"
            says = f"optional_most ({use.module}_size {f.o}) {most(use.description)} {use.name}Fits {v}"
            return f"let {fact} = {says} fits.{line.name} {one} in", fact
        case m.Choose():
            return f"let {fact} = {m.snake(kind.type)}_most {v} fits.{line.name} in", fact
    return "", ""


def most_lemma(f: Format) -> str:
    """Returns the lemma about the greatest number of bits."""
    bounds = [it for it in (bound(f, line) for line in f.lines if line.is_field) if it[0]]
    lets = "".join(f"\n    {it}" for it, _ in bounds)
    facts = "".join(f", {it}" for _, it in bounds)
    widths = "\n".join(
        line for it in choices(f.description) for line in choice_lemma(f, it, most_of(f.description, it))
    )
    if any(isinstance(it.kind, m.Varint) or isinstance(it.kind, m.Size) and it.kind.varint for it in f.lines):
        widths += "\nwidth_most : (k : ℕ) → varint_width k ≤ 62\nwidth_most k = grind (arith, nat_tests)\n"
    few = "".join(f", {it}" for it in few_terms(f, "all"))
    lets = f"\n    let fits = all.0 in{lets}" if few else lets
    return f"""{widths}
-- the fields have no more bits
pub {f.m}_most : (value : {f.type}) → {packable(f)} value → {f.m}_size {f.o} value ≤ {open_most(f.description)}
{f.m}_most value {'all' if few else 'fits'} ={lets}
    omega (arith, fits{facts}{few})
"""
