"""The functions that read a format, with their contracts."""
from __future__ import annotations

from describing import model as m
from describing.layout import Format, Line, reader_errors
from describing.rust.calls import reads, value_type
from describing.rust.clauses import clause, first_of, in_order, memory, of_reader, or_refused, rejections
from describing.specs.terms import at_bits, fails, handed, holds, known_of, only_constants, seen


def read_code(f: Format) -> list[str]:
    """Returns the functions that read the format."""
    outcome = f"ReadsOwn R.source {f.becomes_name}" if f.own else "Reads R.source"
    if f.grows:
        outcome = f"GrowsOwn R.source {f.becomes_name}"
    own = [f"    /// {rejections(f)}, after the rejected bits have been read."] * bool(f.error)
    own += [
        f"    /// `{of_reader(f, 'OutOfMemory')}` if an allocation for a list fails. The items before the failure",
        "    /// have been read.",
    ] * f.grows
    return [
        f"    /// Reads the fields in order{rest_text(f)}.",
        *[f"    /// `{it.name}` is given, for the checksums that cover it." for it in f.handed],
        "    ///",
        "    /// # Errors",
        "    ///",
        *own,
        f"    /// {'Otherwise the' if f.own else 'The'} reader's errors, after which it has failed.",
        f"    pub fn read<R: BitRead>(reader: &mut R{memory(f)}{given(f.given)}) -> Result<{f.type}, {f.e}>",
        *in_order(f),
        f"        ensures {{ {outcome} ({f.decoder('R.source.order', f.given_names)}) reader.old result reader.new }}",
        *read_body(f, 0),
        *later_reads(f, outcome),
    ]


def rest_text(f: Format) -> str:
    """Returns what is read of the rest."""
    if not f.rest:
        return ""
    names = ", ".join(f"`{it.name}`" for it in f.before_rest)
    return f", and `{f.given[-1].name}` bytes of {names}{' and ' * bool(names)}`{f.rest.name}`"


def parsed_text(f: Format) -> str:
    """Returns the text of what `parse` reads."""
    if not f.rest:
        return "the value at the start of `packet`"
    after = f", before {f.rest.after // 8} more bytes" if f.rest.after else ""
    return f"`packet`, whose last bytes are `{f.rest.name}`{after}"


def given(lines: list[Line]) -> str:
    """Returns the parameters for what a read is given."""
    return "".join(f", {it.name}: {value_type(it.kind)}" for it in lines)


def read_body(f: Format, k: int) -> list[str]:
    """Returns the body that reads the lines of a piece, and calls the function of the next one."""
    pieces = f.pieces()
    made = f"{f.type} {{ {', '.join(it.name for it in f.fields)} }}"
    end = "Ok(value)" if f.summed else f"Ok({made})"
    if k + 1 < len(pieces):
        seen = ["reader", *["alloc"] * f.grows, *(it.name for it in f.entry_at(pieces[k + 1][0])[1])]
        end = f"{f.type}::read_{k + 2}({', '.join(seen)})"
    statements = [reads(f, it) for it in pieces[k]]
    if f.summed and k + 1 == len(pieces):
        first = next(n for n, it in enumerate(pieces[k]) if isinstance(it.kind, m.Verify) and it.kind.check.lines)
        statements.insert(first, f"let value = {made};")
    return ["    {", *[f"        {it}" for it in statements], f"        {end}", "    }", ""]


def later_reads(f: Format, outcome: str) -> list[str]:
    """Returns the functions that read the other pieces; they take the values that were read before."""
    out: list[str] = []
    for k, piece in list(enumerate(f.pieces()))[1:]:
        entry, before = f.entry_at(piece[0])
        given = "".join(f", {it.name}: {value_type(it.kind)}" for it in before)
        values = "".join(f" {it.name}{seen(it.kind)}" for it in before)
        out += [
            f"    /// Reads the fields from `{first_of(piece)}` on.",
            f"    fn read_{k + 1}<R: BitRead>(reader: &mut R{memory(f)}{given}) -> Result<{f.type}, {f.e}>",
            *in_order(f),
            f"        ensures {{ {outcome}",
            f"            ({entry} R.source.order{values})",
            "            reader.old result reader.new }",
            *read_body(f, k),
        ]
    return out


def parse_code(f: Format) -> list[str]:
    """Returns the function that reads a slice."""
    name, t, o = f.m, f.type, f.o
    rest = f"(length packet.now - {f.head})" if f.rest else ""
    decoder = f.decoder(o, f"{handed(f, '')} {rest}".strip())
    answer = f"(sure_answer (({decoder}).reads 0 (bits {o} packet.now)))"
    reached = f"MayAllocate ({decoder}) 0 (bits {o} packet.now)"
    told = or_refused(f, f"OwnAnswer {f.becomes_name} (λ answer. answer)\n            {answer} result", reached)
    bits, few = f"write_sequence ({name}_writes {o} value) 0", "if the bytes end before the fields do"
    errors = dict.fromkeys(reader_errors(f.description.kinds))
    more = [f"    /// `{of_reader(f, error)}` {when}." for error, when in errors]
    more += [f"    /// `{of_reader(f, 'OutOfMemory')}` if the allocation for an item of a list fails."] * f.grows
    if f.sized:
        bits, few = f"{name}_bits value", f"for fewer than {f.bytes} bytes"
    end, behind = f"`{of_reader(f, 'EndOfInput')}`", "\n            " if f.grows else " "
    more_bits = "" if f.rest else " ++ more"
    same = "".join(f"\n            → value.{it.name} ≡ {it.name}" for it in f.handed)
    return [
        f"    /// Parses {parsed_text(f)}.",
        "    ///",
        "    /// # Errors",
        "    ///",
        *[f"    /// {rejections(f)} if bits are rejected."] * bool(rejections(f)),
        f"    /// {end} {few}.",
        *more,
        f"    pub fn parse(packet: &[u8]{memory(f)}{given(f.handed)}) -> Result<{t}, {f.e}>",
        f"        ensures answer {{ {told if f.own else f'result ≡ {answer[1:-1]}'} }}",
        *(places_code(f) if f.sized else []),
        f"        ensures back {{ (value : {t}){' (more : List Bool)' * (not f.rest)} → Fits value{same}",
        f"            → bits {o} packet.now ≡ {bits}{more_bits}{behind}→ {or_refused(f, 'result ≡ Ok value')} }}",
        "    {",
        f"        {name}_round_trip();",
        *[f"        let {it.name} = rest_of(packet, {f.head});" for it in f.given if it not in f.handed],
        f"        {t}::read(&mut BitReader::<_, {f.order}>::over(packet){', alloc' * f.grows}"
        f"{''.join(f', {it.name}' for it in f.given)})",
        "    }",
        "",
    ]


def places_code(f: Format) -> list[str]:
    """Returns the clauses by places: the fields, too few bytes, and each line whose bits are refused."""
    bits, enough = f"bits {f.o} packet.now", f"{f.bytes} ≤ length packet.now"
    held = known_of(f, f.tests, bits)
    out = clause("there", [enough, *held], f"result ≡ Ok ({at_bits(f, bits)})")
    end = f"({f.error}.Reader EndOfInput)" if f.own else "EndOfInput"
    few = [f"length packet.now < {f.bytes}", *(known_there(f, bits) if only_constants(f) else held)]
    out += clause("short", few, f"result ≡ Err {end}")
    for k, it in enumerate(f.tests):
        facts = [f"{it.least()} ≤ length packet.now", *known_of(f, f.tests[:k], bits), fails(f, it, bits)]
        out += clause(it.clause, facts, f"result ≡ Err ({f.error}.{it.error})")
    return out


def known_there(f: Format, bits: str) -> list[str]:
    """Returns a premise for each test: if the packet has the bits of the test, they pass."""
    return [f"({it.least()} ≤ length packet.now → {holds(f, it, bits)[0]})" for it in f.tests]
