"""Bytes up to the end, for C: the read is given their number."""
from __future__ import annotations

from describing.c import cross
from describing.c.shared import MADE
from describing.layout import Format, Line, is_some_bytes
from describing.proofs.calls import Labels
from describing.proofs.parse import some_parts, some_sizes
from describing.specs.terms import bytes_name, rest_count


def given(f: Format) -> str:
    """Returns the name of the number that the read is given, or an empty text."""
    kind = cross.rest(f.description)
    return f"{kind.name}_bytes" if kind else ""


def count(f: Format) -> str:
    """Returns the name of the number of these bytes in the function that reads the fields."""
    kind = cross.rest(f.description)
    assert kind
    return f"{kind.name}_count" if f.before_rest else given(f)


def steps(f: Format) -> list[tuple[str, Line]]:
    """Returns the names of the numbers of bytes after each line before the rest whose bytes vary, with these lines."""
    kind, before = cross.rest(f.description), f.before_rest
    assert kind
    return [(f"{kind.name}_after_{it.name}" if it is not before[-1] else count(f), it) for it in before]


def decoder(f: Format, order: str, number: str) -> str:
    """Returns the reads of a format, with a term for the number that they are given."""
    return f.decoder(order, number if given(f) else "")


def which_bytes(f: Format, all_bytes: str) -> str:
    """Returns which of the bytes are parsed."""
    return f"{all_bytes} as the fields" if given(f) else f"the fields at the start of {all_bytes}"


# ---- code


def parameter(f: Format) -> str:
    """Returns the parameter for the number of bytes, after others."""
    return f", {given(f)}: u64" if given(f) else ""


def size_call(line: Line) -> str:
    """Returns the name of the function that counts the bytes of an optional part, or an empty text for bytes."""
    return bytes_name(line.kind) if is_some_bytes(line.kind) else ""


def statements(f: Format, counts: dict[str, str]) -> list[str]:
    """Returns the statements that count the bytes of the rest; `counts` are the numbers of bytes of the lists before it."""
    out, left = list[str](), given(f)
    for name, line in steps(f):
        before = f"{size_call(line)}({line.name})" if size_call(line) else counts[line.name]
        out.append(f"let {name} = bytes_after({left}, {before});")
        left = name
    return out


def begins(f: Format) -> list[str]:
    """Returns the statement that counts the bytes that the read is given, before a parse."""
    return [f"    let {given(f)} = rest_of(bytes, {f.head});"] * bool(given(f))


# ---- terms


def whole_bits(f: Format) -> str:
    """Returns the bits of the bytes that hold the fields: of the first ones, or of all."""
    return f"bits {f.o} bytes.now" if given(f) else f"bits {f.o} (take ({f.m}_bytes value) bytes.now)"


def bytes_given(f: Format, length: str) -> str:
    """Returns the term for the number that the read is given, of the number of all bytes."""
    return f"({length} - {f.head})" if f.head else f"({length})"


# ---- proofs


def known(f: Format, sizes: dict[str, str]) -> tuple[str, ...]:
    """Returns the equations of the number of bytes; `sizes` are those of the lists before them."""
    found, labels = steps(f), Labels()
    counted = [f"c.bytes_after-{name}.ensures" for name, _ in reversed(found)]
    for _, line in found:
        call = size_call(line)
        counted.append(f"c.{labels.next(call)}.ensures" if call else f"(← {sizes[line.name]})")
    return tuple(counted)


def whole_terms(f: Format) -> tuple[str, str]:
    """Returns what is known of packed bytes, and that the format's reads find the fields in them."""
    mod, o, length = f.m, f.o, rest_count(f)
    whole = "".join(f"    let {it.name}_whole = {bytes_name(it)} value.{it.name} in\n" for it in some_parts(f))
    sum_ = f"omega ({', '.join(['arith', *[f'{it.name}_whole' for it in some_parts(f)]])})" if whole else "omega arith"
    lets = f"""{whole}    let plain = is ∙ sym (told value) ∙ whole_packed all (8 * {f.head} + 8 * {length}) ({sum_}) (omega arith) in
"""
    term = f"""rest-back ({mod}_decoder {o}) {o} bytes ({mod}_writes {o} value) {f.head} {length} _
    (packs-is all ({sum_})) plain (λ more. ({mod}_goes {o} value fits).back 0 0 more)"""
    return lets, term


def packed_lemma(f: Format, names: str) -> str:
    """Returns the lemma that packed bytes are parsed again."""
    mod, o, given_ = f.m, f.o, bytes_given(f, "length bytes")
    read, (lets, term) = f"{mod}_decoder {o}", whole_terms(f)
    lemmas = "\n".join([*some_sizes(f), ""]) if some_parts(f) else ""
    return f"""{lemmas}-- packed bytes are parsed again
pub packed : (value : {f.type}) (bytes : List ℕ) ({names} : ℕ) → Fits value → bits {o} bytes ≡ {mod}_bits value
    → {mod}_answer {names} (({read} {given_}).reads 0 (bits {o} bytes))
    ≡ {mod}_parsed ({mod}_bytes value) {names} (Ok ({mod}_to_c value))
packed value bytes {names} fits is =
    let all = {mod}_packs {o} value fits in
{lets}    ap ({mod}_answer {names}) ({term})
    ∙ ap (λ k. {mod}_answer {names} (Done k (Ok (Ok value)))) (all.size 0)
"""


LEMMAS = """-- Bytes up to the end: packed bytes are all bytes.
use Rattle.std.proofs.Common.{◌≡◌, ◌∙◌, ◌++◌, ◌∷◌, [], ℕ, List, ap}
use Rattle.bitstream_io.specs.Alignment.{to_boundary}
use Rattle.bitstream_io.specs.Callers.{Encoder, align, write_sequence}
use Rattle.bitstream_io.proofs.CallerLemmas.{Packs, packs-whole}

-- calls that fill whole bytes need no alignment
pub whole_packed : {es : List Encoder} {k : ℕ} → Packs es k → (n : ℕ) → k ≡ n → to_boundary n ≡ 0
    → write_sequence (es ++ align ∷ []) 0 ≡ write_sequence es 0
whole_packed all n same whole = packs-whole all (ap to_boundary same ∙ whole)
"""


def files() -> dict[str, str]:
    """Returns the texts by their places in the crate."""
    return {"proofs/RestLemmas.antt": f"-- {MADE}\n{LEMMAS}"}
