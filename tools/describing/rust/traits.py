"""The impls of the traits of the library, and the law of the round trip."""
from __future__ import annotations

from describing.layout import Format
from describing.rust.clauses import memory
from describing.specs.terms import of_value


def from_code(f: Format) -> list[str]:
    """Returns the impl of `FromBitStream`, which a format has that is read in either order of bits."""
    if f.ordered or f.given:
        return []
    m, t, e = f.m, f.type, f.e
    reads = f"{m}_decoder" if f.own else f"λ o. plain_reads ({m}_decoder o)"
    context, grows = list[str](), list[str]()
    if f.grows:
        context, grows = ["    type Context = Global;", ""], ["    ghost grows = { true };", ""]
        reads = f"λ o _. {m}_decoder o"
    return [
        f"impl FromBitStream{'Using' * f.grows} for {t} {{",
        *context,
        f"    type Error = {e};",
        "",
        *grows,
        f"    ghost becomes = {{ {f.becomes_name} }};",
        "",
        f"    ghost reads = {{ {reads} }};",
        "",
        f"    fn from_reader<R: BitRead>(reader: &mut R{memory(f)}) -> Result<{t}, {e}> {{",
        f"        {t}::read(reader{', alloc' * f.grows})",
        "    }",
        "}",
        "",
    ]


def to_code(f: Format) -> list[str]:
    """Returns the impl of `ToBitStream`."""
    return to_impl(f.type, f"{f.m}_writes")


def to_impl(type: str, writes: str) -> list[str]:
    """Returns the impl of `ToBitStream` for a type with a method `write`."""
    return [
        f"impl ToBitStream for {type} {{",
        "    type Error = Error;",
        "",
        "    ghost becomes = { same_error };",
        "",
        f"    ghost writes = {{ {writes} }};",
        "",
        "    fn to_writer<W: BitWrite>(&self, writer: &mut W) -> Result<(), Error> {",
        "        self.write(writer)",
        "    }",
        "}",
        "",
    ]


def law_code(f: Format) -> list[str]:
    """Returns the law of the round trip."""
    m, ok = f.m, "Ok (Ok value)" if f.own else "Ok value"
    how_many = f"{f.total} bits" if f.sized else f"`{f.m}_size` is their number"
    size = f.total if f.sized else f"{m}_size o value"
    decoder = f.decoder("o", of_value(f))
    return [
        "/// A value that fits its bits is read back as it was written, in either order of bits, at any place.",
        f"/// The read takes only the bits that were written: {how_many}.",
        f"pub fn {m}_round_trip()",
        f"    ensures back {{ (o : Order) (value : {f.type}) (at from : ℕ) (more : List Bool) → Fits value",
        f"        → let written = write_sequence ({m}_writes o value) at in",
        f"        ({decoder}).reads from (written ++ more) ≡ Done (length written) ({ok}) }}",
        f"    ensures size {{ (o : Order) (value : {f.type}) (at : ℕ) → Fits value",
        f"        → length (write_sequence ({m}_writes o value) at) ≡ {size} }}",
        "{}",
    ]
