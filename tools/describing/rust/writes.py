"""The functions that write a format, with their contracts."""
from __future__ import annotations

from describing import model as m
from describing.layout import Format, Line
from describing.rust.calls import write
from describing.rust.clauses import clause, first_of


def write_head(what: str, name: str, limited: bool = False) -> list[str]:
    """Returns the comment, the head and the contract of a function that writes a value; `name` is that of its writes.

    `limited` is true if a number of the value has a greatest value.
    """
    misfits = "does not fit its bits" + ", or is above its greatest value" * limited
    return [
        f"    /// Writes {what}.",
        "    ///",
        "    /// # Errors",
        "    ///",
        f"    /// `Checked` for a field that {misfits}. The fields before it have been written.",
        "    /// Otherwise the sink's errors.",
        "    pub fn write<W: BitWrite>(&self, writer: &mut W) -> Result<(), Error>",
        f"        ensures {{ WritesAll W.sink ({name}_writes W.sink.order self.now) writer.old result writer.new }}",
    ]


def write_code(f: Format) -> list[str]:
    """Returns the functions that write the format."""
    return [
        *write_head("the fields in order", f.m, any(m.is_capped(it.kind) for it in f.lines)),
        *write_body(f, "write", f.pieces(), 0),
        *later_writes(f, "write", f"{f.m}_writes", f.pieces()),
        *[line for it in f.summed for line in sum_code(f, it)],
    ]


def write_body(f: Format, name: str, pieces: list[tuple[Line, ...]], k: int) -> list[str]:
    """Returns the body that writes the lines of a piece, and calls the function of the next one."""
    end = f"self.{name}_{k + 2}(writer)" if k + 1 < len(pieces) else "Ok(())"
    writes = [f"        {write(it)}?;" for it in pieces[k] if not isinstance(it.kind, m.Verify)]
    return ["    {", *writes, f"        {end}", "    }", ""]


def later_writes(f: Format, name: str, writes: str, pieces: list[tuple[Line, ...]]) -> list[str]:
    """Returns the functions that write the other pieces."""
    out: list[str] = []
    for k, piece in list(enumerate(pieces))[1:]:
        out += [
            f"    /// Writes the fields from `{first_of(piece)}` on.",
            f"    fn {name}_{k + 1}<W: BitWrite>(&self, writer: &mut W) -> Result<(), Error>",
            f"        ensures {{ WritesAll W.sink ({writes}_{k + 1} W.sink.order self.now)",
            "            writer.old result writer.new }",
            *write_body(f, name, pieces, k),
        ]
    return out


def sum_code(f: Format, kind: m.Check) -> list[str]:
    """Returns the functions that compute the checksum of lines, and write these."""
    name, writes, pieces = f"write_for_{kind.word}", f"{kind.word}_writes", f.covered(kind)
    what = "number of bytes" if isinstance(kind, m.Computed) else kind.sum
    return [
        *number_code(kind),
        f"    /// Returns the {what} of its lines as they are written, or 0 if a field of theirs does not fit its bits.",
        f"    fn {kind.word}(&self) -> u64",
        f"        ensures {{ result ≡ {kind.word}_sum self.now }}",
        "    {",
        f"        let mut writer = summing_writer::<{f.order}, {kind.type}>();",
        f"        match self.{name}(&mut writer) {{",
        "            Ok(()) => sum_of(writer),",
        "            Err(_) => 0,",
        "        }",
        "    }",
        "",
        f"    /// Writes the lines that the {what} covers.",
        f"    fn {name}<W: BitWrite>(&self, writer: &mut W) -> Result<(), Error>",
        f"        ensures {{ WritesAll W.sink ({writes} W.sink.order self.now) writer.old result writer.new }}",
        *write_body(f, name, pieces, 0),
        *later_writes(f, name, writes, pieces),
    ]


def number_code(kind: m.Check) -> list[str]:
    """Returns the function that returns the number of units, if the bytes are stored so."""
    if not isinstance(kind, m.Computed) or not kind.units:
        return []
    return [
        f"    /// Returns the number that states the bytes of its lines, or 2^64 - 1 if none does.",
        f"    fn {kind.called}(&self) -> u64",
        f"        ensures {{ result ≡ {kind.called} self.now }}",
        "    {",
        f"        stored_size(self.{kind.word}(), {', '.join(kind.units.split())})",
        "    }",
        "",
    ]


def accepts_clause(f: Format) -> str:
    """Returns the name of the clause about the fields after a pack that succeeds."""
    return "fits" if f.fitting else "accepted"


def pack_code(f: Format) -> list[str]:
    """Returns the function that writes into a slice."""
    name, o = f.m, f.o
    size, length, few = f"{name}_size {o} self.now", "8 * length buffer.old", "is too short for the bits"
    if f.sized:
        size, length = str(f.bytes), "length buffer.old"
        few = f"has fewer than {size} bytes" if size != "1" else "is empty"
    holds = "Fits self.now" if f.fitting else f"AllAccepted ({name}_writes {o} self.now) 0"
    misfit = [f"(error : Error) → sequence_length ({name}_writes {o} self.now) 0 ≡ Err error"]
    return [
        "    /// Writes the fields to the first bytes of a buffer, and returns what was written. The other bytes",
        "    /// stay as they were. Does not allocate.",
        "    ///",
        "    /// # Errors",
        "    ///",
        "    /// `Checked` for the first field that does not fit its bits, however long the buffer is.",
        f"    /// `Stream(WriteZero)` if all fields fit, and the buffer {few}.",
        "    /// After an error, the first bytes of the buffer may have changed.",
        "    pub fn pack_into<'a>(&self, buffer: &'a mut [u8]) -> Result<SliceMut<'a>, Error>",
        f"        ensures packed {{ IfOk result (λ packed. bits {o} (written_bytes packed) ≡ {name}_bits self.now) }}",
        "        ensures first { IfOk result (HoldsFirst buffer.entry.ghost_name buffer.old) }",
        f"        ensures {accepts_clause(f)} {{ IsOk result → {holds} }}",
        *clause("misfit", misfit, "result ≡ Err error"),
        *clause("room", ["Fits self.now", f"{size} ≤ {length}"], "IsOk result"),
        *clause("short", ["Fits self.now", f"{length} < {size}"], "result ≡ Err (Stream WriteZero)"),
        "    {",
        f"        pack_into::<{f.order}, {f.type}>(self, buffer)",
        "    }",
    ]
