"""What all formats of a crate for C share: the result of a pack, and what it says."""
from __future__ import annotations

MADE = "Made by `./format --c`, which prints the same for each crate: edit tools/describing/c/shared.py."

CODE = f"""//! {MADE}
//!
//! The result of a pack, and the write of a value to the first bytes of a buffer.
ghost use Rattle.CRATE.specs.Shared.{{BeginsWith, packed_bytes}};
ghost use Rattle.std.specs.Prelude.{{◌≡◌, ◌≤◌, Ok, length}};
ghost use Rattle.bitstream_io.specs.Callers.{{AllAccepted, Error}};
ghost use Rattle.bitstream_io.specs.SliceMut.{{slice_bytes, slice_name}};

use bitstream_io::{{BitWrite, BitWriter, Endianness, Error, SliceMut, ToBitStream}};

/// The result of a pack.
#[repr(C)]
#[derive(Clone, Copy)]
pub struct Packed {{
    /// The status.
    pub status: i32,
    /// The number of bytes that were written; 0 after an error.
    pub written: usize,
}}

/// Returns the result of a pack that writes nothing.
#[inline(always)]
pub(crate) fn refused(status: i32) -> Packed
    ensures {{ result ≡ record {{ status = status; written = 0 }} }}
{{
    Packed {{ status, written: 0 }}
}}

/// Writes a value to the first bytes of a buffer that has room for it, and zeros up to a whole byte. Returns the target
/// that has written them.
#[inline(always)]
fn written<'a, E: Endianness, T: ToBitStream<Error = Error>>(
    value: &T,
    buffer: &'a mut [u8],
) -> SliceMut<'a>
    // The type's errors are the errors of the sink.
    requires same {{ (error own : Error) → T.becomes error own → own ≡ error }}
    // The type has no errors of its own.
    requires plain {{ T.answers value.now ≡ Ok tt }}
    requires accepted {{ AllAccepted (T.writes E.order value.now) 0 }}
    requires room {{ packed_bytes (T.writes E.order value.now) ≤ length buffer.old }}
    ensures name {{ slice_name result ≡ buffer.entry.ghost_name }}
    ensures begins {{ BeginsWith E.order (T.writes E.order value.now) buffer.old (slice_bytes result) }}
{{
    let mut writer = BitWriter::<_, E>::over(buffer);
    match value.to_writer(&mut writer) {{
        Ok(()) => match writer.byte_align() {{
            Ok(()) => writer.into_writer(),
            Err(_) => unreachable!(),
        }},
        Err(_) => unreachable!(),
    }}
}}

/// Writes a value to the first bytes of a buffer that has room for it, and zeros up to a whole byte.
#[inline(always)]
pub(crate) fn write_first<E: Endianness, T: ToBitStream<Error = Error>>(
    value: &T,
    buffer: &mut [u8],
)
    // The type's errors are the errors of the sink.
    requires same {{ (error own : Error) → T.becomes error own → own ≡ error }}
    // The type has no errors of its own.
    requires plain {{ T.answers value.now ≡ Ok tt }}
    requires accepted {{ AllAccepted (T.writes E.order value.now) 0 }}
    requires room {{ packed_bytes (T.writes E.order value.now) ≤ length buffer.old }}
    ensures {{ BeginsWith E.order (T.writes E.order value.now) buffer.old buffer.new }}
{{
    let _target = written::<E, T>(value, buffer);
}}
"""

SPECS = """-- What the result of a pack says, and what a buffer holds after a write to its first bytes.
use Rattle.std.specs.Prelude.{◌≡◌, ◌≢◌, ◌<◌, ◌≤◌, ◌↔◌, ◌+◌, ◌/◌, ◌++◌, ◌∷◌, [], ℕ, Bool, List, pos, length, take, drop}
use Rattle.bitstream_io.specs.Callers.{Encoder, Order, align, bits, write_sequence}
use Rattle.CRATE.specs.declared.shared.Packed.{Packed}

-- the number of bytes of calls, with zeros up to a whole byte
abbrev pub packed_bytes : List Encoder → ℕ
packed_bytes es = (length (write_sequence es 0) + 7) / 8

-- the first bytes are the bits of the calls, and zeros up to a whole byte; the bytes after them are as before
pub record BeginsWith (o : Order) (es : List Encoder) (old new : List ℕ) : Type 0 where
  pub bytes : bits o (take (packed_bytes es) new) ≡ write_sequence (es ++ align ∷ []) 0
  pub after : drop (packed_bytes es) new ≡ drop (packed_bytes es) old

-- A pack of `size` bytes. It succeeds if, and only if, the fields fit and there is room for them. Then the first bytes
-- of the buffer are the fields' bits, and the bytes after them are as before. After an error all bytes are as before.
pub record PacksInto (fits : Type 0) (o : Order) (size : ℕ) (held : List Bool) (old : List ℕ) (r : Packed)
    (new : List ℕ) : Type 0 where
  pub ok : (r.status ≡ pos 0) ↔ (fits × (size ≤ length old))
  pub no_room : (r.status ≡ pos 2) ↔ (fits × (length old < size))
  pub misfit : (r.status ≡ pos 3) ↔ (fits → ⊥)
  pub written : r.status ≡ pos 0 → r.written ≡ size
  pub bytes : r.status ≡ pos 0 → bits o (take size new) ≡ held
  pub after : r.status ≡ pos 0 → drop size new ≡ drop size old
  pub unchanged : r.status ≢ pos 0 → (r.written ≡ 0) × (new ≡ old)
"""

LEMMAS = """-- Statuses, the result of a pack that succeeds, and the first bytes of a buffer.
use Rattle.std.proofs.Common.{◌≡◌, ◌∙◌, ◌<◌, ◌≤◌, ◌+◌, ◌*◌, ◌/◌, ◌++◌, ◌∷◌, [], ℕ, ℤ, Bool, false, List, length, refl, sym, ap, arith, length-append}
use Rattle.std.specs.Prelude.{pos, take, drop, unsigned_abs, replicate}
use Rattle.std.proofs.lemmas.List.{length-replicate, take_at, drop_at}
use Rattle.bitstream_io.specs.Alignment.{to_boundary}
use Rattle.bitstream_io.specs.Callers.{Encoder, Order, align, bits, write_sequence}
use Rattle.bitstream_io.proofs.CallerLemmas.{Packs, write_sequence-append}
use Rattle.bitstream_io.proofs.WordLemmas.{length-bits}
use Rattle.CRATE.specs.Shared.{BeginsWith, PacksInto, packed_bytes}

same_number : {n k : ℕ} → pos n ≡ pos k → n ≡ k
same_number is = ap unsigned_abs is

-- a status that is not 0
pub failed : {s : ℤ} (n : ℕ) → 0 < n → s ≡ pos n → s ≡ pos 0 → ⊥
failed n some is ok = omega (arith, some, same_number (sym is ∙ ok))

-- the number of bits of calls and an alignment
aligned : (es : List Encoder) → length (write_sequence (es ++ align ∷ []) 0) ≡ 8 * packed_bytes es
aligned es =
    let k = length (write_sequence es 0) in
    let last : length (write_sequence (align ∷ []) k) ≡ to_boundary k = length-append (replicate (to_boundary k) false) []
    ∙ (let long = length-replicate (to_boundary k) false in omega (arith, long)) in
    let here : 0 + k ≡ k = omega arith in
    let more : length (write_sequence (align ∷ []) (0 + k)) ≡ to_boundary k = rw here last in
    let sum = length-append (write_sequence es 0) (write_sequence (align ∷ []) (0 + k)) in
    let split = ap length (write_sequence-append es (align ∷ []) 0) in
    omega (arith, split, sum, more)

-- they fit bytes that have room for them
pub has_room : (es : List Encoder) (n : ℕ) → packed_bytes es ≤ n
    → length (write_sequence (es ++ align ∷ []) 0) ≤ 8 * n
has_room es n enough = omega (arith, aligned es, enough)

-- a buffer that holds them, and the bytes after them as before
pub begins : {es : List Encoder} (o : Order) (held was : List ℕ) {new : List ℕ}
    → bits o held ≡ write_sequence (es ++ align ∷ []) 0 → new ≡ held ++ drop (length held) was
    → BeginsWith o es was new
begins {es = es} o held was packed is =
    let size = ap length packed in
    let count : length held ≡ packed_bytes es = omega (arith, length-bits o held, size, aligned es) in
    record {
      bytes = rw is (ap (bits o) (take_at held _ (packed_bytes es) count) ∙ packed);
      after = rw is (drop_at held _ (packed_bytes es) count ∙ ap (λ n. drop n was) count);
    }

-- all is written
packs-done : {fits : Type 0} {o : Order} {size : ℕ} {held : List Bool} {old new : List ℕ} → fits
    → size ≤ length old → bits o (take size new) ≡ held → drop size new ≡ drop size old
    → PacksInto fits o size held old (record { status = pos 0; written = size }) new
packs-done fit room is kept = record {
  ok = (λ same. (fit, room), λ all. refl);
  no_room = (λ same. absurd (omega (arith, same_number same)), λ all. absurd (omega (arith, room, all.1)));
  misfit = (λ same. absurd (omega (arith, same_number same)), λ other. absurd (other fit));
  written = λ same. refl;
  bytes = λ same. is;
  after = λ same. kept;
  unchanged = λ other. absurd (other refl);
}

-- the number of bytes of calls of so many bits
pub bytes_of : {es : List Encoder} {k : ℕ} → Packs es k → packed_bytes es ≡ (k + 7) / 8
bytes_of all = ap (λ n. (n + 7) / 8) (all.size 0)

-- the same of a buffer that begins with the bits
pub packs-begun : {fits : Type 0} {o : Order} {es : List Encoder} {k size : ℕ} {held : List Bool} {old new : List ℕ}
    → fits → Packs es k → (k + 7) / 8 ≡ size → size ≤ length old → write_sequence (es ++ align ∷ []) 0 ≡ held
    → BeginsWith o es old new → PacksInto fits o size held old (record { status = pos 0; written = size }) new
packs-begun {o = o} {old = old} {new = new} fit all size room told begun =
    let count = bytes_of all ∙ size in
    packs-done fit room (ap (λ n. bits o (take n new)) (sym count) ∙ begun.bytes ∙ told)
    (ap (λ n. drop n new) (sym count) ∙ begun.after ∙ ap (λ n. drop n old) count)
"""


ANSWERS = """-- A value that fits and has room is written whole.
use Rattle.bitstream_io.specs.SliceMut.{slice_mut_stream}
use Rattle.bitstream_io.specs.Writer.{writer_sink}
use Rattle.bitstream_io.proofs.CallerLemmas.{align_with_room, calls_with_room}
use Rattle.bitstream_io.proofs.PackIntoLemmas.{packs_done, write_aligned, written_as}
use Rattle.CRATE.proofs.SharedLemmas.{begins, has_room}
use Rattle.CRATE.proofs.shared.written.Goals as goal

pub unreachable-requires : goal.unreachable-requires
unreachable-requires g c =
    let o = g.E.Endianness.order in
    let es = g.T.ToBitStream.writes o c.args.value.now in
    let K = writer_sink slice_mut_stream o in
    let calls = written_as K c.requires.same _ c.requires.plain es _ _ _ c.in-Ok.ensures.writes in
    let done = align_with_room o es c.over-writer.result c.over-writer.ensures c.requires.accepted
    (has_room es _ c.requires.room) _ _ _ calls c.in-Err-byte_align.ensures.writes in
    cc

pub unreachable-requires-in-Err : goal.unreachable-requires-in-Err
unreachable-requires-in-Err g c =
    let o = g.E.Endianness.order in
    let es = g.T.ToBitStream.writes o c.args.value.now in
    let K = writer_sink slice_mut_stream o in
    let calls = written_as K c.requires.same _ c.requires.plain es _ _ _ c.in-Err.ensures.writes in
    let done = calls_with_room o es c.over-writer.result c.over-writer.ensures c.requires.accepted
    (has_room es _ c.requires.room) _ _ calls in
    cc

pub returns : goal.returns
returns g c =
    let o = g.E.Endianness.order in
    let es = g.T.ToBitStream.writes o c.args.value.now in
    let K = writer_sink slice_mut_stream o in
    let calls = written_as K c.requires.same _ c.requires.plain es _ _ _ c.in-Ok.ensures.writes in
    let whole = write_aligned K es _ _ _ _ calls c.in-Ok-byte_align.ensures.writes in
    let packed = packs_done o c.over-writer.result c.over-writer.ensures es c.byte_align.new.self whole in
    rw c.into_writer.ensures (record { name = packed.first.reached; begins = begins o _ _ packed.packed packed.first.bytes })
"""


def files(crate: str) -> dict[str, str]:
    """Returns the shared texts by their places in the crate."""
    return {
        "src/shared.rt": CODE.replace("CRATE", crate),
        "specs/Shared.antt": f"-- {MADE}\n{SPECS.replace('CRATE', crate)}",
        "proofs/SharedLemmas.antt": f"-- {MADE}\n{LEMMAS.replace('CRATE', crate)}",
        "proofs/shared/written/Answers.antt": f"-- {MADE}\n{ANSWERS.replace('CRATE', crate)}",
    }
