"""Where names come from: the imports of a printed text are found by the names in it."""
from __future__ import annotations

import re
from typing import TypeAlias

Table: TypeAlias = dict[str, str]  # the names of each module, with blanks between them

SYMBOLS = {it: f"◌{it}◌" for it in "≡ ≢ ∷ ++ ^ < ≤ + - * / % ∙ == ⊎ ↔ & && ||".split()}
SYMBOLS |= {"[]": "[]", "if": "if◌then◌else◌", "←": "◌>>=◌"}
# The letters \ue000 to \ue0ff are those of hidden names (`renamed.py`).
LETTER = r"(?:[^\W\d]|[\ue000-\ue0ff])"
TOKEN = re.compile(rf"\+\+|==|&&|\|\||\[\]|{LETTER}(?:\w|{LETTER})*(?:-[^\W\d]\w*)*(?:-\d+)?|\S")


def spec_of(module: str) -> str:
    """Returns the name of the file of specs of a module."""
    return "".join(it.capitalize() for it in module.split("_"))


def table(text: str) -> Table:
    """Returns the names of each module from lines `MODULE: NAMES`; an indented line continues the line before it."""
    lines = re.sub(r"\n +", " ", text.strip()).split("\n")
    return {module: names.strip() for module, _, names in (it.partition(":") for it in lines)}


# In specs, and in the contracts of code.
SPECS = table(
    """
Rattle.std.specs.Prelude: ≡ ≢ ^ < ≤ + - * / % ++ ∷ [] == ⊎ && || if ℕ ℤ Bool true false List Result Ok Err Option Some None
    is_some length take drop map ⊤ IfOk IsOk unsigned_abs not nat_lt nat_le
Rattle.std.specs.List: All flat_map
Rattle.std.specs.Option: ForSome
Rattle.std.specs.Result: IsErrAnd
Rattle.std.specs.declared.io.ErrorKind.TheVariants: WriteZero
Rattle.std.specs.Int.NonZero: non_zero_u8_get non_zero_u16_get non_zero_u32_get non_zero_u64_get non_zero_u128_get
Rattle.bitstream_io.specs.Callers: ← Decoder Encoder Done pure list_item Error EndOfInput Order High Low bits number and_then
    signed_number FitsSignedBits word first_bit bit_decoder unsigned_decoder signed_decoder const_decoder unary_decoder
    bytes_decoder vec_decoder bytes_of skip_decoder vbr_decoder any_vbr_decoder signed_vbr_decoder any_signed_vbr_decoder items_decoder
    option_decoder plain bit unsigned signed unary_word buffer zeros align vbr signed_vbr non_zero write_sequence words
    Reads ReadsOwn OwnAnswer WritesAll AllAccepted sequence_length sure_answer GrowsOwn MayAllocate OutOfMemory Stream result_map
    same_error memory_source plain_reads part_then parts_decoder all_ok if_any number_or_zero optional own_optional optional_writes
    optional_size
    non_zero_u8 non_zero_u16 non_zero_u32 non_zero_u64 non_zero_u128
    non_zero_u8_decoder non_zero_u16_decoder non_zero_u32_decoder non_zero_u64_decoder non_zero_u128_decoder
Rattle.bitstream_io.specs.Error.TheVariants: VariableWidthOverflow RedundantGroup
Rattle.bitstream_io.specs.Golomb: ue_decoder ue_writes ue_size se_decoder se_writes se_size
Rattle.bitstream_format.specs.Varint: varint_decoder varint_writes varint_size
Rattle.bitstream_format.specs.Until: until_decoder until_writes until_size IsUnended
Rattle.bitstream_format.specs.Blocks: blocks_decoder blocks_writes blocks_size IsBlock
Rattle.bitstream_format.specs.UpToLast: up_to_last_decoder EndsOnce
Rattle.bitstream_format.specs.Powers: power_count
Rattle.bitstream_format.specs.InGroups: grouped_encoder
Rattle.bitstream_format.specs.Bounded: within_most within_counted
Rattle.bitstream_format.specs.InBytes: in_bytes_decoder in_bytes_word in_bytes_number signed_in_bytes_decoder signed_in_bytes_word
    signed_in_bytes_number
Rattle.bitstream_format.specs.Checks: bytes1 bytes2 bytes4 low_step high_step byte_count sum16 sum16_udp crc32 crc32_mpeg crc16_ccitt crc16_x25 crc16_kermit
    crc24_adsb
Rattle.bitstream_format.specs.Summed: lines_sum
Rattle.bitstream_format.specs.Stated: stored_size
Rattle.bitstream_io.specs.Grows: GrowingOutcome PartsRead
Rattle.bitstream_io.specs.Loop: parts_size ItemsRead ItemsWritten
Rattle.bitstream_io.specs.SliceMut: HoldsFirst written_bytes
Rattle.bitstream_io.specs.ReadBack: IsReadAs
Rattle.bitstream_io.specs.Unary: unary
Rattle.bitstream_io.specs.Vbr: vbr_word
Rattle.bitstream_io.specs.Word: zig
"""
)
SPECS |= {f"Rattle.std.specs.declared.num.NonZeroU{n}": f"NonZeroU{n}" for n in (8, 16, 32, 64, 128)}

# In specs of a format that is a value.
VALUES = table(
    """
Rattle.std.proofs.Common: refl true subst arith
Rattle.std.proofs.lemmas.Bool: ne_eqb le-leb
Rattle.std.proofs.lemmas.Nat: pow_pos
Rattle.bitstream_format.specs.Format: ← Plain=PlainFormat Own=OwnFormat Parts=FormatParts format named renamed field own_field const free sure & done
    own_done
Rattle.bitstream_format.specs.Lists: even_array even_list own_even_list list own_list byte_list optional own_optional
    with_error error_of own=as_own up_to_last
Rattle.bitstream_format.specs.Cases: cases open_cases cases_array own_cases_array open_cases_array
Rattle.bitstream_format.specs.Chosen: Choice=FormatChoice chosen by_size Goes=CaseGoes held-goes plain_held-goes alone-goes bytes_held-goes
Rattle.bitstream_format.specs.Measured: varint vec Written=WrittenPart of_format of_choice of_items size_of_part stored_of_part over_bytes
    filling in_units size-most stored-most
Rattle.bitstream_format.specs.SizeLaws: units-again
Rattle.bitstream_format.specs.Bounded: own_bounded own_limited own_limited_size
Rattle.bitstream_format.specs.InGroupsLaws: size_in_groups
"""
)

# In specs of a format with a checksum.
ENUMS = table(
    """
Rattle.std.proofs.Common: refl true
Rattle.bitstream_format.specs.Format: Plain=PlainFormat Own=OwnFormat
Rattle.bitstream_format.specs.Lists: error_of
Rattle.bitstream_format.specs.Cases: cases open_cases cases_array own_cases_array open_cases_array
"""
)

# In proofs. A name comes from the first module that has it.
PROOFS = table(
    """
Rattle.std.proofs.Common: w8 w16 w32 w64 ≡ ≢ ^ < ≤ + - * / ++ ∷ [] == ⊎ ∙ ℕ ℤ Bool true false not List Result Ok Err Option Some None length
    refl ap sym subst arith rules
Rattle.std.specs.Prelude: is_some if take drop pos negsuc map bit_xor
Rattle.std.specs.Int: w128
Rattle.std.proofs.lemmas.Int: to_z-of_z
borrow.Author.Rules: sfits_of
Rattle.bitstream_io.proofs.WriteSteps: signed_value
Rattle.std.proofs.lemmas.Bool: eq-eqb ne_eqb cases_lt le-leb
Rattle.std.proofs.lemmas.Bool.Decides: eqb_tells
Rattle.bitstream_io.proofs.CallerLemmas: RoundTrip Finds Packs inl inr is_error own_answered own_fields_there own_fields_short
    own_prefix_answered fields_there fields_short prefix_answered slice_ends
    packed-bits packed-accepted packed-room packed-short
    next_own_read exit_own_read Reads-and_then-ok Reads-pure exit own_end plainly_read plainly_written
    unsigned-back literal-back pure-back
    bit-finds signed-finds unsigned-finds bytes-finds non_zero-finds option-finds skip-finds const-finds const-misses
    pure-finds and_then-finds items-finds made-finds part-finds part-misses
    unsigned-written packs-none packs-more packs-part packs-is packs-whole signed_items-finds
    own_grown_answered if_grown own_made item-read parts-begin parts-push parts-stop parts-refused
    items-begin items-push items-stop items-refused grown written-begin written-more written-stop
Rattle.bitstream_io.proofs.GrowsLemmas: go_grown stop_grown grown_end vec-grown
Rattle.bitstream_io.proofs.EachLemmas: grown_made own_map_err
    made_items-finds part_items-finds part_items-misses all_ok-items made-put made-all made-stop
Rattle.bitstream_format.proofs.InGroupsLemmas: above-leb
Rattle.bitstream_format.proofs.InBytesLemmas: in_bytes-finds signed_in_bytes-finds
Rattle.bitstream_format.proofs.RestLemmas: rest-back
Rattle.bitstream_format.proofs.ChecksLemmas: sum16-small sum16_udp-small crc32-small crc32_mpeg-small crc16_ccitt-small crc16_x25-small crc16_kermit-small
    crc24_adsb-small over-then sum-then verified-back
Rattle.bitstream_format.proofs.SummedLemmas: lines_sum-small summed unsummed
Rattle.std.proofs.lemmas.List: map-id length-set
Rattle.bitstream_io.proofs.SliceLemmas: new_answer
Rattle.bitstream_io.proofs.ReadsLemmas: map_err
Rattle.bitstream_io.proofs.WriteParts: all_none
"""
)
PROOFS |= {module: names for module, names in SPECS.items() if module != "Rattle.std.specs.Prelude"}
PROOFS["Rattle.bitstream_format.specs.InBytes"] += " in_bytes-back in_bytes-written"

# Names that no type or case of a format may have.
TAKEN = {
    it
    for names in [
        *SPECS.values(),
        "PlainFormat OwnFormat FormatParts FormatBits FormatChoice CaseGoes WrittenPart",
    ]
    for it in names.split()
} - {"NonZero"} | {
    "Reader",
    "Fits",
    "Crc16Ccitt",
    "Crc16Kermit",
    "Crc16X25",
    "Crc24Adsb",
    "Crc32",
    "Crc32Mpeg",
    "Sum16",
    "Sum16Udp",
    "ByteCount",
}


# Words that name no definition: a field after its holder; a name that a line binds, declares or sets; a name that a
# record has twice; the parameters of a definition of reads.
BOUND = re.compile(
    r"\b(?!\w+_format\.)[a-z]\w*(?:\.[\w-]+)+|(?<=\))\.[\w-]+|^ +\w+ (?=←)|^ +pub \w+ :|(?:^|[{;]) +\w+ =(?= )"
    r"|\b(\w+) = \1(?= ?[;}])|(?<=_decoder_)\d+ o( \w+)+|(?<=_lines_)\d+( \w+)+",
    re.MULTILINE,
)


def words_of(text: str) -> set[str]:
    """Returns the words of a text that may name a definition."""
    lines = [it for it in text.split("\n") if not it.startswith(("use ", "--"))]
    return set(TOKEN.findall(BOUND.sub(" ", "\n".join(lines).replace("(← ", "("))))


def short(name: str) -> str:
    """Returns the name that a text uses: NAME=OTHER is NAME, imported as OTHER."""
    return name if name in SYMBOLS else name.split("=")[-1]


# The modules of the definitions that proofs unfold: a name that is passed on cannot be unfolded.
UNFOLDS: Table = {
    "Codec": "and_then",
    "Word": "digits digits_number bytes_of",
    "WriteTable": "unsigned signed",
    "ReadTable": "unsigned_decoder signed_decoder const_decoder skip_decoder unary_decoder bytes_decoder groups_decoder signed_groups_decoder",
    "Array": "items_decoder",
    "Grows": "parts_decoder",
    "NonZero": "non_zero non_zero_decoder option_decoder",
    "Vbr": "groups groups_at",
    "Rattle.bitstream_format.specs.Within": "size_encoder",
    "Rattle.bitstream_format.specs.Until": "until_from",
    "Rattle.bitstream_format.specs.Blocks": "blocks_from",
    "Rattle.bitstream_format.specs.UpToLast": "up_to_last_from",
    "Rattle.bitstream_format.specs.Checks": "crc_over steps sum16_state",
    "Rattle.bitstream_format.specs.Summed": "lines_sum whole_bytes",
    "Rattle.bitstream_format.specs.Powers": "power_count",
    "Rattle.bitstream_format.specs.InGroups": "grouped_encoder",
    "Rattle.bitstream_format.specs.Stated": "size_in_units stated_size stored_size stored_encoder",
}


def modules_of(unfolded: set[str]) -> Table:
    """Returns the modules of the definitions that proofs unfold."""
    named = {place: " ".join(it for it in names.split() if it in unfolded) for place, names in UNFOLDS.items()}
    return {it if "." in it else f"Rattle.bitstream_io.specs.{it}": names for it, names in named.items() if names}


def uses(text: str, *tables: Table, begins: str = "use ", ends: str = "") -> list[str]:
    """Returns the imports of a text, each name from the first module that has it."""
    left = words_of(text)
    lines: list[str] = []
    for module, names in (it for one in tables for it in one.items()):
        named = [it for it in dict.fromkeys(names.split()) if short(it) in left]
        left -= {short(it) for it in named}
        if named:
            said = ", ".join(SYMBOLS.get(it) or it.replace("=", " as ") for it in named)
            lines.append(f"{begins}{module}.{{{said}}}{ends}")
    return lines


def merged(*tables: Table) -> Table:
    """Returns one table from several, with all names of each module."""
    found: Table = {}
    for module, names in (it for one in tables for it in one.items()):
        found[module] = f"{found.get(module, '')} {names}".strip()
    return found
