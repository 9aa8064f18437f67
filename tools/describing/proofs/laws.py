"""The lemmas of a format: its round trip, its size, and that accepted values fit."""
from __future__ import annotations

import re

from describing import model as m
from describing.layout import Format, Line
from describing.specs import checks, measured, values
from describing.specs.terms import byte_shape, of_value, rest_count


def lemmas(f: Format) -> list[str]:
    """Returns all lemmas of a format."""
    if f.valued:
        return [*projections(f), *told(f)]
    out = [line for it in f.lines for line in values.choice_values(f, it)]
    return [*out, *goes(f), *packs(f), *format_value(f), *told(f)]


def projections(f: Format) -> list[str]:
    """Returns the laws of a format that is a value: they are its own."""
    given = f"(o : Order) (value : {f.type})"
    args, law, behind = "", f"{f.m}_format.{{}}", ""
    if f.rest:
        args, law, behind = " o value fits", f"({f.m}_format {rest_count(f)}).{{}}", " o value (fits, refl)"
    out = [
        "-- a written value is read back",
        f"pub {f.m}_goes : {given} → Fits value",
        f"    → RoundTrip ({f.decoder('o', rest_count(f))}) ({f.m}_writes o value) {'(Ok value)' if f.own else 'value'}",
        f"{f.m}_goes{args} = {law.format('round_trip')}{behind}",
        "",
        "-- each write is accepted, and the value's size is the number of bits written",
        f"pub {f.m}_packs : {given} → Fits value",
        f"    → Packs ({f.m}_writes o value) ({f.m}_size o value)",
        f"{f.m}_packs{args} = {law.format('packs')}{behind}",
        "",
    ]
    fits_law = [
        "-- each field fits if each write is accepted",
        f"pub {f.m}_fits : {given} (at : ℕ) → AllAccepted ({f.m}_writes o value) at → Fits value",
        f"{f.m}_fits o value at = {f.m}_format.accepted o value at {values.besides(f)}",
        "",
    ]
    return out + fits_law * f.fitting


# ---- a format with a checksum: its other lines are parts with their laws


# The name of a part, after what it is made from: it leaves open what the whole read returns.
PART = re.compile(r"^((?:free |sure )?\(*)(own_|const\b)?\w*")


def as_written(f: Format, name: str) -> str:
    """Returns the value of an earlier line, of the record."""
    if name in [it.name for it in f.handed]:
        return f"value.{name}"
    if name in [it.name for it in f.given]:
        return rest_count(f)
    term = values.of_record(next(it for it in f.lines if it.name == name), "value")
    return f"({term})" if " " in term else term


def of_part(f: Format, line: Line, law: str) -> str:
    """Returns a law of a line that is a part, of the record."""
    part = values.line_part(f, line, as_written).replace("(λ s. ", f"(λ (s : {f.type}). ")
    part = PART.sub(lambda it: f"{it[0]} {{{f'B = {f.type}' if it[2] else f'W = {f.result}'}}}", part)
    facts = values.placed_at(values.pairs(values.line_facts(f, line)), "value").replace(measured.BEFORE, "omega arith")
    facts = facts.replace("fits.1", "refl")
    facts = f"({facts})" if " " in facts and not facts.startswith("(") else facts
    made = "refl" if values.is_made(line) else "tt"
    return f"({part}).{law} o value {'_ _ _ ' * (law == 'round_trip')}{facts} {made}"


def goes(f: Format) -> list[str]:
    """Returns the lemma of the round trip."""
    term = "pure-back _"
    for it in reversed(f.lines):
        match it.kind:
            case m.Check() as kind:
                said, small = checks.written_sum(kind, it.covers), checks.small_sum(kind, it.covers)
                if kind.order:
                    term = f"in_bytes-back o {byte_shape(kind.order, kind.width)} _ _ ({said}) _ {small} ({term})"
                    continue
                term = f"unsigned-back o {kind.width} _ _ {kind.type_bits} ({said}) _ refl {small} ({term})"
            case m.Const(width=width, value=number):
                term = f"literal-back _ _ o {width} {number} _ refl ({term})"
            case m.Verify(check=check):
                term = f"verified-back ({checks.written_sum(check, it.covers)}) _ _ _ ({term})"
            case _:
                term = f"{of_part(f, it, 'round_trip')} ({term})"
    return [
        "-- a written value is read back",
        f"pub {f.m}_goes : (o : Order) (value : {f.type}) → Fits value",
        f"    → RoundTrip ({f.decoder('o', of_value(f))}) ({f.m}_writes o value) (Ok value)",
        f"{f.m}_goes o value fits =",
        f"    {term}",
        "",
    ]


def packs(f: Format) -> list[str]:
    """Returns the lemma of the size."""
    term = "packs-none"
    for it in reversed(f.written):
        if isinstance(it.kind, m.Check):
            shape, number = checks.shape(it.kind), checks.written_sum(it.kind, it.covers)
            small = checks.small_sum(it.kind, it.covers)
            written = f"unsigned-written {shape} ({number}) refl {small}"
            if it.kind.order:
                written = f"in_bytes-written o {byte_shape(it.kind.order, it.kind.width)} ({number})"
            term = f"packs-more ({written}) ({term})"
        else:
            term = f"packs-part ({of_part(f, it, 'packs')}) ({term})"
    return [
        "-- each write is accepted, and the value's size is the number of bits written",
        f"pub {f.m}_packs : (o : Order) (value : {f.type}) → Fits value",
        f"    → Packs ({f.m}_writes o value) ({f.m}_size o value)",
        f"{f.m}_packs o value fits =",
        f"    packs-is ({term}) (omega arith)",
        "",
    ]


def format_value(f: Format) -> list[str]:
    """Returns the definition of the format, as a part of others."""
    if f.given:
        return []
    fields = {"read": f"{f.m}_decoder", "write": f"{f.m}_writes", "size": f"{f.m}_size High"}
    fields |= {"facts": "λ value. Fits value ∷ []", "round_trip": f"{f.m}_goes", "packs": f"{f.m}_packs"}
    fields |= {"besides": "λ value. Fits value ∷ []", "accepted": "λ o value at fits all. fits"}
    return [
        "-- the format, with its laws",
        f"abbrev pub {f.m}_format : OwnFormat {f.e} {f.type}",
        f"{f.m}_format = record {{",
        *[f"  {name} = {term};" for name, term in fields.items()],
        "}",
        "",
    ]


def told(f: Format) -> list[str]:
    """Returns the lemma of the bits of a record, which searches use in place of the definition."""
    return [
        "-- the bits, of which a search is to see no part",
        f"pub told : (value : {f.type})",
        f"    → write_sequence ({f.m}_writes {f.o} value ++ align ∷ []) 0 ≡ {f.m}_bits value",
        f"unfolding {f.m}_bits",
        "told value = refl",
    ]
