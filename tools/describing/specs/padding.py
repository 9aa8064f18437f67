"""The definitions of the number of zeros up to a multiple of bits."""
from __future__ import annotations

from describing import model as m
from describing.layout import padded
from describing.specs.terms import item_type


def multiple(kind: m.Pad, bits: str) -> str:
    """Returns the number of zeros behind a number of bits, of which none of constant width is counted."""
    before = f"({bits} % {kind.unit} + {kind.before % kind.unit})" if kind.before % kind.unit else bits
    return f"({kind.unit} - {before} % {kind.unit}) % {kind.unit}"


def padding_specs(description: m.Description, kind: m.Pad) -> list[str]:
    """Returns the definitions, and the lemma that a number of 64 bits has all of the zeros."""
    name, target = kind.counted, padded(description, kind)
    item = m.held_item(target)
    assert isinstance(item, m.Use)
    counted = f"counted_bits 18446744073709551615 (flat_map ({item.module}_writes High) items) 0"
    return [
        f"-- the number of zeros after a number of bits of `{kind.target}`, up to a multiple of {kind.unit} bits; 0 if it is not known",
        f"abbrev pub {name}_of : Result ℕ Error → ℕ",
        f"{name}_of (Ok n) = {multiple(kind, 'n')}",
        f"{name}_of (Err error) = 0",
        "",
        f"-- the number of zeros after `{kind.target}`; 0 if the items have more than 2^64 - 1 bits",
        f"unfoldable pub {name} : List {item_type(item)} → ℕ",
        f"{name} items = {name}_of ({counted})",
        "",
        "-- there are at most 64 of them",
        f"pub {name}_below : (n : Result ℕ Error) → nat_le ({name}_of n) 64 ≡ true",
        f"{name}_below (Ok n) = le-leb _ 64 (omega arith)",
        f"{name}_below (Err error) = refl",
        "",
        "-- the same of the items",
        f"pub {name}_few : (items : List {item_type(item)}) → nat_le ({name} items) 64 ≡ true",
        f"unfolding {name}",
        f"{name}_few items = {name}_below ({counted})",
        "",
    ]
