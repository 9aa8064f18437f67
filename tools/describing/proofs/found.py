"""The terms that the reads find a line among known bits, for a format of a constant number of bits."""
from __future__ import annotations

from typing import assert_never

from describing import model as m
from describing.layout import Line, enum_bits
from describing.model import snake
from describing.specs.terms import byte_shape, in_bytes, sign, width


def found(line: Line, left: int, behind: str, order: str) -> str:
    """Returns the term that the read of a line finds it with `left` bits left, around the term of the lines after it."""
    kind = line.kind
    match kind:
        case m.Bool() | m.Flag():
            return f"bit-finds _ _ {left} _ _ refl ({behind})"
        case m.Number():
            if kind.order:
                own, count = byte_shape(kind.order, kind.integer.width).split()
                return f"{in_bytes(kind)}-finds _ _ {left} _ {count} {order} {own} _ refl ({behind})"
            made = f"_ {order} {width(kind.integer)} _ refl refl {'refl ' * kind.integer.signed}({behind})"
            return f"{sign(kind.integer)}-finds _ _ {kind.integer.width} {left} {made}"
        case m.NonZero() | m.MaybeNonZero():
            lemma = "non_zero" if isinstance(kind, m.NonZero) else "option"
            made = f"non_zero_{kind.integer.base} {order} {width(kind.integer)}"
            return f"{lemma}-finds _ _ {kind.integer.width} {left} _ {made} _ refl refl ({behind})"
        case m.Array():
            return array_found(line, kind, left, behind, order)
        case m.Const():
            made = f"_ _ {kind.width} {left} _ {order} {kind.value} _ refl"
            return f"const-finds {made} is_{line.index} ({behind})"
        case m.Skip():
            return f"skip-finds _ _ {kind.width} {left} _ _ refl ({behind})"
        case m.Enum():
            return enum_found(line, kind, left, behind, order)
        case m.Part():
            return part_found(line, left, behind, order)
    raise AssertionError(kind)


def array_found(line: Line, kind: m.Array, left: int, behind: str, order: str) -> str:
    """Returns the term for an array."""
    item = kind.item
    match item:
        case m.Octet():
            return f"bytes-finds _ _ {left} _ {kind.count} {order} _ refl ({behind})"
        case m.Integer():
            made = f"{item.width} {kind.count} {order} {width(item)} _ refl refl {'refl ' * item.signed}({behind})"
            return f"{'signed_' * item.signed}items-finds _ _ {left} _ {made}"
        case m.EnumType():
            made = f"_ _ {left} {item.width} {kind.count} {order} {enum_bits(item)} {snake(item.name)}_each _"
            if not line.error:
                return f"made_items-finds {made} _ refl refl ({behind})"
            return f"part_items-finds {made} {line.name} _ refl refl is_{line.index} ({behind})"
    assert_never(item)


def enum_found(line: Line, kind: m.Enum, left: int, behind: str, order: str) -> str:
    """Returns the term for a case."""
    made = f"{kind.enum.width} {order} {enum_bits(kind.enum)} {snake(kind.enum.name)}_of _"
    if not line.error:
        return f"made-finds _ _ {left} _ {made} refl refl ({behind})"
    return f"part-finds _ _ {left} {made} {line.name} _ refl refl is_{line.index} ({behind})"


def part_found(line: Line, left: int, behind: str, order: str) -> str:
    """Returns the term for a part."""
    term = "pure-finds _ _ _"
    for it in reversed(line.inner):
        term = found(it, line.wide - (it.at or 0), term, order)
    return f"and_then-finds _ _ {line.wide} {left - line.wide} _ _ _ _ ({term}) ({behind})"


def missed(line: Line, order: str) -> str:
    """Returns the term that the read of a line refuses its bits."""
    kind, bits = line.kind, line.wide
    if isinstance(kind, m.Const):
        return f"const-misses _ _ {bits} {bits} _ {order} {kind.value} _ refl differs (pure-finds _ _ _)"
    assert line.enum
    wide, s = line.enum.width, snake(line.enum.name)
    if isinstance(kind, m.Array):
        made = f"_ _ {bits} {wide} {kind.count} {order} {enum_bits(line.enum)} {s}_each _"
        return f"part_items-misses {made} {line.error} refl refl differs refl"
    made = f"_ _ {wide} {wide} {order} {enum_bits(line.enum)} {s}_of _"
    return f"part-misses {made} {line.error} refl refl differs refl"
