"""The function that computes a checksum."""
from __future__ import annotations

from typing import Sequence

from describing import model as m

# The call that adds bytes to each checksum, its first state, and the checksum of the last one.
CALLS = {
    "sum16": ("sum16_more", "0", "65535 - {}"),
    "crc32": ("crc32_more", "0xffff_ffff", "{} ^ 0xffff_ffff"),
    "crc32-mpeg": ("crc32_mpeg_more", "0xffff_ffff", "{}"),
    "crc16-ccitt": ("crc16_more", "0xffff", "{}"),
    "crc16-x25": ("crc16_low_more", "0xffff", "{} ^ 0xffff"),
    "crc16-kermit": ("crc16_low_more", "0", "{}"),
}


def number_width(kind: m.Kind) -> int:
    """Returns the bits of a field that is a number or a case, or 0 for bytes."""
    match kind:
        case m.Number(integer=whole):
            return whole.width
        case m.Enum(enum=enum):
            return enum.width
    return 0


def parameters(covers: Sequence[m.Kind]) -> list[tuple[str, str, str]]:
    """Returns the name, the type and the bytes in contracts of each parameter."""
    found = []
    for k, it in enumerate(covers, 1):
        wide = number_width(it)
        one = (f"number_{k}", f"u{wide}", f"bytes{wide // 8} number_{k}")
        found.append(one if wide else (f"bytes_{k}", "&[u8]", f"bytes_{k}.now"))
    return found


def check_code(kind: m.Check, covers: Sequence[m.Kind]) -> list[str]:
    """Returns the function that computes the checksum of the bytes of fields."""
    if kind.lines:
        return []
    more, state, end = CALLS[kind.sum]
    given, body, at = parameters(covers), list[str](), 0
    for k, (it, (name, _, _)) in enumerate(zip(covers, given), 1):
        wide = number_width(it)
        if wide:
            body.append(f"    let octets_{k} = octets_of_u{wide}({name});")
        place = f", {at}" * (kind.sum == "sum16")
        body.append(f"    let state_{k} = {more}({state}{place}, {f'&octets_{k}' if wide else name});")
        state, at = f"state_{k}", at + wide // 8
    return [
        "/// Returns the checksum of these numbers and bytes, in order.",
        f"fn {kind.word}_of({', '.join(f'{name}: {type}' for name, type, _ in given)}) -> u{kind.width}",
        f"    ensures {{ result ≡ {kind.word} ({' ++ '.join(it for _, _, it in given)}) }}",
        "{",
        *body,
        f"    {end.format(state)}",
        "}",
        "",
    ]


def arguments(covers: Sequence[m.Kind], before: str = "") -> str:
    """Returns the arguments of a call of that function."""
    given = []
    for it in covers:
        name = f"{before}{m.label(it)}"
        given.append(f"{name}.number()" if isinstance(it, m.Enum) else name if number_width(it) else f"&{name}")
    return ", ".join(given)
