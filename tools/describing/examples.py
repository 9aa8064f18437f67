"""The `example` lines: the fields that a line names, compared with the fields that its bytes have, both ways."""
from __future__ import annotations

from typing import Iterator, TypeAlias

from describing import model as m
from describing import checks
from describing.model import Refused
from describing.input import Input, ReadError, Value, place_text
from describing.read import Node, record_reader, value_of
from describing.write import Bits, put_record


def described(text: str, path: str, module: str) -> m.Description:
    """Returns the model of a description, whose lines belong together and whose examples are right."""
    found = checks.described(text, path, module)
    for it in found.examples:
        try:
            check(found, it)
        except Refused as why:
            raise Refused(why.why, it.at) from None
    return found


Said: TypeAlias = dict[str, Value] | str


def vectors(description: m.Description) -> list[tuple[bytes, Said, dict[str, Value]]]:
    """Returns the bytes of each example, with its values or the case of its error, and with the parts that are given."""
    found: list[tuple[bytes, Said, dict[str, Value]]] = []
    for it in description.examples:
        said, parts = answered(description, it.answer)
        found.append((bytes.fromhex(it.digits), said, parts))
    return found


def answered(description: m.Description, answer: str) -> tuple[Said, dict[str, Value]]:
    """Returns the values that an example says, or the case of its error, and the parts that are given."""
    kinds = {it.name: it for it in m.given(description)}
    words = apart(answer, ",")
    named = [it for it in words if it.partition(" = ")[0] in kinds]
    parts = {name: given(kinds[name], said) for name, _, said in (it.partition(" = ") for it in named)}
    others = [it for it in words if it not in named]
    if len(others) == 1 and "=" not in others[0]:
        if len(parts) < len(kinds):
            raise Refused("an example of an error says what is given: `example BYTES: NAME = (..), ERROR`")
        return others[0], parts
    return (fields(description, answer) if "=" in answer else answer), parts


def apart(text: str, at: str) -> list[str]:
    """Splits a text at each `at` outside of brackets."""
    found, depth = [""], 0
    for sign in text:
        depth += (sign in "([") - (sign in ")]")
        if sign == at and depth == 0:
            found.append("")
        else:
            found[-1] += sign
    return [it.strip() for it in found if it.strip()]


def whole(name: str, said: str) -> int:
    """Returns a number."""
    try:
        return int(said, 0)
    except ValueError:
        comma = ", and a comma stands between two fields" * ("=" in said)
        raise Refused(f"`{name} = {said}`: a number is `10`, `-10` or `0x0A`{comma}") from None


def not_zero(name: str, said: str) -> int:
    """Returns a number from 1 on."""
    if whole(name, said) < 1:
        raise Refused(f"`{name} = {said}`: it is a number from 1 on")
    return whole(name, said)


def listed(name: str, said: str, form: str) -> list[str]:
    """Returns the words of a list."""
    if said[:1] + said[-1:] != "[]" or len(apart(f"{said[1:-1]}.", ",")) > 1:
        raise Refused(f"`{name} = {said}`: a list is `{form}`")
    return apart(said[1:-1], " ")


def hexed(name: str, said: str) -> bytes:
    """Returns bytes."""
    try:
        return bytes.fromhex(" ".join(listed(name, said, "[DE AD]")))
    except ValueError:
        raise Refused(f"`{name} = {said}`: bytes are hex, `[DE AD]`") from None


def case(name: str, enum: m.EnumType, said: str) -> Value:
    """Returns the case of an enum."""
    found, opened, held = said.partition("(")
    if opened and enum.other == found and held[-1:] == ")":
        return {found: whole(name, held[:-1])}
    if opened or enum.number(found) is None:
        other = f"; `{found}` is `{found}(NUMBER)`" * (found == enum.other)
        raise Refused(f"`{enum.name}` has no case `{said}`{other}")
    return found


def part(name: str, use: m.Use, said: str, some: str = "") -> Value:
    """Returns the fields of a part, in brackets after `some`."""
    if not said.startswith(f"{some}(") or said[-1] != ")":
        raise Refused(f"`{name} = {said}`: a part is `{some}(FIELD = VALUE, ..)`")
    return fields(use.description, said[len(some) + 1 : -1])


def many(name: str, item: m.Item, said: str, count: int | None) -> Value:
    """Returns the items of a list, of which there must be `count` if it is not None."""
    found: list[Value] | bytes
    match item:
        case m.Octet():
            found = hexed(name, said)
        case m.Integer():
            found = [whole(name, it) for it in listed(name, said, "[1 500]")]
        case m.EnumType():
            found = [case(name, item, it) for it in listed(name, said, "[CASE CASE]")]
        case m.Use():
            found = [part(name, item, it) for it in listed(name, said, "[(x = 1) (x = 2)]")]
    if count not in (None, len(found)):
        what = "bytes" if isinstance(found, bytes) else "items"
        raise Refused(f"`{name}` has {count} {what}, and not {len(found)}")
    return found


def given(kind: m.Described, said: str) -> Value:
    """Returns the value of a field that a text spells."""
    name = kind.name
    match kind:
        case m.Bool():
            if said not in ("true", "false"):
                raise Refused(f"`{name} = {said}`: a bit is `true` or `false`")
            return said == "true"
        case m.NonZero():
            return not_zero(name, said)
        case m.MaybeNonZero():
            return None if said == "None" else not_zero(name, said)
        case m.Enum():
            return case(name, kind.enum, said)
        case m.Part() | m.Given():
            return part(name, kind.use, said)
        case m.Optional() | m.If():
            return None if said == "None" else part(name, kind.use, said, "Some")
        case m.Choose():
            return chosen(kind, said)
        case m.Sized(item=m.Use() as use):
            return part(name, use, said)
        case m.Fill(use=use) | m.UpToLast(use=use):
            return many(name, use, said, None)
        case m.Blocks():
            return [hexed(name, it) for it in listed(name, said, "[[DE AD] [BE]]")]
        case m.Array() | m.List() | m.Rest() | m.Until() | m.Sized():
            return many(name, kind.item, said, kind.count if isinstance(kind, m.Array) else None)
    return whole(name, said)


def chosen(kind: m.Choose, said: str) -> Value:
    """Returns the case of a choice: `Stop`, `Ack(x = 1)`, `Other(5)` or `Other(5 [DE AD])`."""
    name, opened, held = said.partition("(")
    arm = next((it for it in kind.arms if it.case == name), None)
    if arm is None or opened and held[-1:] != ")":
        raise Refused(f"`{kind.type}` has no case `{said}`")
    if isinstance(arm.held, m.Use):
        return {name: part(kind.name, arm.held, f"({held}" if opened else said)}
    if isinstance(arm.held, m.Octet):
        first, _, more = held[:-1].partition(" ")
        if arm.number is not None:
            return {name: hexed(kind.name, held[:-1])}
        return {name: {"number": whole(kind.name, first), "bytes": hexed(kind.name, more)}}
    return name if arm.number is not None else {name: whole(kind.name, held[:-1])}


def fields(description: m.Description, said: str) -> dict[str, Value]:
    """Returns the values of all fields that a text spells."""
    texts: dict[str, str] = {}
    for it in apart(said, ","):
        name, is_, value = (word.strip() for word in it.partition("="))
        if not is_:
            raise Refused(f"`{it}` is no `FIELD = VALUE`; a list is `[1 500]`")
        if name in texts:
            raise Refused(f"an example has two values for `{name}`")
        texts[name] = value
    found: dict[str, Value] = {}
    for kind in description.fields:
        if kind.name not in texts:
            raise Refused(f"an example has no `{kind.name}`")
        found[kind.name] = given(kind, texts.pop(kind.name))
    if texts:
        raise Refused(f"an example has a `{min(texts)}`, which is no field")
    return found


# ---- the bytes of an example


def reader_errors(description: m.Description) -> Iterator[str]:
    """Returns the errors of the reader that a format may return."""
    yield "EndOfInput"
    for line in description.kinds:
        kind = m.grouped(line)
        if isinstance(kind, m.Groups | m.Golomb):
            yield "VariableWidthOverflow"
        if isinstance(kind, m.Groups) and not kind.any:
            yield "RedundantGroup"
        for use in m.uses(line):
            yield from reader_errors(use.description)


def errors_of(description: m.Description) -> list[str]:
    """Returns the cases of the error of a format."""
    return [case for it in description.kinds for case, _ in m.refusals(it)]


def held(description: m.Description, answer: str) -> bool:
    """Returns true if a case of the error holds an error of a part."""
    return any(case == answer and inside for kind in description.kinds for case, inside in m.refusals(kind))


def check(description: m.Description, example: m.Example) -> None:
    """Refuses an example whose bytes have other values, or are not the bytes that are written for its values."""
    said, parts = answered(description, example.answer)
    if not example.answer:
        raise Refused("an example has its fields, or its error, after a colon: `example 10 FF: FIELD = VALUE, ..`")
    if said and isinstance(said, str) and held(description, said) and not names_own(description, said):
        raise Refused(f"`{said}` holds an error of the part: give the example in its description")
    cases = [*errors_of(description), *reader_errors(description)]
    if isinstance(said, str) and said not in cases:
        known = ", ".join(f"`{it}`" for it in dict.fromkeys(cases))
        raise Refused(f"an example answers `{said}`, which is no case of the error: it has {known}")
    try:
        data = bytes.fromhex(example.digits)
    except ValueError:
        raise Refused(f"`{example.digits}` are no bytes: they are hex, `10 FF`") from None
    compare(description, data, said, parts)


def names_own(description: m.Description, answer: str) -> bool:
    """Returns true if a case of the error holds no error of a part."""
    return any(case == answer and not inside for kind in description.kinds for case, inside in m.refusals(kind))


def compare(description: m.Description, data: bytes, said: Said, parts: dict[str, Value]) -> None:
    """Refuses bytes that have other values, or another error, than an example says."""
    row = Input(data, description.order)
    try:
        found = value_of(record_reader(description, parts)(row))
    except ReadError as it:
        raise_unless(said, it)
        return
    if isinstance(said, str):
        raise Refused(f"example: the bytes answer fields, not `{said}`")
    for name, kind in ((it.name, it) for it in description.fields):
        if difference := differing(kind, said[name], found[name], name):
            raise Refused(f"example: the bytes say {difference}")
    written(description, data, said, row.at)


def raise_unless(said: Said, it: ReadError) -> None:
    """Refuses an example that does not name this error."""
    if said != it.answer:
        size = f" ({it.clause})" if it.answer == "EndOfInput" and it.why else ""
        other = f", not `{said}`" if isinstance(said, str) else ""
        raise Refused(f"example: the bytes answer `{it.answer}` in `{it.path}`{size}{other}")


def written(description: m.Description, data: bytes, said: dict[str, Value], at: int) -> None:
    """Refuses bytes other than the bytes that are written for the values."""
    if len(data) > -(-at // 8):
        raise Refused(f"example: more bytes than the fields have, which end with byte {-(-at // 8) - 1}")
    bits = Bits(description.order)
    put_record(bits, description, said)
    if bits.bytes() != data:
        nodes = record_reader(description)(Input(data, description.order))
        row = bits.bytes().hex(" ").upper()
        why = next(other_bits(nodes, description.order), "") or padding(data, at, description.order)
        raise Refused(f"example: {why}: give the row as it is written, `{row}`")


def other_bits(nodes: list[Node], order: str) -> Iterator[str]:
    """Returns, for each line whose bits are written in another way than they are read, what is written there."""
    for it in nodes:
        yield from other_bits(it.nodes, order)
        kind, place, width = it.kind and m.grouped(it.kind), place_text(it.start), it.end - it.start
        match kind:
            case m.Skip() if isinstance(it.value, int) and it.value:
                line = "align" if kind.align else f"any {width}"
                yield zeros_text(f"the bits of `{line}` at {place}", width, it.value)
            case m.Groups() if width > written_bits(
                m.Groups(kind.at, "", "x", kind.integer, kind.group, True), it, order
            ):
                yield f"`{it.name}` at {place} ends in a group of zeros, which is not written"
            case _ if kind and m.is_varint(kind) and width > written_bits(m.Varint(kind.at, "", "x"), it, order):
                yield f"`{it.name}` at {place} has more bytes than its number needs, which are not written"


def written_bits(kind: m.Groups | m.Varint, it: Node, order: str) -> int:
    """Returns the number of bits that are written for the number of a line."""
    one = Bits(order)
    put_record(one, m.Description("", "", order, "", (kind,)), {kind.name: it.value})
    return one.count


def padding(data: bytes, at: int, order: str) -> str:
    """Returns what is written after the last field, up to a whole byte."""
    row = Input(data, order)
    row.at = at
    return zeros_text(f"the bits after the fields, at {place_text(at)},", -at % 8, row.number(-at % 8))


def zeros_text(what: str, width: int, value: int) -> str:
    """Returns the text of bits for which zeros are written."""
    number = f"0b{value:0{width}b}" if width <= 16 else f"{value:#x}"
    return f"{what} are {number}, and zeros are written there"


def differing(kind: m.Described, said: Value, found: Value, path: str) -> str:
    """Returns the first difference between two values, or an empty text."""
    use = m.held_item(kind)
    alone = isinstance(kind, m.Part | m.Optional | m.If | m.Sized | m.Given)
    if alone and isinstance(use, m.Use) and isinstance(said, dict) and isinstance(found, dict):
        inner = use.description.fields
        found_all = (differing(it, said[it.name], found[it.name], f"{path}.{it.name}") for it in inner)
        return next((it for it in found_all if it), "")
    if said == found:
        return ""
    return f"{path} = {spelled(kind, found)}, not {spelled(kind, said)}"


def spelled(kind: m.Described, value: Value) -> str:
    """Returns a value as an example spells it."""
    some = "Some" * isinstance(kind, m.Optional | m.If)
    return plain(value, some, isinstance(m.held_item(kind), m.EnumType) or isinstance(kind, m.Choose))


def plain(value: Value, some: str, cases: bool) -> str:
    """Returns the text of a value; a part begins with `some`, and `cases` is true for an enum or a choice."""
    match value:
        case bool():
            return str(value).lower()
        case bytes():
            return f"[{value.hex(' ').upper()}]"
        case list():
            return f"[{' '.join(plain(it, '', cases) for it in value)}]"
        case dict() if cases and len(value) == 1:
            name, held = next(iter(value.items()))
            return f"{name}{plain(held, '', False) if isinstance(held, dict) else f'({held!r})'}"
        case dict():
            return f"{some}({', '.join(f'{name} = {plain(it, str(), False)}' for name, it in value.items())})"
    return str(value)
