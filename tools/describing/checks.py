"""Refuses lines that do not belong together, and names that the printed text uses itself."""
from __future__ import annotations

import re
from typing import Iterator

from describing import model as m
from describing import reserved
from describing.model import Position, Refused
from describing.names import TAKEN
from describing.parse import ONLY_PARTS, beside, parsed

LISTED = "`./format --help` lists such names"


def described(text: str, path: str, module: str) -> m.Description:
    """Returns the model of a description, whose lines belong together."""
    found = parsed(text, beside(path, (module,), check))
    check(found)
    return found


def check(it: m.Description) -> None:
    """Refuses lines that do not belong together, and names that the printed text uses itself."""
    if not it.name:
        raise Refused("no line `struct NAME`: it is the first one", Position(1, 1))
    if it.order not in ("BE", "LE"):
        raise Refused(f"the order is BE or LE, and not `{it.order}`", it.heads["order"])
    check_lines(it)
    check_types(it)
    if it.error and not any(m.error(kind) for kind in it.kinds):
        why = f"no line refuses bits, so there is no `{it.error}`: leave this line out"
        raise Refused(why, it.heads["error"])
    if it.whole and it.bits is not None and it.bits % 8:
        ends = f"end with `any {-it.bits % 8}`, or with `align`"
        raise Refused(f"the fields have {it.bits} bits, which are no whole bytes: {ends}", last_line(it))
    if not it.fields:
        raise Refused("no field: it is a line `NAME TYPE BITS`, for example", last_line(it))


def last_line(it: m.Description) -> Position:
    """Returns the position of the last line that describes bits, or of the line `struct`."""
    return max((kind.at for kind in it.kinds), key=lambda at: at.line, default=it.heads["struct"])


def check_lines(it: m.Description) -> None:
    """Refuses a line that needs a later one, the name of an earlier line, or an error that is not declared."""
    names: list[str] = []
    for index, kind in enumerate(it.kinds):
        name = "" if isinstance(kind, m.Const | m.Skip) else m.label(kind)
        check_name(name, kind.at)
        check_sum_name(it, kind)
        check_target(it, index, kind)
        check_given(it, kind)
        if m.own_order(kind) == it.order:
            raise Refused(f"`{it.order}` is the byte order of the format: leave it out here", kind.at)
        if name in reserved.WORDS:
            raise Refused(f"`{name}` is a word of the language: take another name ({LISTED})", kind.at)
        if name and name in names:
            raise Refused(f"two fields have one name, `{name}`", kind.at)
        check_error(it, kind)
        names.append(name)


def check_name(name: str, at: Position) -> None:
    """Refuses a name that Rust does not allow."""
    if name and not re.fullmatch(r"_*[A-Za-z][A-Za-z0-9_]*", name):
        raise Refused(f"`{name}` is no name: take letters, digits and `_`, a letter first", at)


def check_type_name(name: str, at: Position) -> None:
    """Refuses a name of a type or a case that code or proofs cannot have."""
    if name in reserved.TYPE_WORDS:
        raise Refused(f"`{name}` is a word of the language: take another name ({LISTED})", at)
    if name and not name[0].isupper():
        upper = "".join(it[:1].upper() + it[1:] for it in name.split("_"))
        raise Refused(f"`{name}` is a type or a case, which begins with a capital letter: take `{upper}`", at)


def check_sum_name(it: m.Description, kind: m.Kind) -> None:
    """Refuses a field with a name that code has for a checksum, or for the number of bytes of the rest."""
    sums = [one.word for one in it.kinds if isinstance(one, m.Check)]
    rests = [name for one in it.kinds if m.is_rest(one) for name in (f"{one.name}_bytes", "all_bytes")]
    words = [it.format(one) for one in sums for it in ("{}", "is_{}", "{}_sum", "{}_writes")]
    words += [one.called for one in it.kinds if isinstance(one, m.Computed)]
    if m.is_field(kind) and kind.name in words:
        raise Refused(f"`{kind.name}` is the name of the checksum: take another name", kind.at)
    if m.is_field(kind) and kind.name in rests:
        raise Refused(f"`{kind.name}` is the number of bytes of the rest: take another name", kind.at)


def check_given(it: m.Description, kind: m.Kind) -> None:
    """Refuses a given part that no checksum covers, or whose values may not fit, and a part that is given others."""
    for use in m.uses(kind):
        if m.given(use.description):
            raise Refused(f"`{use.module}` is given a part, so it is no part of others", kind.at)
    if not isinstance(kind, m.Given):
        return
    covers = [one for check in it.kinds if isinstance(check, m.Check) for one in m.covered(it.kinds, check)]
    if kind not in covers:
        raise Refused(f"no checksum covers `{kind.name}`, so it is not asked for", kind.at)
    if not all(map(m.is_any, kind.use.description.kinds)) or (kind.use.description.bits or 1) % 8:
        raise Refused("a given part has whole bytes, and numbers that have all bits of their types", kind.at)


def check_error(it: m.Description, kind: m.Kind) -> None:
    """Refuses a case of an error that is not declared, or has the name of a clause."""
    errors = [case for case, _ in m.refusals(kind)]
    if errors and not it.error:
        item = m.held_item(kind)
        enum = isinstance(item, m.EnumType) or isinstance(kind, m.Choose) and bool(kind.unknown)
        case = f": add it, or a case `.. Other` for the other numbers" * enum
        raise Refused(f"this line refuses bits, and the description has no line `error NAME`{case}", kind.at)
    for case in errors:
        if m.snake(case) in reserved.CLAUSES:
            why = "`There`, `Short`, `Answer` and `Back` are names of the contract: take other ones"
            raise Refused(why, it.place(kind.at, case))


def check_target(it: m.Description, index: int, kind: m.Kind) -> None:
    """Refuses a flag, a count, a tag or a size that no later line uses."""
    later = it.kinds[index + 1 :]
    match kind:
        case m.Flag(target=name):
            found, word = any(isinstance(one, m.Optional) and one.name == name for one in later), "option"
        case m.Count(target=name):
            found, word = any(isinstance(one, m.List) and one.name == name for one in later), "list"
        case m.Size(target=name):
            sized = (m.Sized, m.Fill, m.Choose)
            found, word = any(isinstance(one, sized) and one.name == name for one in later), "sized"
        case m.Tag(name=name):
            found, word = any(isinstance(one, m.Choose) and one.by == name for one in later), "choose"
        case _:
            return
    if not found:
        parts = [
            one for one in later if isinstance(one, m.Optional | m.If | m.Sized | m.Fill | m.List) and one.name == name
        ]
        if parts and isinstance(kind, m.Flag | m.Size):
            raise Refused(f"no `{word} {name}` after it, and {ONLY_PARTS}", kind.at)
        others, several = "", ""
        if isinstance(kind, m.Size):
            others = f", `fill {name}` or `choose {name} TYPE sized ERROR`"
            several = f"; the size of several lines is `computed {name} BITS over FIELD to FIELD ERROR`"
        raise Refused(f"no `{word} {name}`{others} after it{several}", kind.at)


def fits_words(kind: m.Kind) -> list[tuple[str, set[str]]]:
    """Returns the clauses of `Fits` for a line, each with the words in it that a field may not be called."""
    match kind:
        case m.Number(limit=int()):
            return [(kind.name, {"value"}), (f"{kind.name}_most", {"value"})]
        case m.Number() | m.Unary() | m.Groups() | m.Varint():
            return [(kind.name, {"value"})]
        case m.Golomb(signed=signed):
            return [(kind.name, {"value", "unsigned_abs"} if signed else {"value"})]
        case m.NonZero():
            return [(kind.name, {"value", f"non_zero_{kind.integer.base}_get"})]
        case m.MaybeNonZero():
            return [(kind.name, {"value", "number_or_zero", f"non_zero_{kind.integer.base}_get"})]
        case m.Computed():
            return [(m.label(kind), {"value", "stored_size", f"{kind.word}_sum", kind.called})]
        case m.Until() | m.Blocks():
            return [(kind.name, {"value"}), (f"{kind.name}_most", {"value", "length"})]
        case m.UpToLast():
            name, last = kind.name, f"{kind.name}_last"
            return [(name, {"value"}), (f"{name}_once", {"value", last}), (f"{name}_most", {"value", "length"})]
        case m.Array() | m.List() | m.Rest() | m.Fill():
            return many_words(kind)
        case m.Enum(enum=enum) if enum.other:
            s = m.snake(enum.name)
            return [
                (kind.name, {"value", f"{s}_number"}),
                (f"{kind.name}_again", {"value", f"{s}_of", f"{s}_number"}),
            ]
        case m.Count() | m.Size():
            name, words = m.label(kind), {"value", "length", *["stored_size"] * isinstance(kind, m.Count)}
            return [(name, words)] + [(f"{name}_most", words)] * m.is_limited(kind)
        case m.If():
            there = {"value", "is_some", "not", "nat_lt", "nat_le", f"{kind.name}_due"}
            return [(kind.name, {"value"}), (f"{kind.name}_there", there)]
        case m.Choose():
            s = m.snake(kind.type)
            return [(kind.name, {"value", f"{s}_fits"}), (f"{kind.name}_tag", {"value", f"{s}_number"})]
        case m.Part() | m.Optional() | m.Sized() | m.Given():
            return [(kind.name, {"value"})]
    return []


def many_words(kind: m.Array | m.List | m.Rest | m.Fill) -> list[tuple[str, set[str]]]:
    """Returns the clauses of `Fits` for an array or a list."""
    counted = isinstance(kind, m.Array) or isinstance(kind, m.List) and kind.power
    found = [(f"{kind.name}_count", {"value", "length", "power_count", "true"})] * bool(counted)
    item = m.held_item(kind)
    if not isinstance(item, m.EnumType):
        return [*found, (kind.name, {"value"})]
    s = m.snake(item.name)
    return [*found, (kind.name, {"value", f"{s}_of", f"{s}_number"})] if item.other else found


def shadowing(it: m.Description) -> Iterator[str]:
    """Returns the names of fields that are words of a clause of `Fits` for a later line, such as `length`."""
    said: set[str] = set()
    for kind in it.kinds:
        for name, words in fits_words(kind):
            yield from said & words
            said.add(name)


def new_enums(it: m.Description) -> Iterator[tuple[Position, m.EnumType]]:
    """Returns the enums that lines define, each with its position."""
    seen: set[int] = set()
    for kind in it.kinds:
        item = m.held_item(kind)
        repeats = isinstance(kind, m.Enum) and kind.repeats or id(item) in seen
        if isinstance(item, m.EnumType) and not repeats:
            seen.add(id(item))
            yield kind.at, item


def check_types(it: m.Description) -> None:
    """Refuses two types with one name, and a type or a case of the error with a name of the specs."""
    enums = list(new_enums(it))
    types = [(it.heads["struct"], it.name), (it.heads.get("error", Position(1, 1)), it.error)]
    types += [(at, enum.name) for at, enum in enums]
    types += [(kind.at, kind.type) for kind in it.kinds if isinstance(kind, m.Choose)]
    parts = [use.name for kind in it.kinds for use in m.uses(kind)]
    cases = [(at, case) for at, enum in enums for case in enum.names()]
    cases += [(kind.at, arm.case) for kind in it.kinds if isinstance(kind, m.Choose) for arm in kind.arms]
    errors = [(it.place(kind.at, case), case) for kind in it.kinds for case, _ in m.refusals(kind)]
    for at, name in [*types, *errors, *cases]:
        check_name(name, at)
        check_type_name(name, at)
    for index, (at, name) in enumerate(types):
        if name and (name in [one for _, one in types[:index]] or name in parts):
            raise Refused(f"two types have one name, `{name}`", at)
    for at, name in [*types, *errors]:
        if name in TAKEN:
            raise Refused(f"`{name}` is a name of the specs: take another one ({LISTED})", at)
    for kind in it.kinds:
        if isinstance(kind, m.Choose):
            check_choice(it, kind, {name for _, name in [*types, *errors]} | set(parts))


def check_choice(it: m.Description, kind: m.Choose, names: set[str]) -> None:
    """Refuses a choice whose definitions have the names of other ones: those of the library, of a part or of a type."""
    s = m.snake(kind.type)
    modules = {use.module for one in it.kinds for use in m.uses(one)}
    cases = {f"{kind.type}{arm.case}" for arm in kind.arms} | ({kind.unnamed} - {""})
    definitions = {
        f"{s}_{word}"
        for word in ("number", "read", "writes", "size", "fits", "small", "back", "packs", "goes", "choice")
    }
    taken = sorted(({s} & modules) | (cases & (names | TAKEN)) | (definitions & TAKEN))
    if taken:
        why = f"`{taken[0]}` is what the specs call something of `{kind.type}`, and something else: take another name"
        raise Refused(why, kind.at)
