"""The module for Python of a format: a dataclass, its enums and exceptions, over the library of C by `ctypes`."""
from __future__ import annotations

from typing import assert_never

from describing import model as m
from describing.c.cross import (
    Crossed,
    Listed,
    Member,
    base,
    choice_members,
    choices,
    comment,
    enums,
    fields,
    givens,
    is_listed,
    layout,
    list_comment,
    lists,
    members,
    parts,
    rest,
    said_of_enum,
)
from describing.c.rests import which_bytes
from describing.c.status import DOES_NOT_FIT, NO_ROOM, Status, numbers, own, refused, rooms, unless_refused
from describing.c.target import Target
from describing.c.words import drawn, in_docstring, paragraph, python_name, quoted
from describing.layout import Format

LIBRARY = '''"""MADE

The library of C, from the path that the variable NAME_LIBRARY names, or from the folders around this file.
"""
from __future__ import annotations

import ctypes
import enum
import operator
import os
from pathlib import Path
from typing import Sequence, TypeVar

_Part = TypeVar("_Part")


def _find() -> str:
    named = os.environ.get("NAME_LIBRARY")
    around = list(Path(__file__).resolve().parents)[:3]
    places = [folder / "libLIB.so" for it in around for folder in (it, it / "shared")]
    found = [named] if named else [str(it) for it in places if it.exists()]
    return found[0] if found else "libLIB.so"


library = ctypes.CDLL(_find())


def number(value: int, least: int, most: int, name: str = "") -> int:
    """Returns the number of a field; raises `OverflowError` for another one, and `TypeError` for another type."""
    at = f"{name}: " if name else ""
    try:
        found = operator.index(value)
    except TypeError:
        raise TypeError(f"{at}an int is wanted, and not {type(value).__name__}") from None
    if not least <= found <= most:
        raise OverflowError(f"{at}{found} is not from {least} to {most}")
    return found


def case(value: int, cases: type[enum.IntEnum], name: str) -> int:
    """Returns the number of a case; raises `OverflowError` for another number, and `TypeError` for another type."""
    found = number(value, 0, 2**64 - 1, name)
    if found not in list(cases):
        raise OverflowError(f"{name}: {found} is no number of {cases.__name__}")
    return found


def items(values: Sequence[int], count: int, least: int, most: int, name: str) -> tuple[int, ...]:
    """Returns the items of an array of C, or raises as `number` does."""
    if not hasattr(values, "__len__"):
        raise TypeError(f"{name}: a sequence is wanted, and not {type(values).__name__}")
    if len(values) != count:
        what = "bytes" if isinstance(values, (bytes, bytearray, memoryview)) else "items"
        raise OverflowError(f"{name}: {len(values)} {what}, and not {count}")
    return tuple(number(it, least, most, f"{name}[{k}]") for k, it in enumerate(values))


def part(value: _Part, kind: type[_Part], name: str) -> _Part:
    """Returns a part of the fields, or raises `TypeError`."""
    if not isinstance(value, kind):
        raise TypeError(f"{name}: {kind.__name__} is wanted, and not {type(value).__name__}")
    return value
'''


def library_module(library: str) -> str:
    """Returns the module that loads the library."""
    made = "Made by `./format --c`, which prints the same for each crate: edit tools/describing/c/python.py."
    return LIBRARY.replace("MADE", made).replace("NAME", library.upper()).replace("LIB.so", f"{library}.so")


def module(t: Target) -> str:
    """Returns the module."""
    body = [
        *enum_codes(t),
        *(errors_code(t) if t.f.description.whole else []),
        *[line for it in choices(t.f.description) for line in choice_classes(it)],
        *struct_code(t),
        *lists_code(t),
        *[line for it in choices(t.f.description) for line in choice_calls(it)],
        *fields_code(t),
        *calls_code(t),
        *end_code(t),
    ]
    return "\n".join([*head_code(t), *body]) + "\n"


def head_code(t: Target) -> list[str]:
    """Returns the comment of the module and its imports."""
    f = t.f
    out = [f'"""{t.made}', "", *paragraph(in_docstring(f.doc), "", ""), "", *drawn(f.description), '"""']
    out += ["from __future__ import annotations", "", "import ctypes"] + ["import enum"] * bool(enums(f.description))
    typed = ["ClassVar"] * f.description.whole + ["Sequence"] * bool(lists(f.description))
    typed += ["Union"] * bool(choices(f.description))
    body = "".join(value for it in fields(f.description) for value in to_c(it).values())
    body += "\n".join([*lists_code(t), *[line for it in choices(f.description) for line in choice_calls(it)]])
    needs = [it for it in ("case", "items", "number", "part") if f"{it}(" in body] + ["library"] * f.description.whole
    out += ["from dataclasses import dataclass", *[f"from typing import {', '.join(typed)}"] * bool(typed), ""]
    out += [f"from ._library import {', '.join(sorted(needs))}"] * bool(needs)
    return out + [f"from . import {it.module} as _{it.module}" for it in parts(f.description)] + ["", ""]


def enum_codes(t: Target) -> list[str]:
    """Returns the enums."""
    out = list[str]()
    for it in enums(t.f.description):
        out += [
            f"class {it.name}(enum.IntEnum):",
            f'    """{in_docstring(said_of_enum(t.f.description, it.name))}"""',
            "",
        ]
        out += [f"    {m.snake(case).upper()} = {number}" for number, case in it.cases] + ["", ""]
        if it.other:
            of = f"def _{m.snake(it.name)}(value: int) -> {it.name} | int:"
            known = f"[{', '.join(str(number) for number, _ in it.cases)}]"
            out += [of, f"    return {it.name}(value) if value in {known} else value", "", ""]
    return out


def error_name(t: Target) -> str:
    """Returns the name of the exception that all others are derived from."""
    return t.f.error or f"{t.f.type}Error"


def raised(t: Target) -> list[Status]:
    """Returns the statuses that become an exception: the buffer of a pack is never too short in the end."""
    return [it for it in refused(t.f) if it.number != NO_ROOM]


def errors_code(t: Target) -> list[str]:
    """Returns the exceptions, one for each status."""
    e = error_name(t)
    out = [f"class {e}(ValueError):", f'    """The reason why no `{t.f.type}` was parsed or packed."""', ""]
    out += ["    status: ClassVar[int]", "", ""]
    for it in raised(t):
        out += [f"class {it.camel}({e}):", f'    """{in_docstring(it.text)}"""', "", f"    status = {it.number}", ""]
        out += [
            "    def __init__(self, *reason: object) -> None:",
            f"        super().__init__(*(reason or [{quoted(it.short)}]))",
            "",
            "",
        ]
    rows = ", ".join(f"{it.number}: {it.camel}" for it in raised(t))
    return [*out, f"_ERRORS: dict[int, type[{e}]] = {{{rows}}}", "", ""]


def c_number(number: str) -> str:
    """Returns the type of `ctypes` of a number."""
    return f"ctypes.c_{'int' if number[0] == 'i' else 'uint'}{number[1:]}"


def c_type(member: Member) -> str:
    """Returns the type of `ctypes` of a member."""
    if member.module:
        return f"_{member.module}._C"
    if member.item:
        return f"_{member.name.capitalize()}Items"
    one = c_number(member.base)
    return one if member.count is None else f"{one} * {member.count}"


def item_type(member: Member) -> str:
    """Returns the type of `ctypes` of an item of a list."""
    return f"_{member.of}._C" if member.of else c_number(member.item)


def struct_code(t: Target) -> list[str]:
    """Returns the struct of C, and before it those of the lists."""
    out = list[str]()
    for kind in choices(t.f.description):
        out += choice_struct(kind)
    for it in members(t.f.description):
        if it.item:
            out += [f"class _{it.name.capitalize()}Items(ctypes.Structure):", "    _fields_ = ["]
            out += [f'        ("items", ctypes.POINTER({item_type(it)})),']
            out += ['        ("capacity", ctypes.c_size_t),', '        ("length", ctypes.c_size_t),', "    ]", "", ""]
    return out + fields_struct(t)


def fields_struct(t: Target) -> list[str]:
    """Returns the struct of C."""
    rows = list[str]()
    for it in members(t.f.description):
        name, kind = (it.choice, f"_{it.choice.capitalize()}Choice") if it.choice else (it.name, c_type(it))
        rows += [f'        ("{python_name(name)}", {kind}),'] * (not it.case)
    return ["class _C(ctypes.Structure):", "    _fields_ = [", *rows, "    ]", "", ""]


def hint(kind: Crossed) -> str:
    """Returns the type hint of a field."""
    match kind:
        case m.Bool():
            return "bool"
        case m.Number() | m.NonZero() | m.Unary() | m.Groups() | m.Golomb() | m.Varint():
            return "int"
        case m.MaybeNonZero():
            return "int | None"
        case m.Enum():
            return f"{kind.enum.name}{' | int' if kind.enum.other else ''}"
        case m.Array():
            return "bytes" if isinstance(kind.item, m.Octet) else "list[int]"
        case m.Part() | m.Given():
            return f"_{kind.use.module}.{kind.use.name}"
        case m.Optional() | m.If():
            return f"_{kind.use.module}.{kind.use.name} | None"
        case m.Choose():
            return kind.type
        case m.List(item=m.Use() as use) | m.Fill(use=use):
            return f"list[_{use.module}.{use.name}]"
        case m.List(item=m.EnumType() as enum):
            return f"list[{enum.name}{' | int' if enum.other else ''}]"
        case m.List() | m.Sized() | m.Rest() | m.Until():
            return "bytes" if isinstance(kind.item, m.Octet) else "list[int]"
    assert_never(kind)


def said(t: Target, kind: Crossed) -> str:
    """Returns the comment of a field."""
    if is_listed(kind):
        return list_comment(t.f.description, kind)
    text = comment(kind)
    if isinstance(kind, m.MaybeNonZero):
        text = f"{kind.doc} From 1 to {kind.integer.most}, or `None`."
    if isinstance(kind, m.Enum):
        text = kind.doc or f"The field `{kind.name}`."
        text += f" Another number is below 2^{kind.enum.width}." * bool(kind.enum.other)
    return text.strip()


def fields_code(t: Target) -> list[str]:
    """Returns the dataclass with its fields."""
    out = ["@dataclass", f"class {t.f.type}:", f'    """{in_docstring(t.f.doc)}"""', ""]
    for it in fields(t.f.description):
        out += [f"    {python_name(it.name)}: {hint(it)}", f'    """{in_docstring(said(t, it))}"""']
    size = [f"    SIZE: ClassVar[int] = {t.f.bytes}", '    """The bytes that the fields take."""', ""] * t.f.sized
    return [*out, "", *size]


def span(kind: Crossed) -> str:
    """Returns the least and the greatest number of a field, or of each item."""
    least, most = m.range_of(kind) or (0, 255)
    if isinstance(kind, m.MaybeNonZero):
        least = 1
    if isinstance(kind, m.Enum):
        most = 2**kind.enum.width - 1
    return f"{least}, {most}"


def to_c(kind: Crossed) -> dict[str, str]:
    """Returns the members of C for a field."""
    if isinstance(kind, m.Optional | m.If):
        v, at = f"self.{python_name(kind.name)}", f'at + "{python_name(kind.name)}"'
        one = f'part({v}, _{kind.use.module}.{kind.use.name}, {at})._to_c({at[:-1]}.")'
        none = f"_{kind.use.module}._C() if {v} is None else {one}"
        return {python_name(f"has_{kind.name}"): f"0 if {v} is None else 1", python_name(kind.name): none}
    if is_listed(kind):
        name = python_name(kind.name)
        return {name: f'_{kind.name}(self.{name}, at + "{name}")'}
    if isinstance(kind, m.Choose):
        name = python_name(kind.name)
        return {name: f'_{kind.name}_choice(self.{name}, at + "{name}")'}
    return {python_name(kind.name): one_to_c(kind)}


def one_to_c(kind: Crossed) -> str:
    """Returns the member of C for a field that has one."""
    v, at = f"self.{python_name(kind.name)}", f'at + "{python_name(kind.name)}"'
    match kind:
        case m.Bool():
            return f"1 if {v} else 0"
        case m.MaybeNonZero():
            return f"0 if {v} is None else number({v}, {span(kind)}, {at})"
        case m.Enum() if not kind.enum.other:
            return f"case({v}, {kind.enum.name}, {at})"
        case m.Array():
            return f"items({v}, {kind.count}, {span(kind)}, {at})"
        case m.Part() | m.Given():
            return f'part({v}, _{kind.use.module}.{kind.use.name}, {at})._to_c({at[:-1]}.")'
    return f"number({v}, {span(kind)}, {at})"


def from_c(kind: Crossed) -> str:
    """Returns the field for a field of C."""
    v = f"out.{python_name(kind.name)}"
    match kind:
        case m.Bool():
            return f"{v} != 0"
        case m.Number() | m.NonZero() | m.Unary() | m.Groups() | m.Golomb() | m.Varint():
            return v
        case m.MaybeNonZero():
            return f"{v} or None"
        case m.Enum():
            return f"_{m.snake(kind.enum.name)}({v})" if kind.enum.other else f"{kind.enum.name}({v})"
        case m.Array():
            return f"{'bytes' if isinstance(kind.item, m.Octet) else 'list'}({v})"
        case m.Part() | m.Given():
            return f"_{kind.use.module}.{kind.use.name}._from_c({v})"
        case m.Optional() | m.If():
            return f"_{kind.use.module}.{kind.use.name}._from_c({v}) if out.has_{kind.name} else None"
        case m.Choose():
            return f"_{kind.name}_chosen({v})"
        case m.List(item=m.Use() as use) | m.Fill(use=use):
            return f"[_{use.module}.{use.name}._from_c(it) for it in {v}.items[: {v}.length]]"
        case m.List(item=m.EnumType() as enum):
            return f"[{f'_{m.snake(enum.name)}' if enum.other else enum.name}(it) for it in {v}.items[: {v}.length]]"
        case m.List() | m.Sized() | m.Rest() | m.Until():
            return f"{'bytes' if isinstance(kind.item, m.Octet) else 'list'}({v}.items[: {v}.length])"
    assert_never(kind)


def lists_code(t: Target) -> list[str]:
    """Returns the functions that make the structs of lists."""
    out = list[str]()
    for it in lists(t.f.description):
        if isinstance(it.item, m.Use | m.EnumType):
            out += mapped_list_code(it, it.item)
            continue
        kind, (least, most) = c_number(base(it)), (it.item.least, it.item.most) if isinstance(it.item, m.Integer) else (
            0,
            255,
        )
        out += [
            f"def _{it.name}(values: Sequence[int], name: str) -> _{it.name.capitalize()}Items:",
            f'    found = items(values, len(values) if hasattr(values, "__len__") else 0, {least}, {most}, name)',
            f"    return _{it.name.capitalize()}Items(({kind} * len(found))(*found), len(found), len(found))",
            "",
            "",
        ]
    return out


def mapped_list_code(kind: Listed, item: m.Use | m.EnumType) -> list[str]:
    """Returns the function that makes the struct of a list of parts or of an enum."""
    items, at = f"_{kind.name.capitalize()}Items", 'f"{name}[{k}]"'
    if isinstance(item, m.Use):
        given, of_c = f"_{item.module}.{item.name}", f"_{item.module}._C"
        one = f'part(it, {given}, {at})._to_c(f"{{name}}[{{k}}].")'
    else:
        given, of_c = f"{item.name}{' | int' if item.other else ''}", c_number(base(kind))
        one = f"number(it, 0, {2**item.width - 1}, {at})" if item.other else f"case(it, {item.name}, {at})"
    return [
        f"def _{kind.name}(values: Sequence[{given}], name: str) -> {items}:",
        f"    found = [{one} for k, it in enumerate(values)]",
        f"    return {items}(({of_c} * len(found))(*found), len(found), len(found))",
        "",
        "",
    ]


def choice_struct(kind: m.Choose) -> list[str]:
    """Returns the struct of a choice."""
    name, held = kind.name.capitalize(), list[str]()
    for it in choice_members(kind):
        held += [f'        ("{python_name(m.snake(it.case))}", {c_type(it)}),'] * bool(it.case)
    union = [f"class _{name}Union(ctypes.Union):", "    _fields_ = [", *held, "    ]", "", ""] * bool(held)
    union += [f"class _{name}Choice(ctypes.Structure):", "    _fields_ = [", '        ("which", ctypes.c_int),']
    return [*union, *[f'        ("held", _{name}Union),'] * bool(held), "    ]", "", ""]


def choice_classes(kind: m.Choose) -> list[str]:
    """Returns a dataclass for each case of a choice, and their union."""
    out = list[str]()
    for it in kind.arms:
        said = (
            f"The case of the number {it.number}."
            if it.number is not None
            else "Another number, with nothing after it. No number of another case fits."
        )
        out += [
            "@dataclass",
            f"class {kind.type}{it.case}:",
            f'    """{in_docstring(kind.doc or f"The field `{kind.name}`.")} {said}"""',
            "",
        ]
        if isinstance(it.held, m.Use):
            out += [f"    value: _{it.held.module}.{it.held.name}", '    """The content of the case."""', ""]
        elif it.number is None:
            out += ["    number: int", f'    """The number. Below 2^{kind.width}."""', ""]
        out += [""]
    return [*out, f"{kind.type} = Union[{', '.join(f'{kind.type}{it.case}' for it in kind.arms)}]", "", ""]


def choice_calls(kind: m.Choose) -> list[str]:
    """Returns the functions that make the struct of a choice, and a case of such a struct."""
    name, named = kind.name.capitalize(), {it.case: python_name(m.snake(it.case)) for it in choice_members(kind)}
    to_c_, from_c_ = list[str](), list[str]()
    for k, it in enumerate(kind.arms):
        there = f"{kind.type}{it.case}"
        made, given = f"_{name}Choice({k})", f"{there}()"
        if it.case in named:
            one, given = (
                f'number(value.number, 0, {2**kind.width - 1}, name + ".number")',
                f"{there}(out.held.{named[it.case]})",
            )
            if isinstance(it.held, m.Use):
                module = f"_{it.held.module}.{it.held.name}"
                one = f'part(value.value, {module}, name + ".value")._to_c(name + ".value.")'
                given = f"{there}({module}._from_c(out.held.{named[it.case]}))"
            made = f"_{name}Choice({k}, _{name}Union({named[it.case]}={one}))"
        to_c_ += [f"    if isinstance(value, {there}):", f"        return {made}"]
        from_c_ += (
            [f"    if out.which == {k}:", f"        return {given}"]
            if it is not kind.arms[-1]
            else [f"    return {given}"]
        )
    wanted = f'f"{{name}}: {kind.type} is wanted, and not {{type(value).__name__}}"'
    return [
        f"def _{kind.name}_choice(value: {kind.type}, name: str) -> _{name}Choice:",
        *to_c_,
        f"    raise TypeError({wanted})",
        "",
        "",
        f"def _{kind.name}_chosen(out: _{name}Choice) -> {kind.type}:",
        *from_c_,
        "",
        "",
    ]


def refusals(t: Target) -> str:
    """Returns the exceptions of a parse."""
    f = t.f
    few = (
        f"`EndOfInput` for fewer than {f.bytes} bytes"
        if f.sized
        else "`EndOfInput` if the bytes end before the fields do"
    )
    cases = ", ".join(f"`{it.camel}`" for it in [*own(f), *numbers(f)])
    return f"the first in the order of the bits: {cases}; {few}{unless_refused(f)}" if cases else few


def calls_code(t: Target) -> list[str]:
    """Returns the methods of the dataclass."""
    f, of_all = t.f, fields(t.f.description)
    return [
        *([*parse_code(t), *pack_code(t)] if f.description.whole else []),
        '    def _to_c(self, at: str = "") -> _C:',
        "        return _C(",
        *[f"            {value}," for it in of_all for value in to_c(it).values()],
        "        )",
        "",
        "    @classmethod",
        f"    def _from_c(cls, out: _C) -> {f.type}:",
        "        return cls(",
        *[f"            {python_name(it.name)}={from_c(it)}," for it in of_all],
        "        )",
        "",
        "",
    ]


def parse_code(t: Target) -> list[str]:
    """Returns the parse."""
    f = t.f
    told = "" if f.sized else ", and returns them with the number of bytes that they take"
    if lists(f.description):
        return parse_lists_code(t)
    first_, taken, end = "bytes(data[: cls.SIZE])", "", "cls._from_c(out)"
    if not f.sized:
        first_, taken, end = "bytes(data)", ", ctypes.byref(taken)", "cls._from_c(out), taken.value"
    return [
        "    @classmethod",
        f"    def parse(cls, data: bytes | bytearray | memoryview) -> {f.type if f.sized else f'tuple[{f.type}, int]'}:",
        *paragraph(f'"""Parses the fields at the start of `data`{told}.', " " * 8, " " * 8),
        "",
        *paragraph(f"Raises {refusals(t)}.", " " * 8, " " * 8),
        '        """',
        f"        first, out = {first_}, _C()",
        *["        taken = ctypes.c_size_t()"] * (not f.sized),
        f"        status = library.{f.m}_parse(first, len(first), ctypes.byref(out){taken})",
        "        if status:",
        "            raise _ERRORS[status]()",
        f"        return {end}",
        "",
    ]


def parse_lists_code(t: Target) -> list[str]:
    """Returns the parse of a format with lists: it is called again with room for the items that it asks for."""
    f, handed = t.f, givens(t.f.description)
    parameters = "".join(f", {python_name(it.name)}: {hint(it)}" for it in handed)
    out = [
        "    @classmethod",
        f"    def parse(cls, data: bytes | bytearray | memoryview{parameters}) -> tuple[{f.type}, int]:",
        *paragraph(
            f'"""Parses {which_bytes(f, "`data`")}, and returns them with the number of bytes that they take.',
            " " * 8,
            " " * 8,
        ),
        "",
        *paragraph(f"Raises {refusals(t)}.", " " * 8, " " * 8),
        '        """',
        "        first, out, taken = bytes(data), _C(), ctypes.c_size_t()",
        *rest_room(t),
        *[f"        out.{python_name(it.name)} = {given_to_c(it)}" for it in handed],
        f"        status = library.{f.m}_parse(first, len(first), ctypes.byref(out), ctypes.byref(taken))",
        "        while status:",
    ]
    for k, (it, status) in enumerate(zip(lists(f.description), rooms(f))):
        room = f'_{it.name}([0] * taken.value, "")'
        if isinstance(it.item, m.Use | m.EnumType):
            of_c = f"_{it.item.module}._C" if isinstance(it.item, m.Use) else c_number(base(it))
            room = f"_{it.name.capitalize()}Items(({of_c} * taken.value)(), taken.value, 0)"
        out += [
            f"            {'el' * (k > 0)}if status == {status.number}:",
            f"                out.{python_name(it.name)} = {room}",
        ]
    return [
        *out,
        "            else:",
        "                raise _ERRORS[status]()",
        f"            status = library.{f.m}_parse(first, len(first), ctypes.byref(out), ctypes.byref(taken))",
        "        return cls._from_c(out), taken.value",
        "",
    ]


def given_to_c(kind: m.Given) -> str:
    """Returns the member of C for a part that is given to the parse."""
    name = python_name(kind.name)
    return f'part({name}, {hint(kind)}, "{name}")._to_c("{name}.")'


def rest_room(t: Target) -> list[str]:
    """Returns the statement that makes room for the bytes up to the end, which are no more than all bytes."""
    kind = rest(t.f.description)
    if not kind:
        return []
    items = f"_{kind.name.capitalize()}Items((ctypes.c_uint8 * len(first))(), len(first), 0)"
    return [f"        out.{python_name(kind.name)} = {items}"]


def pack_code(t: Target) -> list[str]:
    """Returns the pack."""
    f = t.f
    call = f"library.{f.m}_pack(ctypes.byref(fields), buffer, len(buffer), ctypes.byref(written))"
    body = [
        f"        buffer, written = ctypes.create_string_buffer(self.SIZE), ctypes.c_size_t()",
        f"        status = {call}",
    ]
    if not f.sized:
        body = [
            "        status, buffer, written = NO_ROOM, ctypes.create_string_buffer(32), ctypes.c_size_t()",
            "        while status == NO_ROOM:",
            "            buffer = ctypes.create_string_buffer(2 * len(buffer))",
            f"            status = {call}",
        ]
        body = [it.replace("NO_ROOM", str(NO_ROOM)) for it in body]
    return [
        "    def pack(self) -> bytes:",
        f'        """Returns the {f"{f.bytes} " if f.sized else ""}bytes of the fields.',
        "",
        "        Raises `DoesNotFit` if the format does not allow the value of a field, and `TypeError` for another type.",
        '        """',
        "        try:",
        "            fields = self._to_c()",
        "        except OverflowError as it:",
        "            raise DoesNotFit(str(it)) from None",
        *body,
        f"        if status == {DOES_NOT_FIT}:",
        f"            name = library.{f.m}_misfit(ctypes.byref(fields)).decode()",
        '            raise DoesNotFit(f"{name}: the format does not allow this value")',
        "        if status:",
        "            raise _ERRORS[status]()",
        "        return buffer.raw[: written.value]",
        "",
    ]


def end_code(t: Target) -> list[str]:
    """Returns the test of the layout, and the types of the functions of C."""
    f = t.f
    size, offset, _ = layout(f.description, public=True)
    member = members(f.description)[-1]
    last = python_name(member.choice or member.name)
    same = [
        f'if ctypes.sizeof(_C) != {size} or getattr(_C, "{last}").offset != {offset}:',
        '    raise ImportError("the library has another layout")',
    ]
    return [*same, *(types_code(f) if f.description.whole else [])]


def types_code(f: Format) -> list[str]:
    """Returns the types of the functions of C."""
    taken = [] if f.sized else ["    ctypes.POINTER(ctypes.c_size_t),"]
    pointers = "[ctypes.c_char_p, ctypes.c_size_t, ctypes.POINTER(_C)]"
    parse = [f"{f'library.{f.m}'}_parse.argtypes = {pointers}"]
    if taken:
        parse = [
            f"library.{f.m}_parse.argtypes = [",
            "    ctypes.c_char_p,",
            "    ctypes.c_size_t,",
            "    ctypes.POINTER(_C),",
            *taken,
            "]",
        ]
    of_c = f"library.{f.m}"
    return [
        *parse,
        f"{of_c}_parse.restype = ctypes.c_int",
        f"{of_c}_pack.argtypes = [",
        "    ctypes.POINTER(_C),",
        "    ctypes.c_char_p,",
        "    ctypes.c_size_t,",
        "    ctypes.POINTER(ctypes.c_size_t),",
        "]",
        f"{of_c}_pack.restype = ctypes.c_int",
        f"{of_c}_misfit.argtypes = [ctypes.POINTER(_C)]",
        f"{of_c}_misfit.restype = ctypes.c_char_p",
    ]
