"""The specs of a format for C: what each struct of C stands for, and what each result is."""
from __future__ import annotations

from typing import assert_never

from describing import model as m
from describing.c import choices, cross, lists, optional, part_lists, sums, varying
from describing.c.cross import Crossed, Member, base, fields, members, partial
from describing.c.imports import spec_uses
from describing.c.status import END_OF_INPUT, own
from describing.c.target import Target
from describing.layout import Format
from describing.model import snake


def specs(t: Target) -> str:
    """Returns the text of the specs."""
    body = [
        *narrow_specs(t.f),
        *part_lists.enum_specs(t.f),
        *optional.specs(t.f),
        *choices.specs(t.f),
        *to_c_specs(t),
        *from_c_specs(t),
        *zero_specs(t),
        *calls_specs(t),
    ]
    text = "\n".join(body).rstrip("\n")
    head = [f"-- {t.made}", f"-- A `{t.f.type}` as C sees it.", *spec_uses(t, text), ""]
    return "\n".join([*head, text]) + "\n"


def calls_specs(t: Target) -> list[str]:
    """Returns the definitions for the two functions: a `part` has none."""
    if not t.f.description.whole:
        return []
    if cross.lists(t.f.description):
        return [*(sums.specs(t.f) if sums.check_of(t.f) else lists.specs(t.f)), *held_specs(t)]
    return [*(result_specs(t) if t.f.sized else varying.specs(t.f)), *held_specs(t)]


def narrow_specs(f: Format) -> list[str]:
    """Returns the definitions of the cases of numbers of C, for enums of which each number of their bits is a case."""
    out = list[str]()
    for it in cross.enums(f.description):
        if cross.is_narrow(it):
            name = f"{f.m}_{snake(it.name)}_from"
            out += [
                f"-- the case of a number, or none for a number of more than {it.width} bits",
                f"abbrev pub {name} : ℕ → Option {it.name}",
                f"{name} n = if nat_lt {2**it.width - 1} n then None else Some ({snake(it.name)}_of n)",
                "",
            ]
    return out


def to_c(f: Format, kind: Crossed) -> dict[str, str]:
    """Returns the members of C for a field."""
    if isinstance(kind, m.Optional | m.If):
        return optional.to_c_specs(f, kind)
    if isinstance(kind, m.Choose):
        return choices.to_c_specs(f, kind)
    if cross.is_listed(kind):
        return {kind.name: f"length value.{kind.name}"}
    return {kind.name: one_to_c(kind)}


def one_to_c(kind: Crossed) -> str:
    """Returns the member of C for a field that has one."""
    v = f"value.{kind.name}"
    match kind:
        case m.Bool():
            return f"if {v} then 1 else 0"
        case m.Number() | m.Array() | m.Unary() | m.Groups() | m.Golomb() | m.Varint():
            return v
        case m.NonZero():
            return f"non_zero_{base(kind)}_get {v}"
        case m.MaybeNonZero():
            return f"number_or_zero non_zero_{base(kind)}_get {v}"
        case m.Enum():
            return f"{snake(kind.enum.name)}_number {v}"
        case m.Part() | m.Given():
            return f"{kind.use.module}_to_c {v}"
    raise AssertionError(kind)


def to_c_specs(t: Target) -> list[str]:
    """Returns the definition of the struct of C with some fields."""
    f = t.f
    return [
        "-- the struct of C with these fields",
        f"abbrev pub {f.m}_to_c : {f.type} → {f.type}C",
        f"{f.m}_to_c value = record {{",
        *[f"  {name} = {term};" for it in fields(f.description) for name, term in to_c(f, it).items()],
        "}",
        "",
    ]


def from_c(f: Format, kind: Crossed) -> str:
    """Returns the field for a field of C; that of a partial one is an `Option` or a `Result`."""
    name = f"c.{kind.name}"
    if one := part_lists.shape(f, kind):
        return f"all_made {one.from_c} {kind.name}_items"
    match kind:
        case m.Bool():
            return f"not ({name} == 0)"
        case m.Number() | m.Array() | m.Unary() | m.Groups() | m.Golomb() | m.Varint():
            return name
        case m.NonZero() | m.MaybeNonZero():
            return f"if_any non_zero_{base(kind)} {name}"
        case m.Enum():
            own = f"{f.m}_{snake(kind.enum.name)}_from"
            return f"{own} {name}" if cross.is_narrow(kind.enum) else f"{snake(kind.enum.name)}_of {name}"
        case m.Part() | m.Given():
            return f"{kind.use.module}_from_c {name}"
        case m.Optional() | m.If():
            return optional.from_c_specs(f, kind)
        case m.Choose():
            return choices.from_c_specs(f, kind)
        case m.List() | m.Sized() | m.Fill() | m.Rest() | m.Until():
            return f"{kind.name}_items"
    assert_never(kind)


def partial_type(t: Target, kind: Crossed) -> str:
    """Returns the type of what a partial field is made from."""
    match kind:
        case m.NonZero():
            return f"Option NonZero{base(kind).upper()}"
        case m.Enum() if cross.is_narrow(kind.enum):
            return f"Option {kind.enum.name}"
        case m.Enum():
            return f"Result {kind.enum.name} {t.f.error}"
        case m.Part() | m.Given():
            return f"Option {kind.use.name}"
        case m.Optional() | m.If():
            return f"Option (Option {kind.use.name})"
        case m.Choose():
            return f"Option {kind.type}"
        case m.List(item=m.Use() | m.EnumType() as item) | m.Fill(use=item):
            return f"Option (List {item.name})"
    raise AssertionError(kind)


def pattern(kind: Crossed) -> tuple[str, str]:
    """Returns the patterns of a value and of none."""
    fails = isinstance(kind, m.Enum) and not cross.is_narrow(kind.enum)
    return (f"(Ok {kind.name})", "(Err e)") if fails else (f"(Some {kind.name})", "None")


def from_c_specs(t: Target) -> list[str]:
    """Returns the definition of the fields of a struct of C."""
    f, held = t.f, partial(t.f.description)
    made = [f"  {it.name} = {it.name if it in held else from_c(f, it)};" for it in fields(f.description)]
    says = "-- the fields of a struct of C, or none if a number of C is no value of its field"
    kinds = cross.lists(f.description)
    items = "".join(f" {it.name}_items" for it in kinds)
    of_items = "".join(f"List {cross.spec_item(it)} → " for it in kinds)
    head = f"abbrev pub {f.m}_from_c : {f.type}C → {of_items}Option {f.type}"
    if not held:
        return [says, head, f"{f.m}_from_c c{items} = Some (record {{", *made, "})", ""]
    types = " → ".join(
        [
            f"{f.type}C",
            *[f"List {cross.spec_item(it)}" for it in kinds],
            *(partial_type(t, it) for it in held),
            f"Option {f.type}",
        ]
    )
    somes = [pattern(it)[0] for it in held]
    out = ["-- the fields of a struct of C, of which some are made already", f"abbrev pub {f.m}_made : {types}"]
    out += [f"{f.m}_made c{items} {' '.join(somes)} = Some (record {{", *made, "})"]
    for k, it in reversed(list(enumerate(held))):
        rest = [f"v{j}" for j in range(k + 1, len(held))]
        out.append(f"{f.m}_made c{items} {' '.join([*somes[:k], pattern(it)[1], *rest])} = None")
    terms = [f"({from_c(f, it)})" for it in held]
    return [*out, "", says, head, f"{f.m}_from_c c{items} = {f.m}_made c{items} {' '.join(terms)}", ""]


def zero(member: Member) -> str:
    """Returns a member of the struct of C after an error."""
    if member.module:
        return f"{member.module}_zero"
    one = "pos 0" if member.base[0] == "i" else "0"
    return one if member.count is None else " ∷ ".join([one] * member.count + ["[]"])


def zero_specs(t: Target) -> list[str]:
    """Returns the definition of the struct of C after an error."""
    f = t.f
    return [
        "-- the struct of C after an error",
        f"abbrev pub {f.m}_zero : {f.type}C",
        f"{f.m}_zero = record {{",
        *[f"  {it.name} = {zero(it)};" for it in members(f.description)],
        "}",
        "",
    ]


def result_specs(t: Target) -> list[str]:
    """Returns the definitions of what C gets for the result of a parse."""
    f = t.f
    parsed, cases = f"{f.m}_parsed", [("(Reader e)" if f.error else "e", END_OF_INPUT)]
    cases += [(it.case, it.number) for it in own(f)]
    out = ["-- the result of a parse for C: 0 and the fields, or which error"]
    out += [f"abbrev pub {parsed} : Result {f.type} {f.e} → {f.type}Parsed"]
    out += [f"{parsed} (Ok value) = record {{ status = pos 0; value = {f.m}_to_c value }}"]
    out += [f"{parsed} (Err {case}) = record {{ status = pos {n}; value = {f.m}_zero }}" for case, n in cases]
    value, made = (f.result, f"{parsed} value") if f.own else (f.type, f"{parsed} (Ok value)")
    return [
        *out,
        "",
        "-- the same for the result of the decoder, whose errors are the reader's",
        f"abbrev pub {f.m}_answer : Result {value} Error → {f.type}Parsed",
        f"{f.m}_answer (Ok value) = {made}",
        f"{f.m}_answer (Err e) = record {{ status = pos {END_OF_INPUT}; value = {f.m}_zero }}",
        "",
    ]


def held_specs(t: Target) -> list[str]:
    """Returns the definition of the bits of the fields of a struct of C."""
    f = t.f
    return [
        "-- the bits of the fields of a struct of C, if it has fields",
        f"abbrev pub {f.m}_held : Option {f.type} → List Bool",
        f"{f.m}_held (Some value) = {f.m}_bits value",
        f"{f.m}_held None = []",
        "",
    ]
