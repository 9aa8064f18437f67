"""A choice for C: a struct with its case and a union. It crosses as the case and, side by side, what each case holds."""
from __future__ import annotations

from describing import model as m
from describing.c import cross
from describing.layout import Format
from describing.model import snake
from describing.reserved import LIFTED, WORDS
from describing.rust.calls import number_type
from describing.specs.terms import by_enum, tag_of


def held(kind: m.Choose) -> list[m.Arm]:
    """Returns the cases that hold something: a part, or another number."""
    return [it for it in kind.arms if it.held or it.number is None]


def word(kind: m.Choose, arm: m.Arm) -> str:
    """Returns the name of what a case holds, in functions and definitions."""
    return f"{snake(kind.type)}_{snake(arm.case)}"


def variable(arm: m.Arm) -> str:
    """Returns the name of a variable for what a case holds, which is no word of the languages and no other variable."""
    name = snake(arm.case)
    return name + "_" * (name in WORDS | LIFTED | {"case", "it"})


def pattern(kind: m.Choose, arm: m.Arm, name: str) -> str:
    """Returns the pattern of a case, with a name for what it holds."""
    return f"{kind.type}::{arm.case}{f'({name})' * (arm in held(kind))}"


# ---- code


def to_c(kind: m.Choose) -> dict[str, str]:
    """Returns the members of C."""
    v, s = f"&value.{kind.name}", snake(kind.type)
    return {f"{kind.name}_case": f"{s}_case({v})"} | {
        f"{kind.name}_{snake(it.case)}": f"{word(kind, it)}({v})" for it in held(kind)
    }


def from_c(kind: m.Choose) -> str:
    """Returns the choice, or `None` if a number of C is no value of its field."""
    given = [f"self.{kind.name}_case"]
    for it in held(kind):
        given.append(f"{'&' * bool(it.held)}self.{kind.name}_{snake(it.case)}")
    return f"{snake(kind.type)}_from({', '.join(given)})"


def tests(f: Format, kind: m.Choose) -> list[str]:
    """Returns the tests that what the case holds fits, and that the field that selects the case has its number."""
    v = f"value.{kind.name}"
    same = f"{v}.number() == value.{kind.by}{'.number()' * bool(by_enum(f, kind))}"
    return [f"{snake(kind.type)}_fits(&{v})"] + [same] * (tag_of(f, kind) is None)


def code(f: Format) -> list[str]:
    """Returns the functions for each choice."""
    return [
        line
        for it in cross.choices(f.description)
        for part in (case_code(f, it), held_code(f, it), from_code(f, it), fits_code(f, it))
        for line in part
    ]


def case_code(f: Format, kind: m.Choose) -> list[str]:
    """Returns the function from a choice to its case."""
    s = snake(kind.type)
    return [
        f"/// Returns the case of a `{kind.type}` for C.",
        f"fn {s}_case(value: &{kind.type}) -> u32",
        f"    ensures {{ result ≡ {f.m}_{s}_case value.now }}",
        "{",
        "    match value {",
        *[f"        {pattern(kind, it, '_')} => {k}," for k, it in enumerate(kind.arms)],
        "    }",
        "}",
        "",
    ]


def held_code(f: Format, kind: m.Choose) -> list[str]:
    """Returns the functions from a choice to what each case holds."""
    out = list[str]()
    for it in held(kind):
        result, some, none = number_type(f, kind), "*it", "0"
        if isinstance(it.held, m.Use):
            result, some, none = f"{it.held.name}C", f"{it.held.name}C::new(it)", f"{it.held.module}::zero()"
        out += [
            f"/// Returns what the case `{it.case}` of a `{kind.type}` holds for C, with zeros in another case.",
            f"fn {word(kind, it)}(value: &{kind.type}) -> {result}",
            f"    ensures {{ result ≡ {f.m}_{word(kind, it)} value.now }}",
            "{",
            "    match value {",
            f"        {pattern(kind, it, 'it')} => {some},",
            *[f"        {pattern(kind, other, '_')} => {none}," for other in kind.arms if other is not it],
            "    }",
            "}",
            "",
        ]
    return out


def from_code(f: Format, kind: m.Choose) -> list[str]:
    """Returns the function from the members of C to a choice."""
    s, given, now = snake(kind.type), ["case: u32"], ["case"]
    for it in held(kind):
        name = variable(it)
        given.append(f"{name}: {f'&{it.held.name}C' if isinstance(it.held, m.Use) else number_type(f, kind)}")
        now.append(f"{name}.now" if it.held else name)
    out = [
        f"/// Returns the `{kind.type}` of a case, or `None` for another number, or if a number of C is no value of its field.",
        f"fn {s}_from({', '.join(given)}) -> Option<{kind.type}>",
        f"    ensures {{ result ≡ {f.m}_{s}_from {' '.join(now)} }}",
        "{",
    ]
    for k, it in enumerate(kind.arms):
        made = [f"        return Some({pattern(kind, it, variable(it))});"]
        if it.held:
            made = [
                f"        return match {variable(it)}.fields() {{",
                f"            Some(it) => Some({pattern(kind, it, 'it')}),",
                "            None => None,",
                "        };",
            ]
        out += [f"    if case == {k} {{", *made, "    }"]
    return [*out, "    None", "}", ""]


def fits_code(f: Format, kind: m.Choose) -> list[str]:
    """Returns the function that tests what a case holds."""
    s, arms = snake(kind.type), list[str]()
    for it in kind.arms:
        test, name = "true", "_"
        if isinstance(it.held, m.Use):
            test, name = f"{it.held.module}::is_fit(it)", "it"
        elif it.number is None:
            others = [f"*it != {other.number}" for other in kind.arms if other.number is not None]
            test, name = " && ".join([f"*it <= {2**kind.width - 1}", *others]), "it"
        arms.append(f"        {pattern(kind, it, name)} => {test},")
    return [
        f"/// Returns true if what a case of a `{kind.type}` holds fits its bits.",
        f"fn {s}_fits(value: &{kind.type}) -> bool",
        f"    ensures {{ IsTrue result ↔ {s}_fits value.now }}",
        "{",
        "    match value {",
        *arms,
        "    }",
        "}",
        "",
    ]


# ---- specs


def to_c_specs(f: Format, kind: m.Choose) -> dict[str, str]:
    """Returns the members of C."""
    v, s = f"value.{kind.name}", snake(kind.type)
    return {f"{kind.name}_case": f"{f.m}_{s}_case {v}"} | {
        f"{kind.name}_{snake(it.case)}": f"{f.m}_{word(kind, it)} {v}" for it in held(kind)
    }


def from_c_specs(f: Format, kind: m.Choose) -> str:
    """Returns the choice, or none if a number of C is no value of its field."""
    given = " ".join([f"c.{kind.name}_case", *[f"c.{kind.name}_{snake(it.case)}" for it in held(kind)]])
    return f"{f.m}_{snake(kind.type)}_from {given}"


def constructor(kind: m.Choose, arm: m.Arm, name: str) -> str:
    """Returns a case in specs, with a name for what it holds."""
    return f"({kind.type}{arm.case} {name})" if arm in held(kind) else f"{kind.type}{arm.case}"


def specs(f: Format) -> list[str]:
    """Returns the definitions for each choice."""
    return [line for it in cross.choices(f.description) for line in [*case_specs(f, it), *from_specs(f, it)]]


def case_specs(f: Format, kind: m.Choose) -> list[str]:
    """Returns the definitions of the case, and of what each case holds."""
    name = f"{f.m}_{snake(kind.type)}_case"
    out = [f"-- the case of a `{kind.type}`", f"abbrev pub {name} : {kind.type} → ℕ"]
    out += [*[f"{name} {constructor(kind, it, 'it')} = {k}" for k, it in enumerate(kind.arms)], ""]
    for it in held(kind):
        name, result, some, none = f"{f.m}_{word(kind, it)}", "ℕ", "it", "0"
        if isinstance(it.held, m.Use):
            result, some, none = f"{it.held.name}C", f"{it.held.module}_to_c it", f"{it.held.module}_zero"
        out += [f"-- what the case `{it.case}` holds, with zeros in another case"]
        out += [f"abbrev pub {name} : {kind.type} → {result}"]
        out += [f"{name} {constructor(kind, one, 'it')} = {some if one is it else none}" for one in kind.arms]
        out += [""]
    return out


def from_specs(f: Format, kind: m.Choose) -> list[str]:
    """Returns the definition of a choice that is made from its members of C."""
    name, out, last = f"{f.m}_{snake(kind.type)}_from", list[str](), "None"
    for k, it in reversed(list(enumerate(kind.arms))):
        made = f"Some {constructor(kind, it, variable(it))}"
        if isinstance(it.held, m.Use):
            there = f"{f.m}_{word(kind, it)}_there"
            made = f"{there} ({it.held.module}_from_c {variable(it)})"
            out += [
                f"-- the case `{it.case}` of C, if what it holds has fields",
                f"abbrev pub {there} : Option {it.held.name} → Option {kind.type}",
                f"{there} (Some it) = Some {constructor(kind, it, 'it')}",
                f"{there} None = None",
                "",
            ]
        last = f"if case == {k} then {made} else {last}"
    types = [f"{it.held.name}C" if isinstance(it.held, m.Use) else "ℕ" for it in held(kind)]
    return [
        *out,
        f"-- the `{kind.type}` of a case of C, or none",
        f"abbrev pub {name} : {' → '.join(['ℕ', *types, f'Option {kind.type}'])}",
        f"{name} {' '.join(['case', *[variable(it) for it in held(kind)]])} = {last}",
        "",
    ]


def names(f: Format) -> str:
    """Returns the names of the definitions."""
    out = list[str]()
    for kind in cross.choices(f.description):
        out += [f"{f.m}_{snake(kind.type)}_{it}" for it in ("case", "from")]
        for it in held(kind):
            out += [f"{f.m}_{word(kind, it)}", f"{f.m}_{word(kind, it)}_there"]
    return " ".join(out)


# ---- the greatest number of bits


def most_lemma(f: Format, kind: m.Choose, most: int) -> list[str]:
    """Returns the lemma about the greatest number of bits of a choice."""
    s, out = snake(kind.type), list[str]()
    name = f"{s}_most"
    for it in kind.arms:
        proof = "omega arith"
        if isinstance(it.held, m.Use) and it.held.description.bits is None:
            proof = f"let most = {it.held.module}_most it fits in omega (arith, most)"
        out.append(f"{name} {constructor(kind, it, 'it')} fits = {proof}")
    return [
        "",
        f"-- a `{kind.type}` has no more bits",
        f"{name} : (it : {kind.type}) → {s}_fits it → {s}_size High it ≤ {most}",
        *out,
    ]
