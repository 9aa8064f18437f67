"""A part that may be there or not, for C: a `bool` and the struct of the part, all of whose members are 0 if it is not there."""
from __future__ import annotations

from describing import model as m
from describing.c import cross
from describing.layout import Format
from describing.rust.asked import due_code, test

Maybe = m.Optional | m.If


# ---- code


def uses(f: Format) -> list[m.Use]:
    """Returns the parts whose types the code names."""
    return cross.optional(f.description)


def to_c(kind: Maybe) -> dict[str, str]:
    """Returns the members of C."""
    module, v = kind.use.module, f"&value.{kind.name}"
    return {f"has_{kind.name}": f"{module}_flag({v})", kind.name: f"{module}_or_zero({v})"}


def from_c(kind: Maybe) -> str:
    """Returns the part, which is there or not, or `None` if a number of C is no value of its field."""
    return f"{kind.use.module}_if(self.has_{kind.name}, &self.{kind.name})"


def tests(f: Format, kind: Maybe) -> list[str]:
    """Returns the tests that a part fits its bits, and is there if its condition holds."""
    module, v = kind.use.module, f"&value.{kind.name}"
    if isinstance(kind, m.Optional):
        return [f"{module}_fits({v})"]
    due = test(f, kind.tests[0], "value.")
    if kind.due:
        due = f"is_{kind.due}({', '.join(f'value.{it}' for it in kind.asked)})"
    return [f"{module}_fits({v})", f"is_{module}_there({v}, {due})"]


def listed(f: Format) -> list[Maybe]:
    """Returns the fields that may be there or not of which a search needs to be given that they fit.

    It finds that of parts of bits and unsigned numbers alone.
    """
    found = [it for it in f.description.fields if isinstance(it, m.Optional | m.If)]
    return [it for it in found if not all(map(is_simple, it.use.description.kinds))]


def is_simple(kind: m.Kind) -> bool:
    """Returns true for a line of bits, and for an unsigned number."""
    return isinstance(kind, m.Bool | m.Skip | m.Const) or isinstance(kind, m.Number) and not kind.integer.signed


def fit_answers(f: Format, more: list[str]) -> str:
    """Returns the answer of the function that tests the fields, with more facts."""
    facts = [f"c.{it.use.module}_fits-{it.name}_fit.ensures.0 c.if-not-{it.name}_fit.false" for it in listed(f)] + more
    lets = "".join(f"    let fit_{k} = {it} in\n" for k, it in enumerate(facts))
    return f"pub returns : goal.returns\nreturns c =\n{lets}    search rules\n"


def code(f: Format) -> list[str]:
    """Returns the functions for each part that may be there or not."""
    conditions = [it for it in f.description.fields if isinstance(it, m.If)]
    asked = {it.use.module for it in conditions}
    out = [line for it in uses(f) for line in [*has_code(f, it), *if_code(f, it), *fits_code(it)]]
    out += [line for it in uses(f) if it.module in asked for line in there_code(it)]
    return out + [line for it in conditions if it.due for line in due_code(f, it)]


def has_code(f: Format, use: m.Use) -> list[str]:
    """Returns the functions from a part to its members of C."""
    module, t = use.module, use.name
    return [
        f"/// Returns 1 if there is a `{t}`, and 0 if there is none.",
        f"fn {module}_flag(value: &Option<{t}>) -> u8",
        f"    ensures {{ result ≡ {f.m}_has_{module} value.now }}",
        "{",
        "    match value {",
        "        Some(_) => 1,",
        "        None => 0,",
        "    }",
        "}",
        "",
        f"/// Returns the struct of C of a `{t}`, all of whose members are 0 if there is none.",
        f"fn {module}_or_zero(value: &Option<{t}>) -> {t}C",
        f"    ensures {{ result ≡ {f.m}_{module}_or_zero value.now }}",
        "{",
        "    match value {",
        f"        Some(value) => {t}C::new(value),",
        f"        None => {module}::zero(),",
        "    }",
        "}",
        "",
    ]


def if_code(f: Format, use: m.Use) -> list[str]:
    """Returns the function from the members of C to a part."""
    module, t = use.module, use.name
    return [
        f"/// Returns the `{t}` that is there unless `has` is 0, or `None` if a number of C is no value of its field.",
        f"fn {module}_if(has: u8, value: &{t}C) -> Option<Option<{t}>>",
        f"    ensures {{ result ≡ {f.m}_{module}_if has value.now }}",
        "{",
        "    if has == 0 {",
        "        return Some(None);",
        "    }",
        "    match value.fields() {",
        "        Some(found) => Some(Some(found)),",
        "        None => None,",
        "    }",
        "}",
        "",
    ]


def fits_code(use: m.Use) -> list[str]:
    """Returns the function that tests a part that may be there."""
    module, t = use.module, use.name
    return [
        f"/// Returns true if each field of a `{t}` fits its bits, or there is none.",
        f"fn {module}_fits(value: &Option<{t}>) -> bool",
        f"    ensures {{ IsTrue result ↔ ForSome value.now {t}Fits }}",
        "{",
        "    match value {",
        f"        Some(value) => {module}::is_fit(value),",
        "        None => true,",
        "    }",
        "}",
        "",
    ]


def there_code(use: m.Use) -> list[str]:
    """Returns the function that tests whether a part is there if it is to be."""
    module, t = use.module, use.name
    return [
        f"/// Returns true if a `{t}` is there if, and only if, `there` is true.",
        f"fn is_{module}_there(value: &Option<{t}>, there: bool) -> bool",
        "    ensures { IsTrue result ↔ (is_some value.now ≡ there) }",
        "{",
        "    match value {",
        "        Some(_) => there,",
        "        None => !there,",
        "    }",
        "}",
        "",
    ]


# ---- specs


def to_c_specs(f: Format, kind: Maybe) -> dict[str, str]:
    """Returns the members of C."""
    module, v = kind.use.module, f"value.{kind.name}"
    return {f"has_{kind.name}": f"{f.m}_has_{module} {v}", kind.name: f"{f.m}_{module}_or_zero {v}"}


def from_c_specs(f: Format, kind: Maybe) -> str:
    """Returns the part, which is there or not, or none if a number of C is no value of its field."""
    return f"{f.m}_{kind.use.module}_if c.has_{kind.name} c.{kind.name}"


def specs(f: Format) -> list[str]:
    """Returns the definitions for each part that may be there or not."""
    return [line for it in uses(f) for line in part_specs(f, it)]


def part_specs(f: Format, use: m.Use) -> list[str]:
    """Returns the definitions for a part that may be there or not."""
    module, t, own = use.module, use.name, f"{f.m}_{use.module}"
    return [
        f"-- 1 if there is a `{t}`, and 0 if there is none",
        f"abbrev pub {f.m}_has_{module} : Option {t} → ℕ",
        f"{f.m}_has_{module} (Some value) = 1",
        f"{f.m}_has_{module} None = 0",
        "",
        f"-- the struct of C of a `{t}`, with zeros if there is none",
        f"abbrev pub {own}_or_zero : Option {t} → {t}C",
        f"{own}_or_zero (Some value) = {module}_to_c value",
        f"{own}_or_zero None = {module}_zero",
        "",
        f"-- a `{t}` of C that is there, if it has fields",
        f"abbrev pub {own}_there : Option {t} → Option (Option {t})",
        f"{own}_there (Some value) = Some (Some value)",
        f"{own}_there None = None",
        "",
        f"-- a `{t}` of C, which is there unless a number of C is 0",
        f"abbrev pub {own}_if : ℕ → {t}C → Option (Option {t})",
        f"{own}_if has c = if has == 0 then Some None else {own}_there ({module}_from_c c)",
        "",
    ]


def names(f: Format) -> str:
    """Returns the names of the definitions."""
    words = [f"{f.m}_has_{it.module}" for it in uses(f)]
    return " ".join([*words, *[f"{f.m}_{it.module}_{word}" for it in uses(f) for word in ("or_zero", "there", "if")]])
