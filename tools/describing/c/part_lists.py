"""Lists of parts and of enums for C: the caller has what C has of each item. Code and terms of their specs."""
from __future__ import annotations

from dataclasses import dataclass

from describing import model as m
from describing.c import cross
from describing.c.cross import Crossed, Listed, is_narrow, lists
from describing.layout import Format, Line, enum_bits
from describing.model import snake
from describing.rust.calls import read_item
from describing.specs.terms import item_decoder, item_writes, placed


@dataclass(frozen=True, slots=True)
class Shape:
    """An item of a list, a value `type` that C has as an `item`, or in specs a `spec`.

    `word` names the functions for it. `from_c` and `to_c` are the functions of specs between both. In code `fields` makes
    an `Option` of the value from a reference `item`, and `crossed` makes what C has from a value `item`, by a call named
    `step`. `fits` tests a value `value`, and `says` is what it tests; both are empty if each value fits. `write` writes a
    value.
    """

    word: str
    type: str
    item: str
    spec: str
    from_c: str
    to_c: str
    fields: str
    crossed: str
    step: str
    fits: str
    says: str
    write: str


def shape(f: Format, kind: m.Kind) -> Shape | None:
    """Returns the item of a list of parts or of an enum, or None for another line."""
    match kind:
        case m.List(item=m.Use() as use) | m.Fill(use=use):
            return part_shape(use)
        case m.List(item=m.EnumType() as enum):
            return enum_shape(f, enum)
    return None


def part_shape(use: m.Use) -> Shape:
    """Returns the item of a list of parts."""
    module, t = use.module, use.name
    return Shape(
        module, t, f"{t}C", f"{t}C", f"{module}_from_c", f"{module}_to_c", "item.fields()", f"{t}C::new(&item)", "new",
        f"{module}::is_fit(&value)", f"{t}Fits", "value.write(writer)",
    )  # fmt: skip


def enum_shape(f: Format, enum: m.EnumType) -> Shape:
    """Returns the item of a list of an enum."""
    word, number, most = snake(enum.name), f"u{enum_bits(enum)}", (1 << enum.width) - 1
    fits, says = "", ""
    if enum.other:
        fits = f"value.number() <= {most} && {enum.name}::of(value.number()) == value"
        says = f"(λ x. ({word}_number x < 2 ^ {enum.width}) × ({word}_of ({word}_number x) ≡ x))"
    return Shape(
        word, enum.name, number, "ℕ", f"{f.m}_{word}_item", f"{word}_number", f"{word}_item(*item)", "item.number()",
        "number", fits, says, f"writer.write::<Bits<{enum.width}>, {number}>(value.number())",
    )  # fmt: skip


def shapes(f: Format) -> list[Shape]:
    """Returns the items of the lists of parts and of enums, each once."""
    found = [one for it in lists(f.description) if (one := shape(f, it))]
    return list({it.word: it for it in found}.values())


def line_of(f: Format, kind: Listed) -> Line:
    """Returns the line of a list."""
    return next(it for it in f.lines if it.kind is kind)


# ---- terms of specs


def items_of(f: Format, kind: Listed, value: str) -> str:
    """Returns the items of a list of a value as C has them."""
    one = shape(f, kind)
    return f"(map {one.to_c} {value}.{kind.name})" if one else f"{value}.{kind.name}"


def value_of(f: Format, kind: Crossed) -> str:
    """Returns the value of a field that the caller has."""
    if not cross.is_listed(kind):
        return f"value.{kind.name}"
    one = shape(f, kind)
    return f"filter_map {one.from_c} value.{kind.name}.now" if one else f"value.{kind.name}.now"


def one_decoder(f: Format, kind: Listed, order: str) -> str:
    """Returns the read of an item."""
    return placed(item_decoder(f, line_of(f, kind), kind.item), order)


def decoder(f: Format, kind: Listed, order: str, count: str) -> str:
    """Returns the read of a list: items with errors have those of the format."""
    one = one_decoder(f, kind, order)
    if line_of(f, kind).own:
        return f"(parts_decoder ({one}) {count})"
    return f"(items_decoder (list_item ({one})) {count})"


def item_calls(kind: Listed, order: str) -> str:
    """Returns the function from an item to its writes."""
    return placed(item_writes(kind.item), order)


def given_writes(kind: Listed) -> str:
    """Returns the function from an item to its writes, in a proof of a function that writes to any sink."""
    return f"({item_calls(kind, 'g.W.BitWrite.sink.order')})"


def writes(one: Shape, kind: Listed, order: str) -> str:
    """Returns the function from an item of C to its writes."""
    return f"λ item. optional_writes ({item_calls(kind, order)}) ({one.from_c} item)"


def enum_specs(f: Format) -> list[str]:
    """Returns the definitions of the values that items of C stand for, for lists of enums."""
    out = list[str]()
    for it in cross.listed_enums(f.description):
        word = snake(it.name)
        name, of = f"{f.m}_{word}_item", f"{word}_of n"
        made = f"{f.m}_{word}_from n" if is_narrow(it) else f"Some ({of})"
        if it.error:
            out += [
                f"-- a `{it.name}`, or none instead of an error",
                f"abbrev pub {f.m}_{word}_there : Result {it.name} {f.error} → Option {it.name}",
                f"{f.m}_{word}_there (Ok value) = Some value",
                f"{f.m}_{word}_there (Err error) = None",
                "",
            ]
            made = f"{f.m}_{word}_there ({of})"
        out += [
            f"-- the `{it.name}` of a number of C, or none",
            f"abbrev pub {name} : ℕ → Option {it.name}",
            f"{name} n = {made}",
            "",
        ]
    return out


# ---- code


def code(f: Format) -> list[str]:
    """Returns the functions for the items of each part and enum that a list has."""
    made = [line for it in cross.listed_enums(f.description) for line in enum_code(f, it)]
    return made + [
        line
        for it in shapes(f)
        for part in (are_code(it), items_code(it), count_code(it), fits_code(it))
        for line in part
    ]


def enum_code(f: Format, enum: m.EnumType) -> list[str]:
    """Returns the function from a number of C to a case of an enum, for items of lists."""
    word, body = snake(enum.name), [f"    Some({enum.name}::of(number))"]
    if is_narrow(enum):
        body = [f"    {word}_from(number)"]
    elif enum.error:
        body = [
            f"    match {enum.name}::of(number) {{",
            "        Ok(value) => Some(value),",
            "        Err(_) => None,",
            "    }",
        ]
    return [
        f"/// Returns the case of a number, or `None` if it is no value of a `{enum.name}`.",
        f"fn {word}_item(number: u{enum_bits(enum)}) -> Option<{enum.name}>",
        f"    ensures {{ result ≡ {f.m}_{word}_item number }}",
        "{",
        *body,
        "}",
        "",
    ]


def are_code(one: Shape) -> list[str]:
    """Returns the function that tests whether each item of C stands for a value."""
    return [
        f"/// Returns true if each item of C stands for a `{one.type}`.",
        f"fn are_{one.word}(items: &[{one.item}]) -> bool",
        f"    ensures {{ IsTrue result ↔ All (λ item. is_some ({one.from_c} item) ≡ true) items.now }}",
        "{",
        f"    items.iter().all(|item| {one.fields}.is_some())",
        "}",
        "",
    ]


def items_code(one: Shape) -> list[str]:
    """Returns the function from items of C to the same, if each stands for a value."""
    return [
        "/// Returns these items, or `None` if a number of C in them is no value of its field.",
        f"fn {one.word}_items<'a>(items: &'a [{one.item}]) -> Option<&'a [{one.item}]>",
        f"    ensures {{ option_map (λ found. filter_map {one.from_c} found.now) result",
        f"        ≡ all_made {one.from_c} items.now }}",
        "{",
        f"    if are_{one.word}(items) {{",
        "        return Some(items);",
        "    }",
        "    None",
        "}",
        "",
    ]


def count_code(one: Shape) -> list[str]:
    """Returns the function that counts items."""
    return [
        f"/// Returns the number of items that stand for a `{one.type}`.",
        f"fn count_{one.word}(items: &[{one.item}]) -> u64",
        f"    ensures {{ result ≡ length (filter_map {one.from_c} items.now) }}",
        "{",
        f"    items.iter().filter_map(|item| {one.fields}).count() as u64",
        "}",
        "",
    ]


def fits_code(one: Shape) -> list[str]:
    """Returns the functions that test whether items fit their bits."""
    if not one.fits:
        return []
    return [
        f"/// Returns true if the `{one.type}` that an item stands for fits its bits, or there is none.",
        f"fn {one.word}_item_fits(item: &{one.item}) -> bool",
        f"    ensures {{ IsTrue result ↔ ItemFits {one.from_c} {one.says} item.now }}",
        "{",
        f"    match {one.fields} {{",
        f"        Some(value) => {one.fits},",
        "        None => true,",
        "    }",
        "}",
        "",
        "/// Returns true if each item fits its bits, or stands for no value.",
        f"fn {one.word}_items_fit(items: &[{one.item}]) -> bool",
        f"    ensures {{ IsTrue result ↔ All (ItemFits {one.from_c} {one.says}) items.now }}",
        "{",
        f"    items.iter().all(|item| {one.word}_item_fits(item))",
        "}",
        "",
        f"/// Returns true if each `{one.type}` fits its bits.",
        f"fn all_{one.word}_fit(items: &[{one.item}]) -> bool",
        f"    ensures {{ IsTrue result ↔ All {one.says} (filter_map {one.from_c} items.now) }}",
        "{",
        f"    {one.word}_items_fit(items)",
        "}",
        "",
    ]


def tests(f: Format, kind: Listed, one: Shape) -> list[str]:
    """Returns the tests that a list fits its bits."""
    most = cross.most_items(f.description, kind)
    fit = [f"all_{one.word}_fit(value.{kind.name})"] * bool(one.fits)
    if isinstance(kind, m.Fill):
        return [f"{kind.name}_fit(value.{kind.name})", *fit]
    return [f"count_{one.word}(value.{kind.name}) <= {most}", *fit]


def read_code(f: Format, kind: Listed, one: Shape) -> list[str]:
    """Returns the function that reads a list of parts or of an enum."""
    own = line_of(f, kind).own
    error, becomes = (f.e, f" {f.becomes_name}") if own else ("Error", "")
    relation = "PartsInto" if own else "ItemsInto"
    return [
        f"/// Reads `count` items of `{kind.name}`, and keeps those for which there is room.",
        f"fn read_{kind.name}<R: BitRead>(reader: &mut R, items: &mut [{one.item}], count: u64) -> Result<(), {error}>",
        f"    ensures {{ {relation} R.source{becomes} {decoder(f, kind, 'R.source.order', 'count')} {one.to_c} count",
        "        reader.old items.old result reader.new items.new }",
        "{",
        "    for place in 0..count {",
        f"        let item = {read_item(kind.item)}?;",
        f"        {keep(f, kind)}(items, place, {one.crossed});",
        "    }",
        "    Ok(())",
        "}",
        "",
    ]


def keep(f: Format, kind: Listed) -> str:
    """Returns the name of the function that keeps an item of a list."""
    one = shape(f, kind)
    return f"keep_{one.word if one and one.spec != 'ℕ' else cross.base(kind)}"


def counting(f: Format, line: Line, written: str) -> str:
    """Returns the call that writes a line: the number of items is that of those that stand for a value."""
    if isinstance(line.kind, m.Count):
        target = line.kind.target
        one = shape(f, cross.target(f.description, line.kind))
        return written.replace(f"self.{target}.len() as u64", f"count_{one.word}(self.{target})") if one else written
    if isinstance(line.kind, m.Size) and isinstance(line.measures, m.Fill):
        target = line.kind.target
        return written.replace(f"count_{target}(&self.{target})", f"{target}_bits(self.{target})")
    return written


def writing_code(f: Format) -> list[str]:
    """Returns the functions that write lists of parts and of enums."""
    out, kinds = list[str](), [(it, one) for it in lists(f.description) if (one := shape(f, it))]
    for it, one in {one.word: (it, one) for it, one in kinds}.values():
        out += [
            f"/// Writes the `{one.type}` that an item of C stands for, if it does.",
            f"fn write_{one.word}_item<W: BitWrite>(writer: &mut W, item: &{one.item}) -> Result<(), Error>",
            f"    ensures {{ WritesAll W.sink (optional_writes ({item_calls(it, 'W.sink.order')}) ({one.from_c} item.now))",
            "        writer.old result writer.new }",
            "{",
            f"    match {one.fields} {{",
            f"        Some(value) => {one.write},",
            "        None => Ok(()),",
            "    }",
            "}",
            "",
        ]
    for it, one in kinds:
        out += [
            f"/// Writes the items of `{it.name}`.",
            f"fn write_{it.name}<W: BitWrite>(writer: &mut W, items: &[{one.item}]) -> Result<(), Error>",
            f"    ensures {{ WritesAll W.sink (flat_map ({writes(one, it, 'W.sink.order')}) items.now)",
            "        writer.old result writer.new }",
            "{",
            "    for item in items {",
            f"        write_{one.word}_item(writer, item)?;",
            "    }",
            "    Ok(())",
            "}",
            "",
        ]
    return out
