"""The first field of a struct of C whose value the format does not allow: a function in C, for Rust and Python too.

It is not proved. `tools/test_c` compares it with the proved pack, which returns `DOES_NOT_FIT` if there is such a field.
"""
from __future__ import annotations

from collections.abc import Iterator

from describing import model as m
from describing.c import cross
from describing.c.cross import Crossed, Listed, base, is_listed
from describing.c.words import c_name
from describing.model import snake


def rows(description: m.Description, at: str = "value->", path: str = "", depth: int = 1) -> list[str]:
    """Returns the statements that return the name of a field that does not fit; `at` and `path` are before its name."""
    found = list[str]()
    for it in cross.fields(description):
        found += field_rows(description, it, at, path, depth)
    for line in description.kinds:
        found += computed_rows(description, line) if isinstance(line, m.Computed) else []
    return found


def returned(test: str, name: str, depth: int) -> list[str]:
    """Returns the statement that returns a name if a test holds, or none for an empty test."""
    return [f"{'    ' * depth}if ({test})", f'{"    " * (depth + 1)}return "{name}";'] if test else []


def within(head: str, inner: list[str], depth: int) -> list[str]:
    """Returns statements in braces after a head, or none if there are none."""
    return [f"{'    ' * depth}{head} {{", *inner, f"{'    ' * depth}}}"] if inner else []


def field_rows(description: m.Description, kind: Crossed, at: str, path: str, depth: int) -> list[str]:
    """Returns the statements for a field."""
    v, name = f"{at}{c_name(kind.name)}", f"{path}{kind.name}"
    match kind:
        case m.Part() | m.Given():
            return rows(kind.use.description, f"{v}.", f"{name}.", depth)
        case m.Optional() | m.If():
            has = f"{at}has_{kind.name}"
            there = f"{has} != ({condition(kind, at)})" if isinstance(kind, m.If) else ""
            inner = rows(kind.use.description, f"{v}.", f"{name}.", depth + 1)
            return returned(there, name, depth) + within(f"if ({has})", inner, depth)
        case m.Array():
            test = item_test(kind.item, f"{v}[i]", base(kind))
            return within(f"for (size_t i = 0; i < {kind.count}; i++)", returned(test, name, depth + 1), depth)
        case m.Choose():
            return choice_rows(description, kind, at, path, depth)
    if is_listed(kind):
        return list_rows(description, kind)
    return returned(number_test(kind, v), name, depth)


def condition(kind: m.If, at: str) -> str:
    """Returns the condition of an optional part."""
    joined = " && " if kind.joined == "and" else " || "
    return joined.join(
        f"{'!' * (it.how == 'not')}{at}{c_name(it.field)}"
        + (f" {it.how} {it.value}" if it.how not in ("", "not") else "")
        for it in kind.tests
    )


def computed_rows(description: m.Description, kind: m.Computed) -> list[str]:
    """Returns the statements for a computed number: no number states the bytes of its lines, whose last list is named."""
    covered = m.covered(description.kinds, kind)
    named = next((it.name for it in reversed(covered) if is_listed(it)), kind.name)
    bits = [str(sum(m.bits(it) or 0 for it in covered))]
    for it in covered:
        if is_listed(it):
            bits.append(f"{item_bits(it)} * (uint64_t){it.name}_length" + " + 8" * isinstance(it, m.Until))
    count = f"({' + '.join(bits)} + 7) / 8"
    less, most = max(-kind.plus, 0), (1 << kind.bits) - 1
    count = f"{count} + {kind.plus}" if kind.plus > 0 else count
    tests = [f"{count} < {less}"] * bool(less)
    count = f"({count} - {less})" if less else f"({count})"
    tests += [f"{count} % {kind.unit} != 0"] * (kind.unit > 1)
    tests += [
        f"{count} / {kind.unit} > {literal('u64', most)}" if kind.unit > 1 else f"{count} > {literal('u64', most)}"
    ]
    return returned(" || ".join(tests), named, 1)


def item_bits(kind: Listed) -> int:
    """Returns the bits of an item of a list."""
    return kind.item.width if isinstance(kind.item, m.Integer) else 8


# ---- numbers


def number_test(kind: Crossed, value: str) -> str:
    """Returns the test that a number does not fit its field."""
    if isinstance(kind, m.Enum):
        return item_test(kind.enum, value, base(kind))
    span = m.range_of(kind)
    return outside(value, base(kind), *span) if span else ""


def item_test(item: m.Item, value: str, number: str) -> str:
    """Returns the test that a number does not fit as an item."""
    if isinstance(item, m.EnumType) and not item.other:
        return other_than([it for it, _ in item.cases], value, number)
    if isinstance(item, m.EnumType):
        return outside(value, number, 0, (1 << item.width) - 1)
    return outside(value, number, item.least, item.most) if isinstance(item, m.Integer) else ""


def outside(value: str, number: str, least: int, most: int) -> str:
    """Returns the test that a number of a type is not in a range, or an empty text if all its numbers are."""
    low, high = numbers_of(number)
    tests = [f"{value} < {literal(number, least)}"] * (least > low) + [f"{value} > {literal(number, most)}"] * (
        most < high
    )
    return " || ".join(tests)


def numbers_of(number: str) -> tuple[int, int]:
    """Returns the least and the greatest number of a type."""
    signed, width = number[0] == "i", 64 if number == "usize" else int(number[1:])
    return (-(1 << (width - 1)), (1 << (width - 1)) - 1) if signed else (0, (1 << width) - 1)


def literal(number: str, value: int) -> str:
    """Returns a number of a type as C has it."""
    if -(1 << 31) < value < 1 << 31:
        return str(value)
    return f"{'INT64_C' if number[0] == 'i' else 'UINT64_C'}({value})"


def runs(numbers: list[int]) -> Iterator[tuple[int, int]]:
    """Returns the first and the last one of each row of numbers without a gap."""
    first = last = min(numbers)
    for it in sorted(numbers)[1:]:
        if it != last + 1:
            yield first, last
            first = it
        last = it
    yield first, last


def among(numbers: list[int], value: str, number: str) -> list[str]:
    """Returns the tests of which one holds for each of these numbers, and for no other one; an empty test always holds."""
    found = list[str]()
    for first, last in runs(numbers):
        low, high = numbers_of(number)
        if first == last:
            found.append(f"{value} == {literal(number, first)}")
            continue
        both = [f"{value} >= {literal(number, first)}"] * (first > low) + [f"{value} <= {literal(number, last)}"] * (
            last < high
        )
        found.append(" && ".join(both) if len(both) < 2 else f"({' && '.join(both)})")
    return found


def other_than(numbers: list[int], value: str, number: str) -> str:
    """Returns the test that a number is none of these, or an empty text if each number is."""
    found = among(numbers, value, number)
    last = max(numbers)
    if sorted(numbers) == [*range(last + 1)] and number[0] != "i":
        return outside(value, number, 0, last)
    return f"!{found[0]}" if found[0][0] == "(" and len(found) == 1 else f"!({' || '.join(found)})"


# ---- lists and choices


def list_rows(description: m.Description, kind: Listed) -> list[str]:
    """Returns the statements for a list: its length, and its items."""
    items, length = f"{kind.name}_items", f"{kind.name}_length"
    tests = [it for it in (length_test(description, kind, length),) if it]
    one = f"{items}[i]"
    if isinstance(kind.item, m.Use):
        inner = rows(kind.item.description, f"{one}.", f"{kind.name}.", 2)
    else:
        test = f"{one} == {kind.stop}" if isinstance(kind, m.Until) else item_test(kind.item, one, base(kind))
        inner = returned(test, kind.name, 2)
    loop = within(f"for (size_t i = 0; i < {length}; i++)", inner, 1)
    return [row for it in tests for row in returned(it, kind.name, 1)] + loop


def length_test(description: m.Description, kind: Listed, length: str) -> str:
    """Returns the test that a list has a length that the format does not allow."""
    if isinstance(kind, m.Rest | m.Until):
        return f"{length} > {literal('usize', cross.MOST_OPEN)}"
    most = cross.MOST_OPEN if cross.is_open(description, kind) else cross.most_items(description, kind)
    tests, line = [f"{length} > {literal('usize', most)}"], cross.counted(description, kind)
    if isinstance(line, m.Size) and not isinstance(kind, m.Fill):
        tests += [f"{length} < {-line.plus}"] * (line.plus < 0)
        tests += [f"{length} % {line.unit} != {-line.plus % line.unit}"] * (line.unit > 1)
    return " || ".join(tests)


def choice_rows(description: m.Description, kind: m.Choose, at: str, path: str, depth: int) -> list[str]:
    """Returns the statements for a choice: its case, the number that selects it, and what it holds."""
    case, name, found = f"{at}{kind.name}_case", f"{path}{kind.name}", list[str]()
    named = {it.case: it for it in cross.choice_members(kind)}
    by = next((it for it in description.fields if it.name == kind.by and isinstance(it, m.Number | m.Enum)), None)
    for k, it in enumerate(kind.arms):
        inner, member = list[str](), named.get(it.case)
        held = f"{at}{member.name}" if member else ""
        if isinstance(it.held, m.Use):
            inner += rows(it.held.description, f"{held}.", f"{name}.{snake(it.case)}.", depth + 1)
        elif it.number is None and member:
            others = [other.number for other in kind.arms if other.number is not None]
            tests = [outside(held, member.base, 0, (1 << kind.width) - 1), *among(others, held, member.base)]
            inner += returned(" || ".join(filter(None, tests)), name, depth + 1)
        if by:
            number = held if it.number is None else literal("u32", it.number)
            inner += returned(f"{at}{c_name(by.name)} != {number}", name, depth + 1)
        found += within(f"if ({case} == {k})", inner, depth)
    return returned(f"{case} > {len(kind.arms) - 1}", name, depth) + found


# ---- the function


def function(description: m.Description, module: str, crossing: str, given: str) -> str:
    """Returns the function in C over the struct that crosses and the items of lists."""
    inner = rows(description)
    text = "\n".join(inner)
    names = ["value", *[f"{it.name}_{what}" for it in cross.lists(description) for what in ("items", "length")]]
    names = names[1:] if crossing == module else names
    unused = [f"    (void){it};" for it in names if not uses(text, it)]
    null = ["    if (!value)", "        return NULL;"] if inner else ["    (void)value;"]
    null = null if crossing == module else []
    parameters = f"const struct {crossing} *value{given and ', ' + given}"
    head = f"const char *{function_name(module, crossing)}({parameters})"
    return "\n".join([head, "{", *null, *unused, *inner, "    return NULL;", "}"])


def uses(text: str, name: str) -> bool:
    """Returns true if statements use a parameter."""
    return any(f"{name}{it}" in text for it in ("->", "[", " "))


def function_name(module: str, crossing: str) -> str:
    """Returns the name of the function: that of the header, if the struct of the header crosses."""
    return f"{module}_misfit" if crossing == module else f"misfit_of_{module}"


def declaration(module: str) -> list[str]:
    """Returns the declaration in the header."""
    return [
        "/* Returns the name of the first field whose value the format does not allow, for which a pack returns",
        f" * {module.upper()}_DOES_NOT_FIT, or null if there is none or a pointer is null. It is not proved. */",
        f"const char *{module}_misfit(const struct {module} *in);",
        "",
    ]
