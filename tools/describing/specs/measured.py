"""The formats of sizes, of parts of a stated size and of choices, as values: lines in a `do` block, and their laws."""
from __future__ import annotations

from describing import model as m
from describing.layout import Format, Line, by_size, is_octets, is_open, rest_given
from describing.model import snake
from describing.specs.choices import called, pattern
from describing.specs.sizes import overrun, reader_error
from describing.specs.terms import Of, measured_module, rest_left, selected, sized_bytes, tag_of

REFL = "refl"
# The rest has the bytes that the read is given, less those of the lines before it, in a record of so many bytes.
BEFORE = "let sum = fits.1 in omega (arith, sum)"


# ---- choices


def choice_value(f: Format, line: Line, kind: m.Choose) -> list[str]:
    """Returns the laws of the cases of a choice, and the choice."""
    s, result = snake(kind.type), f"(Result {kind.type} {f.e})" if line.stops else kind.type
    ok, size = ("(λ it. Ok it)", "(Ok it)") if line.stops else ("(λ it. it)", "it")
    out = ["-- the number of each case fits its bits"]
    out += [f"pub {s}_small : (it : {kind.type}) → {s}_fits it → {s}_number it < 2 ^ {kind.width}"]
    out += [f"{s}_small {pattern(kind, it)} fits = {small(it)}" for it in kind.arms]
    read = f"({s}_read o ({s}_number it){f' ({s}_size High it / 8)' * by_size(kind)})"
    out += ["", "-- each case is read back behind its number, and its writes are accepted"]
    out += [f"pub {s}_goes : (o : Order) (it : {kind.type}) → {s}_fits it"]
    out += [f"    → CaseGoes {read} ({s}_writes o it) {size} ({s}_size High it)"]
    out += [f"{s}_goes o {pattern(kind, arm)} fits = {arm_goes(f, line, kind, arm, part)}" for arm, part in line.arms]
    out += [
        "",
        "-- the choice",
        f"abbrev pub {s}_choice : {'ℕ → ' * by_size(kind)}FormatChoice {kind.type} {result} {ok}",
    ]
    if by_size(kind):
        return [*out, f"{s}_choice = by_size {s}_number {s}_read {s}_writes ({s}_size High) {s}_fits {s}_goes", ""]
    fields = [("number", f"{s}_number"), ("read", f"{s}_read"), ("write", f"{s}_writes"), ("size", f"{s}_size High")]
    fields += [("fits", f"{s}_fits"), ("goes", f"{s}_goes")]
    return [*out, f"{s}_choice = record {{ {'; '.join(f'{name} = {term}' for name, term in fields)} }}", ""]


def small(arm: m.Arm) -> str:
    """Returns the term that the number of a case fits its bits."""
    return "fits.0" if arm.number is None else "omega arith"


def arm_goes(f: Format, line: Line, kind: m.Choose, arm: m.Arm, part: Line | None) -> str:
    """Returns the laws of a case."""
    case = called(kind, arm)
    misses = ", ".join(
        f"ne_eqb {'it.number' if arm.held else 'n'} {it.number} fits.{k + 1}" for k, it in enumerate(kind.tested)
    )
    if part and part.use:
        known = part_value(f, part, part.use, f"({part.use.module}_size High it / 8)")
        if is_open(part.use):
            return f"held-goes {known} (λ v. {case} v) o it (fits, omega arith)"
        if part.stops:
            return f"held-goes {known} (λ v. {case} v) o it fits"
        return f"plain_held-goes {known} (λ v. {f'Ok ({case} v)' if line.stops else f'{case} v'}) o it fits"
    said = f"{case}{' n' * (arm.number is None)}"
    if arm.number is not None:
        return f"alone-goes {f'(Ok {said})' if line.stops else said}"
    if arm.held:
        made = f"{{P = {kind.unnamed}}} (λ bytes. record {{ number = it.number; bytes = bytes }})"
        octets = f"fits.{len(kind.tested) + 1}"
        return f"rw ({misses}) (bytes_held-goes {made} (λ v. {case} v) o it.bytes {octets})"
    return f"rw ({misses}) (alone-goes {f'(Ok ({said}))' if line.stops else f'({said})'})"


def part_value(f: Format, line: Line, use: m.Use, size: str = "") -> str:
    """Returns the format of a part, with the errors of the format if there are any; of one with a rest, of `size` bytes."""
    name = f"({use.module}_format {rest_given(use, size)})" if is_open(use) else f"{use.module}_format"
    return f"(with_error {use.module}_error {name})" if f.mapped(line.kind) else name


def choice_of(f: Format, kind: m.Choose, size: str, of: Of) -> str:
    """Returns the format of the case that a choice has at a number, or at a number and a size."""
    s = snake(kind.type)
    return f"(chosen {f'({s}_choice {size})' if by_size(kind) else f'{s}_choice'} {selected(f, kind, of)})"


def choice_facts(f: Format, kind: m.Choose, size: str = REFL) -> str:
    """Returns what must fit of a choice: the case, of a number of bytes by the term `size`, and that it has the number."""
    number = REFL if tag_of(f, kind) else f"fits.{kind.name}_tag"
    case = f"(fits.{kind.name}, {size})" if by_size(kind) else f"fits.{kind.name}"
    return f"({case}, {number})"


# ---- sizes


def size_part(line: Line, kind: m.Size, get: str) -> str:
    """Returns the size of a later line, of the term for the value of that line."""
    assert line.measures
    part = f"(λ s. s.{kind.target})"
    if is_octets(line.measures):
        return f"field {size_number(kind)} (λ s. {get})"
    if kind.groups:
        strict = "false" if kind.groups.any else "true"
        return f"size_in_groups {strict} {kind.width} refl refl {measured_written(line.measures)} {part}"
    if kind.units:
        return f"stored_of_part {kind.width} {kind.units} refl refl refl {measured_written(line.measures)} {part}"
    return f"size_of_part {kind.width} refl refl {measured_written(line.measures)} {part}"


def size_number(kind: m.Size) -> str:
    """Returns the format of a size of bytes."""
    if kind.groups:
        strict = "false" if kind.groups.any else "true"
        return f"(atom.groups {strict} {kind.groups.group} {kind.width} refl refl)"
    return "varint" if kind.varint else f"(atom.unsigned 64 {kind.width} refl)"


def measured_written(kind: m.Measured) -> str:
    """Returns what is written of a part whose size is known."""
    name = measured_module(kind)
    if isinstance(kind, m.Choose):
        return f"{name}_written" if by_size(kind) else f"(of_choice {name}_choice)"
    if by_size(kind):
        return f"{kind.name}_written"
    return f"(of_items {kind.use.module}_format)" if isinstance(kind, m.Fill) else f"(of_format {name}_format)"


def size_facts(line: Line, kind: m.Size) -> list[str]:
    """Returns what must fit of a size: its number, and the part that it measures."""
    assert line.measures
    most = [f"fits.{line.name}_most"] * m.is_limited(kind)
    return [f"fits.{line.name}"] + [f"fits.{kind.target}"] * (not is_octets(line.measures)) + most


def written_value(f: Format, kind: m.Choose) -> list[str]:
    """Returns what is written of a choice, whatever the size is."""
    s = snake(kind.type)
    fields = [("write", f"{s}_writes"), ("size", f"{s}_size High"), ("fits", f"{s}_fits")]
    fields.append(("packs", f"λ o it fits. ({s}_goes o it fits).packs"))
    record = f"record {{ {'; '.join(f'{name} = {term}' for name, term in fields)} }}"
    return [
        f"-- what is written of a `{kind.type}`",
        f"abbrev pub {s}_written : WrittenPart {kind.type}",
        f"{s}_written = {record}",
        "",
    ]


def written_part(kind: m.Sized, use: m.Use) -> list[str]:
    """Returns what is written of a part with a rest, whatever the size is."""
    fields = [("write", f"{use.module}_writes"), ("size", f"{use.module}_size High"), ("fits", f"{use.name}Fits")]
    rest = rest_given(use, f"({use.module}_size High it / 8)")
    fields.append(("packs", f"λ o it fits. ({use.module}_format {rest}).packs o it (fits, omega arith)"))
    record = f"record {{ {'; '.join(f'{name} = {term}' for name, term in fields)} }}"
    return [
        f"-- what is written of `{kind.name}`",
        f"abbrev pub {kind.name}_written : WrittenPart {use.name}",
        f"{kind.name}_written = {record}",
        "",
    ]


# ---- parts of a stated size


def measured_format(f: Format, line: Line, kind: m.Measured, of: Of) -> str:
    """Returns the format of a part of a stated size."""
    bytes_read = of(f, f"{kind.name}_bytes") if line.size else rest_left(f, kind.name, of)
    if is_octets(kind):
        return octets_format(line, kind, bytes_read)
    if not line.size or not line.size.units:
        return f"({over(f, line, kind, bytes_read, of)})"
    measure, inner = f"(λ a. {measured_bits(kind, 'a')} / 8)", f"(λ n. {over(f, line, kind, 'n', of)})"
    return f"({in_units(line.size, overrun(kind), measure, inner, bytes_read)})"


def in_units(size: m.Size, error: str, measure: str, inner: str, number: str) -> str:
    """Returns the format of a part by the number that states its bytes in units."""
    return f"in_units {size.units} (2 ^ {size.width}) refl refl {error} {measure} {inner} {number}"


def octets_format(line: Line, kind: m.Sized | m.Measured, number: str) -> str:
    """Returns the format of bytes of a stated size."""
    if not kind_error(kind):
        return f"(vec {sized_bytes(line, number)})"
    assert line.size
    return f"({in_units(line.size, kind_error(kind), '(λ xs. length xs)', '(λ n. as_own (vec n))', number)})"


def kind_error(kind: m.Measured) -> str:
    """Returns the error of a part of a stated size, if it has one."""
    return kind.error if isinstance(kind, m.Sized) else ""


def over(f: Format, line: Line, kind: m.Measured, size: str, of: Of) -> str:
    """Returns the format of a part over the bytes of its size."""
    behind = f"{overrun(kind)} {reader_error(kind)} {kind.name}_ended {size}"
    if isinstance(kind, m.Choose):
        return f"over_bytes {choice_of(f, kind, size, of)} {behind}"
    assert line.use
    inner = part_value(f, line, line.use, size)
    inner = inner if f.mapped(kind) else f"(as_own {inner})"
    if isinstance(kind, m.Fill):
        return f"filling {inner} {behind} {kind.name}_wide"
    return f"over_bytes {inner} {behind}"


def measured_bits(kind: m.Measured, term: str) -> str:
    """Returns the number of bits of a value."""
    if isinstance(kind, m.Fill):
        return f"parts_size {kind.use.module}_format.size {term}"
    if isinstance(kind, m.Choose):
        return f"{snake(kind.type)}_size High {term}"
    if by_size(kind):
        return f"{measured_module(kind)}_size High {term}"
    return f"{measured_module(kind)}_format.size {term}"


def wide_value(f: Format, kind: m.Fill) -> list[str]:
    """Returns the lemma that each item has a byte or more."""
    return [
        "-- each item has a byte or more",
        f"pub {kind.name}_wide : (it : {kind.use.name}) → 8 ≤ {kind.use.module}_size High it",
        f"{kind.name}_wide it = omega arith",
        "",
    ]


def measured_facts(f: Format, line: Line, kind: m.Measured) -> list[str]:
    """Returns what must fit of a part of a stated size, in the order of its format."""
    name, size = kind.name, line.size
    if not size:
        bits = f"λ (k : ℕ). {measured_bits(kind, f's.{name}')} ≡ 8 * k"
        left = f"({BEFORE})" if f.before_rest else "fits.1"
        fact = f"subst ({bits}) {left} (fits.{name}_whole High)"
        return [choice_facts(f, kind, left) if isinstance(kind, m.Choose) else f"fits.{name}", fact]
    if is_octets(kind):
        same = REFL
        if size.units and not kind_error(kind):
            unit, _, less = size.units.split()
            same = f"units-again {unit} {less} (length s.{name}) (2 ^ {size.width}) fits.{name}_bytes refl refl"
        octets = [f"fits.{name}", f"({same})" if " " in same else same]
        return octets if not kind_error(kind) else [f"({', '.join(octets)})", f"fits.{name}_bytes", REFL]
    case = choice_facts(f, kind) if isinstance(kind, m.Choose) else f"fits.{name}"
    case = f"({case}, omega arith)" if by_size(kind) and isinstance(kind, m.Sized) else case
    whole = [case, f"fits.{name}_whole High"]
    return [f"({', '.join(whole)})", f"fits.{name}_bytes", REFL] if size.units else whole
