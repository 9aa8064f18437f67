"""The modules where the names of a format come from: its types, its definitions and its lemmas, and those of its parts."""
from __future__ import annotations

from describing import model as m
from describing.layout import Format, Line, all_fit, all_values, is_part_size
from describing.model import snake
from describing.names import Table, merged, spec_of
from describing.specs.last import asked, case_name, inner_cases, inner_name, number_name
from describing.specs.terms import called

WITHIN = "Rattle.bitstream_format"
SIZES = "is_end sized_decoder size_encoder within UnlessMemory"
COUNTS = {"Rattle.bitstream_io.specs.Lengths": "CountsBits"}
COUNT_LEMMAS = {"Rattle.bitstream_io.proofs.LengthLemmas": "count_done count_stopped"}
FILL_LEMMAS = "ItemsSoFar filled-grown so_far-begin so_far-end so_far-more so_far-push so_far-stop"
LAST_LEMMAS = "UpToLastSoFar last-begin last-end last-push last-refused last-stop last-too_long"
STATED = "sized_bytes size_in_units stated_decoder stored_encoder stored_size"
STATED_LEMMAS = "stated-none stated-some"
SIZE_LEMMAS = "within-ok within-err sized-grown"
SIZE_LAWS = {f"{WITHIN}.specs.SizeLaws": "sized-read size-back size-written filled-read"}
STATED_LAWS = {f"{WITHIN}.specs.SizeLaws": "stated-read stored-back stored-whole stored-written units-again"}


def enum_names(f: Format, line: Line, enum: m.EnumType) -> Table:
    """Returns where the names of an enum come from."""
    base, each = f"{f.declared}.{enum.name}", isinstance(line.kind, m.Array)
    words = ("of", "number", "each", "read_each", "array") if each else ("of", "number", "read", "cases")
    cases = [f"{it}={called(line, it)}" if it in line.shared else it for it in enum.names()]
    own = {f.specs_path: " ".join(f"{snake(enum.name)}_{it}" for it in words)}
    return {base: enum.name, f"{base}.TheVariants": " ".join(cases)} | own


def part_names(f: Format, line: Line, use: m.Use) -> Table:
    """Returns where the names of a part come from."""
    base = f"Rattle.{f.crate}.specs.declared.{use.module}"
    given = ("decoder", "writes", "size", *["format"] * all_values(use.description.kinds))
    words = " ".join(f"{use.module}_{it}" for it in given)
    found = {
        f"{base}.{use.name}": use.name,
        f"Rattle.{f.crate}.specs.{spec_of(use.module)}": f"{words} Fits={use.name}Fits",
    }
    error = use.description.error
    if error:
        found[f"{base}.{error}"] = error
        cases = ["Reader", *[case for case, _ in part_cases(use)]]
        found[f"{base}.{error}.TheVariants"] = " ".join(f"{it}={use.name}{it}" for it in cases)
    if f.mapped(line.kind):
        found[f.specs_path] = " ".join(f"{use.module}_{it}" for it in ("error", "answer", "here"))
    return found


def part_cases(use: m.Use) -> list[tuple[str, str]]:
    """Returns the cases of the error of a part, each with the type that it holds."""
    return list(dict(one for it in use.description.kinds for one in m.refusals(it)).items())


def choice_names(f: Format, kind: m.Choose) -> Table:
    """Returns where the names of a choice come from."""
    base, words = f"{f.declared}.{kind.type}", ["number", "read", "writes", "size", "fits"]
    words += ["choice", "goes"] * f.valued
    cases = " ".join(f"{it.case}={kind.type}{it.case}" for it in kind.arms)
    names = [f"{snake(kind.type)}_{it}" for it in words] + [f"{snake(kind.unnamed)}_read"] * bool(kind.unnamed)
    other = {f"{f.declared}.{kind.unnamed}": kind.unnamed} if kind.unnamed else {}
    return {base: kind.type, f"{base}.TheVariants": cases} | other | {f.specs_path: " ".join(names)}


def line_names(f: Format, line: Line) -> Table:
    """Returns where the names of a line come from."""
    if line.enum:
        return enum_names(f, line, line.enum)
    own = [choice_names(f, line.kind)] if isinstance(line.kind, m.Choose) else []
    if line.measured:
        own.append({f.specs_path: f"{line.name}_sized {line.name}_ended", f"{WITHIN}.specs.Within": SIZES})
    if line.units or isinstance(line.kind, m.Size) and line.kind.units:
        own.append({f.specs_path: f"{line.name}_stated" * bool(line.units), f"{WITHIN}.specs.Stated": STATED})
    if m.is_capped(line.kind) and is_part_size(line):
        own.append({"Rattle.bitstream_io.specs.Lengths": "counted_bits=FormatBits"})
    if isinstance(line.kind, m.List) and line.kind.less:
        own.append({f"{WITHIN}.specs.Stated": "size_in_units stored_size"})
    if isinstance(line.kind, m.Pad):
        names = f"{line.kind.counted} {line.kind.counted}_of {line.kind.counted}_few"
        own.append({f.specs_path: names, **{module: f"{it} counted_bits" for module, it in COUNTS.items()}})
    if isinstance(line.kind, m.Fill):
        own.append({f"{WITHIN}.specs.Filled": "filled_decoder items_from"} | COUNTS)
    if isinstance(line.kind, m.UpToLast):
        own.append(last_names(f, line.kind))
    if isinstance(line.kind, m.If) and line.kind.due:
        own.append({f.specs_path: line.kind.due})
    return merged(*own, *[part_names(f, it, it.use) for it in line.parts if it.use])


def last_names(f: Format, kind: m.UpToLast) -> Table:
    """Returns where the names of the condition of the last part come from."""
    module, part = kind.use.module, kind.use.name
    names = [f"{kind.name}_last", *[inner_name(kind, it) for it in kind.tests if it.inner]]
    found = {f.specs_path: " ".join(names)}
    for it in kind.tests:
        field = asked(kind, it)
        if number := number_name(kind, field) * (it.how not in ("", "empty")):
            name = f"{number.removeprefix(f'{module}_')}={number}"
            found = merged(found, {f"Rattle.{f.crate}.specs.{spec_of(module)}": name})
        if it.inner and isinstance(field, m.Choose):
            base = f"Rattle.{f.crate}.specs.declared.{module}.{field.type}"
            cases = " ".join(f"{arm.case}={case_name(kind, it, arm)}" for arm, _ in inner_cases(kind, it))
            found = merged(found, {base: f"{field.type}={part}{field.type}", f"{base}.TheVariants": cases})
    return found


def all_names(f: Format) -> Table:
    """Returns where the names of all lines come from."""
    return merged(*[line_names(f, it) for it in (*f.handed, *f.lines)])


def types(f: Format) -> Table:
    """Returns where the types of the format and of its parts come from."""
    own = {f"{f.declared}.{f.type}": f.type}
    if f.error:
        own[f"{f.declared}.{f.error}"] = f.error
        cases = [case for it in f.tests for case, _ in m.refusals(it.kind)]
        own[f"{f.declared}.{f.error}.TheVariants"] = " ".join(dict.fromkeys(["Reader", *cases]))
    return {module: names for module, names in merged(own, all_names(f)).items() if ".declared." in module}


def parts_specs(f: Format) -> Table:
    """Returns where the definitions of the parts come from."""
    return {module: it for module, it in all_names(f).items() if ".declared." not in module and module != f.specs_path}


def own_specs(f: Format) -> Table:
    """Returns where the definitions of the format and of its parts come from."""
    words = ["decoder", "writes", "size", *["format"] * f.valued, "bits", "at"]
    names = [f"{f.m}_{it}" for it in words] + ["Fits", f"becomes_{f.m}", "bits_at"]
    names += [f"{f.m}_decoder_{k}" for k in range(1, len(f.entry_parts()))] + [f"const_at_{it.at}" for it in f.tests]
    names += [f"{f.m}_writes_{k + 1}" for k in range(1, len(f.pieces()))]
    for it in f.summed:
        more = [f"_{k + 1}" * (k > 0) for k in range(len(f.covered(it)))]
        names += [f"{it.word}_sum", *[it.called] * (it.called != it.word), *(f"{it.word}_writes{one}" for one in more)]
    lines = {module: it for module, it in all_names(f).items() if ".declared." not in module}
    return merged({f.specs_path: " ".join(names)}, lines)


def line_lemmas(f: Format, line: Line) -> Table:
    """Returns where the lemmas of a line come from."""
    own = [{f"{WITHIN}.proofs.WithinLemmas": SIZE_LEMMAS} | SIZE_LAWS] * bool(line.measured)
    own += [{f"{WITHIN}.proofs.StatedLemmas": STATED_LEMMAS} | STATED_LAWS] * bool(line.units)
    own += [STATED_LAWS] * (isinstance(line.kind, m.List) and bool(line.kind.less))
    own += [{f"{WITHIN}.proofs.WithinLemmas": "counts-is"} | COUNT_LEMMAS] * isinstance(line.kind, m.Pad)
    own += [{f"{WITHIN}.proofs.WithinLemmas": "counts-is"}] * (m.is_capped(line.kind) and is_part_size(line))
    own += [{f"{WITHIN}.proofs.FilledLemmas": FILL_LEMMAS} | COUNT_LEMMAS] * isinstance(line.kind, m.Fill)
    own += [{f"{WITHIN}.proofs.UpToLastLemmas": LAST_LEMMAS}] * isinstance(line.kind, m.UpToLast)
    if isinstance(line.kind, m.Choose):
        own += [{f.lemmas_path: " ".join(f"{snake(line.kind.type)}_{it}" for it in ("small", "back", "packs"))}]
    return merged(*own, *[part_lemmas(f, it.use) for it in line.parts if it.use])


def part_lemmas(f: Format, use: m.Use) -> Table:
    """Returns where the lemmas of a part come from."""
    more = f" {use.module}_fits" * all_fit(use.description.kinds)
    more += "" if all_values(use.description.kinds) else f" {use.module}_format"
    return {f"Rattle.{f.crate}.proofs.{spec_of(use.module)}Lemmas": f"{use.module}_goes {use.module}_packs{more}"}


def parts_lemmas(f: Format) -> Table:
    """Returns where the lemmas of the parts come from."""
    found = merged(*[line_lemmas(f, it) for it in (*f.handed, *f.lines)])
    return {module: names for module, names in found.items() if module != f.lemmas_path}


def own_lemmas(f: Format) -> Table:
    """Returns where the lemmas of the format and of its parts come from."""
    own = {f.lemmas_path: f"{f.m}_goes {f.m}_packs{f' {f.m}_fits' * f.fitting} told"}
    return merged(own, *[line_lemmas(f, it) for it in f.lines])
