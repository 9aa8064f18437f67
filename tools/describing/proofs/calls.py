"""The calls of the functions that read and write a format, as `chains` takes them, and the answers of these functions."""
from __future__ import annotations

from collections import Counter
from dataclasses import dataclass, field

from describing import model as m
from describing.layout import Format, Line, is_octets, is_part_size, is_some_bytes
from describing.model import snake
from describing.proofs.chains import VIEW, Answers, Call
from describing.rust.calls import in_bytes_write, sum_write
from describing.specs.terms import asked_enums, by_enum, bytes_name, short

# Contracts of reads, from the weakest: a plain read, one with errors of its own, one that allocates.
PLAIN, OWN, GROWING = "Reads", "ReadsOwn", "GrowsOwn"


@dataclass
class Labels:
    """Names that are numbered from the second time on."""

    seen: Counter[str] = field(default_factory=Counter)

    def next(self, name: str) -> str:
        """Returns a name, with its number if it was there before."""
        self.seen[name] += 1
        return name if self.seen[name] == 1 else f"{name}-{self.seen[name]}"


def contract(error: str, grows: bool) -> str:
    """Returns the contract of the read of a format or a part."""
    return GROWING if grows else OWN if error else PLAIN


def part_contract(use: m.Use) -> str:
    """Returns the contract of the read of a part."""
    return contract(use.description.error, m.allocating(use))


def becomes(error: str, module: str) -> str:
    """Returns the error map of the reads of a format."""
    return f"becomes_{module}" if error else "same_error"


# ---- reads


def own_read(f: Format, kind: str, error_map: str) -> str:
    """Returns the form of the call of a function of the crate with a contract and an error map."""
    if kind == PLAIN:
        return "read"
    form = "growing part" if kind == GROWING else "part"
    ours = f.becomes_name if f.own else ""
    return f"made {form}" if ours and error_map and ours != error_map else form


def read_call(f: Format, line: Line) -> tuple[str, str, str]:
    """Returns the form of the call that reads a line, the clause of the called function, and the width if it is signed."""
    kind = line.kind
    match kind:
        case m.Number() if kind.integer.signed:
            wide = f"w{kind.integer.base[1:]}"
            return (f"signed read of {wide}", "", "") if kind.order else ("read", "reads", wide)
        case m.Number() | m.Check():
            return "read", "" if kind.order else "reads", ""
        case m.Groups() if kind.integer.signed:
            return f"signed read of w{kind.integer.base[1:]}", "reads", ""
        case m.Golomb():
            return ("signed read of w32", "", "") if kind.signed else ("read", "reads", "")
        case m.Varint() | m.Size(varint=True):
            return "read", "", ""
        case m.Const():
            return "const", "reads", ""
        case m.Enum() | m.Array(item=m.EnumType()):
            return own_read(f, OWN if line.error else PLAIN, f.becomes_name), "", ""
        case m.Part():
            use = kind.use
            return own_read(f, part_contract(use), becomes(use.description.error, use.module)), "", ""
        case m.Optional() | m.If():
            return own_read(f, contract(line.error, m.allocating(kind.use)), f.becomes_name), "", ""
        case m.Until() | m.Blocks():
            return "grown", "", ""
        case m.Rest():
            return "growing", "reads", ""
        case m.Sized(item=m.Octet()) if not kind.error:
            return "growing", "reads", ""
        case m.Sized() | m.Fill() | m.UpToLast():
            return "growing part", "", ""
        case m.Choose():
            return own_read(f, contract(line.error, m.allocates(kind)), f.becomes_name), "", ""
        case m.List():
            if isinstance(kind.item, m.Octet):
                return "growing", "reads", ""
            return ("growing part" if line.own else "grown"), "", ""
    return "read", "reads", ""


def read_label(line: Line) -> str:
    """Returns the name of the value that a line reads, or the name of the call that reads none."""
    return line.name or ("read_const" if isinstance(line.kind, m.Const) else "skip")


def read_answers(f: Format, k: int) -> str:
    """Returns the answers of the function that reads a piece."""
    pieces, labels, steps = f.pieces(), Labels(), Labels()
    calls = []
    for it in pieces[k]:
        if isinstance(it.kind, m.Verify):
            calls.append(verify_call(it, it.kind.check, steps))
            continue
        form, fact, wide = read_call(f, it)
        asks = asked_enums(f, it.kind) or isinstance(it.kind, m.Choose) and by_enum(f, it.kind) is not None
        known = (f"c.{steps.next('number')}.ensures",) if asks else ()
        if isinstance(it.kind, m.If) and it.kind.due:
            known = (f"c.is_{it.kind.due}.ensures",)
        if isinstance(it.kind, m.Sized) and it.units and not it.kind.error:
            known = (f"c.{steps.next('size_in_units')}.ensures",)
        if isinstance(it.kind, m.List) and it.kind.power:
            known = (f"c.{steps.next('power_count')}.ensures",)
        if isinstance(it.kind, m.Pad):
            known = (f"c.{steps.next(it.kind.counted)}.ensures", f"c.{steps.next('deref')}.ensures.value")
        if isinstance(it.kind, m.List) and it.kind.less:
            known = (f"c.{steps.next('size_in_units')}.ensures",)
        if f.rest and it.name == f.rest.name:
            known = (*known, *known_after(f, steps))
        calls.append(Call(form, fact, labels.next(read_label(it)), "", wide=wide, known=known))
        if m.is_limited(it.kind):
            label = f"not-is_{it.name}"
            calls.append(Call("most", "", label, label, "if", "not"))
    answers = Answers(contract(f.error, f.grows), "", "", True)
    if k:
        before = f.entry_at(pieces[k][0])[1]
        answers.signed = {it.name: wide for it in before if (wide := signed_width(it.kind))}
    if k + 1 < len(pieces):
        name = f"read_{k + 2}"
        form = own_read(f, contract(f.error, f.grows), f.becomes_name)
        calls.append(Call(form, "", name, name, "end"))
    return text(f, answers, calls, f.type, f"read_{k + 1}" if k else "read")


def known_after(f: Format, steps: Labels) -> list[str]:
    """Returns the equations of the number of bytes of the rest, after bytes before it."""
    found = list[str]()
    for it in f.before_rest:
        if is_some_bytes(it.kind):
            size = f"c.{steps.next(bytes_name(it.kind))}.ensures"
            found = [f"c.{steps.next('bytes_after')}.ensures", size, *found]
        else:
            found = [f"c.{steps.next('rest_after')}.ensures", f"c.{steps.next('deref')}.ensures.value", *found]
    return found


def verify_call(line: Line, kind: m.Check, steps: Labels) -> Call:
    """Returns the test of a checksum, with the equations of its arguments."""
    label = f"not-is_{kind.word}"
    if kind.lines:
        return Call("if", "", label, label, "if", "not", known=(f"c.{kind.called}.ensures",))
    return Call("if", "", label, label, "if", "not", known=(f"c.{kind.word}_of.ensures", *known_sum(line, steps)))


def known_sum(line: Line, steps: Labels) -> list[str]:
    """Returns the equations of the arguments of the function that computes a checksum."""
    known = [f"c.{steps.next('number')}.ensures" for it in line.covers if isinstance(it, m.Enum)]
    return known + [f"c.{steps.next('deref')}.ensures.value" for it in line.covers if m.grows(it)]


def signed_width(kind: m.Kind) -> str:
    """Returns the width of the type of a line whose value is a signed number, or an empty text."""
    match kind:
        case m.Number() | m.Groups() if kind.integer.signed:
            return f"w{kind.integer.base[1:]}"
        case m.Golomb() if kind.signed:
            return "w32"
    return ""


def optional_answers(f: Format, use: m.Use) -> str:
    """Returns the answers of the function that reads an optional part."""
    form = own_read(f, part_contract(use), becomes(use.description.error, use.module))
    calls = [Call("if", "", "not-there", "not-there", "if", "not"), Call(form, "", "read", "read")]
    answers = Answers(part_contract(use), "", "", True)
    return text(f, answers, calls, "", f"read_{snake(use.name)}_if")


# ---- writes


class Writes:
    """The calls that write some lines, with what is known of their arguments."""

    def __init__(self, f: Format) -> None:
        self.f, self.steps, self.labels = f, Labels(), Labels()
        self.fields = "c.self.inside" if f.grows else "c.args.self.now"  # of `self`, as a proof has them

    def call(self, line: Line) -> Call:
        """Returns the call that writes a line."""
        form, name, fact, wide = self.form(line.kind)
        if m.is_capped(line.kind):
            form, name, fact = "list", f"write_{line.name}", ""
        elif is_part_size(line):
            assert isinstance(line.kind, m.Size)
            name = f"write_{'stored_' * bool(line.kind.units)}size{'_in_groups' * bool(line.kind.groups)}"
            fact = ""
        known = self.known(line)
        return Call(form, fact, self.labels.next(name), "", wide=wide, known=known)

    def form(self, kind: m.Printed) -> tuple[str, str, str, str]:
        """Returns the form of the call, its name, the clause of the called function, and the width if it is signed."""
        match kind:
            case m.Bool() | m.Flag():
                return "call", "write_bit", "writes", ""
            case m.Number():
                wide = f"w{kind.integer.base[1:]}" if kind.integer.signed else ""
                if kind.order:
                    form = f"signed value of {wide} {self.fields}.{kind.name}" if wide else "value"
                    return form, in_bytes_write(kind), "", ""
                return "value", "write", "writes", wide
            case m.Check():
                return ("value", sum_write(kind), "", "") if kind.order else ("value", "write", "writes", "")
            case m.Array(item=m.Integer()):
                return "list", "write", "writes", ""
            case m.Groups() if kind.integer.signed:
                return f"signed value of w{kind.integer.base[1:]} {self.fields}.{kind.name}", "write_vbr", "writes", ""
            case m.Groups():
                return "value", "write_vbr", "writes", ""
            case m.Golomb():
                form = f"signed list of w32 {self.fields}.{kind.name}" if kind.signed else "list"
                return form, f"write_{short(kind)}", "", ""
            case m.Count(golomb=True):
                return "list", f"write_{kind.target}_count", "", ""
            case m.Varint() | m.Size(varint=True):
                return "list", "write_varint", "", ""
            case m.Until():
                return "list", "write_until", "", ""
            case m.Blocks():
                return "list", "write_blocks", "", ""
            case m.Const():
                return "call", "write_const", "writes", ""
            case m.Skip():
                return "call", "pad", "writes", ""
            case m.Pad():
                return "value", "write_var", "writes", ""
            case m.Unary():
                return "call", "write_unary", "writes", ""
            case m.Rest() | m.Sized(item=m.Octet()):
                return "call", "write_bytes", "writes", ""
            case m.Part() | m.Choose() | m.Sized():
                return "list", "write", "", ""
            case m.Fill() | m.UpToLast():
                return "list", f"write_{kind.name}", "", ""
            case m.Optional() | m.If():
                return "list", f"write_{snake(kind.use.name)}_if", "", ""
            case m.Array() | m.List():
                if isinstance(kind.item, m.Octet):
                    return "call", "write_bytes", "writes", ""
                return "list", f"write_{kind.name}", "", ""
        return "value", "write", "writes", ""

    def known(self, line: Line) -> tuple[str, ...]:
        """Returns the equations of the arguments of a call."""
        kind = line.kind
        match kind:
            case m.Flag():
                return (f"c.{self.steps.next('is_some')}.ensures",)
            case m.Pad():
                return (f"c.{self.steps.next(kind.counted)}.ensures", f"c.{self.steps.next('deref')}.ensures.value")
            case m.Enum() | m.Tag():
                return (f"c.{self.steps.next('number')}.ensures",)
            case m.Size():
                return self.known_size(line, kind)
            case m.Check() if kind.lines:
                return (f"c.{kind.called}.ensures", *(VIEW,) * self.f.grows)
            case m.Check():
                return (f"c.{kind.word}_of.ensures", *known_sum(line, self.steps))
            case m.Count():
                length = self.known_length(kind.target)
                return (f"c.{self.steps.next('stored_size')}.ensures", length) if kind.less else (length,)
            case m.List() | m.Fill() | m.Until() | m.UpToLast() | m.Rest() | m.Blocks() | m.Sized(item=m.Octet()):
                return (f"c.{self.steps.next('deref')}.ensures.value",)
        return ()

    def known_length(self, target: str) -> str:
        """Returns the equation of the length of a `Vec`."""
        return f"(c.{self.steps.next('len')}.ensures ∙ {self.fields}.{target}.ok.0)"

    def known_size(self, line: Line, kind: m.Size) -> tuple[str, ...]:
        """Returns the equations of the arguments of the call that writes the size of a later line."""
        if line.measures and is_octets(line.measures):
            length = self.known_length(kind.target)
            return (f"c.{self.steps.next('stored_size')}.ensures", length) if kind.units else (length,)
        if m.is_capped(kind):
            return (f"c.{self.steps.next('deref')}.ensures.value",) if isinstance(line.measures, m.Fill) else ()
        if isinstance(line.measures, m.Fill):
            slice = f"c.{self.steps.next('deref')}.ensures.value"
            counted = f"(rw {slice} at c.{self.steps.next(f'count_{kind.target}')}.ensures)"
        else:
            counted = f"c.{self.steps.next('bits')}.ensures.counts"
        if kind.groups:
            return (f"grouped-wrote _ _ _ _ _ _ _ {counted}",)
        if kind.units:
            return (f"stored-wrote _ _ _ {kind.units} _ _ _ _ _ {counted}",)
        return (f"size-wrote _ _ _ _ _ _ _ _ {counted}",)


def write_answers(f: Format, called: str, pieces: list[tuple[Line, ...]], k: int) -> str:
    """Returns the answers of the function that writes a piece."""
    writes = Writes(f)
    calls = [writes.call(it) for it in pieces[k] if not isinstance(it.kind, m.Verify)]
    answers = Answers("WritesAll", "", f"rw {VIEW}" if f.grows else "", True)
    if k + 1 < len(pieces):
        name, known = f"{called}_{k + 2}", (VIEW,) * f.grows
        calls.append(Call("list", "", name, name, "end", known=known))
    if f.grows:
        lines = [it.kind for it in pieces[k]]
        of_self = [not isinstance(it, m.Const | m.Skip) and it not in f.summed for it in lines] + [k + 1 < len(pieces)]
        answers.opened = of_self.index(True) if True in of_self else 0
    return text(f, answers, calls, f.type, f"{called}_{k + 1}" if k else called)


# ---- all of them


def text(f: Format, answers: Answers, calls: list[Call], owner: str, name: str) -> str:
    """Returns the text of the answers of a function."""
    parts = answers.all(calls)
    goals = ".".join([f.goals, *[owner] * bool(owner), name, "Goals"])
    return "\n\n".join([f"-- {f.made}\n{answers.uses(goals)}", *parts])


def files(f: Format) -> dict[str, str]:
    """Returns the answers of the functions that read and write the format, by their places in the crate."""
    pieces = f.pieces()
    found = {f"{f.type}/read": read_answers(f, 0), f"{f.type}/write": write_answers(f, "write", pieces, 0)}
    found |= {f"{f.type}/read_{k + 1}": read_answers(f, k) for k in range(1, len(pieces))}
    found |= {f"{f.type}/write_{k + 1}": write_answers(f, "write", pieces, k) for k in range(1, len(pieces))}
    for kind in f.summed:
        called, covers = f"write_for_{kind.word}", f.covered(kind)
        found[f"{f.type}/{called}"] = write_answers(f, called, covers, 0)
        found |= {f"{f.type}/{called}_{k + 1}": write_answers(f, called, covers, k) for k in range(1, len(covers))}
    for it in f.lines:
        if isinstance(it.kind, m.Optional | m.If):
            found.setdefault(f"read_{snake(it.kind.use.name)}_if", optional_answers(f, it.kind.use))
    return {f"proofs/{f.m}/{path}/Answers.antt": answers for path, answers in found.items()}
