"""The header and the C file of a format."""
from __future__ import annotations

from describing import model as m
from describing.c import misfit, sums
from describing.c.cross import Member, choice_members, choices, enums, givens, layout, lists, members, parts
from describing.c.rests import which_bytes
from describing.c.status import numbers, own, rooms, statuses, unless_refused
from describing.c.target import Target
from describing.c.words import c_comment, c_name, drawn, in_comment, paragraph, quoted
from describing.model import snake
from describing.specs.terms import tag_of


def header(t: Target) -> str:
    """Returns the header."""
    f, up = t.f, t.f.m.upper()
    out = [f"/* {t.made}", " *", *paragraph(in_comment(f.doc), " * ", " * "), " *"]
    out += [*[f" * {it}" for it in drawn(f.description)], " */", f"#ifndef {up}_H", f"#define {up}_H", ""]
    out += [f'#include "{it.module}.h"' for it in parts(f.description)]
    out += ["#include <stdbool.h>", "#include <stddef.h>", "#include <stdint.h>", ""]
    types = [line for it in enums(f.description) for line in enum_code(t, it)] + struct_code(t)
    if not f.description.whole:
        return "\n".join([*out, *types, "#endif"]) + "\n"
    out += ["#ifdef __cplusplus", 'extern "C" {', "#endif", ""]
    out += ["/* The bytes that the fields take. */", f"#define {up}_SIZE {f.bytes}", ""] * f.sized
    out += [*types, *status_code(t), *calls_code(t)]
    return "\n".join([*out, "#ifdef __cplusplus", "}", "#endif", "#endif"]) + "\n"


def enum_code(t: Target, enum: m.EnumType) -> list[str]:
    """Returns the numbers of an enum."""
    name = f"{t.f.m}_{snake(enum.name)}"
    more = f"; a field may have another number below 2^{enum.width}" if enum.other else ""
    rows = [f"    {name.upper()}_{snake(case).upper()} = {number}" for number, case in enum.cases]
    return [f"/* The numbers of `{snake(enum.name)}`{more}. */", f"enum {name} {{", ",\n".join(rows), "};", ""]


def c_type(member: Member) -> str:
    """Returns the type of a member, or of its items, in C."""
    if member.flag or member.module:
        return "bool" if member.flag else f"struct {member.module}"
    if member.base == "usize":
        return "size_t"
    return f"{'' if member.base[0] == 'i' else 'u'}int{member.base[1:]}_t"


def struct_code(t: Target) -> list[str]:
    """Returns the struct of the fields."""
    out = [line for it in members(t.f.description) if it.item for line in list_code(t, it)]
    out += [line for it in choices(t.f.description) for line in choice_code(t, it)]
    out += [f"struct {t.f.m} {{"]
    for it in members(t.f.description):
        items, kind, name, said = "" if it.count is None else f"[{it.count}]", c_type(it), it.name, it.comment
        if it.case:
            continue
        if it.choice:
            name, said = it.choice, choice_comment(t, it.choice)
        if it.item or it.choice:
            kind = f"struct {t.f.m}_{name}"
        out += [*c_comment(said + renamed(name), "    "), f"    {kind} {c_name(name)}{items};"]
    return [*out, "};", ""]


def choice_comment(t: Target, name: str) -> str:
    """Returns the comment of a choice."""
    kind = next(it for it in choices(t.f.description) if it.name == name)
    own = tag_of(t.f, kind) is None
    same = f" Its case is that of the number in `{kind.by}`." * own
    return (kind.doc or f"The field `{name}`.") + same


def case_name(t: Target, kind: m.Choose, arm: m.Arm) -> str:
    """Returns the constant of a case."""
    return f"{t.f.m}_{kind.name}_{snake(arm.case)}".upper()


def choice_code(t: Target, kind: m.Choose) -> list[str]:
    """Returns the cases of a choice, and its struct."""
    name, rows = f"{t.f.m}_{kind.name}", list[str]()
    for arm in kind.arms:
        number = "The case of all other numbers" if arm.number is None else f"The case of the number {arm.number}"
        rows.append(f"    /* {number}. */\n    {case_name(t, kind, arm)}")
    held = list[str]()
    for it in choice_members(kind):
        if it.case:
            held += [*c_comment(it.comment, "        "), f"        {c_type(it)} {c_name(snake(it.case))};"]
    return [
        f"/* The cases of `{kind.name}`. */",
        f"enum {name}_case {{",
        ",\n".join(rows),
        "};",
        "",
        f"/* The choice `{kind.name}`. */",
        f"struct {name} {{",
        "    /* The case. */",
        f"    enum {name}_case which;",
        *["    /* The content of this case; the other members are not read. */", "    union {", *held, "    } as;"]
        * bool(held),
        "};",
        "",
    ]


def renamed(name: str) -> str:
    """Returns the sentence about the name of a member that C or C++ does not allow, or an empty text."""
    return f" The description calls it `{name}`." * (c_name(name) != name)


def item_type(member: Member) -> str:
    """Returns the type of the items of a list in C."""
    if member.of:
        return f"struct {member.of}"
    return f"{'' if member.item[0] == 'i' else 'u'}int{member.item[1:]}_t"


def list_code(t: Target, member: Member) -> list[str]:
    """Returns the struct of a list, whose items the caller has."""
    return [
        f"/* The list `{member.name}`, in storage of the caller. */",
        f"struct {t.f.m}_{member.name} {{",
        "    /* The storage: null only if it has room for no item. A pack only reads it. */",
        f"    {item_type(member)} *items;",
        "    /* The number of items that it has room for. A parse needs it, and a pack does not. */",
        "    size_t capacity;",
        "    /* The number of items. */",
        "    size_t length;",
        "};",
        "",
    ]


def status_code(t: Target) -> list[str]:
    """Returns the statuses."""
    name, rows = f"{t.f.m}_status", list[str]()
    for it in statuses(t.f):
        rows.append("\n".join([*c_comment(it.text, "    "), f"    {t.f.m.upper()}_{it.name} = {it.number}"]))
    return [
        "/* The result of a call. */",
        f"enum {name} {{",
        ",\n".join(rows),
        "};",
        "",
        "/* Returns the text of a status, in lower case and without a full stop. */",
        f"const char *{name}_text(enum {name} status);",
        "",
    ]


def calls_code(t: Target) -> list[str]:
    """Returns the declarations of the two functions."""
    f, name = t.f, f"{t.f.m}_status"
    taken = "" if f.sized else ", size_t *taken"
    return [
        *c_comment(parse_comment(t)),
        f"enum {name} {f.m}_parse(const uint8_t *bytes, size_t length, struct {f.m} *out{taken});",
        "",
        *c_comment(pack_comment(t)),
        f"enum {name} {f.m}_pack(",
        f"    const struct {f.m} *in, uint8_t *buffer, size_t length, size_t *written);",
        "",
        *misfit.declaration(f.m),
    ]


def parse_comment(t: Target) -> str:
    """Returns the comment of the parse."""
    f, up = t.f, t.f.m.upper()
    last = sums.error_of(f)
    refusals = [*(it for it in own(f) if it.case != last), *numbers(f)]
    own_errors = "".join(f"{up}_{it.name} if {it.short}; " for it in refusals)
    in_order = "the first in the order of the bits: " if own_errors else ""
    here = unless_refused(f) if own_errors else ""
    few = f"for fewer than {f.bytes} bytes" if f.sized else "if the bytes end before the fields do"
    taken = "" if f.sized else ", sets `*taken` to the number of bytes that they take unless `taken` is null"
    after = "" if f.sized else ", and `*taken` is 0"
    if lists(f.description):
        return list_comment(t, in_order + own_errors, here)
    return (
        f"Parses the fields at the start of `length` bytes into `*out`{taken}, and returns {up}_OK. After an error `*out`"
        f" is as before{after}. The errors are: {up}_NULL if `out` is null, or `bytes` is null and `length` is not 0; else"
        f" {in_order}{own_errors}{up}_END_OF_INPUT {few}{here}."
    )


def list_comment(t: Target, refused: str, here: str) -> str:
    """Returns the comment of the parse of a format with lists."""
    f, up = t.f, t.f.m.upper()
    names = [it.name for it in lists(f.description)]
    items = " and ".join(f"`out->{it}`" for it in names)
    given = " and ".join(f"`out->{c_name(it.name)}`" for it in givens(f.description))
    handed = f", with {given} as the caller has set it" * bool(given)
    full = "; ".join(
        f"{up}_{it.name} if `{name}` has more items than its capacity" for name, it in zip(names, rooms(f))
    )
    full += "".join(f"; else {up}_{it.name} if {it.short}" for it in own(f) if it.case == sums.error_of(f))
    return (
        f"Parses {which_bytes(f, '`length` bytes')} into `*out`, and the items of lists into the storage that the"
        f" caller has set in {items}{handed}. Sets `*taken` to the number of bytes that the fields take unless `taken` is null,"
        f" and returns {up}_OK. Items after the last one are as before. After an error `*out` is as before, but the items"
        f" in the storage are unspecified, and `*taken` is the number of items of the list without room for them, or 0. The"
        f" errors are: {up}_NULL if `out` is null, or `bytes` is null and `length` is not 0, or the items of a list are"
        f" null and its capacity is not 0; else {refused}{up}_END_OF_INPUT if the bytes end before the fields do{here};"
        f" else {full}."
    )


def pack_comment(t: Target) -> str:
    """Returns the comment of the pack."""
    f, up = t.f, t.f.m.upper()
    firsts = f"the first {f.bytes} of `length` bytes, sets `*written` to {f.bytes}"
    room = f"for fewer than {f.bytes} bytes"
    if not f.sized:
        firsts = (
            "the first of `length` bytes, and zeros up to a whole byte, sets `*written` to the number of these bytes"
        )
        room = "if they are more than `length`"
    null = f"{up}_NULL if `in` is null, or `buffer` is null and `length` is not 0"
    if lists(f.description):
        null += ", or the items of a list are null and its length is not 0"
    return (
        f"Writes the fields to {firsts} unless `written` is null, and returns {up}_OK. The bytes after them are as before."
        f" After an error all bytes are as before, and `*written` is 0. `*in` and the buffer may not overlap. The errors"
        f" are: {null}; else {up}_DOES_NOT_FIT if a field has"
        f" a value that the format does not allow; else {up}_NO_ROOM {room}."
    )


def source(t: Target) -> str:
    """Returns the C file: the test for null pointers, which the proved functions do not have."""
    f, up = t.f, t.f.m.upper()
    if not f.description.whole:
        return "\n".join([f"/* {t.made} */", f'#include "{f.m}.h"', "", *layout_code(t, f.m)])
    name = f"{f.m}_status"
    texts = [
        line for it in statuses(f) for line in (f"    case {up}_{it.name}:", f"        return {quoted(it.short)};")
    ]
    apart = lists(f.description) or choices(f.description)
    listed = lists_source(t) if apart else Listed(f.m)
    more, parameter, none, told = "", "", "", ""
    if not f.sized:
        more, parameter = "\n    size_t taken;", ", size_t *taken"
        none = "\n    if (taken)\n        *taken = 0;"
        told = "\n    if (taken)\n        *taken = parsed.taken;"
    return f"""/* {t.made} */
#include "{f.m}.h"

{listed.struct}struct {f.m}_parsed {{
    int32_t status;{more}
    struct {listed.crossing} value;
}};

struct {f.m}_packed {{
    int32_t status;
    size_t written;
}};

/* The proved functions. */
struct {f.m}_parsed proved_{f.m}_parse(const uint8_t *bytes, size_t length{listed.stored});
struct {f.m}_packed proved_{f.m}_pack(const struct {listed.crossing} *value, {listed.given}uint8_t *buffer, size_t length);

{chr(10).join(layout_code(t, listed.crossing))}
enum {name} {f.m}_parse(const uint8_t *bytes, size_t length, struct {f.m} *out{parameter})
{{
    struct {f.m}_parsed parsed;{none}
    if (!out || (!bytes && length){listed.no_storage})
        return {up}_NULL;
    parsed = proved_{f.m}_parse(bytes, length{listed.storage});
    if (parsed.status == {up}_OK){listed.taken_out}{told}
    return (enum {name})parsed.status;
}}

enum {name} {f.m}_pack(const struct {f.m} *in, uint8_t *buffer, size_t length, size_t *written)
{{
    struct {f.m}_packed packed = {{{up}_NULL, 0}};
    if (in && (buffer || !length){listed.has_items}){listed.pack}
    if (written)
        *written = packed.written;
    return (enum {name})packed.status;
}}

{listed.misfit(t)}

const char *{name}_text(enum {name} status)
{{
    switch (status) {{
{chr(10).join(texts)}
    }}
    return "no status";
}}
"""


def layout_code(t: Target, crossing: str) -> list[str]:
    """Returns the test of the layout of the struct that crosses."""
    size, offset, _ = layout(t.f.description)
    last = c_name(members(t.f.description)[-1].name)
    same = f"sizeof(struct {crossing}) == {size} && offsetof(struct {crossing}, {last}) == {offset}"
    return [
        "/* The layout that the proved functions have: with another one this type has a negative size. */",
        f"typedef char {t.f.m}_layout[{same} ? 1 : -1];",
        "",
    ]


class Listed:
    """The pieces of the C file that a format with lists or choices has otherwise: `crossing` names what crosses."""

    def __init__(self, module: str) -> None:
        self.crossing, self.struct, self.stored, self.given = module, "", "", ""
        self.no_storage, self.storage, self.has_items = "", "", ""
        self.taken_out = "\n        *out = parsed.value;"
        self.pack = f"\n        packed = proved_{module}_pack(in, buffer, length);"
        self.into, self.passed, self.lacks_items = list[str](), "", ""

    def misfit(self, t: Target) -> str:
        """Returns the functions that return the name of a field that does not fit."""
        module, given = t.f.m, self.given.removesuffix(", ")
        if not self.into:
            return misfit.function(t.f.description, module, module, given)
        null = [f"if (!in{self.lacks_items})", "    return NULL;"]
        body = [self.into[0], *null, *self.into[1:], f"return misfit_of_{module}(&head{self.passed});"]
        head = f"const char *{module}_misfit(const struct {module} *in)"
        function = misfit.function(t.f.description, module, self.crossing, given)
        return "\n".join([function, "", head, "{", *[f"    {it}" for it in body], "}"])


def lists_source(t: Target) -> Listed:
    """Returns the pieces of the C file of a format with lists or choices."""
    f, kinds, all_of = t.f, [it for it in members(t.f.description) if it.item], members(t.f.description)
    found = Listed(f.m)
    found.crossing = f"{f.m}_head"
    rows = [f"    {c_type(it)} {c_name(it.name)}{'' if it.count is None else f'[{it.count}]'};" for it in all_of]
    found.struct = "\n".join([f"/* {head_comment(t)} */", f"struct {f.m}_head {{", *rows, "};", "", ""])
    found.stored = "".join(f", {item_type(it)} *{it.name}_items, size_t {it.name}_capacity" for it in kinds)
    found.given = "".join(f"const {item_type(it)} *{it.name}_items, size_t {it.name}_length, " for it in kinds)
    found.stored += "".join(f", const struct {it.use.module} *{it.name}" for it in givens(f.description))
    names = [c_name(it.name) for it in kinds]
    found.no_storage = "".join(f" || (!out->{it}.items && out->{it}.capacity)" for it in names)
    found.storage = "".join(f", out->{it}.items, out->{it}.capacity" for it in names)
    found.storage += "".join(f", &out->{c_name(it.name)}" for it in givens(f.description))
    found.has_items = "".join(f" && (in->{it}.items || !in->{it}.length)" for it in names)
    out, into = list[str](), list[str]()
    for it in all_of:
        name = c_name(it.name)
        if it.choice:
            out += [] if it.case else choice_out(t, it)
            into += [] if it.case else choice_into(t, it)
        elif it.count is not None:
            out.append(f"memcpy(out->{name}, parsed.value.{name}, sizeof out->{name});")
            into.append(f"memcpy(head.{name}, in->{name}, sizeof head.{name});")
        else:
            out.append(f"out->{name}{'.length' * bool(it.item)} = parsed.value.{name};")
            into.append(f"head.{name} = in->{name}{'.length' * bool(it.item)};")
    given = "".join(f"in->{it}.items, in->{it}.length, " for it in names)
    zeros = ["memset(&head, 0, sizeof head);"] * bool(choices(f.description))
    found.into = [f"struct {f.m}_head head;", *zeros, *into]
    found.passed = "".join(f", in->{it}.items, in->{it}.length" for it in names)
    found.lacks_items = "".join(f" || (!in->{it}.items && in->{it}.length)" for it in names)
    into = [*found.into, f"packed = proved_{f.m}_pack(&head, {given}buffer, length);"]
    found.taken_out = " {\n        " + "\n        ".join(out) + "\n    }"
    found.pack = " {\n        " + "\n        ".join(into) + "\n    }"
    if zeros or any(it.count is not None for it in all_of):
        found.struct = "#include <string.h>\n\n" + found.struct
    return found


def head_comment(t: Target) -> str:
    """Returns the comment of the struct that crosses."""
    items = ", and the numbers of items of the lists" * bool(lists(t.f.description))
    return f"The fields{items}{', and what each case of a choice holds' * bool(choices(t.f.description))}."


def choice_out(t: Target, member: Member) -> list[str]:
    """Returns the statements that set a choice of the caller from the struct that crosses."""
    return chosen(
        t, member, f"(enum {t.f.m}_{member.choice}_case)parsed.value.{member.name}", "out->", "parsed.value.", True
    )


def choice_into(t: Target, member: Member) -> list[str]:
    """Returns the statements that set the members of the struct that crosses from a choice of the caller."""
    return chosen(t, member, f"(uint32_t)in->{c_name(member.choice)}.which", "in->", "head.", False)


def chosen(t: Target, member: Member, case: str, theirs: str, crossing: str, parsed: bool) -> list[str]:
    """Returns the statements that copy a case and what it holds, to the caller's struct if bytes were parsed."""
    kind = next(it for it in choices(t.f.description) if it.name == member.choice)
    place, named = f"{theirs}{c_name(member.choice)}", {it.case: it.name for it in choice_members(kind)}
    out = [f"{place}.which = {case};" if parsed else f"{crossing}{member.name} = {case};", f"switch ({place}.which) {{"]
    for arm in kind.arms:
        out.append(f"case {case_name(t, kind, arm)}:")
        if arm.case in named:
            one, other = f"{place}.as.{c_name(snake(arm.case))}", f"{crossing}{named[arm.case]}"
            out.append(f"    {one} = {other};" if parsed else f"    {other} = {one};")
        out.append("    break;")
    return [*out, "}"]
