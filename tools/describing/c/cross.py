"""The fields of a format in C: which ones a library for C has, and the number types that hold them."""
from __future__ import annotations

from dataclasses import dataclass
from typing import TypeAlias, TypeGuard, assert_never

from describing import model as m
from describing.layout import LONG, enum_bits
from describing.model import Refused
from describing.rust.calls import integer_range

Crossed: TypeAlias = (
    m.Bool | m.Number | m.NonZero | m.MaybeNonZero | m.Enum | m.Array | m.Unary | m.Groups | m.Golomb | m.Varint | m.Part
    | m.Optional | m.If | m.List | m.Sized | m.Fill | m.Rest | m.Until | m.Choose | m.Given
)  # fmt: skip
Listed: TypeAlias = m.List | m.Sized | m.Fill | m.Rest | m.Until  # items in storage of the caller

# The most bytes before a terminator, or up to the end, that a pack takes: a counter of 64 bits counts them.
MOST_OPEN = 2**32 - 1

# The most bits of a format that this counter counts.
MOST_BITS = 2**64 - 1

# The most bytes that parts fill: a parse holds them on the stack.
MOST_FILLED = 65535 + 4096

# Names in the parse of other languages that no given part may have.
PARSE_WORDS = ("answer", "bytes", "cls", "data", "first", "given", "out", "parsed", "reader", "taken")

# Why a field of another kind does not cross to C.
OTHERS = {
    m.UpToLast: "ends at its last part, which does not cross to C yet",
    m.Blocks: "has bytes in blocks, which does not cross to C yet",
}


@dataclass(frozen=True, slots=True)
class Member:
    """A member of the struct of C: its name, the Rust type of it, or of each item of an array, and its comment.

    `module` is that of a part, `flag` is true for a `bool` of C, `count` the number of items of an array, and `item` the
    type of the items of a list, of which the member is the number; `of` is the module of items that are parts. A member of
    a `choice` has what the case `case` holds, or the case itself if that is an empty text: C has all of them in one struct.
    """

    name: str
    base: str
    comment: str
    module: str = ""
    flag: bool = False
    count: int | None = None
    item: str = ""
    choice: str = ""
    case: str = ""
    of: str = ""

    @property
    def rust(self) -> str:
        """The type in the Rust struct that crosses."""
        return self.base if self.count is None else f"[{self.base}; {self.count}]"


def crosses(kind: m.Kind) -> TypeGuard[Crossed]:
    """Returns true if a field has a type in C."""
    return m.is_field(kind) and type(kind) not in OTHERS


def check(description: m.Description) -> None:
    """Refuses a format with a field that C does not have."""
    for it in description.kinds:
        if isinstance(it, m.Check):
            check_sum(description, it)
            if m.own_order(it):
                raise Refused("a checksum in a byte order of its own does not cross to C yet", it.at)
        if isinstance(it, m.Pad):
            raise Refused("zeros up to a multiple of bits do not cross to C yet", it.at)
        if isinstance(it, m.Size) and it.groups:
            raise Refused("a size in groups does not cross to C yet", it.at)
    for kind in description.fields:
        if not crosses(kind):
            raise Refused(f"`{kind.name}` {OTHERS[type(kind)]}", kind.at)
        check_field(kind)
        if isinstance(kind, m.Given):
            check_given(description, kind)
        if isinstance(kind, m.Fill):
            check_fill(description, kind)
        if isinstance(kind, m.Rest):
            check_rest(kind)
    check_types(description)
    names = [it.name for it in members(description)]
    if lists(description) and len(description.kinds) > LONG:
        raise Refused(f"a format with a list and more than {LONG} lines does not cross to C yet")
    for kind in reversed(description.fields):
        for member in members_of(description, kind) if crosses(kind) else []:
            if names.count(member.name) > 1:
                raise Refused(f"two members of the struct of C have one name, `{member.name}`", kind.at)
    if description.bits is None and open_most(description) > MOST_BITS:
        longest = max(description.fields, key=lambda it: most_of(description, it))
        raise Refused(
            f"`{longest.name}` can make the format longer than 2^64 - 1 bits, which does not cross to C yet", longest.at
        )


def check_alone(description: m.Description) -> None:
    """Refuses a `part` that no other format has, as it holds a list, a choice or a checksum."""
    check(description)
    kinds = description.kinds * (not description.whole)
    for what, found in (("a list", is_listed), ("a choice", is_choice), ("a checksum", is_sum)):
        it = next(filter(found, kinds), None)
        if it:
            raise Refused(f"a `part` with {what} does not cross to C yet", it.at)


def is_choice(kind: m.Kind) -> bool:
    """Returns true for a choice."""
    return isinstance(kind, m.Choose)


def is_sum(kind: m.Kind) -> bool:
    """Returns true for a checksum."""
    return isinstance(kind, m.Check)


def check_sum(description: m.Description, kind: m.Check) -> None:
    """Refuses next to lists a second checksum, lines behind a test, and lists of parts; and some computed numbers."""
    if isinstance(kind, m.Computed) and not lists(description):
        raise Refused("a computed number of bytes without a list does not cross to C yet", kind.at)
    if isinstance(kind, m.Computed) and any(map(is_uncounted, m.covered(description.kinds, kind))):
        raise Refused("a computed number of other lines than constant ones and lists does not cross to C yet", kind.at)
    if not lists(description):
        return
    if [it for it in description.kinds if isinstance(it, m.Check)] != [kind]:
        raise Refused("two checksums next to a list do not cross to C yet", kind.at)
    if not isinstance(description.kinds[-1], m.Verify):
        raise Refused("lines behind a checksum and its fields do not cross to C yet next to a list", kind.at)
    if any(map(is_mapped, description.kinds)):
        raise Refused("a checksum next to a list of parts or of an enum does not cross to C yet", kind.at)


def is_uncounted(kind: m.Kind) -> bool:
    """Returns true for a line whose bits vary, and that is no list."""
    return m.bits(kind) is None and not is_listed(kind)


def has_sum(use: m.Use) -> bool:
    """Returns true for a part with a checksum."""
    return any(map(is_sum, use.description.kinds))


def check_types(description: m.Description) -> None:
    """Refuses a format with two types of C of one name: of enums, lists, choices and their cases, and statuses."""
    taken = {"status", *(m.snake(it.name) for it in enums(description))}
    for kind in fields(description):
        own = {kind.name} if is_listed(kind) or isinstance(kind, m.Choose) else set()
        own |= {f"{kind.name}_case"} if isinstance(kind, m.Choose) else set()
        if own & taken:
            raise Refused(f"two types of C have one name, `{min(own & taken)}`", kind.at)
        taken |= own


def check_field(kind: Crossed) -> None:
    """Refuses a field that C does not have."""
    if isinstance(kind, m.Array) and isinstance(kind.item, m.EnumType):
        raise Refused(f"`{kind.name}` is an array of an enum, which does not cross to C yet", kind.at)
    if isinstance(kind, m.Choose) and kind.sized:
        what = "reads to the end of the bytes" if kind.to_end else "is a choice with a size"
        raise Refused(f"`{kind.name}` {what}, which does not cross to C yet", kind.at)
    if not isinstance(kind, m.Part | m.Optional | m.If | m.Choose | m.Given) and base(kind).endswith("128"):
        raise Refused(f"`{kind.name}` has a number of 128 bits, which C does not have", kind.at)
    if isinstance(kind, m.Sized) and isinstance(kind.item, m.Use):
        raise Refused(f"`{kind.name}` is a part with a size, which does not cross to C yet", kind.at)
    if isinstance(kind, m.List) and kind.power:
        raise Refused(f"`{kind.name}` is a list of a power of two items, which does not cross to C yet", kind.at)
    if isinstance(kind, m.List) and kind.count and (kind.less or kind.count.golomb):
        raise Refused(f"`{kind.name}` has a count by `ue` or `less`, which does not cross to C yet", kind.at)
    for use in m.uses(kind):
        try:
            check(use.description)
        except Refused as why:
            raise Refused(f"`{use.module}`: {why}", kind.at) from None
        has_choice = bool(choices(use.description))
        for holds, what in ((m.allocating(use), "a list"), (has_choice, "a choice"), (has_sum(use), "a checksum")):
            if holds and isinstance(kind, m.List | m.Fill):
                raise Refused(f"`{kind.name}` has parts with {what}, which do not cross to C yet", kind.at)
            if holds:
                raise Refused(f"`{kind.name}` is a part with {what}, which does not cross to C yet", kind.at)


def check_given(description: m.Description, kind: m.Given) -> None:
    """Refuses a part that is given to a format without lists, and one of several."""
    if not lists(description):
        why = "is given to the parse, which does not cross to C yet without a list"
        raise Refused(f"`{kind.name}` {why}", kind.at)
    if kind.name in PARSE_WORDS:
        raise Refused(f"`{kind.name}` is given to the parse, of which another argument has that name", kind.at)
    if len(givens(description)) > 1:
        raise Refused(f"`{kind.name}` and another part are given to the parse, which do not cross to C yet", kind.at)


def givens(description: m.Description) -> list[m.Given]:
    """Returns the parts that are given to a parse."""
    return [it for it in description.fields if isinstance(it, m.Given)]


def check_rest(kind: m.Rest) -> None:
    """Refuses parts up to the end."""
    if isinstance(kind.item, m.Use):
        raise Refused(f"`{kind.name}` has parts to the end of the bytes, which do not cross to C yet", kind.at)


def check_fill(description: m.Description, kind: m.Fill) -> None:
    """Refuses parts that fill a size in units or next to a list other than bytes, or whose number of bits varies."""
    line, others = counted(description, kind), [it for it in lists(description) if it is not kind]
    if not all(isinstance(it.item, m.Octet) for it in others):
        raise Refused(
            f"`{kind.name}` fills a size next to a list other than bytes, which does not cross to C yet", kind.at
        )
    if isinstance(line, m.Size) and line.units:
        raise Refused(f"`{kind.name}` fills a size in units, which does not cross to C yet", kind.at)
    if m.is_limited(line):
        raise Refused(f"`{kind.name}` fills a size with a greatest value, which does not cross to C yet", kind.at)
    if isinstance(line, m.Size) and line.most > MOST_FILLED:
        raise Refused(f"`{kind.name}` may fill more than {MOST_FILLED} bytes, which does not cross to C yet", kind.at)
    if kind.use.description.bits is None:
        raise Refused(
            f"`{kind.name}` has parts of several sizes that fill a size, which do not cross to C yet", kind.at
        )
    if item_width(kind) % 8:
        raise Refused(f"`{kind.name}` fills a size with parts of no whole bytes, which do not cross to C yet", kind.at)


def has_lemmas(description: m.Description) -> bool:
    """Returns true if lemmas are printed: of a `part`, only that about its greatest number of bits, if they vary."""
    return description.whole or description.bits is None


def listed_enums(description: m.Description) -> list[m.EnumType]:
    """Returns the enums that lists have many of, each once."""
    found = [it.item for it in description.fields if isinstance(it, m.List) and isinstance(it.item, m.EnumType)]
    return list({it.name: it for it in found}.values())


def is_mapped(kind: m.Kind) -> bool:
    """Returns true for a list of parts or of an enum, of whose items C has something else."""
    return isinstance(kind, m.Fill) or isinstance(kind, m.List) and isinstance(kind.item, m.Use | m.EnumType)


def spec_item(kind: Listed) -> str:
    """Returns the type of an item in specs."""
    if isinstance(kind.item, m.Use):
        return base(kind)
    return "ℤ" if isinstance(kind.item, m.Integer) and kind.item.signed else "ℕ"


def is_listed(kind: m.Kind) -> TypeGuard[Listed]:
    """Returns true for a field whose items are in storage of the caller."""
    return isinstance(kind, m.List | m.Sized | m.Fill | m.Rest | m.Until)


def rest(description: m.Description) -> m.Rest | None:
    """Returns the bytes up to the end, if a format has them."""
    return next((it for it in description.fields if isinstance(it, m.Rest)), None)


def counted(description: m.Description, kind: Listed) -> m.Count | m.Size:
    """Returns the line that has the number of items of a list."""
    return next(it for it in description.kinds if isinstance(it, m.Count | m.Size) and it.target == kind.name)


def target(description: m.Description, line: m.Count | m.Size) -> m.Kind:
    """Returns the field whose number of items, or of bytes, a line has."""
    return next(it for it in description.fields if it.name == line.target)


def most_items(description: m.Description, kind: Listed) -> int:
    """Returns the greatest number of items of a list."""
    line = counted(description, kind)
    if isinstance(line, m.Count):
        return most_counted(line)
    return line.most // (item_width(kind) // 8) if isinstance(kind, m.Fill) else line.most


def most_counted(line: m.Count | m.Size) -> int:
    """Returns the greatest number that counts the items of a list, or states their size."""
    return (1 << line.width) - 1 if line.limit is None else line.limit


def item_width(kind: Listed | m.Array) -> int:
    """Returns the bits of an item, or a number of bits that a part does not exceed."""
    if isinstance(kind.item, m.Use):
        return most(kind.item.description)
    return kind.item.width if isinstance(kind.item, m.Integer | m.EnumType) else 8


def most(description: m.Description) -> int:
    """Returns a number of bits that the fields that fit do not exceed, without lists that have no greatest length."""
    return sum(most_of(description, it) for it in description.kinds)


def most_of(description: m.Description, kind: m.Kind) -> int:
    """Returns a number of bits that a line does not exceed."""
    width = m.bits(kind)
    if width is not None:
        return width
    match kind:
        case m.Groups():
            return kind.group * ((kind.integer.width - 1) // (kind.group - 1) + 1)
        case m.Unary():
            return 1 << 32
        case m.Golomb():
            return 63
        case m.Varint():
            return 64
        case m.Size():
            return 64
        case m.Rest():
            return 0
        case m.Until():
            return 8
        case m.List() | m.Sized():
            return 0 if is_open(description, kind) else most_items(description, kind) * item_width(kind)
        case m.Fill():
            return most_size(description, kind)
    wide = [most(use.description) for use in m.uses(kind)]
    return max([0, *wide]) if isinstance(kind, m.Choose) else sum(wide)


def most_size(description: m.Description, kind: m.Fill) -> int:
    """Returns a number of bits that parts whose size in bytes fits do not exceed."""
    line = counted(description, kind)
    assert isinstance(line, m.Size)
    return 8 * line.most + 7


def lists(description: m.Description) -> list[Listed]:
    """Returns the lists of a format."""
    return [it for it in description.fields if is_listed(it)]


def is_open(description: m.Description, kind: Listed) -> bool:
    """Returns true for a list whose greatest length, if it has one, is above what a pack takes."""
    if isinstance(kind, m.Rest | m.Until):
        return True
    return isinstance(kind, m.Sized) and most_items(description, kind) > MOST_OPEN


def open_lists(description: m.Description) -> list[tuple[Listed, int]]:
    """Returns the lists without a greatest length, each with the most bytes of it that are packed."""
    return [(it, MOST_OPEN) for it in lists(description) if is_open(description, it)]


def open_most(description: m.Description) -> int:
    """Returns a number of bits that the fields that are packed do not exceed."""
    return most(description) + sum(8 * it for _, it in open_lists(description))


def choices(description: m.Description) -> list[m.Choose]:
    """Returns the choices of a format."""
    return [it for it in description.fields if isinstance(it, m.Choose)]


def stated(description: m.Description) -> list[Listed]:
    """Returns the lists of bytes whose size may state no number of bytes."""
    return [it for it in lists(description) if is_stated(it)]


def is_stated(kind: m.Kind) -> bool:
    """Returns true for bytes whose size may state no number of bytes."""
    return isinstance(kind, m.Sized) and bool(kind.error)


def fields(description: m.Description) -> list[Crossed]:
    """Returns the fields of a format that crosses to C."""
    return [it for it in description.fields if crosses(it)]


def members(description: m.Description) -> list[Member]:
    """Returns the members of the struct of C."""
    return [member for it in fields(description) for member in members_of(description, it)]


def members_of(description: m.Description, kind: Crossed) -> list[Member]:
    """Returns the members for a field."""
    match kind:
        case m.Part() | m.Given():
            return [Member(kind.name, base(kind), comment(kind), kind.use.module)]
        case m.Optional() | m.If():
            there = Member(f"has_{kind.name}", "u8", f"True if `{kind.name}` is there.", flag=True)
            return [there, Member(kind.name, base(kind), comment(kind), kind.use.module)]
        case m.Array():
            return [Member(kind.name, base(kind), comment(kind), count=kind.count)]
        case m.List() | m.Sized() | m.Fill() | m.Rest() | m.Until():
            said, module = list_comment(description, kind), kind.item.module if isinstance(kind.item, m.Use) else ""
            return [Member(kind.name, "usize", said, item=base(kind), of=module)]
        case m.Choose():
            return choice_members(kind)
    return [Member(kind.name, base(kind), comment(kind), flag=isinstance(kind, m.Bool))]


def choice_members(kind: m.Choose) -> list[Member]:
    """Returns the members for a choice: the case, and what each case holds."""
    found = [Member(f"{kind.name}_case", "u32", f"The case of `{kind.name}`.", choice=kind.name)]
    for it in kind.arms:
        name, said = f"{kind.name}_{m.snake(it.case)}", f"The content of the case `{it.case}`."
        if isinstance(it.held, m.Use):
            found.append(Member(name, f"{it.held.name}C", said, it.held.module, choice=kind.name, case=it.case))
        elif it.number is None:
            bits = next(it for it in (8, 16, 32) if it >= kind.width)
            small = f"below 2^{kind.width}, " * (kind.width < bits)
            said = f"The number of the case `{it.case}`, {small}and of no other case."
            found.append(Member(name, f"u{bits}", said, choice=kind.name, case=it.case))
    return found


def base(kind: Crossed) -> str:
    """Returns the Rust type of the number, or of each number, that a field is in C; for a part, its struct."""
    match kind:
        case m.Bool():
            return "u8"
        case m.Number() | m.NonZero() | m.MaybeNonZero() | m.Groups():
            return kind.integer.base
        case m.Enum():
            return f"u{enum_bits(kind.enum)}"
        case m.Array() | m.List() | m.Sized() | m.Fill() | m.Rest() | m.Until():
            if isinstance(kind.item, m.Use):
                return f"{kind.item.name}C"
            if isinstance(kind.item, m.EnumType):
                return f"u{enum_bits(kind.item)}"
            return kind.item.base if isinstance(kind.item, m.Integer) else "u8"
        case m.Unary() | m.Golomb() | m.Varint():
            return m.rust_type(kind)
        case m.Part() | m.Optional() | m.If() | m.Given():
            return f"{kind.use.name}C"
        case m.Choose():
            return "u32"
    assert_never(kind)


def is_partial(kind: Crossed) -> bool:
    """Returns true if what C has may be no value of the field: in code and specs the field is made from an `Option`."""
    match kind:
        case m.Enum():
            return bool(kind.enum.error) or is_narrow(kind.enum)
        case m.List() | m.Sized() | m.Fill():
            return is_mapped(kind)
    return isinstance(kind, m.NonZero | m.Part | m.Optional | m.If | m.Choose | m.Given)


def is_narrow(enum: m.EnumType) -> bool:
    """Returns true if each number of its bits is that of a case, and its number in C has more bits."""
    return enum.total and enum.width < enum_bits(enum)


def partial(description: m.Description) -> list[Crossed]:
    """Returns the fields of which what C has may be no value."""
    return [it for it in fields(description) if is_partial(it)]


def limits(kind: Crossed) -> str:
    """Returns the sentence about the range of a field as C sees it, or an empty text."""
    match kind:
        case m.Number(limit=int() as limit):
            return f"At most {limit}."
        case m.Number():
            said = integer_range(kind.integer)
            return f"{said.capitalize()}." if said else ""
        case m.Array(item=m.Integer() as item):
            said = integer_range(item)
            return f"Each {said}." if said else ""
        case m.NonZero():
            return f"From 1 to {kind.integer.most + 1}."
        case m.MaybeNonZero():
            return f"At most {kind.integer.most}; 0 stands for none."
        case m.Varint():
            return "Below 2^62."
        case m.Golomb():
            return "From -2^31 + 1 on." if kind.signed else "Below 2^32 - 1."
        case m.Enum():
            other = f", or another one below 2^{kind.enum.width}" if kind.enum.other else ""
            return f"A number of `{m.snake(kind.enum.name)}`{other}."
        case m.If():
            return f"It is there if, and only if, `{kind.condition}`."
    return ""


def comment(kind: Crossed) -> str:
    """Returns the comment of a field, with its range."""
    return f"{kind.doc or f'The field `{kind.name}`.'} {limits(kind)}".strip()


def list_comment(description: m.Description, kind: Listed) -> str:
    """Returns the comment of a list, with its range."""
    if isinstance(kind, m.Rest):
        return f"{comment(kind)} All bytes up to the end. At most {MOST_OPEN} are packed."
    if isinstance(kind, m.Until):
        return f"{comment(kind)} None of them is {kind.stop}, which ends them. At most {MOST_OPEN} are packed."
    line = counted(description, kind)
    if is_open(description, kind) and isinstance(line, m.Size):
        return f"{comment(kind)} {size_limits(line)}, of which at most {MOST_OPEN} are packed."
    if isinstance(kind, m.Fill):
        return f"{comment(kind)} At most {most_items(description, kind)}."
    if isinstance(line, m.Size):
        return f"{comment(kind)} {size_limits(line)}."
    said = integer_range(kind.item) if isinstance(kind.item, m.Integer) else ""
    if isinstance(kind.item, m.EnumType):
        other = f", or another one below 2^{kind.item.width}" if kind.item.other else ""
        said = f"a number of `{m.snake(kind.item.name)}`{other}"
    most = f"Fewer than 2^{line.width}" if line.limit is None else f"At most {line.limit}"
    return f"{comment(kind)} {most}{f', each {said}' if said else ''}."


def size_limits(line: m.Size) -> str:
    """Returns how many bytes a size may state."""
    more = -line.plus % line.unit
    units = f", {f'{more} more than ' * bool(more)}a multiple of {line.unit}" * (line.unit > 1)
    return f"At most {line.most} bytes{units}"


def enums(description: m.Description) -> list[m.EnumType]:
    """Returns the enums of the fields and of the items of lists, each once."""
    found = [it for kind in fields(description) if isinstance(it := m.held_item(kind), m.EnumType)]
    return list({it.name: it for it in found}.values())


def parts(description: m.Description) -> list[m.Use]:
    """Returns the parts of the fields, each once."""
    found = [use for it in fields(description) for use in m.uses(it)]
    return list({it.module: it for it in found}.values())


def optional(description: m.Description) -> list[m.Use]:
    """Returns the parts that may be there or not, each once."""
    found = [it.use for it in fields(description) if isinstance(it, m.Optional | m.If)]
    return list({it.module: it for it in found}.values())


def said_of_enum(description: m.Description, name: str) -> str:
    """Returns the comment of the field whose enum it is, or whose items are of it."""
    kind = next(it for it in fields(description) if isinstance(e := m.held_item(it), m.EnumType) and e.name == name)
    return kind.doc or f"The field `{kind.name}`."


def layout(description: m.Description, public: bool = False) -> tuple[int, int, int]:
    """Returns the size of the struct of C, the offset of its last member, and its alignment.

    A list has its number of items there, or in the public struct a pointer, its capacity and its length.
    """
    inner = {it.module: layout(it.description) for it in parts(description)}
    found, union = list[tuple[int, int]](), list[tuple[int, int]]()
    for it in members(description):
        size, _, align = inner[it.module] if it.module else sizes(it, public)
        if public and it.choice:
            union = [*union, (size, align)] if it.case else []
            found = [*(found[:-1] if it.case else found), chosen_size(union)]
        else:
            found.append((size * (it.count or 1), align))
    return placed(found)


def placed(found: list[tuple[int, int]]) -> tuple[int, int, int]:
    """Returns the size of a struct of members of these sizes and alignments, the offset of the last one, and its alignment."""
    at, last, most = 0, 0, 1
    for size, align in found:
        at += -at % align
        last, at, most = at, at + size, max(most, align)
    return at + -at % most, last, most


def chosen_size(union: list[tuple[int, int]]) -> tuple[int, int]:
    """Returns the size and the alignment of the struct of a choice, whose union has members of these sizes and alignments."""
    align = max([1, *[it for _, it in union]])
    wide = max([0, *[size for size, _ in union]])
    size, _, most = placed([(4, 4), *[(wide + -wide % align, align)] * bool(union)])
    return size, most


def sizes(member: Member, public: bool) -> tuple[int, int, int]:
    """Returns the size of a member, or of an item of it, 0, and its alignment."""
    if member.item:
        return (24 if public else 8), 0, 8
    width = int(member.base[1:]) // 8
    return width, 0, width
