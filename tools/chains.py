"""The answers of a function of a file of Rattle whose body reads or writes bits by calls one after another."""
from __future__ import annotations

import glob
import os
import re
from collections import Counter
from dataclasses import replace
from typing import Sequence, Union

from describing.proofs.chains import NEXT, TESTS, Answers, Call, UnknownCall
from source import Function, Structs, Token, Unknown, behind, read_source, split, unknown, words

# What a part of an expression was: the place of a call, a name, or something else.
Last = Union[int, str, None]

# The modules of the library, whose functions may be calls of a body too.
LIBRARY = os.path.join(os.path.dirname(os.path.dirname(os.path.abspath(__file__))), "crates", "bitstream_io", "src")

TRAIT = re.compile(r"(From|To)BitStream(With|Using)?$")
SIGNED = re.compile(r"i(8|16|32|64|128|size)$")

# The calls of the library that a body may have, by the form of their answers.
READS = {
    name: "read"
    for name in """read read_var read_counted read_bit read_unary read_vbr read_to_bytes skip
    read_unsigned read_unsigned_var read_unsigned_counted read_signed read_signed_var read_signed_counted
    read_unsigned_vbr read_unsigned_vbr_any read_signed_vbr read_signed_vbr_any byte_align""".split()
}
READS |= {"read_const": "const", "parse": "part", "parse_with": "part", "parse_using": "part"}
READS |= {"read_to_vec": "growing"}
WRITES = {
    name: "call"
    for name in """write_bit write_const write_from write_bytes write_unary write_unsigned
    write_unsigned_var write_unsigned_counted write_signed write_signed_var write_signed_counted write_unsigned_vbr pad
    byte_align""".split()
}
WRITES |= {"write": "value", "write_var": "value", "write_counted": "value", "write_vbr": "value"}
WRITES |= {"build": "part", "build_with": "part", "build_using": "part"}
# Calls whose value may have a signed type.
OF_EITHER_SIGN = re.compile(r"(read|write)(_signed)?(_var|_counted)?$")
# The same, in groups of bits.
GROUPS = re.compile(r"(read|write)(_signed)?_vbr(_any)?$")
# Calls whose type decides nothing.
UNTYPED = re.compile(r"(read|write)_(bit|const|unary|unsigned.*|bytes)$|read_to_(bytes|vec)$|skip$|pad$|byte_align$")

# Calls that may be among the arguments. The `len` of a slice is known; the `len` of a `Vec` has an equation.
PURE = ("is_some", "is_none", "number", "len")

# The form of the call of a function of the crate, by the contract of the caller and the contract of the function.
OWN_FORMS = {
    ("Reads", "Reads"): "read",
    ("ReadsOwn", "Reads"): "read",
    ("ReadsOwn", "ReadsOwn"): "part",
    ("GrowsOwn", "Reads"): "read",
    ("GrowsOwn", "ReadsOwn"): "part",
    ("GrowsOwn", "GrowsOwn"): "growing part",
    ("GrowsOwn", "GrowingOutcome"): "grown",
    ("WritesAll", "WritesAll"): "list",
}


# ---- the calls of a body


class Body:
    """Goes through a body, and gathers its calls in order.

    `functions` are those of the crate: those of the file, those of the modules that it imports from, and all.
    """

    def __init__(
        self,
        function: Function,
        kind: str,
        stream: str,
        functions: list[list[Function]],
        structs: Structs,
        modeled: bool,
    ) -> None:
        self.function, self.kind, self.stream = function, kind, stream
        self.modeled = modeled
        self.fields = "c.self.inside" if modeled else "c.args.self.now"  # of `self`, as a proof has them
        self.functions, self.structs = functions, structs
        self.tokens, self.at = function.body, 0
        self.calls: list[Call] = []
        self.labels, self.steps, self.tests = Counter[str](), Counter[str](), Counter[str]()
        self.let_types: dict[str, list[str]] = {}
        self.pure: list[str] = []
        self.rewrites: dict[int, list[str]] = {}
        self.opened: int | None = None  # the first call that needs a field of `self`

    def peek(self, ahead: int = 0) -> str:
        """Returns a later word, or an empty text after the last one."""
        place = self.at + ahead
        return self.tokens[place].word if place < len(self.tokens) else ""

    def line(self) -> int:
        """Returns the line of the next word."""
        return self.tokens[min(self.at, len(self.tokens) - 1)].line if self.tokens else self.function.line

    def take(self, wanted: str = "") -> str:
        """Takes the next word, which must be `wanted` if that is not empty."""
        if wanted and self.peek() != wanted:
            unknown(self.line(), f"`{self.peek()}` in place of `{wanted}`")
        self.at += 1
        return self.tokens[self.at - 1].word

    def brackets(self) -> list[Token]:
        """Goes over brackets, and returns the words in them."""
        start = self.at
        self.at = behind(self.tokens, start)
        return self.tokens[start + 1 : self.at - 1]

    def whole(self) -> list[Call]:
        """Goes through the whole body, and returns its calls."""
        while self.at < len(self.tokens):
            if self.peek() == "if":
                self.early()
                continue
            if self.peek() == "let":
                self.let()
            else:
                self.value("", self.function_type())
            if self.at < len(self.tokens):
                self.take(";")
                self.calls = [replace(it, way="") if it.way == "end" else it for it in self.calls]
        for it in self.calls:
            if it.form == "if":
                continue
            aligns = it.label == "byte_align" and self.kind != "WritesAll"
            if it.way != "?" and not aligns and (it.way != "end" or it is not self.calls[-1]):
                unknown(it.line, f"`{it.label}` with no `?` behind it")
        return self.calls

    def early(self) -> None:
        """Goes over `if [!]NAME { return Ok(..); }`, where nothing is read."""
        line = self.line()
        self.take("if")
        negated = self.peek() == "!" and bool(self.take())
        name = self.take()
        if self.kind not in TESTS or not re.fullmatch(r"[a-z_]\w*", name) or self.peek() != "{":
            unknown(line, "`if` of this form")
        said = words(self.brackets())
        if said[:3] != ["return", "Ok", "("] or said[-2:] != [")", ";"] or self.stream in said or self.peek() == "else":
            unknown(line, "`if` of this form")
        label = f"not-{name}" if negated else name
        self.tests[label] += 1
        label += f"-{self.tests[label]}" if self.tests[label] > 1 else ""
        self.calls.append(Call("if", "", label, label, "if", "not" if negated else "", line))

    def function_type(self) -> list[str]:
        """Returns the type of the value that the function returns in an `Ok`."""
        said = self.function.result
        return said[said.index("<") + 1 :] if "<" in said else said

    def let(self) -> None:
        """Goes through a `let`."""
        self.take("let")
        if self.peek() == "mut":
            self.take()
        name, said = self.take(), list[str]()
        name = "" if name == "_" else name
        if self.peek() == ":":
            self.take()
            while self.peek() != "=":
                said.append(self.take())
        self.take("=")
        before = len(self.calls)
        self.value(name, said)
        if len(self.calls) > before + 1:
            unknown(self.line(), "a `let` of more than one call")
        self.let_types[name] = said

    def value(self, name: str = "", wanted: Sequence[str] = ()) -> None:
        """Goes through an expression: a name, a literal, a call, a struct, a tuple."""
        while self.peek() in ("&", "*", "mut"):
            self.take()
        word, line = self.peek(), self.line()
        if word in ("if", "match", "for", "while", "loop", "return", "unsafe", "break", "continue"):
            unknown(line, f"`{word}`")
        if word == "(":
            self.list_of_values()
            last: Last = None
        elif re.match(r"\w|[\"']", word):
            last = self.path(name, wanted)
        else:
            unknown(line, f"`{word}`")
        while self.peek() in (".", "?"):
            if self.take() == "?":
                self.question(last, line)
                last = None
            else:
                last = self.member(name, wanted, last, line)
        while self.peek() == "as":
            self.take()
            self.take()
        if self.peek() == "=" and self.peek(1) == "=" and isinstance(last, str):
            self.take()
            self.take()
            self.take()
        if self.peek() not in (",", ";", ")", "}", ""):
            unknown(self.line(), f"`{self.peek()}`")

    def list_of_values(self) -> list[list[str]]:
        """Goes through values in round brackets, and returns their words."""
        start = self.at
        inner, end = self.brackets(), self.at
        self.at = start + 1
        while self.at < end - 1:
            self.value()
            if self.peek() == ",":
                self.take()
        self.at = end
        return [[it for it in words(part) if it not in ("&", "*", "mut")] for part in split(inner)]

    def generics(self) -> list[str]:
        """Goes over `::<..>`, and returns its last type."""
        if self.peek() != "::" or self.peek(1) != "<":
            return []
        self.take()
        return words(split(self.brackets())[-1])

    def path(self, name: str, wanted: Sequence[str]) -> Last:
        """Goes through a name, a path, a struct, or a call of a function; returns the place of a call."""
        line, parts = self.line(), [self.take()]
        said = self.generics()
        while self.peek() == "::":
            self.take()
            parts.append(self.take())
            said = self.generics() or said
        if self.peek() == "{":
            self.struct(parts[-1])
            return None
        if parts == ["self"] and self.opened is None:
            self.opened = len(self.calls)
        if self.peek() != "(":
            return parts[-1]
        if parts[-1][0].isupper():
            if parts == ["Err"]:
                unknown(line, "`Err`")
            self.ok() if parts == ["Ok"] else self.list_of_values()
            return None
        return self.own(parts[-1], parts[-2] if len(parts) > 1 else "", name, line)

    def ok(self) -> None:
        """Goes through what stands in `Ok`, which is of the function's type."""
        self.take("(")
        self.value("", self.function_type())
        self.take(")")

    def struct(self, name: str) -> None:
        """Goes through a struct."""
        fields = self.structs.get(self.function.owner if name == "Self" else name, {})
        self.take("{")
        while self.peek() != "}":
            field = self.take()
            if self.peek() == ":":
                self.take()
                self.value("", fields.get(field, ()))
            if self.peek() == ",":
                self.take()
        self.take("}")

    def member(self, name: str, wanted: Sequence[str], last: Last, line: int) -> Last:
        """Goes through `.field` or `.call(..)`."""
        word = self.take()
        said = self.generics()
        if self.peek() != "(":
            return f"{last}.{word}"
        if last == self.stream:
            return self.of_library(word, said, name, wanted, line)
        if word in PURE and isinstance(last, str):
            self.list_of_values()
            step = self.step_of(word)
            if self.is_vector(last.split(".")):
                self.pure.append(f"(c.{step}.ensures ∙ {self.fields}.{last.split('.')[1]}.ok.0)")
            elif word != "len":
                self.pure.append(f"c.{step}.ensures")
            return f"{last}.{word}"
        owner = self.function.owner if last == "self" else ""
        found = self.own(word, owner, name, line)
        if owner and self.modeled:
            self.rewrites[found] = [*self.rewrites[found], "(← c.self.view_is)"]
        return found

    def of_library(self, word: str, said: list[str], name: str, wanted: Sequence[str], line: int) -> int:
        """Goes through a call of the reader or the writer."""
        form = (WRITES if self.kind == "WritesAll" else READS).get(word)
        if not form:
            unknown(line, f"the call `{word}`")
        args = self.arguments()
        typed = said or list(wanted) or self.type_of(args)
        if form == "part" and self.kind == "GrowsOwn" and self.grows(typed, line):
            form = "growing part"
        wide = self.width(word, typed, line)
        if form == "value" and typed[:1] == ["["]:
            form = "list"
        if wide and GROUPS.match(word):
            form, wide = f"signed {form} of {wide}{self.written(args, line)}", ""
        return self.add(form, "reads" if self.kind != "WritesAll" else "writes", word, name, wide, line)

    def grows(self, typed: list[str], line: int) -> bool:
        """Returns true if a part of a type of the crate allocates memory."""
        said = {growing(it) for it in self.named("from_reader", "".join(typed))}
        if len(said) != 1:
            unknown(line, f"whether `{''.join(typed)}` asks for memory")
        return said.pop()

    def width(self, word: str, typed: list[str], line: int) -> str:
        """Returns the width of the value of a call, if its type is signed."""
        if UNTYPED.match(word) or word.startswith(("parse", "build")):
            return ""
        if not typed:
            unknown(line, f"the type of the value of `{word}`: write it at the call")
        signed = [it for it in typed if SIGNED.match(it)]
        known = OF_EITHER_SIGN.match(word) or GROUPS.match(word)
        if signed and typed[0] == "[" and word in ("read", "write"):
            return ""  # the clause has the items of an array as they are
        if signed and (not known or typed[0] != signed[0] or signed[0] == "isize"):
            unknown(line, f"a value of the type `{''.join(typed)}` in `{word}`")
        return f"w{signed[0][1:]}" if signed else ""

    def written(self, args: list[list[str]], line: int) -> str:
        """Returns the field of `self` that a call writes, as a proof has it; an empty text for a read."""
        if self.kind != "WritesAll":
            return ""
        if len(args) != 1 or args[0][:2] != ["self", "."] or len(args[0]) != 3:
            unknown(line, "a signed number in groups that is no field of `self`")
        return f" {self.fields}.{args[0][2]}"

    def type_of(self, args: list[list[str]]) -> list[str]:
        """Returns the type of the last argument of a call, if it is a field of `self` or a name."""
        said = args[-1] if args else []
        if len(said) == 3 and said[:2] == ["self", "."]:
            return self.structs.get(self.function.owner, {}).get(said[2], [])
        return self.function.params.get(said[0], self.let_types.get(said[0], [])) if len(said) == 1 else []

    def own(self, word: str, owner: str, name: str, line: int) -> int:
        """Goes through a call of a function of the crate's own."""
        args = self.arguments()
        if [self.stream] not in args:
            unknown(line, f"the call `{word}`, which is not of `{self.stream}`")
        found = self.named(word, self.function.owner if owner == "Self" else owner)
        kinds = {clause for it in found if (clause := clause_of(it))}
        if len(kinds) != 1:
            unknown(line, f"the contract of `{word}`")
        kind, label = kinds.pop()
        becomes = {becomes_of(it) for it in [*found, self.function]} - {""}
        if (self.kind, kind) not in OWN_FORMS:
            unknown(line, f"the contract of `{word}`")
        wide, form = self.signed_of(found[0], args), OWN_FORMS[self.kind, kind]
        form = f"made {form}" if len(becomes) > 1 and form.endswith("part") else form
        if wide and form.endswith("part"):
            unknown(line, f"the signed number of `{word}`")
        return self.add(f"signed {form} of {wide}" if wide else form, label, word, name, "", line)

    def named(self, word: str, owner: str) -> list[Function]:
        """Returns the nearest functions of this name: of a type, of a module, or of any owner."""
        wanted = "" if owner.islower() else owner
        for functions in self.functions:
            found = [it for it in functions if it.name == word and (not owner or it.owner == wanted)]
            if found:
                return found
        return []

    def signed_of(self, function: Function, args: list[list[str]]) -> str:
        """Returns the width of a signed number that a function of the crate reads, or writes: then with the number."""
        said = [it for it in function.result if SIGNED.match(it)]
        if said and "Vec" not in function.result:
            return f"w{said[0][1:]}"
        for (_, typed), arg in zip(function.params.items(), args):
            if len(typed) == 1 and SIGNED.match(typed[0]) and len(arg) == 3:
                return f"w{typed[0][1:]} {self.fields}.{arg[2]}"
        return ""

    def arguments(self) -> list[list[str]]:
        """Goes through the arguments of a call, and notes what is known of them; returns their words."""
        before = len(self.pure)
        args = self.list_of_values()
        for it in args:
            if self.is_vector(it):
                self.pure.append(f"c.{self.step_of('deref')}.ensures.value")
        self.rewrites[len(self.calls)] = self.pure[before:]
        return args

    def is_vector(self, said: list[str]) -> bool:
        """Returns true if these words name a field of `self` that is a `Vec`."""
        said = [it for it in said if it not in (".", "&")]
        fields = self.structs.get(self.function.owner, {})
        return len(said) == 2 and said[0] == "self" and fields.get(said[1], [])[:1] == ["Vec"]

    def step_of(self, word: str) -> str:
        """Returns the name of the next step of a call."""
        self.steps[word] += 1
        return word + (f"-{self.steps[word]}" if self.steps[word] > 1 else "")

    def add(self, form: str, fact: str, word: str, name: str, wide: str, line: int) -> int:
        """Adds a call, and returns its place."""
        self.calls.append(Call(form, fact, name or word, self.step_of(word), "end", wide, line))
        return len(self.calls) - 1

    def question(self, last: Last, line: int) -> None:
        """Notes the `?` after the last call."""
        if not isinstance(last, int) or last != len(self.calls) - 1:
            unknown(line, "a `?` behind something that is no call")
        call = self.calls[last]
        self.labels[call.label] += 1
        count = self.labels[call.label]
        self.calls[last] = replace(call, way="?", label=call.label + (f"-{count}" if count > 1 else ""))


def growing(function: Function) -> bool:
    """Returns true if this is the `from_reader` of a type whose read allocates memory."""
    return function.ghosts.get("grows") == ["true"]


def clause_of(function: Function) -> tuple[str, str] | None:
    """Returns the kind of the contract of a function, and the name of the clause, or None."""
    ensured = [(it[2][0], it[1]) for it in function.clauses if it[0] == "ensures" and it[2]]
    known = [it for it in ensured if it[0] in NEXT or it[0] == "GrowingOutcome"]
    return known[0] if len(known) == 1 and (len(ensured) == 1 or known[0][1]) else None


def becomes_of(function: Function) -> str:
    """Returns the error map of a function with errors of its own, or an empty text."""
    own = [it[2] for it in function.clauses if it[0] == "ensures" and it[2][:1] in (["ReadsOwn"], ["GrowsOwn"])]
    return own[0][4] if own and own[0][1:4] == ["R", ".", "source"] else ""


# ---- the contract


def contract(function: Function) -> tuple[str, str, str, str]:
    """Returns the kind of the calls, the reader or writer, the name of the clause, and the lemma around a term."""
    trait = TRAIT.match(function.trait)
    if trait:
        return contract_of_trait(function, trait[1] == "From")
    ensured = [it for it in function.clauses if it[0] == "ensures"]
    found = clause_of(function)
    if not found or len(ensured) != 1 or found[0] not in NEXT:
        unknown(function.line, "a contract that is not one clause, `Reads`, `ReadsOwn`, `GrowsOwn` or `WritesAll`")
    said = ensured[0][2]
    if said[-7:] != [said[-3], ".", "old", "result", said[-3], ".", "new"]:
        unknown(function.line, "a contract that does not end in `READER.old result READER.new`")
    return found[0], said[-3], found[1], ""


def contract_of_trait(function: Function, reads: bool) -> tuple[str, str, str, str]:
    """Returns the same for a function of a trait of the library."""
    plain = function.ghosts.get("becomes") == ["same_error"] and "answers" not in function.ghosts
    if reads and growing(function):
        if "plain_reads" in function.ghosts.get("reads", []):
            unknown(function.line, "`plain_reads` of a type that asks for memory")
        return "GrowsOwn", list(function.params)[0], "reads", ""
    if reads:
        plain = plain and "plain_reads" in function.ghosts.get("reads", [])
        around = "plainly_read" if plain else ""
        return "Reads" if plain else "ReadsOwn", list(function.params)[0], "reads", around
    if not plain:
        unknown(function.line, "a `to_writer` with errors or answers of its own")
    return "WritesAll", next(it for it in function.params if it != "self"), "writes", "plainly_written 5"


def entries_of(folder: str, function: Function) -> str:
    """Returns the definitions in the specs of the crate that the contract names."""
    said = [word for it in function.clauses for word in it[2]] + function.ghosts.get("reads", [])
    paths = sorted(glob.glob(f"{folder}/specs/**/*.antt", recursive=True))
    text = "".join(open(it, encoding="utf-8").read() for it in paths)
    return "".join(it[0] for it in re.finditer(r"^(\S+) [^:\n]*=.*\n(?: .*\n)*", text, re.M) if it[1] in said)


def chosen(functions: list[Function], wanted: str) -> Function:
    """Returns the function with a name of `rt check --only`, of which the trait of an impl may be left out."""
    *parts, name = wanted.split("::")
    owner = "".join(parts)
    found = [it for it in functions if it.name == name and it.owner + it.trait == owner]
    found = found or [it for it in functions if it.name == name and it.owner == owner]
    if len(found) != 1:
        raise Unknown(f"{len(found)} functions are named {wanted}")
    return found[0]


def has_model(path: str, name: str) -> bool:
    """Returns true if contracts see a type of this file by a model."""
    with open(path, encoding="utf-8") as file:
        return bool(name) and f"impl Model for {name} " in file.read()


def functions_near(folder: str, path: str) -> tuple[list[Function], list[Function]]:
    """Returns the functions of the modules that a file imports from, and the functions of the whole crate."""
    with open(path, encoding="utf-8") as file:
        text = file.read()
    modules = set(re.findall(r"^use crate::(\w+)", text, re.MULTILINE))
    found = {it: read_source(it)[0] for it in sorted(glob.glob(f"{folder}/src/**/*.rt", recursive=True))}
    names = {it: os.path.relpath(it, f"{folder}/src").removesuffix(".rt").split(os.sep)[0] for it in found}
    imported = [one for it, functions in found.items() if names[it] in modules for one in functions]
    library = [f"{LIBRARY}/{it}.rt" for it in re.findall(r"^use bitstream_io::(\w+)::", text, re.MULTILINE)]
    imported += [one for it in dict.fromkeys(library) if os.path.exists(it) for one in read_source(it)[0]]
    return imported, [one for functions in found.values() for one in functions]


def answers_of(folder: str, file: str, wanted: str) -> str:
    """Returns the answers of a function with a name of `rt check --only`."""
    path = os.path.join(folder, file)
    functions, structs = read_source(path)
    function = chosen(functions, wanted)
    crate = os.path.basename(os.path.abspath(folder))
    near = [functions, *functions_near(folder, path)]
    kind, stream, field, around = contract(function)
    modeled = kind == "WritesAll" and not around and has_model(path, function.owner)
    around = "rw (← c.self.view_is)" if modeled else around
    answers = Answers(kind, field, around, function.generic)
    body = Body(function, kind, stream, near, structs, modeled)
    calls = body.whole()
    entries = entries_of(folder, function)
    if entries and "const_decoder" not in entries:
        calls = [replace(it, form="alone") if (kind, it.form) == ("Reads", "const") else it for it in calls]
    calls = [replace(it, known=tuple(body.rewrites.get(k, []))) for k, it in enumerate(calls)]
    answers.opened = (body.opened or 0) if modeled else 0
    if kind != "WritesAll":
        params = {it: "".join(typed) for it, typed in function.params.items()}
        answers.signed = {it: f"w{typed[1:]}" for it, typed in params.items() if SIGNED.match(typed)}
    try:
        parts = answers.all(calls)
    except UnknownCall as it:
        raise Unknown(str(it)) from None
    module = re.sub(r"^src/|\.rt$", "", os.path.normpath(file)).split("/")
    module = [] if module == ["lib"] else module
    owner = [function.owner + function.trait] if function.owner else []
    goals = ".".join(["Rattle", crate, "proofs", *module, *owner, function.name, "Goals"])
    return "\n\n".join([answers.uses(goals), *parts])
