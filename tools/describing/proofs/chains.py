"""The answers of a function whose body reads or writes bits by calls one after another: a term for each call."""
from __future__ import annotations

import re
from dataclasses import dataclass, replace

from describing.text import COLUMNS, filled

Table = dict[str, dict[str, str]]
# What contracts see of the value that a function writes. It is known once a field was taken.
VIEW = "(← c.self.view_is)"


@dataclass(eq=False)
class Call:
    """A call of a body.

    `fact` names the clause of the called function; `label` is the name of the call after `in_ok-`, and `step` its own.
    `way` is `?` if that follows the call, and `end` if the call ends the body. `wide` is the width of a signed type.
    `known` are the equations that rewrite the clause. `line` is the line of the source, or 0.
    """

    form: str
    fact: str
    label: str
    step: str
    way: str = "?"
    wide: str = ""
    line: int = 0
    known: tuple[str, ...] = ()


def without_view(call: Call) -> Call:
    """Returns a call before any field of the value was taken."""
    return replace(call, known=tuple(it for it in call.known if it != VIEW))


class UnknownCall(Exception):
    """A call that no table has."""

    def __init__(self, line: int, what: str) -> None:
        super().__init__(f"line {line}: this script does not know {what}")


# The term for a call, by the kind of the contract and the form of the call: a lemma, with blanks as many as a number says,
# the clause of the call as FACT, the result of its `?` as RESIDUAL, and the width of its type as WIDE. A search finds that
# a signed number fits its type: for a number that was read, in what is known of its call, ARM. A constant without an entry
# in the contract is a read by itself (`alone`), which gives nothing.
READ_FITS, FITS = "(search (sfits_of, ARM))", "(search sfits_of)"
# For a call that succeeded: the term of the calls after it follows.
NEXT: Table = {
    "Reads": {
        "read": "Reads-and_then-ok 2 FACT",
        "const": "next_const 5 FACT",
        "alone": "Reads-and_then-ok 2 (const_alone 6 FACT refl refl refl)",
        "signed": f"next_signed_read 4 FACT {READ_FITS}",
        "signed read of": f"next_signed_part 1 WIDE FACT {READ_FITS}",
    },
    "ReadsOwn": {
        "read": "next_own_read 1 FACT",
        "const": "next_own_const 2 FACT",
        "signed": f"then_own_signed 4 FACT refl refl {READ_FITS}",
        "signed read of": f"next_own_signed_part 1 WIDE FACT {READ_FITS}",
        "part": "then_part 1 FACT refl refl",
        "made part": "then_part 1 (own_made 1 (Ok 1) FACT (λ error is. absurd is)) refl refl",
    },
    "GrowsOwn": {
        "read": "go_grown 1 (grown FACT)",
        "growing": "go_grown 1 (vec-grown 2 FACT)",
        "grown": "go_grown 1 FACT",
        "const": "next_grown_const 2 FACT",
        "signed": f"next_grown_signed 1 WIDE FACT {READ_FITS}",
        "signed read of": f"next_grown_signed 1 WIDE FACT {READ_FITS}",
        "part": "part_go 1 (if_grown false FACT)",
        "made part": "part_go 1 (if_grown false (own_made 1 (Ok 1) FACT (λ error is. absurd is)))",
        "growing part": "part_go 1 FACT",
        "made growing part": "part_go 1 (grown_made 1 (Ok 1) FACT (λ error is. absurd is))",
    },
    "WritesAll": {
        "call": "next_call 7 FACT",
        "value": "next_write 7 FACT",
        "list": "all_append 7 FACT",
        "signed list of": f"all_append 7 (rw (to_z-of_z WIDE {FITS}) at FACT)",
        "signed value of": f"next_write 7 (rw (to_z-of_z WIDE {FITS}) at FACT)",
        "signed call": f"next_signed_call 7 WIDE 3 FACT {FITS}",
        "signed value": f"next_signed 7 WIDE 3 FACT {FITS}",
    },
}
# For a call that failed.
STOP: Table = {
    "Reads": {
        "read": "exit 2 RESIDUAL FACT",
        "const": "exit_const 5 RESIDUAL FACT refl refl",
        "alone": "exit 2 RESIDUAL (const_alone 6 FACT refl refl refl)",
        "signed read of": "exit 2 RESIDUAL FACT",
    },
    "ReadsOwn": {
        "read": "exit_own_read 1 RESIDUAL FACT",
        "const": "exit_own_const 2 RESIDUAL FACT refl",
        "part": "end_part 1 FACT refl refl RESIDUAL",
        "made part": "end_part 1 (own_made 1 (Err 1) FACT (λ error is. rw is refl)) refl refl RESIDUAL",
        "signed read of": "exit_own_read 1 RESIDUAL FACT",
    },
    "GrowsOwn": {
        "read": "stop_grown 1 (grown FACT) RESIDUAL",
        "growing": "stop_grown 1 (vec-grown 2 FACT) RESIDUAL",
        "grown": "stop_grown 1 FACT RESIDUAL",
        "const": "exit_grown_const 2 RESIDUAL FACT refl",
        "signed read of": "stop_grown 1 (grown FACT) RESIDUAL",
        "part": "part_stop 1 (if_grown false FACT) (is_error 2 RESIDUAL)",
        "made part": "part_stop 1 (if_grown false (own_made 1 (Err 1) FACT (λ error is. rw is refl)))"
        " (is_error 2 RESIDUAL)",
        "growing part": "part_stop 1 FACT (is_error 2 RESIDUAL)",
        "made growing part": "part_stop 1 (grown_made 1 (Err 1) FACT (λ error is. rw is refl)) (is_error 2 RESIDUAL)",
    },
    "WritesAll": {
        "call": "stop_call 7 RESIDUAL FACT",
        "value": "stop_write 7 RESIDUAL FACT",
        "list": "all_stop 7 (is_error 2 RESIDUAL) FACT",
        "signed list of": f"all_stop 7 (is_error 2 RESIDUAL) (rw (to_z-of_z WIDE {FITS}) at FACT)",
        "signed value of": f"stop_write 7 RESIDUAL (rw (to_z-of_z WIDE {FITS}) at FACT)",
        "signed call": f"stop_signed_call 7 WIDE 3 RESIDUAL FACT {FITS}",
        "signed value": f"stop_signed 7 WIDE 3 RESIDUAL FACT {FITS}",
    },
}
# For the last call, whose result the function returns.
LAST: Table = {
    "Reads": {"read": "FACT"},
    "ReadsOwn": {"part": "FACT"},
    "GrowsOwn": {"growing part": "FACT"},
    "WritesAll": {
        "call": "all_one 5 FACT",
        "value": "FACT",
        "list": "FACT",
        "signed value": f"signed_value 4 WIDE 4 FACT {FITS}",
    },
}
# For a test of a `bool`: the reads if it holds, and if not.
TESTS = {
    "Reads": ("if_read 3", "else_read 3"),
    "ReadsOwn": ("if_own 3", "else_own 3"),
    "GrowsOwn": ("if_growing 3", "else_growing 3"),
}
# For an `Ok` after the last call.
END = {"Reads": "Reads-pure 2", "ReadsOwn": "own_end 2", "GrowsOwn": "grown_end 2", "WritesAll": "all_none 2"}
# The clause of a part that has no error of its own, as plain reads or writes.
PLAINLY = {"Reads": "(read_plainly 5 FACT)", "WritesAll": "(written_plainly 5 FACT)"}
# The modules of the lemmas, in the order of their imports, and shorter names for some lemmas.
CALLER = "Rattle.bitstream_io.proofs."
LEMMAS = {
    "borrow.Author.Rules": "sfits_of",
    "Rattle.std.proofs.Common": "◌∙◌ refl false Ok Err w8 w16 w32 w64",
    "Rattle.std.specs.Int": "w128",
    "Rattle.std.proofs.lemmas.Bool": "eq-eqb ne_eqb le-leb",
    CALLER + "CallerLemmas": "next_signed_part next_own_signed_part if_read else_read own_made"
    " const_alone next_const exit_const next_own_read next_own_const exit_own_read"
    " exit_own_const next_grown_signed next_grown_const exit_grown_const if_growing else_growing",
    CALLER + "EachLemmas": "grown_made",
    CALLER + "GrowsLemmas": "go_grown stop_grown grown if_grown vec-grown part_go part_stop grown_end",
    CALLER + "OwnLemmas": "is_error plainly_read plainly_written read_plainly written_plainly",
    CALLER + "OwnSteps": "if_own else_own then_own_signed then_part end_part own_end",
    CALLER + "ReadSteps": "next_signed_read",
    "Rattle.std.proofs.lemmas.Int": "to_z-of_z",
    CALLER + "ReadsLemmas": "Reads-and_then-ok Reads-pure exit",
    "Rattle.bitstream_format.proofs.WithinLemmas": "size-wrote",
    "Rattle.bitstream_format.proofs.StatedLemmas": "stored-wrote",
    "Rattle.bitstream_format.proofs.InGroupsLemmas": "grouped-wrote above-leb",
    CALLER + "WriteParts": "all_append all_none all_one all_stop",
    CALLER + "WriteSteps": "next_call next_write next_signed next_signed_call stop_call stop_write stop_signed"
    " stop_signed_call signed_value",
}
SHORT = {
    "Reads-and_then-ok": "next",
    "next_own_read": "next",
    "next_own_const": "next_const",
    "exit_own_read": "exit",
    "exit_own_const": "exit_const",
}


class Answers:
    """The answers of a function, with the lemmas that they name."""

    def __init__(self, kind: str, field: str, around: str, generic: bool) -> None:
        self.kind, self.field, self.around, self.args = kind, field, around, "g c" if generic else "c"
        self.used: set[str] = set()
        self.opened = 0  # the first call whose terms are inside `around`
        self.signed: dict[str, str] = {}  # the signed numbers that a reading function takes, and their widths

    def term(self, said: str, **meant: str) -> str:
        """Returns a term from the words of the tables."""
        return re.sub(r"[^\s(),]+", lambda it: self.word(it[0], meant), said)

    def word(self, word: str, meant: dict[str, str]) -> str:
        """Returns a word of a term, and notes a lemma."""
        if word.isdigit():
            return " ".join("_" * int(word))
        if any(word in names.split() for names in LEMMAS.values()):
            self.used.add(word)
        return meant.get(word, "") or SHORT.get(word, word)

    def of_call(self, call: Call, table: Table, arm: str, residual: str = "") -> str:
        """Returns the term for a call: `arm` is `in_ok-x` or `in_err-x`, or the step of the call."""
        part = call.form == "part" and self.kind in PLAINLY
        form = ("list" if self.kind == "WritesAll" else "read") if part else call.form
        form, _, wide = form.partition(" of ")
        form += " of" if wide else ""
        if call.wide and (self.kind == "WritesAll" or table is not STOP):
            form = f"signed {form}" if self.kind == "WritesAll" else "signed"
        if form not in table[self.kind]:
            where = "as the last call" if table is LAST else f"in `{self.kind}`"
            raise UnknownCall(call.line, f"`{call.step}` {where}")
        fact = f"c.{arm}.ensures" + (f".{call.fact}" if call.fact else "")
        for known in call.known:
            if known.startswith(("size-wrote", "stored-wrote", "grouped-wrote")):
                self.used.add(known.split()[0])
                fact = f"({known} {fact})"
                continue
            fact = f"(rw {known} at {fact})"
            self.used |= {"◌∙◌"} if "∙" in known else set()
        if table is LAST and self.signed:
            fact = f"(rw ({self.known_signed()}) at {fact})"
        fact = self.term(PLAINLY[self.kind], FACT=fact) if part else fact
        wide = wide or call.wide
        if "WIDE" in table[self.kind][form]:
            self.word(wide.split(" ")[0], {})
        return self.term(table[self.kind][form], ARM=f"c.{arm}", FACT=fact, RESIDUAL=residual, WIDE=wide)

    def answer(self, goal: str, terms: list[str], around: bool = True) -> str:
        """Returns one answer: each term but the last takes the next one."""
        terms = [self.term(self.around), *terms] if self.around and around else terms
        *front, last = terms
        if front and " " not in last:
            front[-1], last = f"{front[-1]} {last}", ""
        text = " (".join([*front, last] if last else front) + ")" * (len(front) - (not last))
        return f"pub {goal} : goal.{goal}\n" + self.laid_out(f"{goal} {self.args} =", text)

    def laid_out(self, head: str, text: str) -> str:
        """Returns a term after its head, broken into lines."""
        if not self.field:
            return filled(f"{head} {text}", 4)
        line = f"{head} record {{ {self.field} = {text} }}"
        return line if len(line) <= COLUMNS else f"{head} record {{\n" + filled(f"  {self.field} = {text};", 6) + "\n}"

    def all(self, calls: list[Call]) -> list[str]:
        """Returns the answers in order: at each `?`, and at the end."""
        found, front, early = list[str](), list[str](), list[str]()
        last = calls[-1] if calls and calls[-1].way == "end" else None
        stops = 0
        for k, call in enumerate(calls[: -1 if last else None]):
            if call.form in ("if", "most"):
                holds, fails = TESTS[self.kind][::-1] if call.wide else TESTS[self.kind]
                at = f"c.if-{call.label}"
                true, false = f"{at}.true", f"{at}.false"
                if call.form == "most":  # with a greatest value
                    true, false = self.term(f"(above-leb 2 {true})"), self.term(f"(le-leb 2 {false})")
                if call.known:  # numbers are compared
                    true, false = f"(ne_eqb 2 {self.knowing(call, true)})", f"(eq-eqb 2 {self.knowing(call, false)})"
                ends = [self.term(f"{holds} {true}"), self.term(END[self.kind])]
                found.append(self.answer(f"returns-then-{call.label}", front + ends))
                front = front + [self.term(f"{fails} {false}")]
                continue
            if call.way == "?":
                arm = f"in_err-{call.label}"
                residual = f"c.from_residual{f'-{arm}' if stops else ''}.ensures.1"
                stops += 1
                inside = k >= self.opened
                stop = self.of_call(call if inside else without_view(call), STOP, arm, residual)
                found.append(self.answer(f"returns-{arm}", [*(front if inside else early), stop], inside))
            arm = f"in_ok-{call.label}" if call.way else call.step
            early = [*early, self.of_call(without_view(call), NEXT, arm)]
            front = [*front, self.of_call(call, NEXT, arm)]
        if not last and self.signed:
            front = front + [f"rw ({self.known_signed()})"]
        end = self.of_call(last, LAST, last.step) if last else self.term(END[self.kind])
        return found + [self.answer("returns", front + [end])]

    def knowing(self, call: Call, fact: str) -> str:
        """Returns a fact, rewritten by what is known of the arguments of a call."""
        for it in call.known:
            fact = f"(rw {it} at {fact})"
        return fact

    def known_signed(self) -> str:
        """Returns that the signed numbers that a reading function takes are the values of their bits."""
        for it, wide in self.signed.items():
            self.used |= {"to_z-of_z", "sfits_of", wide}
        return ", ".join(f"to_z-of_z {wide} c.args.{it} (search sfits_of)" for it, wide in self.signed.items())

    def uses(self, goals: str) -> str:
        """Returns the imports."""
        lines = []
        for module, names in LEMMAS.items():
            named = [f"{it} as {SHORT[it]}" if it in SHORT else it for it in names.split() if it in self.used]
            lines += [f"use {module}.{{{', '.join(named)}}}"] if named else []
        return "\n".join([*lines, f"use {goals} as goal"])
