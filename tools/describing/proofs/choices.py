"""The answers of the functions of a choice."""
from __future__ import annotations

from describing import model as m
from describing.layout import Format, Line, head_bits, is_open
from describing.model import snake
from describing.proofs.calls import GROWING, Labels, becomes, contract, own_read, part_contract
from describing.proofs.chains import END, NEXT, STOP, TESTS, Answers, Call
from describing.specs.choices import called, module, pattern
from describing.specs.terms import here

Printed = dict[str, list[str]]


def number_answers(f: Format, kind: m.Choose) -> list[str]:
    """Returns the answers of the function from a case to its number."""
    out = [f"use {f.goals}.{kind.type}.number.Goals as goal"]
    for arm in kind.arms:
        goal = f"returns-in-{arm.case}"
        known = f"c.in-{arm.case}.is"
        if isinstance(arm.held, m.Octet):  # by the model of its bytes
            known = f"({known}, ← c.it.view_is)"
        out += ["", f"pub {goal} : goal.{goal}", f"{goal} c = rw {known} refl"]
    return out


def unnamed_answers(f: Format, kind: m.Choose) -> dict[str, str]:
    """Returns the answers of the read and the write of another number with the bytes after it."""
    goals = f"{f.goals}.{kind.unnamed}"
    read, write = Answers(GROWING, "", "", True), Answers("WritesAll", "", "rw (← c.self.view_is)", True)
    reads = read.all([Call("growing", "reads", "bytes", "")])
    call = Call("call", "writes", "write_bytes", "", known=("c.deref.ensures.value",))
    writes = write.all([call])
    made = f"-- {f.made}\n"
    return {
        f"{kind.unnamed}/read": "\n\n".join([made + read.uses(f"{goals}.read.Goals"), *reads]),
        f"{kind.unnamed}/write": "\n\n".join([made + write.uses(f"{goals}.write.Goals"), *writes]),
    }


def write_answers(f: Format, line: Line, kind: m.Choose) -> list[str]:
    """Returns the answers of the function that writes a case: those of the cases that hold no part."""
    out = [f"use {f.goals}.{kind.type}.write.Goals as goal"]
    for arm, part in line.arms:
        goal = f"returns-in-{arm.case}"
        if not arm.held:
            out += ["", f"pub {goal} : goal.{goal}", f"{goal} g c = rw c.in-{arm.case}.is (all_none _ _)"]
    return out


def answers(f: Format, line: Line, kind: m.Choose) -> Printed:
    """Returns the answers of the functions of a choice, except its read."""
    if len(kind.arms) == 1:  # a search finds the number
        return {} if kind.arms[0].held else {f"{kind.type}/write": alone_answers(f, kind)}
    found = {f"{kind.type}/number": number_answers(f, kind)}
    write = write_answers(f, line, kind)
    return found | ({f"{kind.type}/write": write} if len(write) > 1 else {})


def alone_answers(f: Format, kind: m.Choose) -> list[str]:
    """Returns the answers of the function that writes the only case, which holds no part."""
    s, case = snake(kind.type), pattern(kind, kind.arms[0])
    out = [f"use {f.goals}.{kind.type}.write.Goals as goal", ""]
    out += [f"alone : (o : Order) (it : {kind.type}) → {s}_writes o it ≡ []", f"alone o {case} = refl", ""]
    return [*out, "pub returns : goal.returns", "returns g c = rw (alone _ c.args.self.now) (all_none _ _)"]


def read_contract(f: Format, line: Line) -> str:
    """Returns the contract of the read of a choice."""
    return GROWING if m.allocates(line.kind) else contract(line.error, False)


def read_answers(f: Format, line: Line, kind: m.Choose) -> str:
    """Returns the answers of the read: of each case after the tests of the cases before it."""
    answers, labels, steps = Answers(read_contract(f, line), "", "", True), Labels(), Labels()
    found, front = list[str](), list[str]()
    for arm, part in line.arms[: len(kind.tested)]:
        label = f"number-eq{arm.number}"
        holds, fails = (answers.term(it) for it in TESTS[answers.kind])
        is_it = f"{holds} (eq-eqb _ {arm.number} c.if-{label}.true)"
        found += case_answers(f, answers, labels, steps, [*front, is_it], f"returns-then-{label}", part)
        front.append(f"{fails} (ne_eqb _ {arm.number} c.if-{label}.false)")
        answers.used |= {"eq-eqb", "ne_eqb"}
    last = None if kind.unknown else line.arms[-1][1]
    if kind.unnamed:
        found += arm_answers(answers, labels, front, "returns", "growing part")
    else:
        found += case_answers(f, answers, labels, steps, front, "returns", last)
    goals = f"{f.goals}.{kind.type}.read.Goals"
    return "\n\n".join([f"-- {f.made}\n{answers.uses(goals)}", *found])


def case_answers(
    f: Format, answers: Answers, labels: Labels, steps: Labels, front: list[str], goal: str, part: Line | None
) -> list[str]:
    """Returns the answers of one case: its part may be refused, and else the read ends."""
    if not part or not part.use:
        return [answers.answer(goal, [*front, answers.term(END[answers.kind])])]
    use = part.use
    form = own_read(f, part_contract(use), becomes(use.description.error, use.module))
    known = (f"c.{after_label(steps, goal)}.ensures",) if is_open(use) and head_bits(use.description) else ()
    return arm_answers(answers, labels, front, goal, form, known)


def after_label(steps: Labels, goal: str) -> str:
    """Returns the name of the call that counts the bytes of a rest: of a later one with the test before it."""
    label = steps.next("bytes_after")
    return f"bytes_after-{goal.removeprefix('returns-')}" if label != "bytes_after" and goal != "returns" else label


def arm_answers(
    answers: Answers, labels: Labels, front: list[str], goal: str, form: str, known: tuple[str, ...] = ()
) -> list[str]:
    """Returns the answers of a case whose read has this form."""
    end, arm = answers.term(END[answers.kind]), labels.next("read")
    call = Call(form, "", arm, arm, known=known)
    residual = f"c.from_residual{f'-in_err-{arm}' * (arm != 'read')}.ensures.1"
    stop = answers.of_call(call, STOP, f"in_err-{arm}", residual)
    go = answers.of_call(call, NEXT, f"in_ok-{arm}")
    return [answers.answer(f"returns-in_err-{arm}", [*front, stop]), answers.answer(goal, [*front, go, end])]
