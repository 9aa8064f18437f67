"""Reads the functions and the structs of a file of Rattle."""
from __future__ import annotations

import re
from dataclasses import dataclass
from typing import NamedTuple, NoReturn

WORD = re.compile(r"""//[^\n]*|"(?:\\.|[^"\\])*"|'(?:\\.|[^'\\])'|'\w+|\w+|::|->|=>|\S""")
CLOSES = {"(": ")", "[": "]", "{": "}"}
Structs = dict[str, dict[str, list[str]]]  # the fields of each struct, with the words of their types


class Token(NamedTuple):
    """A word, and its line."""

    word: str
    line: int


@dataclass
class Function:
    """A function. Types, clauses and ghosts are lists of words; a clause has its kind, its name and its words."""

    name: str
    owner: str
    trait: str
    generic: bool
    params: dict[str, list[str]]
    clauses: list[tuple[str, str, list[str]]]
    result: list[str]
    body: list[Token]
    ghosts: dict[str, list[str]]
    line: int


class Unknown(Exception):
    """Something that the script does not know, with its line."""


def unknown(line: int, what: str) -> NoReturn:
    """Ends with something that the script does not know."""
    raise Unknown(f"line {line}: this script does not know {what}")


def tokens_of(text: str) -> list[Token]:
    """Returns the words of a source, without its comments."""
    found, line, at = list[Token](), 1, 0
    for it in WORD.finditer(text):
        line, at = line + text.count("\n", at, it.start()), it.start()
        if not it[0].startswith("//"):
            found.append(Token(it[0], line))
    return found


def behind(tokens: list[Token], at: int) -> int:
    """Returns the place after the bracket that closes the one at `at`, which may be `<`."""
    opens = tokens[at].word
    closes, depth = CLOSES.get(opens, ">"), 0
    for place in range(at, len(tokens)):
        depth += (tokens[place].word == opens) - (tokens[place].word == closes)
        if depth == 0:
            return place + 1
    return unknown(tokens[at].line, f"`{opens}` is not closed")


def words(tokens: list[Token]) -> list[str]:
    """Returns the words without their lines."""
    return [it.word for it in tokens]


def split(tokens: list[Token]) -> list[list[Token]]:
    """Splits at the commas outside of brackets."""
    parts, depth = [list[Token]()], 0
    for it in tokens:
        depth += (it.word in "([{<") - (it.word in ")]}>")
        if it.word == "," and depth == 0:
            parts.append([])
        else:
            parts[-1].append(it)
    return [it for it in parts if it]


def named_types(tokens: list[Token]) -> dict[str, list[str]]:
    """Returns the parameters of a function, or the fields of a struct, each with its type."""
    found: dict[str, list[str]] = {}
    for part in split(tokens):
        said = words(part)
        if ":" in said:
            at = said.index(":")
            found[said[at - 1]] = said[at + 1 :]
    return found


def has_type_parameter(tokens: list[Token]) -> bool:
    """Returns true if a list of parameters has one that is not a lifetime."""
    return any(not it[0].word.startswith("'") for it in split(tokens))


def function_at(
    tokens: list[Token], at: int, owner: str, trait: str, generic: bool, ghosts: dict[str, list[str]]
) -> tuple[Function, int]:
    """Returns the function at `fn`, and the place after it."""
    name, line, place = tokens[at + 1].word, tokens[at].line, at + 2
    if tokens[place].word == "<":
        end = behind(tokens, place)
        generic, place = generic or has_type_parameter(tokens[place + 1 : end - 1]), end
    end = behind(tokens, place)
    params, place = named_types(tokens[place + 1 : end - 1]), end
    result: list[str] = []
    clauses: list[tuple[str, str, list[str]]] = []
    while tokens[place].word not in ("{", ";", "requires", "ensures"):
        end = behind(tokens, place) if tokens[place].word in "[(" else place + 1
        result, place = result + words(tokens[place:end]), end
    while tokens[place].word in ("requires", "ensures"):
        opens = next(it for it in range(place, len(tokens)) if tokens[it].word == "{")
        label, end = words(tokens[place + 1 : opens]), behind(tokens, opens)
        clauses.append((tokens[place].word, "".join(label), words(tokens[opens + 1 : end - 1])))
        place = end
    end = behind(tokens, place) if tokens[place].word == "{" else place + 1
    body = tokens[place + 1 : end - 1]
    return Function(name, owner, trait, generic, params, clauses, result, body, ghosts, line), end


def bare(tokens: list[Token]) -> str:
    """Returns the name of a type or a trait as `rt` joins it: `FromError` for `From<Error>`."""
    return "".join(it for it in words(tokens) if re.match(r"[A-Z]\w*", it))


def impl_at(tokens: list[Token], at: int) -> tuple[list[Function], int]:
    """Returns the functions of the impl at `at`, and the place after it."""
    opens = next(it for it in range(at, len(tokens)) if tokens[it].word == "{")
    end, place, generic = behind(tokens, opens), at + 1, False
    ghosts: dict[str, list[str]] = {}
    if tokens[place].word == "<":
        place = behind(tokens, place)
        generic = has_type_parameter(tokens[at + 2 : place - 1])
    head = words(tokens[place:opens])
    cut = place + head.index("for") if "for" in head else None
    trait = bare(tokens[place:cut]) if cut else ""
    owner = tokens[cut + 1 if cut else place].word
    found, place = list[Function](), opens + 1
    while place < end - 1:
        word = tokens[place].word
        if word == "fn":
            one, place = function_at(tokens, place, owner, trait, generic, ghosts)
            found.append(one)
        elif word == "ghost" and tokens[place + 2].word == "=":
            after = behind(tokens, place + 3)
            ghosts[tokens[place + 1].word] = words(tokens[place + 4 : after - 1])
            place = after
        else:
            place = behind(tokens, place) if word in CLOSES else place + 1
    return found, end


def read_source(path: str) -> tuple[list[Function], Structs]:
    """Returns the functions and the structs of a file."""
    tokens, at = tokens_of(open(path, encoding="utf-8").read()), 0
    functions: list[Function] = []
    structs: Structs = {}
    while at < len(tokens):
        word = tokens[at].word
        if word == "impl":
            more, at = impl_at(tokens, at)
            functions += more
        elif word == "fn":
            one, at = function_at(tokens, at, "", "", False, {})
            functions.append(one)
        elif word == "struct":
            opens = next(it for it in range(at, len(tokens)) if tokens[it].word in "{(;")
            end = behind(tokens, opens) if tokens[opens].word == "{" else opens + 1
            structs[tokens[at + 1].word] = named_types(tokens[opens + 1 : end - 1])
            at = end
        else:
            at = behind(tokens, at) if word in CLOSES else at + 1
    return functions, structs
