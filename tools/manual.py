"""The man page of `bitfields`, from docs/PROGRAM.md, and the completions of the commands, from their help texts."""
from __future__ import annotations

import os
import re
import subprocess
from dataclasses import dataclass

# The letters of a column that is not the last one.
COLUMN = 22
ROOT = os.path.dirname(os.path.dirname(os.path.abspath(__file__)))


@dataclass
class Command:
    """The words of a command, each with its meaning: commands, and options with the name of their value, if any."""

    name: str
    commands: dict[str, str]
    options: dict[str, tuple[str, str]]


def help_of(name: str, *words: str) -> str:
    """Returns the help text of a command."""
    ran = subprocess.run([f"{ROOT}/{name}", *words, "--help"], capture_output=True, text=True, check=True)
    return ran.stdout


def first(text: str) -> str:
    """Returns the first sentence, without its full stop."""
    return re.split(r"[.;:] ", f"{text} ")[0].rstrip(". ")


def options_in(text: str) -> dict[str, tuple[str, str]]:
    """Returns the options of a help text: each begins a line, before two blanks and its meaning."""
    found: dict[str, tuple[str, str]] = {}
    option = r"--[a-z-]+(?: [A-Z]+)*"
    for words, meaning in re.findall(rf"^  ({option}(?:, {option})*) +([a-z].*)$", text, re.MULTILINE):
        for word in re.findall(option, words):
            name, *values = word.split()
            found[name] = (" ".join(values), first(meaning))
    return found


def commands() -> list[Command]:
    """Returns the commands, as their help texts have them."""
    text = help_of("bitfields")
    fields = dict(re.findall(r"bitfields ([a-z]+) be\|le LAYOUT +(.*)$", text, re.MULTILINE))
    own = {name: ("", first(it)) for name, it in re.findall(r"bitfields (--[a-z]+) +(.*)$", text, re.MULTILINE)}
    usage = dict(re.findall(r"\./format (--[a-z]+) DESCRIPTION .*?  +(.*)$", help_of("format"), re.MULTILINE))
    uses = {name: ("", first(it)) for name, it in usage.items()}
    reads = help_of("formats")
    units = dict(re.findall(r"^  ([a-z][a-z0-9-]+) +(\S.*)$", reads, re.MULTILINE))
    more = {"--help": ("", "prints the help"), "--version": ("", "prints the version")}
    return [
        Command("bitfields", fields, own),
        Command("format", {}, uses | options_in(help_of("format", "--show")) | {"--help": more["--help"]}),
        Command("formats", {name: first(it) for name, it in units.items()}, options_in(reads) | more),
    ]


# ---- completions


def bash(it: Command) -> str:
    """Returns the completion of a command for bash."""
    words = " ".join([*it.commands, *it.options])
    lines = ["local word=${COMP_WORDS[COMP_CWORD]}", "COMPREPLY=()"]
    if it.name == "bitfields":
        lines += [
            "case $COMP_CWORD in",
            f'  1) COMPREPLY=($(compgen -W "{words}" -- "$word")) ;;',
            '  2) COMPREPLY=($(compgen -W "be le" -- "$word")) ;;',
            "esac",
        ]
    else:
        first_word = f"[[ $word == -* ]]{' || ((COMP_CWORD == 1))' * bool(it.commands)}"
        lines.append(f'if {first_word}; then COMPREPLY=($(compgen -W "{words}" -- "$word")); fi')
    body = "\n".join(f"  {line}" for line in lines)
    files = "" if it.name == "bitfields" else "-o default "
    return (
        f"# Completion of `{it.name}` for bash. Printed by .ci/manual from its help text.\n"
        f"_bitstream_{it.name}() {{\n{body}\n}}\ncomplete {files}-F _bitstream_{it.name} {it.name}\n"
    )


def quoted(text: str) -> str:
    """Returns a text for zsh, in single quotes; brackets and colons would have a meaning there."""
    text = re.sub(r"([\[\]:])", r"\\\1", text)
    return "'" + text.replace("'", "'\\''") + "'"


def zsh(it: Command) -> str:
    """Returns the completion of a command for zsh."""
    lines = [f"#compdef {it.name}", f"# Completion of `{it.name}` for zsh. Printed by .ci/manual from its help text."]
    specs = []
    for name, (values, meaning) in it.options.items():
        asked = "".join(f":{value}:{'_files' if value == 'OTHER' else ' '}" for value in values.split())
        specs.append(f"'{name}[{quoted(meaning)[1:-1]}]{asked}'")
    if it.commands:
        lines += [
            "local -a commands=(",
            *(f"  {quoted(name)[:-1]}:{quoted(text)[1:]}" for name, text in it.commands.items()),
            ")",
        ]
        specs.append("'1:command:{_describe command commands}'")
    specs.append("'2:order:(be le)'" if it.name == "bitfields" else "'*:file:_files'")
    return "\n".join([*lines, "_arguments \\", " \\\n".join(f"  {spec}" for spec in specs)]) + "\n"


# ---- the man page


def inline(text: str) -> str:
    """Returns a line of the page: links in parentheses are left out, and code is bold."""
    text = re.sub(r" \(\[[^]]*\]\([^)]*\)\)", "", text.replace("\\", "\\e"))
    parts = [it.replace("-", "\\-") for it in text.replace("./bitfields", "bitfields").split("`")]
    found = "".join(f"\\fB{it}\\fR" if k % 2 else it for k, it in enumerate(parts))
    return f"\\&{found}" if found[:1] in (".", "'") else found


def table(rows: list[str]) -> list[str]:
    """Returns a table for tbl: a heading, and cells that fill their column if it is long."""
    cells = [[it.strip() for it in row.strip().strip("|").split("|")] for row in rows]
    head, body = cells[0], cells[2:]
    long = [max(map(len, column)) > COLUMN for column in zip(*body)][:-1]
    out = [".na", ".TS", " ".join(["lb"] * len(head))]
    out += [" ".join([*(f"lw({COLUMN}n)" if it else "l" for it in long), "lx"]) + ".", "\t".join(map(inline, head))]
    for row in body:
        filled = [f"T{{\n{inline(it)}\nT}}" if wide else inline(it) for it, wide in zip(row, [*long, True])]
        out.append("\t".join(filled))
    return [*out, ".TE", ".ad"]


def page(text: str) -> str:
    """Returns the man page of a page of docs."""
    usage = re.findall(r"(bitfields [a-z-]+ .*?)  +", help_of("bitfields").split("It reads")[0])
    out = ["'\\\" t", '.\\" Printed by .ci/manual from docs/PROGRAM.md.', '.TH BITFIELDS 1 "" "" "User Commands"']
    out += [".SH NAME", "bitfields \\- pack decimal values into bit fields, and unpack them", ".SH SYNOPSIS", ".nf"]
    out += [inline(it) for it in usage] + [".fi"]
    out.append(".SH DESCRIPTION")
    out += [line for it in text_blocks(text) for line in block(it)]
    return "\n".join(out) + "\n"


def text_blocks(text: str) -> list[str]:
    """Returns the blocks of a page: they are apart by empty lines. How the script runs in the repository is left out."""
    blocks = re.split(r"\n\n+", text.strip())
    return [it for it in blocks[1:] if not it.startswith(("`./bitfields", "## How to run it"))]


def block(text: str) -> list[str]:
    """Returns the lines of a block."""
    if text.startswith("## "):
        return [f".SH {inline(text[3:].upper())}"]
    if text.startswith("|"):
        return table(text.split("\n"))
    if text.startswith("```"):
        code = [it.replace("\\", "\\e").replace("./bitfields", "bitfields") for it in text.split("\n")[1:-1]]
        return [".PP", ".RS", ".nf", *(it.replace("-", "\\-") for it in code), ".fi", ".RE"]
    return [".PP", *map(inline, text.split("\n"))]


def files() -> dict[str, str]:
    """Returns the texts by their paths."""
    with open(f"{ROOT}/docs/PROGRAM.md", encoding="utf-8") as file:
        found = {"docs/made/bitfields.1": page(file.read())}
    for it in commands():
        found |= {f"tools/completion/{it.name}.bash": bash(it), f"tools/completion/_{it.name}": zsh(it)}
    return found
