"""Counts the instructions of workloads by callgrind, and prints the counts of all sides beside each other."""
import os
import re
import subprocess
import sys
from collections.abc import Mapping
from concurrent.futures import ThreadPoolExecutor
from dataclasses import dataclass
from pathlib import Path

from tables import mean

# What a failed call returns, and a function that the library lacks.
FAILED = str(2**64 - 1)
# How the function of a workload is named on each side.
SYMBOLS = {"orig": "orig_{}", "port": "bench_{}", "slice": "bench_{}_slice", "over": "bench_{}_over"}
PORTS = ("port", "slice", "over")
# Functions that make a tree, and its table or its code words, or a buffer, before the first item.
MAKING = ("read_code", "write_code", "write_indexed", "read_buffered", "write_buffered")


@dataclass(frozen=True)
class Workload:
    """A workload, as the benchmark's program lists it."""

    name: str
    function: str
    items: int
    sides: tuple[str, ...]

    def is_read(self) -> bool:
        return self.function.startswith("read_") or self.function == "skip"


@dataclass(frozen=True)
class Run:
    """A run of one side: callgrind's events, the number of items, and the result, which includes the written bytes."""

    events: tuple[int, ...]
    items: int
    result: str


@dataclass(frozen=True)
class Count:
    """What an item takes on one side: instructions and mispredicted branches.

    `making` has the instructions before the first item, which are not in `instructions`, if they are counted.
    """

    instructions: float
    mispredicted: float
    result: str
    making: int = 0


Counts = Mapping[str, Count | None]
# Of each workload, the ratio of each side to the Rust crate.
Ratios = dict[str, dict[str, float]]


def listed(text: str) -> list[Workload]:
    """Reads the program's list of workloads."""
    lines = (line.split("\t") for line in text.splitlines())
    return [Workload(name, function, int(items), tuple(sides.split())) for name, function, items, sides in lines]


def run_of(log: str, output: str) -> Run:
    """Reads a run from callgrind's log and the program's output."""
    collected = re.search(r"Collected : ([\d ]+)", log)
    printed = re.search(r"items (\d+) answer (\d+)", output)
    if not collected or not printed:
        raise ValueError("callgrind counted nothing")
    return Run(tuple(int(event) for event in collected[1].split()), int(printed[1]), printed[2])


def count_of(all_items: Run, no_items: Run | None = None) -> Count | None:
    """Returns what an item takes, without what a run of no items takes; none if the function is missing."""
    if all_items.result == FAILED:
        return None
    making = no_items.events if no_items else (0,) * len(all_items.events)
    # Instructions; with --branch-sim conditional branches and their mispredictions, then the same of indirect branches.
    events = [(event - made) / all_items.items for event, made in zip(all_items.events, making)]
    return Count(events[0], sum(events[2::2]), all_items.result, making[0])


def run(program: Path, workload: Workload, side: str, items: int, branches: bool) -> Run:
    """Runs one side of a workload in a process of its own, and counts only its function."""
    command = ["valgrind", "--tool=callgrind", "--callgrind-out-file=/dev/null"]
    command += ["--branch-sim=yes"] if branches else []
    command += ["--toggle-collect=" + SYMBOLS[side].format(workload.function), str(program)]
    command += ["--single", side, workload.name, "--items", str(min(items, workload.items))]
    done = subprocess.run(command, capture_output=True, text=True, check=False)
    try:
        return run_of(done.stderr, done.stdout)
    except ValueError:
        sys.exit(f"callgrind failed on {side} {workload.name}:\n{done.stderr[-600:]}")


def count(program: Path, workload: Workload, side: str, items: int, branches: bool) -> Count | None:
    """Counts what an item of one side of a workload takes."""
    no_items = run(program, workload, side, 0, branches) if workload.function in MAKING else None
    return count_of(run(program, workload, side, items, branches), no_items)


def differing(counts: Counts) -> list[str]:
    """Returns the sides whose result is not that of the first side."""
    there = {side: it for side, it in counts.items() if it}
    wanted = next((it.result for it in there.values()), None)
    return [side for side, it in there.items() if it.result != wanted]


def ratios(counts: Counts) -> dict[str, float]:
    """Returns the ratio of each side to the Rust crate, if both have the function and return the same."""
    original, wrong = counts.get("orig"), differing(counts)
    found = {side: counts.get(side) for side in PORTS if side not in wrong}
    return {side: it.instructions / original.instructions for side, it in found.items() if it and original}


def head(branches: bool) -> str:
    """Returns the heads of the columns."""
    line = f"{'workload':30} {'orig Ir/item':>14} {'port Ir/item':>14} {'ratio':>8} {'over its own':>14} {'ratio':>8}"
    line += f" {'by over':>14} {'ratio':>8}"
    return line + (f" {'mispredicted: orig':>20} {'port':>7} {'own':>7} {'over':>7}" if branches else "")


def row(workload: Workload, counts: Counts, branches: bool) -> str:
    """Returns a workload's line."""
    original, found = counts.get("orig"), ratios(counts)
    line = f"{workload.name:30} {f'{original.instructions:.1f}' if original else '':>14}"
    for side in PORTS:
        it = counts.get(side)
        number = f"{it.instructions:.1f}" if it else "not there" if side in counts else ""
        line += f" {number:>14} {f'{found[side]:.3f}' if side in found else '':>8}"
    if branches:
        guesses = [f"{it.mispredicted:.2f}" if (it := counts.get(side)) else "" for side in ("orig", *PORTS)]
        line += f" {guesses[0]:>20}" + "".join(f" {it:>7}" for it in guesses[1:])
    port = counts.get("port")
    line = line.rstrip() + (f"  before the first item: {port.making}" if port and port.making else "")
    wrong = differing(counts)
    return line + (f"  THE RESULTS OR BYTES DIFFER ({', '.join(wrong)})" if wrong else "")


def means(workloads: list[Workload], found: Ratios) -> list[str]:
    """Returns the lines of geometric means, for reads and for writes on each side."""
    lines = []
    for side, reads, writes in (("port", "&[u8]", "&mut [u8]"), ("slice", "Slice", "SliceMut"), ("over", "over", "")):
        for is_read, said in ((True, f"read from {reads}"), (False, f"written to {writes}")):
            kept = [found[it.name][side] for it in workloads if it.is_read() == is_read and side in found[it.name]]
            if kept:
                lines.append(f"{said}: workloads {len(kept)}, geometric mean {mean(kept):.3f}, worst {max(kept):.3f}")
    return lines


def measure(program: Path, only: str, items: int, branches: bool) -> tuple[list[Workload], Ratios, bool]:
    """Counts each workload whose name has the text, and prints its line. Also returns whether all results are equal."""
    text = subprocess.run([program, "--list"], capture_output=True, text=True, check=True).stdout
    workloads = [it for it in listed(text) if only in it.name]
    found: Ratios = {}
    equal = True
    print(head(branches))
    # Counts repeat whatever else runs: so there is a run for each processor.
    with ThreadPoolExecutor(os.cpu_count()) as pool:
        running = [
            (workload, {side: pool.submit(count, program, workload, side, items, branches) for side in workload.sides})
            for workload in workloads
        ]
        for workload, sides in running:
            counts = {side: it.result() for side, it in sides.items()}
            print(row(workload, counts, branches), flush=True)
            found[workload.name] = ratios(counts)
            equal = equal and not differing(counts)
    print("\n".join(means(workloads, found)))
    return workloads, found, equal
