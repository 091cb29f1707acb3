#!/usr/bin/env python3
"""Measures each command of the built program over made inputs (bench/inputs.py): processor seconds, peak memory, and how the
seconds grow with the input. The table is headed by the machine, the kit's version and the commit.

Each command has a line for each size of feed (`sample` up to 400 lines), and all but `sample` one for each size of cut file. The
items are stop times of the feed, or rows of the cut file. `reading` is `safe` with an unknown source: the program reads all tables
and refuses. The second feed is also asked with other windows, a late start, a source that no trip serves, and links.
With --instructions valgrind counts the instructions of each line in one further run, a hundred times as long.
"""

from __future__ import annotations

import argparse
import os
import subprocess
import sys
import tempfile
from dataclasses import dataclass, replace
from functools import partial
from typing import Iterator

sys.dont_write_bytecode = True

from inputs import UNSERVED, cut_rows, stop_times_of, write_cut, write_feed, write_links
from processes import TOP, Table, fastest, instructions, options_of, parser_of, printed, sizes, write_apart

from desk.commands import Value, words_of
from desk.plans import read_plan

MORNING = "2024-06-03T08:00:01"
NEXT_MORNING = "2024-06-04T08:00:00"
MOST_LATE = 4096
LARGEST_SAMPLE = 400
COMMANDS = ("reading", "safe", "plan", "expand", "replay", "certify", "check --proof", "check --graph", "punctual", "departures",
            "latest", "reach")


@dataclass(frozen=True)
class Question:
    """A journey over the files of a folder, with the options of its commands."""
    folder: str
    options: dict[str, Value]

    def but(self, **options: Value) -> Question:
        return replace(self, options={**self.options, **options})

    def words(self, command: str, **more: Value) -> list[str]:
        return words_of(command, **{**self.options, **more})


def over_feed(folder: str) -> Question:
    return Question(folder, {"feed": folder, "delays": os.path.join(folder, "delays.csv"), "source": "H0", "target": "H5", "at": MORNING})


def over_cut(folder: str) -> Question:
    return Question(folder, {"cut": os.path.join(folder, "cut.csv"), "delays": os.path.join(folder, "delays.csv"), "source": "S0",
                             "target": "S10", "at": "2024-06-03T08:00:00"})


def on_time(graph: str) -> str:
    """The value of `--late` for the trip by a graph on which nothing is late."""
    with open(graph, encoding="utf-8", newline="") as file:
        plan = read_plan(file.read())
    ride, rides = plan.first, 0
    while ride and rides < MOST_LATE:
        ride, rides = None if ride.exit == plan.target else plan.leg_after(ride.exit, ride.arrival), rides + 1
    return ",".join(["0"] * rides) or "none"


def words_for(program: str, command: str, question: Question) -> list[str]:
    """The words of a command about a question, with the files that it reads."""
    name, _, file = command.partition(" --")
    graph, proof = (os.path.join(question.folder, it) for it in ("graph.csv", "proof.csv"))
    if name == "replay":
        printed([program, *question.words("plan")], graph)
        return question.words(name, graph=graph, late=on_time(graph))
    if file == "graph":
        return question.words(name, graph=printed([program, *question.words("plan")], graph))
    if file == "proof":
        return question.words(name, proof=printed([program, *question.words("certify")], proof))
    more: dict[str, dict[str, Value]] = {
        "punctual": {"by": "2024-06-03T09:00:00"}, "departures": {"until": NEXT_MORNING, "last": NEXT_MORNING},
        "latest": {"until": NEXT_MORNING}, "reach": {"until": NEXT_MORNING, "source": None}}
    return question.but(source="no such stop").words("safe") if name == "reading" else question.words(name, **more.get(name, {}))


def cases_of(folder: str) -> Iterator[tuple[str, list[str]]]:
    """Searches in other windows, from a late start on, and from a source that no trip serves."""
    question = over_feed(folder)
    for command in ("safe", "plan"):
        for hours in (2, 72):
            yield f"`{command} --horizon {hours}`", question.words(command, horizon=hours)
        yield f"`{command}` from 22:00 on", question.but(at="2024-06-03T22:00:01").words(command)
        yield f"`{command}`, nothing is safe", question.but(source=UNSERVED).words(command)


class Measures:
    """The table, and what fills its lines."""

    def __init__(self, options: argparse.Namespace) -> None:
        self.options = options
        titles = ["what", "items", "seconds", "peak MiB", "growth", "status"]
        self.table = Table(*titles, *(["instructions", "growth"] if options.instructions else []))

    def line(self, kind: str, what: str, items: int, words: list[str]) -> None:
        process = [self.options.program, *words]
        run = fastest(process, self.options.times)
        cells = [what, f"{items:,}", *run.cells(), self.table.growth(kind, items, run.seconds), str(run.status)]
        if self.options.instructions:
            count = instructions(process)
            cells += [f"{count:,}", self.table.growth(f"{kind}, counted", items, count)]
        self.table.row(*cells)

    def commands(self, kind: str, what: str, items: int, question: Question) -> None:
        for command in COMMANDS:
            shown = command if command == "reading" else f"`{command}`"
            self.line(f"{command} {kind}", f"{shown}, {what}", items, words_for(self.options.program, command, question))

    def feed(self, lines: int, has_cases: bool) -> None:
        items, what = stop_times_of(lines), f"{lines} lines"
        with tempfile.TemporaryDirectory() as folder:
            write_apart(partial(write_feed, folder, lines))
            if lines <= LARGEST_SAMPLE:
                self.line("sample", f"`sample --size {lines}`", items, ["sample", "--size", str(lines)])
            self.commands("feed", what, items, over_feed(folder))
            if has_cases:
                for case, words in cases_of(folder):
                    self.line(case, f"{case}, {what}", items, words)
                write_apart(partial(write_links, folder, lines))
                for command in ("safe", "plan"):
                    self.line(f"{command} links", f"`{command}`, {what}, 4 links a place", items, over_feed(folder).words(command))

    def cut(self, rows: int) -> None:
        with tempfile.TemporaryDirectory() as folder:
            write_apart(lambda: write_cut(folder, cut_rows(rows)))
            self.commands("cut", f"cut file of {rows} rows", rows, over_cut(folder))


def text_of(*words: str) -> str:
    """What a command prints, or a question mark if it fails."""
    try:
        return subprocess.run(words, capture_output=True, text=True, cwd=TOP, check=True).stdout.strip()
    except (OSError, subprocess.CalledProcessError):
        return "?"


def print_machine(times: int) -> None:
    """What is measured, and on what."""
    model = text_of("sed", "-n", "s/^model name.*: //p;T;q", "/proc/cpuinfo")
    memory = os.sysconf("SC_PAGE_SIZE") * os.sysconf("SC_PHYS_PAGES") / 2**30
    print(f"- Machine: {model}, {os.cpu_count()} processors, {memory:.0f} GiB; load {os.getloadavg()[0]:.1f} at the start")
    print(f"- Kit: {text_of('rt', 'version')}")
    print(f"- Commit: {text_of('git', 'rev-parse', '--short=12', 'HEAD')}; the fastest of {times} runs\n")


def main() -> None:
    parser = parser_of("Measures the time and the memory of each command.")
    parser.add_argument("--instructions", action="store_true", help="count instructions too, with valgrind")
    parser.add_argument("--lines", type=sizes, default=[100, 400, 2081], help="lines of the feeds, at least ten (100,400,2081)")
    parser.add_argument("--rows", type=sizes, default=[100_000, 400_000], help="rows of the cut files (100000,400000)")
    options = options_of(parser)
    print_machine(options.times)
    measures = Measures(options)
    for lines in options.lines:
        measures.feed(lines, lines == options.lines[:2][-1])
    for rows in options.rows:
        measures.cut(rows)


if __name__ == "__main__":
    main()
