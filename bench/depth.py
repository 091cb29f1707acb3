#!/usr/bin/env python3
"""Measures the built program where one thing is deep or long, and how its seconds grow with that: a chain of rides, each of one
connection, in which the strategy nests as many rides; a run of many steps, from its first place to its last; and a place with many
departures to the target, and one ride that leads there.

`replay` follows the graph of `plan` with at most 4,096 delays, so where more rides follow it ends with status 11.
"""

from __future__ import annotations

import argparse
import os
import sys
import tempfile
from typing import Callable, Iterator

sys.dont_write_bytecode = True

from inputs import moment, write_cut
from measure import MOST_LATE, Question, over_cut
from processes import Table, fastest, options_of, parser_of, printed, write_apart

HEADER = "run,step,from,to,dep,arr,change\n"
NEVER_LATE = "class,delay,weight\n*,0,10000\n"


def chain(count: int) -> Iterator[str]:
    """Rides of a second each, with a change of a second between two."""
    yield HEADER
    for k in range(count):
        yield f"r{k},1,S{k},S{k + 1},{moment(2 * k)},{moment(2 * k + 1)},1\n"


def long_run(count: int) -> Iterator[str]:
    """The steps of one run, a second each."""
    yield HEADER
    for k in range(count):
        yield f"r,{k},S{k},S{k + 1},{moment(k)},{moment(k + 1)},1\n"


def busy_place(count: int) -> Iterator[str]:
    """One ride to a place, and a departure from there in each second."""
    yield f"{HEADER}r,1,S0,B,{moment(0)},{moment(60)},1\n"
    for k in range(count):
        yield f"x{k},1,B,S{count},{moment(k)},{moment(k + 60)},1\n"


# What it is, its rows, its numbers, and how many rides `replay` follows.
KINDS: list[tuple[str, Callable[[int], Iterator[str]], list[int], Callable[[int], int]]] = [
    ("a chain of rides", chain, [25_000, 50_000, 100_000], lambda count: count),
    ("a run of steps", long_run, [2**18, 2**19, 2**20], lambda count: 1),
    ("departures from a place", busy_place, [250_000, 500_000, 1_000_000], lambda count: 2),
]


def measure_kind(options: argparse.Namespace, table: Table, what: str, count: int, question: Question, rides: int) -> None:
    """A line for each command over the files of a folder."""
    graph = printed([options.program, *question.words("plan")], os.path.join(question.folder, "graph.csv"))
    replayed = question.words("replay", graph=graph, late=",".join(["0"] * min(rides, MOST_LATE)))
    for command in ("safe", "expand", "plan", "replay"):
        words = replayed if command == "replay" else question.words(command)
        run = fastest([options.program, *words], options.times)
        name = f"{what}, `{command}`"
        table.row(name, f"{count:,}", str(run.status), *run.cells(), table.growth(name, count, run.seconds))


def main() -> None:
    parser = parser_of("Measures the program over what is deep or long.")
    parser.add_argument("--part", type=int, default=1, help="a part of the numbers: 16 is a sixteenth (1)")
    options = options_of(parser)
    table = Table("what", "how many", "status", "seconds", "peak MiB", "growth")
    for what, rows, counts, rides in KINDS:
        for count in (count // options.part for count in counts):
            with tempfile.TemporaryDirectory() as folder:
                write_apart(lambda: write_cut(folder, rows(count), NEVER_LATE))
                measure_kind(options, table, what, count, over_cut(folder).but(target=f"S{count}"), rides(count))


if __name__ == "__main__":
    main()
