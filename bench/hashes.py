#!/usr/bin/env python3
"""Measures the built program over names that share one hash, beside ordinary ones.

A hash map whose key is known can be given names that all have one hash, and then each look goes through all of them. The names
here are made against the hash of the kit's maps with the seed that it has by itself: 48 bytes of UTF-8, of which the first 24 bring
the state to where the next eight bytes count for nothing. The ordinary names are as long and differ from them in one byte of the
first 24, by which the rest counts again. The last column is how many times as long the program takes over the first ones.
"""

from __future__ import annotations

import argparse
import os
import sys
import tempfile

sys.dont_write_bytecode = True

from inputs import write_cut
from limits import EACH_DAY, HEADER, RIDE, TIMES, Made, feed, words
from processes import Run, Table, fastest, options_of, parser_of, write_apart

SEED = 0x243F6A8885A308D3
MULTIPLIER = 0x9E3779B97F4A7C15
MASK = 2**64 - 1
LENGTH = 48
KINDS = {"stops": 2**20 - 2, "routes": 2**16 - 1, "trips": 2**20 - 1, "services": 2**20 - 1, "places": 2**20 - 2, "runs": 2**20 - 1}


def folded(first: int, second: int) -> int:
    """The two halves of the product, joined by exclusive or."""
    product = first * second
    return (product & MASK) ^ (product >> 64)


def front() -> str:
    """The first 24 bytes of the names: a text, and then the state that the hash has after it, where that is a text too."""
    number = 0
    while True:
        begin = b"id%014d" % number
        state = folded(int.from_bytes(begin[:8], "little") ^ (SEED + LENGTH) & MASK, int.from_bytes(begin[8:], "little") ^ MULTIPLIER)
        try:
            text = state.to_bytes(8, "little").decode()
        except UnicodeDecodeError:
            text = ","
        if all(letter.isprintable() and letter not in ',"' for letter in text) and text.strip(" ") == text:
            return begin.decode() + text
        number += 1


def files_of(kind: str, count: int, are_alike: bool) -> Made:
    """A feed, or a cut file, with so many names of a kind."""
    begin = front() if are_alike else "j" + front()[1:]
    names = [f"{begin}{number:08x}0123456789abcdef" for number in range(count)]
    if kind in ("places", "runs"):
        rows = [f"{name},1,A,T,{TIMES}\n" for name in names] if kind == "runs" else [
            f"r{at},1,{name},{names[at - 1]},{TIMES}\n" for at, name in enumerate(names)]
        return lambda folder: write_cut(folder, [f"{HEADER}\n{RIDE}\n", *rows], "class,delay,weight\n*,0,10000\n")
    if kind == "stops":
        return feed(stops=lambda: (f"{name}\n" for name in names),
                    stop_times=lambda: (f"t,8:40:00,8:40:00,{name},{at + 3}\n" for at, name in enumerate(names[:1200])))
    if kind == "trips":
        return feed(trips=lambda: (f"R,D,{name}\n" for name in names),
                    stop_times=lambda: (f"{name},8:10:00,8:10:00,A,1\n{name},8:40:00,8:40:00,T,2\n" for name in names))
    if kind == "routes":
        return feed(routes=lambda: (f"{name},3\n" for name in names), trips=lambda: (f"{name},D,x{at}\n" for at, name in enumerate(names)))
    return feed(calendar=lambda: (name + EACH_DAY for name in names), trips=lambda: (f"R,{name},x{at}\n" for at, name in enumerate(names)))


def run_of(options: argparse.Namespace, kind: str, count: int, are_alike: bool) -> Run:
    with tempfile.TemporaryDirectory() as folder:
        write_apart(lambda: files_of(kind, count, are_alike)(folder))
        return fastest([options.program, *words(folder)], options.times)


def main() -> None:
    parser = parser_of("Measures the program over names that share one hash.")
    parser.add_argument("--part", type=int, default=1, help="a part of the names: 16 is a sixteenth (1)")
    options = options_of(parser)
    table = Table("names", "how many", "ordinary s", "one hash s", "times", "status")
    for kind, most in KINDS.items():
        count = most // options.part
        ordinary, alike = (run_of(options, kind, count, are_alike) for are_alike in (False, True))
        table.row(kind, f"{count:,}", f"{ordinary.seconds:.3f}", f"{alike.seconds:.3f}", f"{alike.seconds / ordinary.seconds:.2f}",
                  f"{ordinary.status}, {alike.status}")


if __name__ == "__main__":
    main()
