#!/usr/bin/env python3
"""Measures `reach`, which answers for every stop, beside `latest`, which answers for one, with the same words otherwise.

The inputs are feeds of bench/inputs.py, without links and with four links into each place. Growth is that of the instructions of
`reach`, which valgrind counts. The last column is how many times the instructions of `reach` as many calls of `latest` as there
are stops take. With `--most` and `--most-memory` the status is 1 if a ratio is greater than that.
"""

from __future__ import annotations

import argparse
import sys
import tempfile

sys.dont_write_bytecode = True

from inputs import stop_times_of, write_feed, write_links
from measure import NEXT_MORNING, over_feed
from processes import Table, fastest, instructions, options_of, parser_of, sizes, write_apart

TITLES = ["what", "stops", "items", "`latest` s", "`latest` MiB", "`reach` s", "`reach` MiB", "memory", "`latest` instructions",
          "`reach` instructions", "`reach` / `latest`", "growth", "`latest` of each stop / `reach`"]


def measure_feed(options: argparse.Namespace, table: Table, lines: int, folder: str, links: str) -> bool:
    """A line for a feed in a folder, and whether a ratio is too great."""
    question = over_feed(folder).but(until=options.until)
    calls = [[options.program, *question.words("latest")], [options.program, *question.words("reach", source=None)]]
    latest, reach = (fastest(words, options.times) for words in calls)
    if latest.status or reach.status:
        sys.exit(f"{lines} lines, {links}: status {latest.status} of `latest`, {reach.status} of `reach`")
    one, every = (instructions(words) for words in calls)
    stops, items = 11 + 19 * lines, stop_times_of(lines)
    table.row(f"{lines} lines, {links}", f"{stops:,}", f"{items:,}", *latest.cells(), *reach.cells(), f"{reach.peak / latest.peak:.2f}",
              f"{one:,}", f"{every:,}", f"{every / one:.2f}", table.growth(links, items, every), f"{stops * one / every:.0f}")
    is_above: bool = 0 < options.most < every / one or 0 < options.most_memory < reach.peak / latest.peak
    return is_above


def main() -> int:
    parser = parser_of("Measures `reach` beside `latest`.")
    parser.add_argument("--lines", type=sizes, default=[50, 100, 200], help="lines of the feeds, at least five (50,100,200)")
    parser.add_argument("--until", default=NEXT_MORNING, help="the deadline, after 2024-06-03T08:00:01")
    parser.add_argument("--most", type=float, default=0, metavar="RATIO", help="the greatest ratio of instructions")
    parser.add_argument("--most-memory", type=float, default=0, metavar="RATIO", help="the greatest ratio of memory")
    options, is_above = options_of(parser), False
    table = Table(*TITLES)
    for lines in options.lines:
        with tempfile.TemporaryDirectory() as folder:
            write_apart(lambda: write_feed(folder, lines))
            is_above |= measure_feed(options, table, lines, folder, "no links")
            write_apart(lambda: write_links(folder, lines))
            is_above |= measure_feed(options, table, lines, folder, "4 links a place")
    return 1 if is_above else 0


if __name__ == "__main__":
    sys.exit(main())
