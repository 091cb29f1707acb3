"""Tests of trial: the same questions for the same seed, the chance of being stranded, and what is refused."""

from __future__ import annotations

import csv
import io
import unittest

from support import EXAMPLES, OLD_TOWN, Case, call, made_feed

from random import Random


class Trial(Case):
    def test_old_town(self) -> None:
        words = [f"{OLD_TOWN}/feed", f"{OLD_TOWN}/delays.csv", "--questions", "60", "--seed", "7"]
        ran = call("trial", "", *words)
        self.assertEqual(ran.status, 0, ran.errors)
        rows = list(csv.DictReader(io.StringIO(ran.printed)))
        self.assertIn(f"{len(rows)} of 60 questions have a plan", ran.errors)
        # Without delays the plan to the airport has no row for those who miss the first bus, one of five.
        stranded = {row["stranded"] for row in rows if (row["from"], row["to"]) == ("MIL", "AIR")}
        self.assertEqual(stranded, {"0.200000"})
        self.assertEqual(call("trial", "", *words).printed, ran.printed)
        self.assertNotEqual(call("trial", "", *words[:-1], "8").printed, ran.printed)

    def test_made_feeds(self) -> None:
        for number in range(5):
            ran = call("trial", "", self.feed(str(number), **made_feed(Random(number))), f"{OLD_TOWN}/delays.csv", "--questions", "10")
            self.assertEqual(ran.status, 0, ran.errors)
            self.assertIn("of 10 questions", ran.errors)

    def test_refusals(self) -> None:
        words = ["--questions", "3"]
        self.is_refused(call("trial", "", self.room, f"{OLD_TOWN}/delays.csv", *words), "cannot read stops.txt")
        self.is_refused(call("trial", "", f"{EXAMPLES}/old_town/feed", f"{self.room}/none", *words), "cannot read none")
        self.assertEqual(call("trial", "", f"{OLD_TOWN}/feed", f"{OLD_TOWN}/delays.csv").status, 2)


if __name__ == "__main__":
    unittest.main()
