"""Tests of the Python module: what it asks, and that it reads every text of the examples."""

from __future__ import annotations

import datetime
import glob
import os
import unittest

from support import CONNECTIONS, EXAMPLES, MEAT, OLD_TOWN, Case, content

import meat

QUESTION = {"feed": f"{OLD_TOWN}/feed", "delays": f"{OLD_TOWN}/delays.csv", "source": "MIL", "target": "AIR"}


class Rows(Case):
    def test_every_text_of_the_examples(self) -> None:
        kinds = set()
        for path in glob.glob(os.path.join(EXAMPLES, "*", "expected", "*")):
            command, _, printed = content(path).partition("\n")
            text = "".join(line + "\n" for line in printed.split("\n") if line and not line.startswith(("2> ", "status ")))
            kinds |= {row["kind"] for row in meat.rows_of(text)}
        for kind in ("safe", "graph", "expanded", "start", "place", "leg", "ride", "next", "arrived", "bounds", "value", "holds", "encloses",
                     "punctual", "departures", "row", "latest"):
            self.assertIn(kind, kinds)

    def test_fields(self) -> None:
        start = meat.rows_of(content(f"{OLD_TOWN}/graph.csv"))[1]
        self.assertEqual((start["kind"], start["run"], start["exit"]), ("start", "20240603:t100", "S,1"))
        ride = meat.rows_of("ride,r1,A,2024-06-03T08:00:00,B,2024-06-03T08:20:00,300,2024-06-03T08:25:00\n")[0]
        self.assertEqual((ride["delay"], ride["arrival"]), ("300", "2024-06-03T08:25:00"))
        for text, why in (("what,1\n", "line 1: 'what' is no kind"), ("latest,A\n", "line 1: there are 2 fields, not 6"), ('"', "not a table")):
            with self.assertRaisesRegex(meat.Refused, why):
                meat.rows_of(text)


class Calls(Case):
    def setUp(self) -> None:
        super().setUp()
        os.environ["MEAT"] = MEAT

    def test_a_plan(self) -> None:
        answer = meat.plan(**QUESTION, at=datetime.datetime(2024, 6, 3, 8))
        self.assertEqual((answer.status, answer.text), (0, content(f"{OLD_TOWN}/graph.csv")))
        self.assertEqual([row["kind"] for row in answer.rows], ["graph", "start", "place", "leg", "leg"])

    def test_none_and_a_refusal(self) -> None:
        self.assertEqual(meat.latest(**QUESTION, at="2024-06-03T08:00:00", until="2024-06-03T08:30:00").rows, [])
        with self.assertRaisesRegex(meat.Refused, "unknown stop of --from"):
            meat.safe(cut=f"{CONNECTIONS}/change.csv", delays=f"{CONNECTIONS}/delays.csv", source="X", target="T", at="2024-06-03T08:00:00")


if __name__ == "__main__":
    unittest.main()
