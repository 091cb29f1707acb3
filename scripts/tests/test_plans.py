"""Tests of plans.py: what is read from each printed text, and what is refused."""

from __future__ import annotations

import unittest
from fractions import Fraction

from support import CONNECTIONS, OLD_TOWN, Case, content

from desk.plans import Departures, Latest, Moment, Plan, Reach, Refused, Safe, Trip, moment_text, read, read_plan

PLAN = content(f"{OLD_TOWN}/graph.csv")
DEPARTURES = """departures,1,B,T,2024-06-03T08:00:00,2024-06-03T08:40:00,2024-06-03T10:42:00,2
row,2024-06-03T08:24:00,r2,1,2024-06-03T08:51:30.000000000,2024-06-03T08:51:30.000000001
row,2024-06-03T08:40:00,r3,1,2024-06-03T09:07:30.000000000,2024-06-03T09:07:30.000000000
"""
REACH = """reach,1,T,2024-06-03T08:00:00,2024-06-03T10:42:00,2
from,A,2024-06-03T08:00:00,2024-06-03T08:54:42.000000000,2024-06-03T08:54:42.000000000
from,"S,1",2024-06-03T08:40:00,2024-06-03T08:51:30.000000000,2024-06-03T08:51:30.000000001
"""
TRIP = """ride,r1,A,2024-06-03T08:00:00,B,2024-06-03T08:20:00,300,2024-06-03T08:25:00
arrived,T,2024-06-03T09:21:00
"""


def spoilt(text: str) -> list[str]:
    """A text cut off after each row but the last, and with one field of each row changed."""
    rows = text.splitlines(keepends=True)
    fronts = ["".join(rows[:count]) for count in range(1, len(rows))]
    return fronts + ["".join([*rows[:at], row.replace("-", "?", 1), *rows[at + 1:]]) for at, row in enumerate(rows) if "-" in row]


class Plans(Case):
    def test_a_plan(self) -> None:
        plan = read(PLAN)
        assert isinstance(plan, Plan) and plan.first is not None
        self.assertEqual((plan.source, plan.target, plan.first.exit), ("MIL", "AIR", "S,1"))
        self.assertEqual(plan.expected.middle(), Moment(2024, 6, 3, 8, 54, 42))
        later = plan.leg_after("S,1", Moment(2024, 6, 3, 8, 22, 1))
        assert later is not None
        self.assertEqual((later.run, later.entry_step, moment_text(later.by)), ("20240603:b201", 0, "2024-06-03T08:38:00"))
        self.assertIsNone(plan.leg_after("S,1", Moment(2024, 6, 3, 8, 38, 1)))
        self.assertIsNone(plan.leg_after("AIR", plan.start))

    def test_a_mark_and_blank_lines(self) -> None:
        self.assertEqual(read_plan("\ufeff" + PLAN + "\n\n"), read_plan(PLAN))
        self.assertEqual(read_plan(PLAN.replace("\n", "\r\n")), read_plan(PLAN))

    def test_a_promise(self) -> None:
        plan = read_plan("punctual,1,2024-06-03T09:00:00,0.240000000000000000,0.240000000000000001\n" + PLAN)
        assert plan.promise is not None
        self.assertEqual(plan.promise.upper - plan.promise.lower, Fraction(1, 10**18))

    def test_the_other_texts(self) -> None:
        departures, latest = read(DEPARTURES), read("latest,B,T,2024-06-03T08:00:00,2024-06-03T10:42:00,2024-06-03T08:40:00\n")
        assert isinstance(departures, Departures) and isinstance(latest, Latest)
        self.assertEqual([row.run for row in departures.rows], ["r2", "r3"])
        self.assertEqual(latest.moment, Moment(2024, 6, 3, 8, 40))
        reach = read(REACH)
        assert isinstance(reach, Reach)
        self.assertEqual([(row.place, row.latest.minute) for row in reach.rows], [("A", 0), ("S,1", 40)])
        safe, trip = read("safe,A,T,2024-06-03T08:00:00,2024-06-03T09:21:00,2024-06-03T10:42:00\n"), read(TRIP)
        assert isinstance(safe, Safe) and isinstance(trip, Trip)
        self.assertEqual((safe.worst.minute, trip.rides[0].delay, trip.arrival.minute), (21, 300, 21))

    def test_spoilt_texts(self) -> None:
        for text in [*spoilt(PLAN), *spoilt(DEPARTURES), *spoilt(REACH), *spoilt(TRIP), REACH.replace('"S,1"', "A"), REACH.replace(",T,", ",A,"),
                     "", "\n", PLAN + "leg\n", PLAN.replace(",120,2,", ",120,x,"),
                     PLAN.replace("graph,1", "graph,3"), PLAN.replace(",120,2,", ",120,3,"), "certificate,1\n", "graph\n", 'graph,"1\n',
                     "punctual,1,2024-06-03T09:00:00,0.5,0.5\n" + PLAN, PLAN.replace("08:00:00", "24:00:00", 1), TRIP + TRIP,
                     PLAN.replace("42.000000000", "43.000000000", 1), PLAN.replace("2024", "٢٠٢٤", 1)]:
            with self.assertRaises(Refused, msg=text):
                read(text)

    def test_what_is_no_plan(self) -> None:
        for text, why in ((DEPARTURES, "`departures`"), (TRIP, "`replay`"), ("expanded,1\n", "`expand`"), ("bounds,1\n", "`certify`"),
                          ("safe,A\n", "`safe`"), ("other\n", "not a `graph` row"), ("", "no text")):
            with self.assertRaises(Refused) as refused:
                read_plan(text)
            self.assertIn(why, str(refused.exception))

    def test_the_examples(self) -> None:
        plan = read_plan(content(f"{CONNECTIONS}/graphs/change.csv"))
        self.assertEqual([place.name for place in plan.places], ["B"])


if __name__ == "__main__":
    unittest.main()
