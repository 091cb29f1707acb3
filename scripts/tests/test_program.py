"""Tests of the program where one example is not enough: trips with each list of delays, and made timetables of each size."""

from __future__ import annotations

import itertools
import unittest

from support import CONNECTIONS, Case, meat

from desk.plans import Moment, Trip, read, read_plan

JOURNEY = ["--cut", f"{CONNECTIONS}/change.csv", "--delays", f"{CONNECTIONS}/delays.csv", "--from", "A", "--to", "T",
           "--at", "2024-06-03T08:00:00"]


class Program(Case):
    def test_each_trip_arrives_by_the_deadline(self) -> None:
        text = meat("plan", *JOURNEY).printed
        graph, deadline = self.write("graph.csv", text), read_plan(text).deadline
        self.assertEqual(deadline, Moment(2024, 6, 3, 10, 42))
        for first, second in itertools.product((0, 300, 900), repeat=2):
            ran = meat("replay", *JOURNEY, "--graph", graph, "--late", f"{first},{second}")
            trip = read(ran.printed)
            assert isinstance(trip, Trip)
            self.assertEqual((ran.status, [ride.delay for ride in trip.rides], trip.target), (0, [first, second], "T"))
            self.assertLessEqual(trip.arrival, deadline)

    def test_made_timetables(self) -> None:
        for size in (10, 11, 30, 31, 105, 400):
            ran = meat("sample", "--size", str(size))
            self.assertEqual(ran.status, 0, ran.errors)
            self.assertTrue(ran.printed.startswith(f"sample,{size},{1920 * size},"), ran.printed)
        self.assertEqual(meat("sample", "--size", "105").printed, meat("sample", "--size", "105").printed)
        for size in (9, 401):
            ran = meat("sample", "--size", str(size))
            self.assertEqual((ran.status, ran.printed, ran.errors), (2, "", "meat: bad value of --size\n"))


if __name__ == "__main__":
    unittest.main()
