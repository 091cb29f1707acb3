"""Tests of compare: differences at one deadline, of cut files and folders, and what is refused."""

from __future__ import annotations

import csv
import io
import unittest

from support import CONNECTIONS, OLD_TOWN, Case, Ran, call

# A direct ride that is never late, r4, and a journey over B that is earlier on average.
WITH = """run,step,from,to,dep,arr,class
r1,1,A,B,2024-06-03T08:00:00,2024-06-03T08:05:00,
r2,1,B,T,2024-06-03T08:09:00,2024-06-03T08:15:00,1
r3,1,B,T,2024-06-03T09:10:00,2024-06-03T09:20:00,1
r4,1,A,T,2024-06-03T08:00:00,2024-06-03T08:35:00,1
"""
DELAYS = "class,delay,weight\n*,0,9500\n*,300,500\n1,0,10000\n"
QUESTION = "from,to,at\nA,T,2024-06-03T08:00:00\n"
JOURNEY = "from,to,at\nMIL,AIR,2024-06-03T08:00:00\nMIL,\"S,1\",2024-06-03T08:00:00\n"


def rows_of(ran: Ran) -> list[dict[str, str]]:
    return list(csv.DictReader(io.StringIO(ran.printed)))


class Compare(Case):
    def test_a_ride_that_is_worth_nothing(self) -> None:
        first, delays = self.write("with.csv", WITH), self.write("delays.csv", DELAYS)
        ran = call("compare", QUESTION, first, "--without", "r4", "--delays", delays)
        (row,) = rows_of(ran)
        self.assertEqual((row["until"], row["later_least"], row["later_most"]), ("2024-06-03T10:40:00", "0.000000000", "0.000000000"))
        second = self.write("without.csv", WITH.replace("r4,1,A,T,2024-06-03T08:00:00,2024-06-03T08:35:00,1\n", ""))
        self.assertEqual(call("compare", QUESTION, first, second, "--delays", delays).printed, ran.printed)

    def test_a_deadline_of_its_own(self) -> None:
        first, delays = self.write("with.csv", WITH), self.write("delays.csv", DELAYS)
        question = "until,to,from,at\n2024-06-03T08:40:00,T,A,2024-06-03T08:00:00\n"
        (row,) = rows_of(call("compare", question, first, "--without", "r4", "--delays", delays))
        self.assertEqual((row["first_lower"], row["second_lower"], row["later_least"]), ("2024-06-03T08:35:00.000000000", "", ""))

    def test_folders(self) -> None:
        ran = call("compare", JOURNEY, f"{OLD_TOWN}/feed", "--without", "b200", "--delays", f"{OLD_TOWN}/delays.csv", "--jobs", "2")
        bus, tram = rows_of(ran)
        self.assertEqual((bus["first_lower"], bus["later_least"]), ("2024-06-03T08:54:42.000000000", "768.000000000"))
        self.assertEqual((tram["to"], tram["later_most"]), ("S,1", "0.000000000"))

    def test_one_place_and_none(self) -> None:
        question = "from,to,at\nA,A,2024-06-03T08:00:00\nT,A,2024-06-03T08:00:00\n"
        words = [f"{CONNECTIONS}/change.csv", f"{CONNECTIONS}/direct.csv", "--delays", f"{CONNECTIONS}/delays.csv"]
        same, none = rows_of(call("compare", question, *words))
        self.assertEqual((same["first_upper"], same["later_most"]), ("2024-06-03T08:00:00.000000000", "0.000000000"))
        self.assertEqual((none["until"], none["first_lower"], none["later_most"]), ("", "", ""))

    def test_a_refused_question_is_a_row(self) -> None:
        words = [f"{CONNECTIONS}/change.csv", "--without", "r2", "--delays", f"{CONNECTIONS}/delays.csv"]
        table = ("from,to,at,until\nA,X,2024-06-03T08:00:00,\nA,T,8:00,\nA,T,2024-06-03T08:00:00,2024-06-03T07:00:00\n"
                 "A,A,2024-06-03 08:00,\n")
        ran = call("compare", table, *words)
        self.assertEqual(ran.status, 1)
        stop, moment, until, good = rows_of(ran)
        self.assertIn("line 2: ", stop["fault"])
        self.assertIn("unknown stop of --to", stop["fault"])
        self.assertIn("line 3: at: 8:00 is not a moment", moment["fault"])
        self.assertIn("line 4: until is before at", until["fault"])
        self.assertEqual((good["verdict"], good["fault"], good["at"]), ("same", "", "2024-06-03T08:00:00"))

    def test_names(self) -> None:
        words = [f"{OLD_TOWN}/feed", "--without", "b200", "--delays", f"{OLD_TOWN}/delays.csv"]
        (row,) = rows_of(call("compare", "from,to,at\nmill,airport,2024-06-03 8:00\n", *words))
        self.assertEqual((row["from"], row["to"], row["verdict"]), ("MIL", "AIR", "later"))

    def test_late_and_worst(self) -> None:
        words = [f"{OLD_TOWN}/feed", "--without", "b200", "--delays", f"{OLD_TOWN}/delays.csv", "--late", "60"]
        (row,) = rows_of(call("compare", "from,to,at\nMIL,AIR,2024-06-03T08:00:00\n", *words))
        self.assertEqual((row["first_worst"], row["first_late"]), ("2024-06-03T09:21:00", "0.240000"))
        self.assertEqual((row["second_worst"], row["second_late"]), ("2024-06-03T09:21:00", "1.000000"))

    def test_a_summary(self) -> None:
        words = [f"{OLD_TOWN}/feed", "--without", "b200", "--delays", f"{OLD_TOWN}/delays.csv", "--summary"]
        ran = call("compare", JOURNEY, *words)
        self.prints(ran, "2 questions\n  later: 1, by 12 min 48 s on average and 12 min 48 s at most (Mill to Airport at 2024-06-03T08:00:00)\n"
                         "  same: 1\n")
        words = [f"{CONNECTIONS}/change.csv", "--without", "r2", "--delays", f"{CONNECTIONS}/delays.csv", "--summary"]
        self.assertIn("(A to T at ", call("compare", QUESTION, *words).printed)

    def test_refusals(self) -> None:
        words = [f"{CONNECTIONS}/change.csv", "--delays", f"{CONNECTIONS}/delays.csv"]
        for text, more, why in (("to,at\n", ["--without", "r1"], "no column from"),
                                (QUESTION, ["--without", "r9"], "change.csv has no run r9"), (QUESTION, [f"{self.room}/none"], "there is no "),
                                (QUESTION, ["--without", "r1", "--questions", f"{self.room}/none"], "No such file")):
            self.is_refused(call("compare", text, *words, *more), why)
        self.is_refused(call("compare", JOURNEY, f"{OLD_TOWN}/feed", "--without", "x", "--delays", f"{OLD_TOWN}/delays.csv"), "no trip x")
        self.assertEqual(call("compare", QUESTION, *words).status, 2)


if __name__ == "__main__":
    unittest.main()
