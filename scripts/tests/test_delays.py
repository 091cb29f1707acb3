"""Tests of delays: what is kept of observations, the columns that it reads, what it says, and what it refuses."""

from __future__ import annotations

import csv
import io
import random
import unittest
from collections import Counter
from typing import Union

from support import OLD_TOWN, Case, call, content, meat

from desk.outcomes import outcomes_of, weights_of

README_OBSERVED = "late\n" + "0\n" * 80 + "300\n" * 15 + "900\n" * 5


def averaged(delays: list[int], most: int, multiple: int) -> list[tuple[int, int]]:
    """Observations in rising order in equal parts, each with the mean of its values rounded up, which loses the latest."""
    delays, counts = sorted(delays), Counter[int]()
    bounds = [len(delays) * part // most for part in range(most + 1)]
    for low, high in zip(bounds, bounds[1:]):
        if low < high:
            mean = -(-sum(delays[low:high]) // (high - low))
            value = -(-mean // multiple) * multiple
            counts[value] += high - low
    return list(zip(sorted(counts), weights_of([counts[value] for value in sorted(counts)])))


def distance(delays: list[int], outcomes: list[tuple[int, int]]) -> float:
    """The mean difference in seconds between the observed delays and those that represent them, both in rising order."""
    represented = [delay for delay, weight in outcomes for _ in range(weight)]
    rising = sorted(delays)
    return sum(abs(represented[at] - rising[at * len(rising) // 10_000]) for at in range(10_000)) / 10_000


def month() -> list[int]:
    """A month of made arrivals of four routes: most on time or early, some late by minutes, few by hours."""
    made = random.Random(20240603)
    found = []
    for _ in range(19_684):
        late = int(made.expovariate(1 / 70)) - 30
        if made.random() < 0.03:
            late += int(made.expovariate(1 / 700))
        found.append(max(0, min(late, 7850)))
    return [*found[:-1], 7850]


class Kept(Case):
    def test_few_values_are_kept_as_they_are(self) -> None:
        self.prints(call("delays", README_OBSERVED), "class,delay,weight\n*,0,8000\n*,300,1500\n*,900,500\n")
        self.prints(call("delays", README_OBSERVED, "--values", "3"), "class,delay,weight\n*,0,8000\n*,300,1500\n*,900,500\n")
        self.prints(call("delays", "late\n" + "0\n" * 99 + "7200\n"), "class,delay,weight\n*,0,9900\n*,7200,100\n")

    def test_the_greatest_stays(self) -> None:
        for most in (1, 2, 16, 64):
            self.assertEqual(outcomes_of(month(), most, 30)[-1][0], 7850)

    def test_nothing_counts_as_less_than_it_was(self) -> None:
        made = random.Random(7)
        for _ in range(200):
            delays = [made.randrange(0, 2000) for _ in range(made.randrange(1, 300))]
            outcomes = outcomes_of(delays, made.randrange(1, 20), made.choice([1, 30, 60]))
            represented = [delay for delay, weight in outcomes for _ in range(weight)]
            rising = sorted(delays)
            # A share of a ten-thousandth may be rounded, one step in each value.
            off = sum(represented[at] < rising[at * len(rising) // 10_000] for at in range(10_000))
            self.assertLessEqual(off, len(outcomes) * 2)
            self.assertEqual(outcomes[-1][0], rising[-1])

    def test_it_is_nearer_than_means_of_equal_parts(self) -> None:
        delays = month()
        for most in (16, 64):
            ours, means = distance(delays, outcomes_of(delays, most, 30)), distance(delays, averaged(delays, most, 30))
            self.assertLessEqual(ours, means * 2 / 3)

    def test_weights(self) -> None:
        made = random.Random(3)
        for _ in range(300):
            counts = [made.randrange(1, made.choice([5, 10**6])) for _ in range(made.randrange(1, 65))]
            weights = weights_of(counts)
            self.assertEqual((sum(weights), min(weights) >= 1), (10_000, True))

    def test_the_example(self) -> None:
        ran = call("delays", content(f"{OLD_TOWN}/observed.csv"), "--values", "6", "--round", "60")
        self.assertIn("*,996,", ran.printed)
        self.assertIn("240 observations; 103 early by up to 60 seconds, counted as on time; 3 groups; greatest delay 996 seconds\n", ran.errors)

    def test_the_latest_left_out(self) -> None:
        ran = call("delays", README_OBSERVED, "--worst", "5")
        self.assertEqual(ran.printed, "class,delay,weight\n*,0,8421\n*,300,1579\n")
        self.assertIn("100 observations; 5 left out; 1 group; greatest delay 300 seconds\n", ran.errors)
        self.assertIn("left out the latest 5: 900 to 900 seconds late", ran.errors)
        self.assertIn("all equally late", call("delays", "late\n30\n").errors)


class Groups(Case):
    def test_groups(self) -> None:
        self.prints(call("delays", "hour,late,route_id\n8,30,T1\n8,90,T1\n,0,\n", "--least", "2"),
                    "class,delay,weight,route_id,hour\n*,0,3334,,\n*,30,3333,,\n*,90,3333,,\n*,30,5000,T1,\n*,90,5000,T1,\n"
                    "*,30,5000,,8\n*,90,5000,,8\n*,30,5000,T1,8\n*,90,5000,T1,8\n")

    def test_hours_fold(self) -> None:
        ran = call("delays", "late,hour\n5,25\n6,1\n", "--least", "2")
        self.assertIn("*,5,5000,,1\n".replace(",,", ","), ran.printed)

    def test_routes_of_a_feed(self) -> None:
        text = "trip_id,late\nb200,30\nb201,60\nt100,0\nx,0\n"
        ran = call("delays", text, "--feed", f"{OLD_TOWN}/feed", "--least", "2")
        self.assertIn("3,30,5000,\n3,60,5000,\n*,30,5000,B7\n*,60,5000,B7\n", ran.printed)
        self.assertIn("1 of trips that are not in the feed", ran.errors)


class Columns(Case):
    def test_other_names_and_delimiters(self) -> None:
        self.prints(call("delays", "trip_id;arrival_delay\nA;60\nB;12.0\n", "--late", "arrival_delay", "--delimiter", ";"),
                    "class,delay,weight\n*,12,5000\n*,60,5000\n")
        self.prints(call("delays", "a\tlate\nA\t60\n", "--delimiter", "tab"), "class,delay,weight\n*,60,10000\n")

    def test_due_and_actual(self) -> None:
        for due, actual, late, hour in (("08:00:00", "08:01:00", 60, 8), ("23:59", "00:01", 120, 23), ("25:10:00", "25:11:00", 60, 1),
                                        ("2024-06-03T08:00:00", "2024-06-03 08:00:30", 30, 8), ("100", "160", 60, None),
                                        ("2024-06-03T08:00:00Z", "2024-06-03T10:02:00+02:00", 120, 8),
                                        ("03.06.2024 08:00", "03.06.2024 08:00:41", 41, 8), ("00:01", "23:59", 0, 0)):
            ran = call("delays", f"due,actual\n{due},{actual}\n", "--due", "due", "--actual", "actual", "--least", "1")
            row = f"*,{late},10000,{hour}\n" if hour is not None else f"*,{late},10000,\n"
            self.assertIn(row, ran.printed, ran.errors)

    def test_bad_ones(self) -> None:
        for text, why in (("late\n5\nx\n", "line 3: 'x' is not a number; write it as 90"), ("late\n5\n86401\n", "line 3: 86401 seconds are more"),
                          ("late\n5\n\"\"\n", "line 3: '' is not a number"), ("late,route_type\n5,-1\n", "line 2: '-1' is not a valid route_type"),
                          ("late,route_type\n5,3\n5,65535\n", "line 3: '65535'"), ("late,hour\n5,x\n", "line 2: 'x' is not a valid hour"),
                          ("late\n٣\n", "line 2: ")):
            self.is_refused(call("delays", text), why)
        ran = call("delays", "late\n5\nx\n99999\n\"\"\n", "--skip-bad")
        self.assertEqual(ran.printed, "class,delay,weight\n*,5,10000\n")
        self.assertIn("4 observations; 3 bad and skipped, the first at line 3: 'x' is not a number; write it as 90", ran.errors)

    def test_refusals(self) -> None:
        texts: list[tuple[Union[str, bytes], str]] = [
            ("", "no column late"), ("a;late\n", "the columns are a;late; give --delimiter ';'"),
            ("a\tlate\n", "give --delimiter tab"), ("late\n", "no observations"),
            ('late\n"5\n', "not a table"), (b"late\n\xff\n", "not UTF-8: save it as CSV UTF-8, or convert it by iconv")]
        for text, why in texts:
            self.is_refused(call("delays", text), why)
        self.is_refused(call("delays", "late\nx\n", "--skip-bad"), "no observations")
        self.is_refused(call("delays", "due,actual\n08:61,08:00\n", "--due", "due", "--actual", "actual"), "'08:61' is not a time")
        for text in ("6/3/2024 10:27", "8:05:00 AM"):
            self.is_refused(call("delays", f"due,actual\n{text},{text}\n", "--due", "due", "--actual", "actual"), "write it as 08:05")
        self.is_refused(call("delays", "due,actual\n08:00,60\n", "--due", "due", "--actual", "actual"), "do not have the same form")
        self.is_refused(call("delays", "late\n5\n", "--feed", self.room), "no column trip_id")
        self.assertEqual(call("delays", "late\n5\n", "--due", "late").status, 2)


class Read(Case):
    def test_each_file_is_read(self) -> None:
        made = random.Random(20240603)
        for number in range(40):
            count = made.choice([1, 2, 3, 50, 63, 64, 65, 500])
            late = [0, made.randrange(-300, 86_401), int(made.expovariate(1 / 90)) - 30, made.choice([0, 86_400])]
            rows = ["late,route_type,route_id,hour"]
            for _ in range(count):
                late[2] = int(made.expovariate(1 / 90)) - 30
                rows.append(f"{late[number % 4]},{made.choice(['', '0', '3', '702'])},{made.choice(['', 'T1', QUOTED])},"
                            f"{made.choice(['', '0', '8', '23', '24'])}")
            words = ["--values", str(made.choice([1, 2, 16, 64])), "--least", str(made.choice([1, 20, 50])),
                     "--round", str(made.choice([1, 30, 60]))]
            ran = call("delays", "\n".join(rows) + "\n", *words)
            self.assertEqual(ran.status, 0, ran.errors)
            self.is_delay_file(ran.printed)
            read = meat("safe", "--feed", f"{OLD_TOWN}/feed", "--delays", self.write("delays.csv", ran.printed), "--from", "MIL",
                        "--to", "AIR", "--at", "2024-06-03T08:00:00")
            self.assertIn(read.status, (0, 1), read.errors)

    def is_delay_file(self, text: str) -> None:
        header, *rows = csv.reader(io.StringIO(text))
        self.assertEqual(header, ["class", "delay", "weight", "route_id", "hour"])
        groups: dict[tuple[str, str, str], list[tuple[int, int]]] = {}
        for kind, delay, weight, route, hour in rows:
            groups.setdefault((kind, route, hour), []).append((int(delay), int(weight)))
        self.assertIn(("*", "", ""), groups)
        for (kind, route, _), of in groups.items():
            self.assertTrue(kind == "*" or not route)
            self.assertTrue(len(of) <= 64 and sum(weight for _, weight in of) == 10_000 and min(weight for _, weight in of) >= 1)
            self.assertTrue(all(one[0] < other[0] for one, other in zip(of, of[1:])) and of[-1][0] <= 86_400)


QUOTED = '"x,y"'


if __name__ == "__main__":
    unittest.main()
