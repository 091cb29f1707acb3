"""Tests of odds: worked chances, and that the mean lies within the printed bounds of many plans."""

from __future__ import annotations

import os
import random
import unittest
from concurrent.futures import ThreadPoolExecutor
from typing import Optional

from support import CONNECTIONS, EXAMPLES, OLD_TOWN, Case, call, content, made_cut, made_delays, made_feed, meat

from desk.arrivals import Delays, RideKinds, sure_course
from desk.plans import NANOSECONDS, nanoseconds_of, read_plan

PLAN = content(f"{OLD_TOWN}/graph.csv")
START = "2024-06-03T08:00:00"
QUESTIONS = 200


def is_within(text: str, delays: str, feed: Optional[str], cut: Optional[str]) -> bool:
    """Whether the exact mean of a plan is within its bounds, its latest arrival is by the deadline and, if a chance is printed,
    the chance of arriving after the promise is within its bounds."""
    plan = read_plan(text)
    course = sure_course(plan, Delays(delays), RideKinds(plan, feed, cut))
    chances, mean = course.arrivals, nanoseconds_of(plan.start) + course.mean(plan.start) * NANOSECONDS
    is_good = plan.expected.lower <= mean <= plan.expected.upper and max(chances) <= plan.deadline and sum(chances.values()) == 1
    if plan.promise is None:
        return is_good
    promise = plan.promise
    late = sum(chance for moment, chance in chances.items() if moment > promise.moment)
    return is_good and promise.lower <= late <= promise.upper


class Worked(Case):
    def test_old_town(self) -> None:
        self.prints(call("odds", PLAN, "--feed", f"{OLD_TOWN}/feed", "--delays", f"{OLD_TOWN}/delays.csv"), """arrival,chance,by_then
2024-06-03T08:50:00,0.64,0.64
2024-06-03T08:55:00,0.12,0.76
2024-06-03T09:05:00,0.04,0.8
2024-06-03T09:06:00,0.16,0.96
2024-06-03T09:11:00,0.03,0.99
2024-06-03T09:21:00,0.01,1
mean,2024-06-03T08:54:42,
latest,2024-06-03T09:21:00,
""")

    def test_a_mean_with_digits(self) -> None:
        delays = self.write("delays.csv", "class,delay,weight\n*,0,9999\n*,1,1\n")
        plan = content(f"{CONNECTIONS}/graphs/change.csv").replace("08:54:42.000000000", "08:50:00.000100000")
        self.assertIn("mean,2024-06-03T08:50:00.0001,\n", call("odds", plan, "--cut", f"{CONNECTIONS}/change.csv", "--delays", delays).printed)

    def test_other_files_are_refused(self) -> None:
        words = ["--feed", f"{OLD_TOWN}/feed"]
        never = self.write("never.csv", "class,delay,weight\n*,0,10000\n")
        self.is_refused(call("odds", PLAN, *words, "--delays", never), "not within the bounds")
        late = self.write("late.csv", "class,delay,weight\n*,3600,10000\n")
        self.prints(call("odds", PLAN, *words, "--delays", late), "arrival,chance,by_then\nstranded,1,\n")
        self.is_refused(call("odds", PLAN, "--feed", f"{EXAMPLES}/demo_transit/feed", "--delays", f"{OLD_TOWN}/delays.csv"), "another feed")
        for text, why in (("class,delay\n", "no column weight"), ("class,delay,weight\n*,x,1\n", "line 2: x is no whole number"),
                          ("class,delay,weight\n*," + 5000 * "9" + ",1\n", "line 2: 999"), ("class,delay,weight\n*,-1,1\n", "line 2: -1 is no"),
                          ("class,delay,weight\n3,0,10000\n", "class * is missing"), ("class,delay,weight\n*,0,1\n", "do not add up")):
            self.is_refused(call("odds", PLAN, *words, "--delays", self.write("bad.csv", text)), why)
        self.is_refused(call("odds", "safe,A\n", *words, "--delays", never), "`safe`")
        day = self.write("day.csv", "class,delay,weight\n*,86400,10000\n")
        self.is_refused(call("odds", PLAN.replace("2024-06-03T", "9999-12-31T"), *words, "--delays", day), "after the year 9999")


class Bounds(Case):
    """The printed bounds enclose the mean that is computed here, independently of the program."""

    def test_the_examples(self) -> None:
        found = 0
        for folder, _, files in os.walk(EXAMPLES):
            if not folder.endswith("expected"):
                continue
            for name in files:
                line = content(os.path.join(folder, name)).split("\n", 1)[0]
                words = line.removeprefix("$ ./meat ").replace("'", "").split() if line.startswith("$ ./meat plan ") else []
                options = dict(zip(words[1::2], words[2::2]))
                printed = meat(*words) if words else None
                if printed and printed.status == 0:
                    feed, cut = options.get("--feed"), options.get("--cut")
                    self.assertTrue(is_within(printed.printed, options["--delays"], feed, cut), line)
                    found += 1
        self.assertGreaterEqual(found, 8)

    def answer(self, number: int) -> int:
        """Asks a made question, and returns how many plans it had."""
        made, cut, feed = random.Random(number), None, None
        if number % 2:
            cut = self.write(f"{number}/cut.csv", made_cut(made))
            source, target = "P0", "P1"
            delays = self.write(f"{number}/delays.csv", made_delays(made, []))
            words = ["--cut", cut]
        else:
            feed = self.feed(f"{number}", **made_feed(made))
            source, target = "S0", "S1"
            delays = self.write(f"{number}/delays.csv", made_delays(made, ["R0", "R1"]))
            words = ["--feed", feed]
        words += ["--delays", delays, "--from", source, "--to", target, "--at", START]
        plan = meat("plan", *words, "--alpha", str(made.choice([100, 150, 200, 400])))
        if plan.status != 0:
            self.assertEqual(plan.status, 1, plan.errors)
            return 0
        self.assertTrue(is_within(plan.printed, delays, feed, cut), f"plan of {number}")
        by = str(read_plan(plan.printed).expected.middle()).replace(" ", "T")
        promise = meat("punctual", *words, "--by", by)
        self.assertEqual(promise.status, 0, promise.errors)
        self.assertTrue(is_within(promise.printed, delays, feed, cut), f"punctual of {number}")
        return 2

    def test_made_questions(self) -> None:
        found = 0
        with ThreadPoolExecutor(len(os.sched_getaffinity(0))) as pool:
            for first in range(0, 4000, 100):
                found += sum(pool.map(self.answer, range(first, first + 100)))
                if found >= 2 * QUESTIONS:
                    break
        self.assertGreaterEqual(found, 2 * QUESTIONS)


if __name__ == "__main__":
    os.chdir(os.path.join(os.path.dirname(os.path.realpath(__file__)), "..", ".."))
    unittest.main()
