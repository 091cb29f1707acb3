"""Tests of the pictures in examples/: that they are what their commands make, and have what their rows say."""

from __future__ import annotations

import os
import re
import subprocess
import unittest
import xml.dom.minidom

from random import Random

from support import EXAMPLES, MEAT, OLD_TOWN, TOP, USUAL, WALK, Case, call, clock, content, made_feed, meat

from desk.plans import read_plan


class Pictures(Case):
    def test_the_examples(self) -> None:
        folder = os.path.join(EXAMPLES, "pictures")
        subprocess.run([os.path.join(folder, "make"), self.room], check=True, env={**os.environ, "MEAT": MEAT}, timeout=120, cwd=TOP)
        for name in ("old_town.html", "demo_transit.html", "reach.svg"):
            self.assertEqual(content(os.path.join(self.room, name)), content(os.path.join(folder, name)), name)

    def test_what_is_drawn(self) -> None:
        page = content(os.path.join(EXAMPLES, "pictures", "old_town.html"))
        (picture,) = re.findall("<svg class.*</svg>", page, re.DOTALL)
        xml.dom.minidom.parseString(picture)
        for text in ("tram 1: 08:00 to 08:20, all in 100", "bus 7: 08:24 to 08:50, 80 in 100", "bus 7: 08:40 to 09:06, 20 in 100",
                     "catch by 08:22", "catch by 08:38", "08:50 to 08:54: 64 in 100", ">Old Town, Square</text>"):
            self.assertIn(text, picture)
        self.assertEqual((picture.count('class="way"'), picture.count('class="rescue"'), picture.count('class="late"')), (2, 1, 3))
        drawn = content(os.path.join(EXAMPLES, "pictures", "reach.svg"))
        xml.dom.minidom.parseString(drawn)
        self.assertEqual(drawn.count("<circle"), 8)

    def picture(self, plan: str, feed: str, delays: str) -> str:
        """The picture on the page of a plan, which is well formed."""
        page = call("card", plan, "--feed", feed, "--delays", delays, "--html").printed
        (picture,) = re.findall("<svg class.*</svg>", page, re.DOTALL)
        xml.dom.minidom.parseString(picture)
        return str(picture)

    def test_a_walk(self) -> None:
        words = ["--feed", f"{WALK}/there", "--delays", f"{WALK}/delays.csv"]
        plan = meat("plan", *words, "--from", "A", "--to", "T", "--at", "2024-06-03T08:00:00").printed
        picture = self.picture(plan, words[1], words[3])
        self.assertEqual(picture.count('class="walk"'), 1)
        self.assertEqual(re.findall('class="name(?: right)?"[^>]*><title>(.*?)</title>', picture), ["A", "X1", "X2", "T"])

    def test_made_plans(self) -> None:
        delays, drawn = self.write("usual.csv", USUAL), 0
        for number in range(20):
            feed = self.feed(str(number), **made_feed(Random(number)))
            ran = meat("plan", "--feed", feed, "--delays", delays, "--from", "S0", "--to", "S1", "--at", "2024-06-03T08:00:00")
            if ran.status:
                continue
            plan, picture = read_plan(ran.printed), self.picture(ran.printed, feed, delays)
            way, legs = plan.on_time(), plan.legs()
            self.assertEqual((picture.count('class="way"'), picture.count('class="rescue"')), (len(way), len(legs) - len(way)))
            self.assertEqual(picture.count('class="by"'), len(legs) - 1)
            for leg in legs:
                self.assertIn(f": {leg.departure:%H:%M:%S} to {leg.arrival:%H:%M:%S}, ".replace(":00 to", " to").replace(":00,", ","), picture)
            self.assertTrue(all(0 <= float(x) <= 100 for x in re.findall(' x="([0-9.]+)%"', picture)))
            drawn += 1
        self.assertGreater(drawn, 8)

    def test_rare_rides_of_a_large_plan_are_left_out(self) -> None:
        feed, plan = large_plan(60)
        picture = self.picture(plan, self.feed("large", **feed), f"{OLD_TOWN}/delays.csv")
        self.assertLess(picture.count('class="rescue"'), 60)
        page = call("card", plan, "--feed", f"{self.room}/large", "--delays", f"{OLD_TOWN}/delays.csv", "--html").printed
        self.assertRegex(page, "<p>[0-9]+ rides in fewer than 1 of 100 cases are left out of the picture.</p>")


def large_plan(count: int) -> tuple[dict[str, str], str]:
    """A feed with one ride to M and a ride from there each 15 seconds, and the plan that takes the first of these that is caught."""
    first, trips, rows = 8 * 3600 + 1200, ["route_id,service_id,trip_id", "R,WK,a"], []
    times = ["trip_id,stop_sequence,stop_id,arrival_time,departure_time", "a,1,A,08:00:00,08:00:00", "a,2,M,08:20:00,08:20:00"]
    for number in range(count):
        second = first + 120 + 15 * number + (0 if number < count - 1 else 900)
        trips.append(f"R,WK,b{number}")
        times += [f"b{number},1,M,{clock(second)},{clock(second)}", f"b{number},2,T,{clock(second + 600)},{clock(second + 600)}"]
        rows.append(f"leg,2024-06-03T{clock(second - 120)},20240603:b{number},0,2024-06-03T{clock(second)},0,T,2024-06-03T{clock(second + 600)}")
    feed = {"stops": "stop_id\nA\nM\nT\n", "routes": "route_id,route_type\nR,3\n", "trips": "\n".join(trips) + "\n",
            "stop_times": "\n".join(times) + "\n"}
    bound = "2024-06-03T08:35:00.000000000"
    plan = [f"graph,1,A,T,2024-06-03T08:00:00,2024-06-03T12:00:00,{bound},{bound}",
            "start,2024-06-03T08:00:00,20240603:a,0,2024-06-03T08:00:00,0,M,2024-06-03T08:20:00", f"place,M,120,{count},,,,", *rows]
    return feed, "\n".join(plan) + "\n"


if __name__ == "__main__":
    unittest.main()
