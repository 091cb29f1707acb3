"""Tests of card: the text and the page of plans and departures, names, and what is refused."""

from __future__ import annotations

import os
import re
import time
import unittest
from typing import Union

from support import CONNECTIONS, OLD_TOWN, USUAL, WALK, Case, call, content, meat

FEED, DELAYS = "examples/old_town/feed", "examples/old_town/delays.csv"
PLAN = content(f"{OLD_TOWN}/graph.csv")
CARD = """Mill to Airport
Mon 2024-06-03, from 08:00 on.
Whatever the delays, not later than 10:42.
On average there at 08:55.
If nothing is late: 08:00 to 08:50, 50 min, 1 change.

At Mill
  tram 1 at 08:00 to Old Town, Square, due 08:20

At Old Town, Square (a change takes 2 min)
  if you are there by 08:22: bus 7 at 08:24 to Airport, due 08:50
  if you are there by 08:38: bus 7 at 08:40 to Airport, due 09:06

At each place take the first row that you are in time for.
Where no row is left, a trip was later than the delay table knows: ask again
from there.
Timetable {feed}; made on 2024-06-03.
""".format(feed=FEED)
WALKED = """graph,2,A,T,2024-06-03T23:00:00,2024-06-04T01:20:00,2024-06-04T00:40:00.000000000,2024-06-04T00:40:00.000000001,
start,2024-06-03T23:30:00,t1,0,2024-06-03T23:30:00,0,X1,2024-06-04T00:20:00,A
place,X1,90,1,,,,,
leg,2024-06-04T00:20:00,t2,0,2024-06-04T00:25:00,0,T,2024-06-04T00:40:00,X2
"""
DEPARTURES = """departures,1,MIL,AIR,2024-06-03T08:00:00,2024-06-03T08:40:00,2024-06-03T10:42:00,1
row,2024-06-03T08:00:00,20240603:t100,0,2024-06-03T08:54:42.000000000,2024-06-03T08:54:42.000000000
"""
PROMISED = "punctual,1,2024-06-03T09:00:00,0.123448000000000000,0.123449000000000000\n"


class Texts(Case):
    def test_old_town(self) -> None:
        self.prints(call("card", PLAN, "--feed", FEED), CARD)

    def test_chances(self) -> None:
        card = call("card", PLAN, "--feed", FEED, "--delays", DELAYS).printed
        self.assertIn("There by 08:50 in 64 of 100 cases, by 09:06 in 96 and by 09:21 in all.\n", card)
        self.assertIn("bus 7 at 08:24 to Airport, due 08:50 (80 in 100)\n", card)
        self.assertTrue(card.endswith("\nTimetable examples/old_town/feed, delays of up to 15 min; made on 2024-06-03.\n"))
        self.assertNotIn("10:42", card)

    def test_rare_cases(self) -> None:
        delays = self.write("rare.csv", "class,delay,weight\n*,0,9999\n*,300,1\n")
        words = ["--feed", f"{OLD_TOWN}/feed", "--delays", delays]
        card = call("card", PLAN, *words).printed
        self.assertIn("There by 08:50 in 99 of 100 cases and by 09:11 in all.\n", card)
        self.assertIn("(under 1 in 100)", card)
        self.assertIn('<tr class="rare">', call("card", PLAN, *words, "--html").printed)

    def test_chances_of_a_cut_file(self) -> None:
        words = ["--cut", f"{CONNECTIONS}/change.csv", "--delays", f"{CONNECTIONS}/delays.csv"]
        card = call("card", content(f"{CONNECTIONS}/graphs/change.csv"), *words)
        self.assertIn("by 09:21 in all.", card.printed)

    def test_a_promise_is_rounded_up(self) -> None:
        self.assertIn("Later than 09:00 in at most 12.35 of 100 cases.\n", call("card", PROMISED + PLAN).printed)
        never = PROMISED.replace("0.123448", "0.000000").replace("0.123449", "0.000000")
        self.assertIn("Later than 09:00 never.\n", call("card", never + PLAN).printed)
        rare = PROMISED.replace("0.123448", "0.000000").replace("0.123449000000000000", "0.000000000000000001")
        self.assertIn("Later than 09:00 in fewer than 0.01 of 100 cases.\n", call("card", rare + PLAN).printed)

    def test_a_walk(self) -> None:
        card = call("card", WALKED).printed
        for line in ("  if you are there by 00:20 on Tue: walk 5 min to X2, t2 at 00:25 on Tue to T,\n", "At X1 (a change takes 1 min 30 s)\n",
                     "On average there at 00:40 on Tue.\n"):
            self.assertIn(line, card)

    def test_departures(self) -> None:
        card = call("card", DEPARTURES, "--feed", FEED)
        self.prints(card, "Mill to Airport\nMon 2024-06-03, from 08:00 to 08:40.\nEach departure arrives by 10:42 whatever the delays.\n\n"
                          "Departures\n  08:00 tram 1, there at 08:55 on average\n\n"
                          f"Timetable {FEED}; made on 2024-06-03.\n")

    def test_no_change(self) -> None:
        plan = PLAN.split("place")[0].replace('"S,1"', "AIR")
        self.assertIn("If nothing is late: 08:00 to 08:20, 20 min, no change.\n", call("card", plan).printed)

    def test_one_place(self) -> None:
        card = call("card", "graph,1,A,A,2024-06-03T08:00:00,2024-06-03T08:00:00,2024-06-03T08:00:00.000000000,"
                            "2024-06-03T08:00:00.000000000\n")
        self.assertIn("You are there already.\n", card.printed)

    def test_a_mark_and_a_blank_line(self) -> None:
        self.prints(call("card", "\ufeff" + PLAN + "\n", "--feed", FEED), CARD)


def city(case: Case, **tables: str) -> str:
    """The feed of one line to a station with two platforms, and one from there on."""
    return case.feed("city", **{
        "stops": "stop_id,stop_name,location_type,parent_station,platform_code\nA,Anfang,,,\nH,Zürich Hauptbahnhof,1,,\n"
                 "H1,Zürich Hauptbahnhof,0,H,41\nH2,Zürich Hauptbahnhof,,H,7\nT,Ende,,,\n",
        "routes": "route_id,route_type,route_short_name\nS,109,S2\nB,700,10\n",
        "trips": "route_id,service_id,trip_id,trip_headsign,trip_short_name\nS,WK,s1,to Bullfrog,19201\nB,WK,b1,Ende,\n",
        "stop_times": "trip_id,stop_sequence,stop_id,arrival_time,departure_time\ns1,1,A,8:00:00,8:00:00\ns1,5,H1,8:20:00,8:20:00\n"
                      "b1,1,H2,8:30:00,8:30:00\nb1,2,T,8:40:00,8:40:00\n", **tables})


CITY_PLAN = """graph,1,A,T,2024-06-03T08:00:00,2024-06-03T09:20:00,2024-06-03T08:40:00.000000000,2024-06-03T08:40:00.000000000
start,2024-06-03T08:00:00,20240603:s1,0,2024-06-03T08:00:00,0,H,2024-06-03T08:20:00
place,H,120,1,,,,
leg,2024-06-03T08:28:00,20240603:b1,0,2024-06-03T08:30:00,0,T,2024-06-03T08:40:00
"""


class Names(Case):
    def test_platforms_numbers_and_headsigns(self) -> None:
        card = call("card", CITY_PLAN, "--feed", city(self)).printed
        self.assertIn("  train S2 (19201) to Bullfrog at 08:00 to Zürich Hauptbahnhof (platform 41),\n    due 08:20\n", card)
        self.assertIn("bus 10 towards Ende from platform 7 at 08:30 to", card)
        self.assertTrue(all(len(line) <= 80 for line in card.split("\n")))

    def test_vehicles(self) -> None:
        for kind, vehicle in (("405", "monorail"), ("500", "metro"), ("1100", "flight"), ("1501", "taxi"), ("1700", "trip"), ("x", "trip")):
            routes = f"route_id,route_type,route_short_name\nS,{kind},S2\nB,700,10\n"
            self.assertIn(f"  {vehicle} S2 ", call("card", CITY_PLAN, "--feed", city(self, routes=routes)).printed)

    def test_control_characters(self) -> None:
        stops = "stop_id,stop_name\nA,\"An\x1b[31mfang\nEnde\"\nH,H\nT,T\n"
        self.assertTrue(call("card", CITY_PLAN, "--feed", city(self, stops=stops)).printed.startswith("An [31mfang Ende to T\n"))

    def test_names_of_two_stops_alike(self) -> None:
        stops = "stop_id,stop_name,stop_code\nA,A,\nX1,Markt,\nX2,Markt,M2\nT,T,\n"
        self.assertIn("walk 5 min to Markt (M2), t2 at", call("card", WALKED, "--feed", city(self, stops=stops)).printed)

    def test_other_encodings(self) -> None:
        stops = "stop_id,stop_name\nA,Gen\xe8ve\nT,T\n".encode("latin-1")
        feed = city(self)
        self.write("city/stops.txt", stops)
        self.assertTrue(call("card", CITY_PLAN, "--feed", feed).printed.startswith("Gen\ufffdve to T\n"))

    def test_only_the_names_of_the_plan_are_kept(self) -> None:
        many = "".join(f"B,WK,x{number},Nirgendwo,\n" for number in range(300_000))
        feed = city(self, trips="route_id,service_id,trip_id,trip_headsign,trip_short_name\nB,WK,b1,Ende,\nS,WK,s1,,\n" + many)
        begun = time.monotonic()
        self.assertEqual(call("card", CITY_PLAN, "--feed", feed).status, 0)
        self.assertLess(time.monotonic() - begun, 20)


class Pages(Case):
    def test_a_page(self) -> None:
        page = call("card", PLAN, "--feed", f"{OLD_TOWN}/feed", "--html").printed
        for part in ('<h2>At <bdi lang="">Old Town, Square</bdi> (a change takes 2 min)</h2>', '<th scope="col">if you are there by</th>', "<main>",
                     "color-scheme: light dark", "@media print", "overflow-wrap: anywhere"):
            self.assertIn(part, page)
        self.assertNotIn("<script", page)

    def test_names_are_escaped_and_set_apart(self) -> None:
        stops = "stop_id,stop_name\nA,<script>&\u202e\nT,\"</title>\"\"\"\n"
        page = call("card", CITY_PLAN, "--feed", city(self, stops=stops), "--html").printed
        self.assertIn("<title>&lt;script&gt;&amp; to &lt;/title&gt;&quot;</title>", page)
        self.assertIn('<h1><bdi lang="">&lt;script&gt;&amp;</bdi> to ', page)
        self.assertEqual(re.findall("<script", page), [])

    def test_the_way_on_time(self) -> None:
        page = call("card", PLAN, "--feed", FEED, "--html").printed
        rows = re.findall('<tr(.*?)><td class="time" data-head="[^"]*">(.*?)</td>', page)
        self.assertEqual(rows, [(' class="way"', ""), (' class="way"', "08:22"), ("", "08:38")])
        # All tables have the same columns, so that times are below each other.
        self.assertEqual(len(set(re.findall("<colgroup>.*?</colgroup>", page))), 1)

    def test_the_language_of_names(self) -> None:
        info, agency = "feed_publisher_name,feed_lang\nX,{}\n", "agency_name,agency_lang\n{}\n"
        cases: list[tuple[dict[str, str], str]] = [({}, ""), ({"feed_info": info.format("de-CH")}, "de-CH"), ({"agency": agency.format("X,fr\nY,fr")}, "fr"),
                 ({"agency": agency.format("X,fr\nY,it")}, ""), ({"feed_info": info.format("mul")}, ""),
                 ({"feed_info": info.format('"""><b>"'), "agency": agency.format("X,nl")}, ""),
                 ({"feed_info": "feed_publisher_name\nX\n", "agency": agency.format("X,nl")}, "")]
        for tables, language in cases:
            page = call("card", CITY_PLAN, "--feed", city(self, **tables), "--html").printed
            self.assertIn(f'<h1><bdi lang="{language}">Anfang</bdi> to ', page)
            for table in tables:
                os.remove(f"{self.room}/city/{table}.txt")

    def test_departures(self) -> None:
        self.assertIn('<th scope="col">there on average</th>', call("card", DEPARTURES, "--html").printed)


class Refusals(Case):
    def test_texts(self) -> None:
        texts: list[tuple[Union[str, bytes], str]] = [
            ("safe,A,T\n", "line 1: "), ("expanded,1\n", "`expand`"), (b"graph\xff", "not UTF-8"), (PLAN[:200], "line 2: "),
            ("safe,A,T,2024-06-03T08:00:00,2024-06-03T09:21:00,2024-06-03T10:42:00\n", "only of what `plan`, `punctual` or `departures` prints")]
        for text, why in texts:
            self.is_refused(call("card", text), why)
        # If there is no plan, the planner has already said why.
        self.assertEqual((call("card", "").status, call("card", "").errors), (1, ""))

    def test_files(self) -> None:
        self.is_refused(call("card", PLAN, "--feed", self.room), "cannot read stops.txt: No such file")
        self.is_refused(call("card", PLAN, "--feed", self.write("feed.zip", "")), "unpack the feed")
        self.is_refused(call("card", PLAN, "--delays", f"{OLD_TOWN}/delays.csv"), "--feed or --cut")
        self.is_refused(call("card", PLAN, "--feed", self.feed("none", stops="id\n")), "stops.txt has no column stop_id")
        other = f"{CONNECTIONS}/change.csv"
        self.is_refused(call("card", PLAN, "--cut", other, "--delays", f"{CONNECTIONS}/delays.csv"), "the plan belongs to another file")


class Printed(Case):
    """Cards of what the program prints."""

    def test_a_walk(self) -> None:
        feed = os.path.join(WALK, "there")
        words = ["--feed", feed, "--delays", f"{WALK}/delays.csv"]
        plan = meat("plan", *words, "--from", "A", "--to", "T", "--at", "2024-06-03T08:00:00").printed
        card = call("card", plan, *words).printed
        self.assertIn("  if you are there by 08:20: walk 5 min to X2, metro t2 at 08:25 to T, due 08:40\n", card)

    def test_a_promise(self) -> None:
        words = ["--cut", f"{CONNECTIONS}/change.csv", "--delays", f"{CONNECTIONS}/delays.csv"]
        plan = meat("punctual", *words, "--from", "A", "--to", "T", "--at", "2024-06-03T08:00:00", "--by", "2024-06-03T09:00:00").printed
        self.assertIn("Later than 09:00 in at most 24 of 100 cases.\n", call("card", plan, *words).printed)

    def test_departures(self) -> None:
        delays = self.write("delays.csv", USUAL)
        text = meat("departures", "--feed", f"{OLD_TOWN}/feed", "--delays", delays, "--from", "MIL", "--to", "AIR",
                    "--at", "2024-06-03T08:00:00", "--last", "2024-06-03T08:00:00", "--until", "2024-06-03T10:42:00").printed
        self.assertIn("  08:00 tram 1, there at 08:55 on average\n", call("card", text, "--feed", f"{OLD_TOWN}/feed").printed)


if __name__ == "__main__":
    unittest.main()
