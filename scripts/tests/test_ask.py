"""Tests of ask: stops by name, plans for a deadline of one's own, and why there is no plan."""

from __future__ import annotations

import unittest
from random import Random

from support import OLD_TOWN, USUAL, WALK, Case, Ran, call, content, made_feed, meat

from desk.journeys import alpha_within, hours_to
from desk.places import stops_meant
from desk.plans import Moment, Refused, Safe, read, read_plan

FEED, DELAYS = f"{OLD_TOWN}/feed", f"{OLD_TOWN}/delays.csv"


class Stops(Case):
    def ask(self, source: str, target: str, *more: str) -> Ran:
        return call("ask", "", FEED, DELAYS, source, target, "2024-06-03T08:00", *more)

    def test_by_name_or_id(self) -> None:
        for source in ("MIL", "mill", "Mil"):
            ran = self.ask(source, "AIRPORT")
            self.assertEqual(ran.status, 0, ran.errors)
            self.assertIn("There by 08:50 in 64 of 100 cases, by 09:06 in 96 and by 09:21 in all.\n", ran.printed)
        self.assertTrue(self.ask("MIL", "old town").printed.startswith("Mill to Old Town, Square\n"))
        self.assertIn("<main>", self.ask("MIL", "AIR", "--html").printed)

    def test_what_is_unknown_or_many(self) -> None:
        self.is_refused(self.ask("nowhere", "AIR"), "FROM: there is no stop nowhere")
        self.is_refused(self.ask("nowhere", "airprt"), "FROM: there is no stop nowhere")
        self.is_refused(self.ask("MIL", "airprt"), "TO: there is no stop airprt; did you mean Airport?")
        self.is_refused(self.ask("MIL", "sqaure"), "TO: there is no stop sqaure; did you mean Old Town, Square?")
        self.is_refused(self.ask("MIL", "twn olde"), "did you mean Old Town, Square?")
        for text in ("", ",-"):
            self.is_refused(self.ask("MIL", text), "TO: the name or the id of a stop is expected")
        many = self.feed("many", stops="stop_id,stop_name\n" + "".join(f"S{at},Saint {at}\n" for at in range(20)))
        self.is_refused(call("ask", "", many, DELAYS, "saint", "S1", "08:00"), "and 10 more; write more of the name")

    def test_names_as_people_say_them(self) -> None:
        stops = ("stop_id,stop_name,stop_lat,stop_lon,stop_code\nBEL,\"Zürich, Bellevue\",47.3667,8.5450,8591058\n"
                 "BEL2,\"Zürich, Bellevue\",47.3668,8.5451,\nFAR,\"Zürich, Bellevue\",47.4667,8.5451,\nE,Saint-Étienne,,,\nG,St. Gallen,,,\nL,Łódź,,,\n")
        feed = self.feed("names", stops=stops, stop_times="trip_id,stop_id\n")
        for text, found in (("bel", "BEL"), ("8591058", "BEL"), ("saint etienne", "E"), ("st gallen", "G"), ("lodz", "L"), ("etien saint", "E")):
            self.assertEqual([stop.id for stop in stops_meant(feed, text, "FROM")], [found], text)
        with self.assertRaisesRegex(Refused, "may mean BEL .*code 8591058.*BEL2.*FAR.*give the id"):
            stops_meant(feed, "bellevue zuerich", "FROM")
        near = self.feed("near", stops=stops.replace("FAR,\"Zürich, Bellevue\"", "FAR,Anderswo"))
        self.assertEqual([stop.id for stop in stops_meant(near, "bellevue zuerich", "FROM")], ["BEL", "BEL2"])

    def test_moments(self) -> None:
        for when in ("2024-06-03 8:00", "2024-06-03T08:00:00"):
            self.assertEqual(call("ask", "", FEED, DELAYS, "MIL", "AIR", when).status, 0)
        for when in ("2024-06-03T08:61", "2024-13-03T08:00", "now", "2024-06-03"):
            self.is_refused(call("ask", "", FEED, DELAYS, "MIL", "AIR", when), "WHEN: ")
        # A time alone means today, for which the feed has no trips.
        self.is_refused(call("ask", "", FEED, DELAYS, "MIL", "AIR", "08:00"), "the feed has trips from 2024-01-01 to 2024-12-31")


class By(Case):
    def test_a_plan_within_it(self) -> None:
        ran = call("ask", "", FEED, DELAYS, "MIL", "AIR", "2024-06-03T07:00", "--by", "09:30")
        self.assertEqual(ran.status, 0, ran.errors)
        self.assertIn("To be there by 09:30 whatever the delays, leave by 08:00.\n", ran.printed)

    def test_too_soon(self) -> None:
        ran = call("ask", "", FEED, DELAYS, "MIL", "AIR", "2024-06-03T08:00", "--by", "09:20")
        self.assertEqual((ran.status, ran.errors), (1, "ask: no plan arrives by 09:20 whatever the delays, not even from the day before on\n"))
        self.assertIn("Later than 09:20 in at most 1 of 100 cases.\n", ran.printed)
        self.assertIn("No plan is less often late.\n", ran.printed)
        sooner = call("ask", "", FEED, DELAYS, "MIL", "AIR", "2024-06-04T08:01", "--by", "2024-06-04T09:30")
        self.assertIn("leave by 08:00: ask for 2024-06-04T08:00:00", sooner.errors)
        self.is_refused(call("ask", "", FEED, DELAYS, "MIL", "AIR", "2024-06-03T08:00", "--by", "2024-06-03T07:00"), "--by is before the start")

    def test_where_each_plan_is_late(self) -> None:
        self.is_refused(call("ask", "", FEED, DELAYS, "MIL", "AIR", "2024-06-03T09:00", "--by", "10:00"), "leave by 08:00: ask for 2024-06-03T08:00:00")
        # A time alone that has passed is that of the next day.
        self.is_refused(call("ask", "", FEED, DELAYS, "MIL", "AIR", "2024-06-03T23:30", "--by", "00:30"), "arrives by 00:30 on Tue whatever")

    def test_a_deadline_alone(self) -> None:
        ran = call("ask", "", FEED, DELAYS, "MIL", "AIR", "--by", "2024-06-03T12:00", "--next", "2")
        self.assertEqual(ran.status, 0, ran.errors)
        self.assertIn("Mon 2024-06-03, from 08:00 on.\n", ran.printed)
        self.assertIn("To be there by 12:00 whatever the delays, leave by 08:00.\n", ran.printed)
        self.assertEqual(call("ask", "", FEED, DELAYS, "MIL", "AIR").status, 2)
        self.assertEqual(call("ask", "", FEED, DELAYS, "MIL", "AIR", "--by", "12:00", "--alpha", "150").status, 2)

    def test_the_departures_that_follow(self) -> None:
        ran = call("ask", "", FEED, DELAYS, "S,1", "AIR", "2024-06-03T08:00", "--next", "2", "--plan", f"{self.room}/kept.csv")
        self.assertIn("Departures that follow, each there by", ran.printed)
        self.assertIn("08:40 bus 7, there at", ran.printed)
        self.assertEqual(read_plan(content(f"{self.room}/kept.csv")).source, "S,1")

    def test_the_greatest_alpha(self) -> None:
        made = Random(5)
        for _ in range(2000):
            start = Moment(2024, 6, 3, 8)
            worst, by = sorted(Moment(2024, 6, 3 + made.randrange(0, 3), made.randrange(8, 24), made.randrange(60), made.randrange(60))
                               for _ in range(2))
            alpha = alpha_within(Safe("A", "T", start, worst, worst), by)
            least, most = int((worst - start).total_seconds()), int((by - start).total_seconds())
            self.assertTrue(100 <= alpha <= 1000 and least * alpha // 100 <= most)
            self.assertTrue(alpha == 1000 or least * (alpha + 1) // 100 > most)
        self.assertEqual((hours_to(Moment(2024, 6, 3), Moment(2024, 6, 3, 1)), hours_to(Moment(2024, 6, 3), Moment(2024, 6, 3, 1, 0, 1))), (1, 2))

    def test_the_deadline_is_kept(self) -> None:
        found = 0
        for number in range(40):
            feed = self.feed(str(number), **made_feed(Random(number)))
            words = ["--feed", feed, "--delays", self.write("usual.csv", USUAL), "--from", "S0", "--to", "S1", "--at", "2024-06-03T08:00:00"]
            safe = meat("safe", *words)
            if safe.status:
                continue
            known = read(safe.printed)
            assert isinstance(known, Safe)
            by = known.worst + (known.worst - known.start) / 7
            by = by.replace(microsecond=0)
            plan = read_plan(meat("plan", *words, "--alpha", str(alpha_within(known, by))).printed)
            self.assertLessEqual(plan.deadline, by)
            self.assertEqual(call("ask", "", feed, words[3], "S0", "S1", "2024-06-03T08:00", "--by", str(by)).status, 0)
            found += 1
        self.assertGreater(found, 10)


class Why(Case):
    """Each cause is reported."""

    def why(self, feed: str, source: str, target: str, *more: str, when: str = "2024-06-03T08:00", delays: str = DELAYS) -> str:
        ran = call("ask", "", feed, delays, source, target, when, *more)
        self.is_refused(ran, "no safe strategy: ")
        return ran.errors

    def test_days(self) -> None:
        self.assertIn("no trip runs on Sun 2024-06-09; the next day with trips is Mon 2024-06-10", self.why(FEED, "MIL", "AIR", "--horizon", "12", when="2024-06-09T08:00"))
        self.assertIn("no trip runs on Mon 2030-06-03; the feed has trips from 2024-01-01 to 2024-12-31", self.why(FEED, "MIL", "AIR", when="2030-06-03T08:00"))

    def test_entrances_and_places_without_trips(self) -> None:
        stops = "stop_id,stop_name,location_type,parent_station\nA,A,,\nE,Entrance,2,S\nS,Station,1,\nB,B,,S\nX,Alone,,\n"
        feed = self.feed("feed", stops=stops, routes="route_id,route_type\nR,3\n", trips="route_id,service_id,trip_id\nR,WK,t\n",
                         stop_times="trip_id,stop_sequence,stop_id,arrival_time,departure_time\nt,1,A,8:10:00,8:10:00\nt,2,B,8:20:00,8:20:00\n")
        self.assertIn("E is an entrance, where nothing stops; ask for a plan to S", self.why(feed, "A", "E"))
        self.assertIn("no trip stops at Alone (X)", self.why(feed, "A", "X"))
        self.assertIn("there is no way from Station to A within 72 hours", self.why(feed, "S", "A"))

    def test_walks(self) -> None:
        there, delays = f"{WALK}/there", f"{WALK}/delays.csv"
        ran = call("ask", "", there, delays, "A", "X2", "2024-06-03T08:00")
        self.assertEqual((ran.status, "walk 5 min to" in ran.printed), (0, True), ran.errors)
        ran = call("ask", "", there, delays, "X1", "T", "2024-06-03T08:00")
        self.assertIn("Leave at 08:00 and walk 5 min to", ran.printed)

    def test_a_longer_window_and_delays(self) -> None:
        self.assertIn("nothing safe leaves within an hour; the next leaves at 08:00: ask for 2024-06-03T08:00:00",
                      self.why(FEED, "MIL", "AIR", "--horizon", "1", when="2024-06-03T06:30"))
        strict = self.write("strict.csv", "class,delay,weight\n*,0,5000\n*,86400,5000\n")
        line = self.why(FEED, "MIL", "AIR", delays=strict, when="2024-12-31T08:00")
        self.assertIn("if nothing were late, you would be there at 08:50", line)

    def test_after_the_last_departure(self) -> None:
        self.assertIn("nothing safe leaves any more on Mon 2024-06-03; the last left at 08:00, the next leaves at 08:00 on Tue: "
                      "ask for 2024-06-04T08:00:00", self.why(FEED, "MIL", "AIR", when="2024-06-03T08:20"))
        # The next one is more than 72 hours later.
        for more in ((), ("--horizon", "72")):
            self.assertIn("nothing safe leaves any more on Fri 2024-06-07; the last left at 08:00, the next leaves at 08:00 on Mon: "
                          "ask for 2024-06-10T08:00:00", self.why(FEED, "MIL", "AIR", *more, when="2024-06-07T08:20"))
        self.assertIn("the feed ends on 2024-12-31", self.why(FEED, "MIL", "AIR", when="2024-12-31T23:50"))

    def test_pairs_of_near_stops(self) -> None:
        # Trips stop at the second stop of each name only; a walk leads to the second one only, too.
        stops = ("stop_id,stop_name,stop_lat,stop_lon\nA1,Anfang,47,8\nA2,Anfang,47.0001,8\nZ1,Ziel,48,8\nZ2,Ziel,48.0001,8\nM,Mitte,47.5,8\n"
                 "N,Nirgends,46,8\nN2,Nirgends,46.0001,8\n")
        times = "trip_id,stop_sequence,stop_id,arrival_time,departure_time\nt,1,A2,8:10:00,8:10:00\nt,2,{},8:20:00,8:20:00\n"
        tables = {"stops": stops, "routes": "route_id,route_type\nR,3\n", "trips": "route_id,service_id,trip_id\nR,WK,t\n"}
        feed = self.feed("near", **tables, stop_times=times.format("Z2"))
        self.assertEqual(call("ask", "", feed, DELAYS, "anfang", "ziel", "2024-06-03T08:00").status, 0)
        self.assertIn("the next leaves at 08:10 on Mon", self.why(feed, "anfang", "ziel", when="2024-06-07T08:30"))
        self.assertIn("no trip stops at Nirgends (N, N2)", self.why(feed, "anfang", "nirgends"))
        walk = self.feed("walk", **tables, stop_times=times.format("M"),
                         transfers="from_stop_id,to_stop_id,transfer_type,min_transfer_time\nM,Z2,2,240\n")
        ran = call("ask", "", walk, DELAYS, "anfang", "ziel", "2024-06-03T08:00")
        self.assertEqual((ran.status, "From Mitte walk 4 min to Ziel." in ran.printed), (0, True), ran.errors)

    def test_other_refusals(self) -> None:
        self.is_refused(call("ask", "", FEED, f"{self.room}/none", "MIL", "AIR", "2024-06-03T08:00"), "delay file is missing")


if __name__ == "__main__":
    unittest.main()
