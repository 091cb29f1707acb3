"""Tests of look: the days, the stops, and what is counted as not taken into account."""

from __future__ import annotations

import csv
import io
import os
import unittest
from random import Random
from typing import Iterator

from support import EXAMPLES, OLD_TOWN, Case, call

from desk.days import Services, trips_by_day, trips_by_service
from desk.ignored import ignored
from desk.survey import TABLES, NotedLines, Survey

STOPS = ("stop_id,stop_name,location_type,parent_station,platform_code\nH,Zürich Hauptbahnhof,1,,\nH2,Zürich Hauptbahnhof,0,H,2\n"
         "E,Eingang,2,H,\nA,Anfang,,,\n")
TIMES = ("trip_id,stop_sequence,stop_id,arrival_time,departure_time,pickup_type\nt,1,A,8:00:00,8:00:00,2\nt,2,H2,,,\nt,3,,8:10:00,8:10:00,\n"
         "u,1,A,9:00:00,9:00:00,\n")


class Look(Case):
    def made(self, **more: str) -> str:
        tables = {"stops": STOPS, "routes": "route_id,route_type\nR,3\n", "trips": "route_id,service_id,trip_id\nR,WK,t\nR,XX,u\n",
                  "stop_times": TIMES, "frequencies": "trip_id,start_time,end_time,headway_secs\nt,8:00:00,9:00:00,600\n",
                  "transfers": "from_stop_id,to_stop_id,transfer_type,min_transfer_time,from_route_id\nA,H2,3,,\nA,H2,2,900,R\nA,H2,2,,\n"
                               "A,H,2,60,\nA,H2,2,60,\n"}
        return self.feed("feed", **{**tables, **more})

    def test_days(self) -> None:
        self.prints(call("look", "", f"{OLD_TOWN}/feed"), """Trips run from 2024-01-01 to 2024-12-31, on 262 days. Trips a day:
  2024-01-01 to 2024-12-29: Mon 3, Tue 3, Wed 3, Thu 3, Fri 3, Sat 0, Sun 0
  2024-12-30 to 2024-12-31: Mon 3, Tue 3
What the planner does not take into account:
  stop times without a time (1): no boarding or alighting there
""")
        self.assertIn("2007-06-04 to 2007-06-10: Mon 0, Tue 140", call("look", "", f"{EXAMPLES}/demo_transit/feed").printed)
        none = self.feed("none", trips="trip_id,route_id,service_id\n", stops="stop_id\n",
                         stop_times="stop_id,arrival_time,departure_time\n")
        self.assertIn("No trip runs on any day.\n", call("look", "", none).printed)

    def test_what_is_not_taken_into_account(self) -> None:
        printed = call("look", "", self.made()).printed
        for line in ("entrances, nodes and boarding areas (1): ", "trips whose service is in no calendar (1): ",
                     "stop times without a stop, on demand (1): ", "stop times without a time (1): ",
                     "stop times for which one phones ahead or asks the driver, types 2 and 3 (1): ",
                     "headways without exact times (1): ", "transfers that are not possible, type 3 (1): ",
                     "minimum transfer times of routes or trips, type 2 (1): ",
                     "minimum transfer times without a value, type 2 (1): ",
                     "transfers to or from stations, entrances and the like (1): "):
            self.assertIn(f"  {line}", printed)
        self.assertNotIn("quote", printed)

    def test_an_open_quote(self) -> None:
        printed = call("look", "", self.made(stop_times=TIMES + '"u,2,A')).printed
        self.assertIn("  quotes in stop_times.txt that are never closed (1): the rows after them are lost\n", printed)

    def test_quotes_as_the_reader_of_tables_takes_them(self) -> None:
        made, seen = Random(3), {"end": 0, "expected": 0, "": 0}
        for number in range(3000):
            text = "".join(made.choice(['"', '"', '""', ",", "a", "é", " ", "\n", "\r\n", '","', "\r"]) for _ in range(made.randrange(1, 24)))
            lines = NotedLines(self.write("quotes.csv", text))
            self.assertEqual("".join(lines), text)
            fault = ""
            try:
                list(csv.reader(io.StringIO(text, newline=""), strict=True))
            except csv.Error as error:
                fault = "end" if "unexpected end" in str(error) else "expected"
            seen[fault] += 1
            if fault == "expected":
                self.assertGreater(lines.rests, 0, text)
            else:
                self.assertEqual((lines.is_open, lines.rests), (fault == "end", 0), text)
        self.assertGreater(min(seen.values()), 200)

    def test_encodings(self) -> None:
        feed = self.made()
        self.assertNotIn("UTF-8", call("look", "", feed).printed)
        self.write("feed/stops.txt", STOPS.encode("latin-1"))
        self.assertIn("stops.txt is not UTF-8: names are shown wrongly", call("look", "", feed).printed)
        for encoding in ("utf-16", "utf-16-le"):
            self.write("feed/stops.txt", STOPS.encode(encoding))
            self.is_refused(call("look", "", feed), "stops.txt is not UTF-8: convert it")

    def test_what_the_planner_refuses(self) -> None:
        """The counts are printed, and then the refusal of the planner."""
        for tables, why in (({"stop_times": TIMES.replace("8:10:00", "8:10")}, "stop_times.txt line 4: bad arrival_time"),
                            ({"routes": "route_id,route_type\nR,Bus\n"}, "routes.txt line 2: bad route_type")):
            ran = call("look", "", self.made(**tables))
            self.assertEqual((ran.status, ran.errors), (1, f"look: the planner refuses this feed: meat: {why}\n"))
            self.assertIn("Trips run from 2024-01-01", ran.printed)
        alone = self.feed("alone", stops="stop_id\nA\n", routes="route_id,route_type\n", trips="route_id,service_id,trip_id\n",
                          stop_times="trip_id,stop_sequence,stop_id,arrival_time,departure_time\n")
        os.remove(f"{alone}/calendar.txt")
        ran = call("look", "", alone)
        self.assertEqual((ran.status, ran.errors), (1, "look: the planner refuses this feed: meat: calendar.txt is missing\n"))
        self.assertIn("No trip runs on any day.\n", ran.printed)

    def test_each_table_is_read_once(self) -> None:
        opened: list[str] = []

        class Counted(NotedLines):
            def read(self) -> Iterator[str]:
                opened.append(os.path.basename(self.path))
                return super().read()

        class CountedSurvey(Survey):
            def lines(self, name: str) -> NotedLines:
                return self.noted.setdefault(name, Counted(os.path.join(self.folder, name)))

        survey = CountedSurvey(self.made(calendar_dates="service_id,date,exception_type\n"))
        trips_by_day(Services(survey.folder, survey.rows), trips_by_service(survey.folder, survey.rows))
        ignored(survey)
        self.assertEqual(sorted(opened), sorted(TABLES))

    def test_stops(self) -> None:
        self.prints(call("look", "", self.made(), "ZURICH"), """Stops with ZURICH in their name or id (id, name, kind, place):
  H, Zürich Hauptbahnhof, station, H
  H2, Zürich Hauptbahnhof, platform 2, H
""")
        self.prints(call("look", "", self.made(), "xyz"), "No stop has xyz in its name or id.\n")
        self.prints(call("look", "", self.made(), "huaptbahnhof"),
                    "No stop has huaptbahnhof in its name or id; did you mean Zürich Hauptbahnhof?\n")

    def test_refusals(self) -> None:
        self.is_refused(call("look", "", self.room), "cannot read trips.txt")
        self.is_refused(call("look", "", self.write("feed.zip", "")), "unpack")
        self.is_refused(call("look", "", self.made(stops="id\n")), "stops.txt has no column stop_id")


if __name__ == "__main__":
    unittest.main()
