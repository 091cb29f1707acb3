"""A small town in some sixty shapes, as feeds come: no script ends with a traceback over any of them."""

from __future__ import annotations

import os
import unittest
from concurrent.futures import ThreadPoolExecutor
from typing import Callable

from support import OLD_TOWN, USUAL, Case, Ran, call

TOWN = {
    "stops": "stop_id,stop_name,location_type,parent_station,platform_code,stop_lat,stop_lon,stop_code\n"
             "BEL,\"Zürich, Bellevue\",1,,,47.3667,8.5450,\nBEL1,\"Zürich, Bellevue\",0,BEL,1,47.3667,8.5450,8591058\n"
             "BEL2,\"Zürich, Bellevue\",0,BEL,2,47.3668,8.5451,8591059\nHB,Hauptbahnhof,,,,47.3779,8.5403,8503000\n"
             "FLU,Flughafen,,,,47.4504,8.5624,\nE,Eingang,2,BEL,,47.3667,8.5450,\n",
    "routes": "route_id,route_type,route_short_name,route_long_name,route_color\nT4,0,4,,11AA44\nS2,109,S2,,000000\n",
    "trips": "route_id,service_id,trip_id,trip_headsign\nT4,WK,a1,Hauptbahnhof\nT4,WK,a2,Hauptbahnhof\nS2,WK,s1,Flughafen\nS2,WK,s2,Flughafen\n",
    "stop_times": "trip_id,stop_sequence,stop_id,arrival_time,departure_time\n"
                  "a1,1,BEL1,08:00:00,08:00:00\na1,2,HB,08:08:00,08:08:00\na2,1,BEL2,08:10:00,08:10:00\na2,2,HB,08:18:00,08:18:00\n"
                  "s1,1,HB,08:12:00,08:12:00\ns1,2,FLU,08:24:00,08:24:00\ns2,1,HB,08:42:00,08:42:00\ns2,2,FLU,08:54:00,08:54:00\n",
    "transfers": "from_stop_id,to_stop_id,transfer_type,min_transfer_time\nHB,HB,2,120\n",
}
REACH = """reach,1,FLU,2024-06-03T07:00:00,2024-06-03T10:00:00,1
from,BEL,2024-06-03T08:00:00,2024-06-03T08:54:42.000000000,2024-06-03T08:54:42.000000000
"""
Tables = dict[str, str]
Change = Callable[[Tables], None]


def swapped(table: str, old: str, new: str) -> Change:
    def change(tables: Tables) -> None:
        assert old in tables[table], (table, old)
        tables[table] = tables[table].replace(old, new)
    return change


def added(table: str, text: str) -> Change:
    def change(tables: Tables) -> None:
        tables[table] = tables.get(table, "") + text
    return change


def without(table: str) -> Change:
    def change(tables: Tables) -> None:
        del tables[table]
    return change


def emptied(table: str, lines: int) -> Change:
    """Only the first lines of a table."""
    def change(tables: Tables) -> None:
        tables[table] = "".join(line + "\n" for line in tables[table].split("\n")[:lines])
    return change


CALENDAR = "service_id,monday,tuesday,wednesday,thursday,friday,saturday,sunday,start_date,end_date\n"
SHAPES: list[Change] = [
    lambda tables: None,
    *(without(table) for table in ("stops", "routes", "trips", "stop_times", "transfers")),
    *(emptied(table, lines) for table in TOWN for lines in (0, 1)),
    *(swapped("routes", "T4,0,", f"T4,{kind},") for kind in ("Tram", "", "99999", "-1", "0.0", "００")),
    swapped("stops", "stop_id,", "id,"), swapped("stop_times", "stop_sequence", "seq"), swapped("trips", "service_id", "service"),
    swapped("stop_times", "08:08:00,08:08:00", "8:8,8:8"), swapped("stop_times", "08:08:00,08:08:00", "07:08:00,07:08:00"),
    swapped("stop_times", "08:08:00,08:08:00", ","), swapped("stop_times", "a1,2,HB", "a1,2,XX"), swapped("stop_times", "a1,2,", "a1,1,"),
    swapped("stop_times", "a1,2,", "a1,x,"), swapped("stop_times", "a1,1,BEL1", "\"a1,1,BEL1"), swapped("stops", "\"Zürich, Bellevue\",1", "\"Zürich, Bellevue,1"),
    swapped("stops", "47.3667", "north"), swapped("stops", "47.3667", "470"), swapped("stops", "BEL,1,47", "NONE,1,47"),
    swapped("stops", "HB,Hauptbahnhof,,", "HB,,9,"), swapped("stops", "FLU,Flughafen", "HB,Flughafen"), swapped("stops", ",Flughafen", ",\"Flug\nhafen\""),
    swapped("stops", ",Flughafen", ",\x1b[31mFlug\u202e"), swapped("trips", "T4,WK,a1", "XX,WK,a1"), swapped("trips", "T4,WK,a1", "T4,NO,a1"),
    swapped("trips", "WK,a2", "WK,a1"), swapped("trips", "a1,Hauptbahnhof", "a1,"), swapped("routes", "11AA44", "green"),
    swapped("transfers", "HB,HB,2,120", "HB,HB,99999,120"), swapped("transfers", "HB,HB,2,120", "HB,FLU,2,"),
    swapped("transfers", "HB,HB,2,120", "HB,FLU,2,x"), swapped("transfers", "HB,HB,2,120", "BEL,HB,2,900\nHB,FLU,2,99999999"),
    added("calendar_dates", "service_id,date,exception_type\nWK,2024-08-01,2\n"), added("calendar_dates", "service_id,date,exception_type\nWK,20240603,2\n"),
    added("calendar_dates", "service_id,date,exception_type\nWK,20249999,1\n"), added("calendar_dates", "service_id,date\n"),
    added("calendar", CALENDAR + "WK,1,1,1,1,1,0,0,20240101,x\n"), added("calendar", CALENDAR), added("calendar", CALENDAR + "WK,yes,1,1,1,1,0,0,20240101,20241231\n"),
    added("frequencies", "trip_id,start_time,end_time,headway_secs\na1,08:00:00,09:00:00,0\n"),
    added("frequencies", "trip_id,start_time,end_time,headway_secs\na1,8,9,600\n"), added("frequencies", "trip_id,start_time,end_time,headway_secs\na1,08:00:00,09:00:00,600\n"),
    added("calendar", ""), lambda tables: tables.update(calendar="", calendar_dates="service_id,date,exception_type\nWK,20240603,1\n"),
    swapped("stops", "47.3667", "nan"), swapped("transfers", "HB,HB,2,120", "HB,FLU,2,-5"), added("feed_info", "feed_lang\n\"de"),
    swapped("stop_times", "\n", "\r\n"), swapped("stop_times", "\n", "\r"), swapped("stops", "stop_id", "\ufeffstop_id"), swapped("trips", ",", ";"),
]


class Shapes(Case):
    def runs(self, number: int, change: Change) -> list[Ran]:
        tables = dict(TOWN)
        change(tables)
        feed = self.feed(f"feed{number}", **tables)
        return self.scripts(feed, f"{number}")

    def scripts(self, feed: str, name: str) -> list[Ran]:
        delays = self.write(f"delays{name}.csv", USUAL)
        reach = self.write(f"reach{name}.csv", REACH.replace("from,BEL,", "from,HB,"))
        plan = f"{OLD_TOWN}/graph.csv"
        with open(plan, encoding="utf-8") as file:
            text = file.read().replace("t100", "a1").replace("b200", "s1").replace("b201", "s2")
        when = "2024-06-03T07:55"
        return [call("look", "", feed), call("look", "", feed, "bellevue"), call("ask", "", feed, delays, "bellevue", "flughafen", when),
                call("ask", "", feed, delays, "BEL", "FLU", "2024-06-02T07:55", "--next", "3"),
                call("ask", "", feed, delays, "zuerich", "flug", "--by", "2024-06-03 09:30", "--html"),
                call("card", text, "--feed", feed, "--delays", delays, "--html"), call("odds", text, "--feed", feed, "--delays", delays),
                call("compare", f"from,to,at\nBEL,FLU,{when}\nx,FLU,{when}\n", feed, "--without", "a1", "--delays", delays),
                call("slice", "", feed, "2024-06-03", f"{self.room}/out{name}"), call("walks", "", feed),
                call("trial", "", feed, delays, "--questions", "2"), call("map", REACH, feed), call("map", REACH, feed, "--with", reach, "--geojson"),
                call("delays", "trip_id,late\na1,30\nzz,x\n", "--feed", feed, "--skip-bad")]

    def test_no_traceback(self) -> None:
        with ThreadPoolExecutor(len(os.sched_getaffinity(0))) as pool:
            found = list(pool.map(lambda of: self.runs(*of), enumerate(SHAPES)))
        self.assertGreaterEqual(len(found), 60)
        for number, runs in enumerate(found):
            for ran in runs:
                self.assertNotIn("Traceback", ran.errors, f"shape {number}: {ran.errors}")
                self.assertIn(ran.status, (0, 1), f"shape {number}: {ran.errors}")
        answered = sum(runs[2].status == 0 for runs in found)
        self.assertGreater(answered, 10)

    def test_other_encodings(self) -> None:
        for encoding in ("latin-1", "utf-16"):
            feed = self.feed(encoding, **TOWN)
            self.write(f"{encoding}/stops.txt", TOWN["stops"].encode(encoding))
            for ran in self.scripts(feed, encoding):
                self.assertNotIn("Traceback", ran.errors)
        self.assertIn("stops.txt is not UTF-8", call("look", "", f"{self.room}/latin-1").printed)


if __name__ == "__main__":
    unittest.main()
