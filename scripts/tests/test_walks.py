"""Tests of walks: which stops are near, the seconds of a walk, and rows that can be appended."""

from __future__ import annotations

import math
import random
import unittest

from support import USUAL, Case, call, content, meat

HEADER = "from_stop_id,to_stop_id,transfer_type,min_transfer_time\n"
STOPS = ("stop_id,stop_lat,stop_lon,location_type,parent_station\nA,47.0000,8.0000,,\nB1,47.0010,8.0000,0,B\nB,47.0011,8.0000,1,\n"
         "B2,47.0030,8.0000,0,B\nC,47.1000,8.0000,,\nE,47.0000,8.0001,2,B\nN,,,,\n")


class Walks(Case):
    def test_the_farthest_stops_of_two_places(self) -> None:
        # B2 is 333.96 metres from A: 1.3 times as far at 1.1 metres a second.
        seconds = math.ceil(0.003 * 111_320 * 1.3 / 1.1)
        rows = f"A,B,2,{seconds}\nB,A,2,{seconds}\n"
        self.prints(call("walks", "", self.feed("feed", stops=STOPS), "--metres", "120"), HEADER + rows)
        self.prints(call("walks", "", self.feed("feed", stops=STOPS), "--metres", "100"), HEADER)

    def test_what_is_there_already(self) -> None:
        feed = self.feed("feed", stops=STOPS, transfers="min_transfer_time,transfer_type,to_stop_id,from_stop_id,from_route_id\n60,2,B2,A,\n")
        seconds = math.ceil(0.003 * 111_320 * 1.3 / 1.1)
        self.prints(call("walks", "", feed, "--metres", "120"), f"{seconds},2,A,B,\n")
        self.assertEqual(call("walks", "", self.feed("feed", stops=STOPS, transfers=""), "--metres", "120").printed[:10], HEADER[:10])

    def test_against_each_pair(self) -> None:
        made = random.Random(11)
        for latitude in (0.0, 47.0, -69.0):
            spots = [(f"S{number}", latitude + made.uniform(0, 0.02), 179.0 + made.uniform(0, 0.02)) for number in range(120)]
            stops = "stop_id,stop_lat,stop_lon\n" + "".join(f"{name},{lat:.6f},{lon:.6f}\n" for name, lat, lon in spots)
            printed = call("walks", "", self.feed("many", stops=stops), "--metres", "300").printed
            found = {tuple(line.split(",")[:2]) for line in printed.splitlines()[1:]}
            for one, lat, lon in spots:
                for other, north, east in spots:
                    apart = math.hypot((north - lat) * 111_320, (east - lon) * 111_320 * math.cos(math.radians((lat + north) / 2)))
                    if one != other and abs(apart - 300) > 1:
                        self.assertEqual((one, other) in found, apart < 300, (one, other, apart))

    def test_the_planner_walks_by_them(self) -> None:
        feed = self.feed("feed", stops="stop_id,stop_lat,stop_lon\nA,47.0,8.0\nX,47.1,8.0\nY,47.1005,8.0\nT,47.2,8.0\n",
                         routes="route_id,route_type\nR,3\n", trips="route_id,service_id,trip_id\nR,WK,t\nR,WK,u\n",
                         stop_times="trip_id,stop_sequence,stop_id,arrival_time,departure_time\nt,1,A,8:00:00,8:00:00\n"
                                    "t,2,X,8:20:00,8:20:00\nu,1,Y,8:40:00,8:40:00\nu,2,T,8:50:00,8:50:00\n")
        words = ["--feed", feed, "--delays", self.write("usual.csv", USUAL), "--from", "A", "--to", "T", "--at", "2024-06-03T08:00:00"]
        self.assertEqual(meat("safe", *words).status, 1)
        self.write("feed/transfers.txt", call("walks", "", feed).printed)
        self.assertEqual(meat("safe", *words).status, 0)
        self.assertEqual(call("walks", "", feed).printed, "")
        self.assertIn("Y,X,2,66\n", content(f"{feed}/transfers.txt"))

    def test_refusals(self) -> None:
        self.is_refused(call("walks", "", self.feed("feed", stops="stop_id\n")), "no column stop_lat")
        self.is_refused(call("walks", "", self.feed("feed", stops="stop_id,stop_lat,stop_lon\nA,x,8\n")), "line 2: bad stop_lat or stop_lon")
        self.is_refused(call("walks", "", self.room), "cannot read stops.txt")
        self.is_refused(call("walks", "", self.feed("other", stops=STOPS, transfers="from_stop_id,to_stop_id,transfer_type\n")), "no column min_transfer_time")
        self.assertEqual(call("walks", "", self.room, "--metres", "0").status, 2)


if __name__ == "__main__":
    unittest.main()
