"""Tests of map: SVG and GeoJSON of the rows of reach, the difference of two timetables, and what is refused."""

from __future__ import annotations

import json
import unittest
import xml.dom.minidom

from support import OLD_TOWN, Case, call, content

FEED_STOPS = ("stop_id,stop_name,location_type,parent_station,stop_lat,stop_lon\nA,Anfang & Ende,,,47.30,8.50\nB,Mitte,1,,,\nB1,Mitte,,B,47.40,8.55\n"
              "B2,Mitte,,B,47.42,8.57\nT,Ziel,,,47.50,8.60\nX,Nirgends,,,47.35,8.60\nN,Ohne Ort,,,,\nE,Eingang,2,B,47.41,8.56\n")
ROWS = """reach,1,T,2024-06-03T07:00:00,2024-06-03T10:00:00,3
from,A,2024-06-03T08:00:00,2024-06-03T08:54:42.000000000,2024-06-03T08:54:42.000000000
from,B,2024-06-03T08:40:00,2024-06-03T08:51:30.000000000,2024-06-03T08:51:30.000000000
from,N,2024-06-03T08:40:00,2024-06-03T08:51:30.000000000,2024-06-03T08:51:30.000000000
"""


class Map(Case):
    def setUp(self) -> None:
        super().setUp()
        self.town = self.feed("feed", stops=FEED_STOPS)

    def test_svg(self) -> None:
        ran = call("map", ROWS, self.town)
        self.assertEqual((ran.status, ran.errors), (0, "map: 1 places have a row and no coordinates, and are left out\n"))
        xml.dom.minidom.parseString(ran.printed)
        for text in ("<title>Anfang &amp; Ende: 114.7 min</title>", "<title>Mitte: 111.5 min</title>", "<title>Nirgends: none</title>",
                     ">to Ziel</text>", ">expected arrival, minutes after 07:00</text>", "grey: no row (1); the cross is the target"):
            self.assertIn(text, ran.printed)
        self.assertEqual((ran.printed.count("<circle"), ran.printed.count("the target</title>")), (3, 1))
        self.assertIn("<title>Anfang &amp; Ende: 60.0 min</title>", call("map", ROWS, self.town, "--by", "latest").printed)

    def test_the_middle_of_platforms(self) -> None:
        found = json.loads(call("map", ROWS, self.town, "--geojson").printed)
        (middle,) = [feature for feature in found["features"] if feature["properties"]["place"] == "B"]
        self.assertEqual([round(part, 4) for part in middle["geometry"]["coordinates"]], [8.56, 47.41])
        self.assertEqual(middle["properties"]["minutes"], 111.5)

    def test_a_difference(self) -> None:
        later = self.write("later.csv", ROWS.replace("08:54:42", "09:04:42"))
        ran = call("map", ROWS, self.town, "--with", later)
        xml.dom.minidom.parseString(ran.printed)
        for text in ("<title>Anfang &amp; Ende: 10.0 min</title>", "<title>Mitte: 0.0 min</title>", "expected arrival, minutes later than before",
                     ">10.0 min later: Anfang &amp; Ende</text>", "▼ a row only before (0); ▲ only after (0)"):
            self.assertIn(text, ran.printed)

    def test_rows_of_one_timetable_only(self) -> None:
        other = self.write("other.csv", ROWS.replace("from,A,", "from,X,"))
        ran = call("map", ROWS, self.town, "--with", other)
        xml.dom.minidom.parseString(ran.printed)
        for text in ("<title>Anfang &amp; Ende: lost</title>", "<title>Nirgends: gained</title>", "▼ a row only before (1); ▲ only after (1)",
                     "grey: no row (0)"):
            self.assertIn(text, ran.printed)
        self.assertEqual(ran.printed.count('class="shape"'), 2)
        found = json.loads(call("map", ROWS, self.town, "--with", other, "--geojson").printed)
        verdicts = {feature["properties"]["place"]: feature["properties"].get("verdict") for feature in found["features"]}
        self.assertEqual(verdicts, {"A": "lost", "X": "gained", "B": "same", "T": None})

    def test_no_rows_and_one_place(self) -> None:
        empty = ROWS.split("\n")[0].replace(",3", ",0") + "\n"
        for words in ((), ("--by", "latest"), ("--with", self.write("empty.csv", empty))):
            xml.dom.minidom.parseString(call("map", empty, self.town, *words).printed)
        alone = self.feed("alone", stops="stop_id,stop_lat,stop_lon\nT,1,1\n")
        xml.dom.minidom.parseString(call("map", empty, alone).printed)

    def test_refusals(self) -> None:
        self.is_refused(call("map", content(f"{OLD_TOWN}/graph.csv"), self.town), "only of what `reach` prints")
        other = self.write("other.csv", ROWS.replace("10:00:00", "11:00:00"))
        self.is_refused(call("map", ROWS, self.town, "--with", other), "of another question")
        self.is_refused(call("map", ROWS, self.feed("none", stops="stop_id\nA\nT\n")), "no place of the feed has coordinates")
        self.is_refused(call("map", ROWS, self.room), "cannot read stops.txt")


if __name__ == "__main__":
    unittest.main()
