"""Tests of slice: the same answers over the smaller feed, what is kept, and what is refused."""

from __future__ import annotations

import os
import unittest
from random import Random

from support import EXAMPLES, OLD_TOWN, USUAL, Case, call, content, made_feed, meat


class Slice(Case):
    def test_the_same_answers(self) -> None:
        found = 0
        delays = self.write("usual.csv", USUAL)
        for number in range(30):
            feed, out = self.feed(str(number), **made_feed(Random(number))), f"{self.room}/{number}.out"
            self.assertEqual(call("slice", "", feed, "2024-06-03", "--days", "2", out).status, 0)
            for start in ("2024-06-03T08:00:00", "2024-06-04T23:30:00"):
                words = ["--delays", delays, "--from", "S0", "--to", "S1", "--at", start, "--horizon", "72"]
                whole, part = (meat("plan", "--feed", folder, *words) for folder in (feed, out))
                self.assertEqual((whole.status, whole.printed, whole.errors), (part.status, part.printed, part.errors), f"{number} {start}")
                found += whole.status == 0
        self.assertGreater(found, 10)

    def test_what_is_kept(self) -> None:
        feed = self.feed("feed", stops="stop_id\nA\nB\n", routes="route_id,route_type\nR,3\n",
                         calendar="service_id,monday,tuesday,wednesday,thursday,friday,saturday,sunday,start_date,end_date\n"
                                  "OLD,1,1,1,1,1,1,1,20240101,20240520\nNOW,1,1,1,1,1,1,1,20240101,20240521\n",
                         trips="route_id,service_id,trip_id\nR,OLD,o\nR,NOW,n\nR,OLD,f\n",
                         stop_times='trip_id,stop_sequence,stop_id\no,1,A\n"n",1,A\nf,1,A\nn,2,B\n',
                         frequencies="trip_id,start_time,end_time,headway_secs\nf,8:00:00,9:00:00,600\n", feed_info="feed_lang\nde\n")
        # Fourteen days before the fourth of June is the twenty-first of May.
        self.prints(call("slice", "", feed, "2024-06-04", f"{self.room}/out"), "trips.txt: 2 of 3 rows\nstop_times.txt: 3 of 4 rows\n")
        self.assertEqual(content(f"{self.room}/out/feed_info.txt"), "feed_lang\nde\n")
        self.assertEqual(content(f"{self.room}/out/stop_times.txt"), "trip_id,stop_sequence,stop_id\nn,1,A\nf,1,A\nn,2,B\n")

    def test_refusals(self) -> None:
        self.is_refused(call("slice", "", f"{OLD_TOWN}/feed", "2024-06-03", self.room), "exists already")
        self.is_refused(call("slice", "", self.room, "2024-06-03", f"{self.room}/out"), "cannot read trips.txt")
        self.assertEqual(call("slice", "", f"{EXAMPLES}/old_town/feed", "06/03/2024", f"{self.room}/out").status, 2)
        self.assertFalse(os.path.exists(f"{self.room}/out") or os.path.exists(f"{self.room}/out.new"))


if __name__ == "__main__":
    unittest.main()
