#!/usr/bin/env python3
"""How much later the average traveller arrives for each minute that trams may be late: the planner asked from Python.

    python3 examples/python/late_trams.py
"""

import os
import sys
import tempfile

TOP = os.path.dirname(os.path.dirname(os.path.dirname(os.path.realpath(__file__))))
sys.path.insert(0, os.path.join(TOP, "scripts"))

import meat

FEED = os.path.join(TOP, "examples", "old_town", "feed")


def main() -> None:
    with tempfile.TemporaryDirectory() as folder:
        delays = os.path.join(folder, "delays.csv")
        for minutes in (1, 2, 5, 10, 15):
            with open(delays, "w", encoding="ascii") as file:
                file.write(f"class,delay,weight\n*,0,8000\n*,{60 * minutes},2000\n")
            answer = meat.plan(feed=FEED, delays=delays, source="MIL", target="AIR", at="2024-06-03T08:00:00")
            graph = answer.rows[0]
            rides = sum(row["kind"] in ("start", "leg") for row in answer.rows)
            print(f"late by {minutes:2} min: there at {graph['lower'][11:19]} on average, {rides} rides to know")


if __name__ == "__main__":
    main()
