"""What the tests of the scripts share: calls of scripts, small feeds and made timetables."""

from __future__ import annotations

import os
import random
import subprocess
import sys
import tempfile
import unittest
from typing import Union

sys.dont_write_bytecode = True
TESTS = os.path.dirname(os.path.realpath(__file__))
SCRIPTS = os.path.dirname(TESTS)
TOP = os.path.dirname(SCRIPTS)
sys.path[:0] = [SCRIPTS, os.path.join(SCRIPTS, "launcher")]

EXAMPLES = os.path.join(TOP, "examples")
OLD_TOWN = os.path.join(EXAMPLES, "old_town")
WALK = os.path.join(EXAMPLES, "walk")
CONNECTIONS = os.path.join(EXAMPLES, "connections")
MEAT = os.path.abspath(os.environ.get("MEAT", os.path.join(TOP, "meat")))

USUAL = "class,delay,weight\n*,0,8000\n*,300,1500\n*,900,500\n"
CALENDAR = ("service_id,monday,tuesday,wednesday,thursday,friday,saturday,sunday,start_date,end_date\n"
            "WK,1,1,1,1,1,0,0,20240101,20241231\n")


class Ran:
    """How a call ended, and what it printed."""

    def __init__(self, status: int, printed: bytes, errors: bytes) -> None:
        self.status, self.printed, self.errors = status, printed.decode("utf-8"), errors.decode("utf-8", errors="replace")


def call(script: str, text: Union[str, bytes], *words: str) -> Ran:
    """Calls a script with a text on standard input."""
    data = text if isinstance(text, bytes) else text.encode("utf-8")
    environment = {**os.environ, "MEAT": MEAT, "PYTHONDONTWRITEBYTECODE": "1", "SOURCE_DATE_EPOCH": "1717372800"}
    ran = subprocess.run([os.path.join(SCRIPTS, script), *words], input=data, capture_output=True, timeout=120, env=environment,
                         cwd=TOP)
    return Ran(ran.returncode, ran.stdout, ran.stderr)


def meat(*words: str) -> Ran:
    """Calls the program."""
    ran = subprocess.run([MEAT, *words], stdin=subprocess.DEVNULL, capture_output=True, timeout=120)
    return Ran(ran.returncode, ran.stdout, ran.stderr)


def content(path: str) -> str:
    with open(path, encoding="utf-8", newline="") as file:
        return file.read()


class Case(unittest.TestCase):
    """A test with a folder of its own, and assertions on what scripts print."""

    def setUp(self) -> None:
        room = tempfile.TemporaryDirectory()
        self.addCleanup(room.cleanup)
        self.room = room.name

    def write(self, name: str, text: Union[str, bytes]) -> str:
        """Writes a file below the folder, and returns its path."""
        path = os.path.join(self.room, name)
        os.makedirs(os.path.dirname(path), exist_ok=True)
        with open(path, "wb") as file:
            file.write(text if isinstance(text, bytes) else text.encode("utf-8"))
        return path

    def feed(self, name: str, **tables: Union[str, bytes]) -> str:
        """Writes a feed with these tables, named without `.txt`, and returns its folder."""
        self.write(f"{name}/calendar.txt", CALENDAR)
        for table, text in tables.items():
            self.write(f"{name}/{table}.txt", text)
        return os.path.join(self.room, name)

    def prints(self, ran: Ran, text: str) -> None:
        self.assertEqual((ran.status, ran.printed), (0, text), ran.errors)

    def is_refused(self, ran: Ran, why: str) -> None:
        """One line on standard error, nothing on standard output, status 1."""
        self.assertEqual((ran.status, ran.printed), (1, ""), ran.errors)
        self.assertIn(why, ran.errors)
        self.assertEqual(ran.errors.count("\n"), 1, ran.errors)


def clock(second: int) -> str:
    return f"{second // 3600:02}:{second // 60 % 60:02}:{second % 60:02}"


def made_cut(made: random.Random) -> str:
    """A cut file of a few places and many runs, each of up to three connections, of three classes."""
    places = [f"P{number}" for number in range(made.randrange(3, 7))]
    rows = ["run,step,from,to,dep,arr,class,change"]
    for run in range(made.randrange(20, 60)):
        moment, place = 8 * 3600 + made.randrange(0, 4 * 3600), made.choice(places)
        for step in range(1, made.randrange(2, 5)):
            to = made.choice([other for other in places if other != place])
            arrival = moment + made.randrange(60, 1800)
            rows.append(f"r{run},{step},{place},{to},2024-06-03T{clock(moment)},2024-06-03T{clock(arrival)},"
                        f"{made.choice(['', '1', '3'])},{made.choice(['', '60', '180'])}")
            moment, place = arrival + made.randrange(0, 300), to
    return "\n".join(rows) + "\n"


def made_delays(made: random.Random, routes: list[str]) -> str:
    """A delay file with the class *, two route types, and groups by hour and, if there are routes, by route."""
    groups = [("*", "", "")] + [(kind, "", "") for kind in ("1", "3") if made.random() < 0.7]
    groups += [(kind, "", str(made.randrange(8, 14))) for kind in ("*", "3") if made.random() < 0.5]
    groups += [("*", route, made.choice(["", "9", "10"])) for route in routes if made.random() < 0.5]
    rows = ["class,delay,weight,route_id,hour"]
    for kind, route, hour in dict.fromkeys(groups):
        count = made.randrange(1, 5)
        cuts = sorted(made.sample(range(1, 10_000), count - 1))
        weights = [high - low for low, high in zip([0, *cuts], [*cuts, 10_000])]
        delays = sorted(made.sample(range(0, 1500, 30), count))
        rows += [f"{kind},{delay},{weight},{route},{hour}" for delay, weight in zip(delays, weights)]
    return "\n".join(rows) + "\n"


def made_feed(made: random.Random) -> dict[str, str]:
    """The tables of a small city: lines that cross, walks between stops, a trip that repeats."""
    stops = [f"S{number}" for number in range(made.randrange(4, 8))]
    routes = [f"R{number}" for number in range(made.randrange(2, 5))]
    trips, times, repeats = ["route_id,service_id,trip_id"], ["trip_id,stop_sequence,stop_id,arrival_time,departure_time"], []
    for at, route in enumerate(routes):
        line = made.sample(stops, made.randrange(2, min(5, len(stops)) + 1))
        for number in range(made.randrange(6, 14)):
            trip, second = f"{route}-{number}", 8 * 3600 + at * 240 + number * made.randrange(500, 1500)
            trips.append(f"{route},WK,{trip}")
            for sequence, stop in enumerate(line if number % 2 else line[::-1]):
                times.append(f"{trip},{sequence},{stop},{clock(second)},{clock(second + 30)}")
                second += made.randrange(120, 900)
    repeats = [f"{routes[0]}-0,08:00:00,11:00:00,{made.randrange(600, 1800)}"] if made.random() < 0.4 else []
    walks = [f"{made.choice(stops)},{made.choice(stops)},2,{made.randrange(60, 600)}" for _ in range(made.randrange(0, 5))]
    kinds = [f"{route},{made.choice(['0', '1', '3'])}" for route in routes]
    return {"stops": "\n".join(["stop_id", *stops]) + "\n", "routes": "\n".join(["route_id,route_type", *kinds]) + "\n",
            "trips": "\n".join(trips) + "\n", "stop_times": "\n".join(times) + "\n",
            "frequencies": "\n".join(["trip_id,start_time,end_time,headway_secs", *repeats]) + "\n",
            "transfers": "\n".join(["from_stop_id,to_stop_id,transfer_type,min_transfer_time", *walks]) + "\n"}
