"""The inputs that the scripts of this folder run the program on, each made by a stated rule, so that every machine measures the
same bytes.

A feed of n lines is that of `sample --size n`, whose rule is in docs/FORMATS.md: n lines between ten hubs, each of 96 runs a day
with 21 stop times. It also has a stop `X`, which no trip serves and from which no strategy is safe. The same feed with links has
a `transfers.txt`: from each stop of a line, links lead to the stops at the same position of the next four lines, and from each hub
to the next four hubs, in a ring; they take 120, 180, 240 and 300 seconds. So four links lead into each place but `X`.

A cut file of n rows comes from the sequence x -> (6364136223846793005 * x + 1442695040888963407) mod 2^64 from x = 1, of which a
number below m is the upper 32 bits of x, mod m. It has max(200, n / 50) places in a ring, S0, S1 and on, and n / 10 runs of ten
rows each. A row of a run goes from one place of the ring to its next. Run 0 begins at S0 at 08:00:00. Each other run begins at a
random place, at a random second of the twelve hours from then on. A hop takes 60 to 359 seconds, and a stop before the next one
0 to 59 seconds. So run 0 goes from S0 to S10 without a change, and a safe strategy exists at each size.
"""

from __future__ import annotations

import datetime
import os
from typing import Callable, Iterable, Iterator

RUNS = 96
HOPS = 20
DELAYS = "class,delay,weight\n*,0,8000\n*,300,1500\n*,900,500\n"
FEED_DELAYS = DELAYS + "1,0,9000\n1,60,1000\n2,0,7000\n2,120,2000\n2,600,1000\n"
LINK_SECONDS = (120, 180, 240, 300)
CALENDAR = ("service_id,monday,tuesday,wednesday,thursday,friday,saturday,sunday,start_date,end_date\n"
            "D,1,1,1,1,1,1,1,20240101,20241231\n")
UNSERVED = "X"
CUT_START = datetime.datetime(2024, 6, 3, 8, 0, 0)
CUT_HOPS = 10


def stop_times_of(lines: int) -> int:
    """How many stop times a feed with these lines has."""
    return lines * RUNS * (HOPS + 1)


def stop_of(number: int, place: int) -> str:
    """The stop at a place of a line."""
    if place == 0:
        return f"H{number % 10}"
    if place == HOPS:
        return f"H{(number + 1 + number // 10 % 3) % 10}"
    return f"L{number}_{place}"


def clock(seconds: int) -> str:
    """A time of the service day."""
    return f"{seconds // 3600:02}:{seconds // 60 % 60:02}:{seconds % 60:02}"


def write(folder: str, name: str, pieces: Iterable[str]) -> None:
    """Writes a file of these pieces of text."""
    with open(os.path.join(folder, name), "w", encoding="utf-8", newline="\n") as file:
        file.writelines(pieces)


def stop_times(lines: int) -> Iterator[str]:
    """Each run of each line at its 21 stops."""
    yield "trip_id,arrival_time,departure_time,stop_id,stop_sequence\n"
    for number in range(lines):
        hop = 60 + 5 * (number % 7)
        stops = [stop_of(number, place) for place in range(HOPS + 1)]
        for run in range(RUNS):
            begin = 900 * run + 35 * number % 900
            for place, stop in enumerate(stops):
                time = clock(begin + place * hop)
                yield f"T{number}_{run},{time},{time},{stop},{place + 1}\n"


def write_feed(folder: str, lines: int) -> None:
    """Writes the tables of a feed with this number of lines, and a delay file beside them."""
    write(folder, "stops.txt", ["stop_id\n"] + [f"H{hub}\n" for hub in range(10)] + [UNSERVED + "\n"]
          + [stop_of(number, place) + "\n" for number in range(lines) for place in range(1, HOPS)])
    write(folder, "routes.txt", ["route_id,route_type\n"] + [f"R{number},{number % 4}\n" for number in range(lines)])
    write(folder, "trips.txt", ["route_id,service_id,trip_id\n"]
          + [f"R{number},D,T{number}_{run}\n" for number in range(lines) for run in range(RUNS)])
    write(folder, "stop_times.txt", stop_times(lines))
    write(folder, "calendar.txt", [CALENDAR])
    write(folder, "delays.csv", [FEED_DELAYS])


def links(lines: int) -> Iterator[str]:
    """Four links from each stop that a trip serves."""
    yield "from_stop_id,to_stop_id,transfer_type,min_transfer_time\n"
    for hub in range(10):
        for step, seconds in enumerate(LINK_SECONDS, 1):
            yield f"H{hub},H{(hub + step) % 10},2,{seconds}\n"
    for number in range(lines):
        for place in range(1, HOPS):
            for step, seconds in enumerate(LINK_SECONDS, 1):
                yield f"L{number}_{place},L{(number + step) % lines}_{place},2,{seconds}\n"


def write_links(folder: str, lines: int) -> None:
    """Writes the links of a feed with this number of lines, at least five."""
    write(folder, "transfers.txt", links(lines))


def numbers() -> Callable[[int], int]:
    """The pseudo-random sequence, as a function that gives the next number below m."""
    state = 1

    def below(m: int) -> int:
        nonlocal state
        state = (6364136223846793005 * state + 1442695040888963407) % 2**64
        return (state >> 32) % m

    return below


def moment(seconds: int) -> str:
    """The text of a moment, so many seconds after the start."""
    day, rest = divmod(CUT_START.hour * 3600 + seconds, 86400)
    return f"{(CUT_START.date() + datetime.timedelta(days=day)).isoformat()}T{clock(rest)}"


def cut_rows(rows: int) -> Iterator[str]:
    """The lines of a cut file with this number of rows."""
    below, places = numbers(), max(200, rows // 50)
    yield "run,step,from,to,dep,arr\n"
    for run in range(-(-rows // CUT_HOPS)):
        place = 0 if run == 0 else below(places)
        at = 0 if run == 0 else below(12 * 3600)
        for step in range(min(CUT_HOPS, rows - run * CUT_HOPS)):
            arrival = at + 60 + below(300)
            yield f"r{run},{step},S{(place + step) % places},S{(place + step + 1) % places},{moment(at)},{moment(arrival)}\n"
            at = arrival + below(60)


def write_cut(folder: str, rows: Iterable[str], delays: str = DELAYS) -> None:
    """Writes a cut file of these lines, and a delay file beside it."""
    write(folder, "cut.csv", rows)
    write(folder, "delays.csv", [delays])
