#!/usr/bin/env python3
"""Runs the built program at its limits, and one past each of them.

Each run may have 8 GiB of address space, and none may run out of memory: the status is 1 where one does, or where a status is
another than the table's own. The inputs are made in a folder for the time of a line, and take up to 2 GiB of disk. A header of many
columns and a row of many fields have nothing but commas after what is needed.
"""

from __future__ import annotations

import os
import sys
import tempfile
from functools import partial
from itertools import repeat
from typing import Callable, Iterable, Iterator

sys.dont_write_bytecode = True

from inputs import CALENDAR, clock
from processes import SECONDS, Table, measure, options_of, parser_of, write_apart

from desk.commands import Value, words_of

# The pieces of a file, made anew, and what writes the files of a line into a folder.
Pieces = Callable[[], Iterable[str]]
Made = Callable[[str], None]
MEMORY = 8 << 30
DELAYS = "class,delay,weight\n*,0,10000\n"
HEADER = "run,step,from,to,dep,arr"
TIMES = "2024-06-03T08:10:00,2024-06-03T08:40:00"
RIDE = f"r,1,A,T,{TIMES}"
EACH_DAY = ",1,1,1,1,1,1,1,20240101,20241231\n"
# The tables of a feed with one trip from A to T, and the headers of those that need not be there.
TABLES = {"stops": "stop_id\nA\nT\n", "routes": "route_id,route_type\nR,3\n", "trips": "route_id,service_id,trip_id\nR,D,t\n",
          "stop_times": "trip_id,arrival_time,departure_time,stop_id,stop_sequence\nt,8:10:00,8:10:00,A,1\nt,8:40:00,8:40:00,T,2\n",
          "calendar": CALENDAR}
HEADERS = {"frequencies": "trip_id,start_time,end_time,headway_secs\n", "calendar_dates": "service_id,date,exception_type\n",
           "transfers": "from_stop_id,to_stop_id,transfer_type\n"}


def write(folder: str, name: str, pieces: Iterable[str]) -> None:
    with open(os.path.join(folder, name), "w", encoding="utf-8", newline="") as file:
        file.writelines(pieces)


def filled(text: str, letter: str, size: int) -> Iterator[str]:
    """A text, and then one letter up to this size, in pieces."""
    yield text
    piece = 1 << 20
    for begin in range(len(text), size, piece):
        yield letter * min(piece, size - begin)


def cut(*pieces: Pieces) -> Made:
    """A cut file of these pieces."""
    def made(folder: str) -> None:
        write(folder, "cut.csv", (text for piece in pieces for text in piece()))
        write(folder, "delays.csv", [DELAYS])
    return made


def rides(count: int) -> Made:
    """A cut file of so many rides."""
    return cut(lambda: [f"{HEADER}\n{RIDE}\n"], lambda: (f"x{k},1,A,T,{TIMES}\n" for k in range(count - 1)))


def feed(**tables: Pieces) -> Made:
    """A feed with one trip from A to T, of which some tables have more rows."""
    def made(folder: str) -> None:
        for name, text in {**TABLES, **{name: HEADERS[name] for name in HEADERS if name in tables}}.items():
            write(folder, f"{name}.txt", [text])
            with open(os.path.join(folder, f"{name}.txt"), "a", encoding="utf-8", newline="") as file:
                file.writelines(tables[name]() if name in tables else ())
        write(folder, "delays.csv", [DELAYS])
    return made


def rows(form: str, count: int) -> Pieces:
    """Rows with their numbers."""
    return lambda: (form % k for k in range(count))


def single_runs(count: int) -> Pieces:
    """Rows of frequencies.txt, each with one run of the one trip, at another second of the day."""
    return lambda: (f"t,{clock(k)},{clock(k + 1)},60\n" for k in range(count))


def dates(count: int) -> Pieces:
    """Rows of calendar_dates.txt, each of another service on each of sixteen days."""
    return lambda: (f"S{k // 16},202406{k % 16 + 1:02},1\n" for k in range(count))


def unserved_times(count: int) -> Pieces:
    """Stop times of further trips with no times, sixteen a trip."""
    return lambda: (f"x{k // 16},,,A,{k % 16}\n" for k in range(count))


def visits(trip: int, count: int) -> Iterator[str]:
    """The stop times of a trip that leaves A and comes to T in turn."""
    for visit in range(count):
        at = clock(29_000 + trip % 50_000 + 60 * visit)
        yield f"x{trip},{at},{at},{'AT'[visit % 2]},{visit}\n"


def timed_rides(trips: int, count: int) -> Iterator[str]:
    """Trips of so many visits each, from another second of the day on."""
    return (row for trip in range(trips) for row in visits(trip, count))


def window(count: int) -> Made:
    """A feed whose day has this number of connections, that of its one trip included: trips of 17 visits, and a last one."""
    full, rest = divmod(count - 1, 16)

    def times() -> Iterator[str]:
        yield from timed_rides(full, 17)
        yield from visits(full, rest + 1) if rest else ()

    return feed(trips=rows("R,D,x%d\n", full + bool(rest)), stop_times=times)


def all_tables() -> Made:
    """A feed of which each table is near its limit of rows. Each fourth trip rides each day, and the others never."""
    trips = 2**22 - 1
    return feed(stops=rows("s%d\n", 2**20 - 2), routes=rows("r%d,3\n", 2**16 - 1),
                trips=lambda: (f"R,{'N' if k % 4 else 'D'},x{k}\n" for k in range(trips)), stop_times=lambda: timed_rides(trips, 7),
                calendar=lambda: ["N,0,0,0,0,0,0,0,20240101,20241231\n", *rows("c%d" + EACH_DAY, 2**20 - 2)()],
                calendar_dates=dates(2**24), transfers=walks(2**22))


def walks(count: int) -> Pieces:
    return lambda: repeat("A,T,0\n", count)


def calendars(count: int) -> Made:
    return feed(calendar=rows("c%d" + EACH_DAY, count - 1))


# What is run, and its files: at a limit, where the status is 0, and where there are more, past it, where the status is 6.
LINES: list[tuple[str, list[Made]]] = [
    ("cut file of 2^30 bytes, blank lines at its end", [cut(partial(filled, f"{HEADER}\n{RIDE}", "\n", 2**30 + more)) for more in (0, 1)]),
    ("cut file of 2^23 rows", [rides(2**23 + more) for more in (0, 1)]),
    ("cut file, 2^26 surplus columns in its header", [cut(partial(filled, HEADER, ",", 2**26 + len(HEADER)), lambda: [f"\n{RIDE}\n"])]),
    ("cut file of 2^28 bytes, a row of surplus fields", [cut(partial(filled, f"{HEADER}\n{RIDE}", ",", 2**28))]),
    ("2^20 stops", [feed(stops=rows("s%d\n", 2**20 - 2 + more)) for more in (0, 1)]),
    ("2^16 routes", [feed(routes=rows("r%d,3\n", 2**16 - 1 + more)) for more in (0, 1)]),
    ("2^22 trips", [feed(trips=rows("R,D,x%d\n", 2**22 - 1 + more)) for more in (0, 1)]),
    ("2^25 stop times", [feed(trips=rows("R,D,x%d\n", 2**21), stop_times=unserved_times(2**25 - 2 + more)) for more in (0, 1)]),
    ("2^16 rows of frequencies.txt", [feed(frequencies=single_runs(2**16 + more)) for more in (0, 1)]),
    ("2^20 rows of calendar.txt", [calendars(2**20 + more) for more in (0, 1)]),
    ("2^24 rows of calendar_dates.txt", [feed(calendar_dates=dates(2**24 + more)) for more in (0, 1)]),
    ("2^22 rows of transfers.txt", [feed(transfers=walks(2**22 + more)) for more in (0, 1)]),
    ("2^23 connections in the window", [window(2**23 + more) for more in (0, 1)]),
    ("each table near its limit of rows", [all_tables()]),
]


def words(folder: str) -> list[str]:
    path = os.path.join(folder, "cut.csv")
    table: dict[str, Value] = {"cut": path} if os.path.exists(path) else {"feed": folder}
    return words_of("safe", **table, delays=os.path.join(folder, "delays.csv"), source="A", target="T", at="2024-06-03T08:00:00")


def main() -> int:
    parser = parser_of("Runs the program at its limits.")
    parser.add_argument("--only", default="", help="only lines with this text")
    options, wrong = options_of(parser), 0
    table = Table("what", "largest file, MiB", "status", "seconds", "peak MiB", "bytes of memory a byte", "line")
    for what, files in LINES:
        for name, made, wanted in zip((what, "and one more"), files, (0, 6)):
            if options.only not in what:
                continue
            with tempfile.TemporaryDirectory() as folder:
                write_apart(partial(made, folder))
                largest = max(os.path.getsize(os.path.join(folder, file)) for file in os.listdir(folder)) / 2**20
                run = measure([options.program, *words(folder)], SECONDS, MEMORY)
            table.row(name, f"{largest:.1f}", str(run.status), *run.cells(), f"{run.peak / largest:.1f}", run.line or "-")
            if run.status != wanted:
                wrong += 1
                print(f"The status is not {wanted}.", file=sys.stderr)
    return 1 if wrong else 0


if __name__ == "__main__":
    sys.exit(main())
