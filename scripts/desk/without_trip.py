"""A timetable without one of its trips."""

from __future__ import annotations

import os
import shutil

from .feeds import has_table
from .tables import Refused, copy_rows

# The tables of a feed that the planner reads, and the columns that name a trip.
TABLES = {"stops.txt": "", "routes.txt": "", "trips.txt": "trip_id", "stop_times.txt": "trip_id", "frequencies.txt": "trip_id",
          "calendar.txt": "", "calendar_dates.txt": "", "transfers.txt": ""}


def without_trip(path: str, trip: str, folder: str) -> str:
    """Writes a feed without a trip, or a cut file without a run, below a folder, and returns its path."""
    if os.path.isfile(path):
        made = os.path.join(folder, "cut.csv")
        if not left_out(path, made, "run", trip):
            raise Refused(f"{os.path.basename(path)} has no run {trip}")
        return made
    made = os.path.join(folder, "feed")
    os.mkdir(made)
    for name, column in TABLES.items():
        table = os.path.join(path, name)
        if not has_table(path, name):
            continue
        if not column:
            shutil.copyfile(table, os.path.join(made, name))
        elif not left_out(table, os.path.join(made, name), column, trip) and name == "trips.txt":
            raise Refused(f"trips.txt has no trip {trip}")
    return made


def left_out(path: str, made: str, column: str, value: str) -> int:
    """Copies a table without the rows that have this value in a column, and returns the number of these rows."""
    kept, count = copy_rows(path, made, column, lambda field: field != value)
    return count - kept
