"""Reads the tables of an unpacked GTFS folder as the program does, for the scripts beside it."""

from __future__ import annotations

import functools
import math
import os
from collections import defaultdict
from dataclasses import dataclass
from typing import Callable, Iterable, Iterator, NamedTuple, Optional

from .found_lines import lines_with
from .tables import Refused, Table, reason_of, number_in

METRES_PER_DEGREE = 111_320.0
# The location types of stops.txt.
STOP, STATION, ENTRANCE, NODE, BOARDING_AREA = "", "1", "2", "3", "4"
LOCATIONS = {"0": STOP}
# The names of the route types of the GTFS Schedule reference, and then of the extended types, by hundreds.
VEHICLES = {0: "tram", 1: "metro", 2: "train", 3: "bus", 4: "ferry", 5: "cable tram", 6: "cable car", 7: "funicular",
            11: "trolleybus", 12: "monorail", 405: "monorail"}
EXTENDED = {1: "train", 2: "coach", 3: "train", 4: "metro", 5: "metro", 6: "metro", 7: "bus", 8: "trolleybus", 9: "tram",
            10: "ferry", 11: "flight", 12: "ferry", 13: "cable car", 14: "funicular", 15: "taxi"}


def table_of(folder: str, name: str) -> Table:
    """A table of a feed. A file instead of the folder is refused as such."""
    if os.path.isfile(folder):
        raise Refused(f"{folder} is a file, not a folder: unpack the feed and give the folder that contains stops.txt")
    return Table.open(os.path.join(folder, name))


# The rows of a table, each with its number; and what reads them, from a folder, by the name of a table and its columns.
NumberedRows = Iterator[tuple[int, list[str]]]
Reader = Callable[..., NumberedRows]


def rows_in(folder: str, name: str, required: Iterable[str], optional: Iterable[str] = ()) -> NumberedRows:
    """The rows of a table of a feed, each with its number."""
    return table_of(folder, name).rows(required, optional)


def rows_with(folder: str, name: str, wanted: set[str], required: list[str], optional: Iterable[str] = ()) -> Iterator[list[str]]:
    """The rows of a table whose first required column is one of these texts, by a search over its bytes where that is possible."""
    table = table_of(folder, name)
    try:
        lines = lines_with(os.path.join(folder, name), wanted)
    except OSError as fault:
        raise Refused(f"cannot read {name}: {reason_of(fault)}") from None
    if lines is not None:
        table.lines = lines
    return (row for _, row in table.rows(required, optional) if row[0] in wanted)


def has_table(folder: str, name: str) -> bool:
    """Whether a feed has this table, and it is not an empty file."""
    path = os.path.join(folder, name)
    return os.path.isfile(path) and os.path.getsize(path) > 0


class Spot(NamedTuple):
    """Where a stop is, in degrees."""
    latitude: float
    longitude: float


def spot_of(latitude: str, longitude: str) -> Optional[Spot]:
    """Where a row of stops.txt says that a stop is, if it does."""
    try:
        spot = Spot(float(latitude), float(longitude))
    except ValueError:
        return None
    return spot if abs(spot.latitude) <= 90 and abs(spot.longitude) <= 180 else None


def metres(one: Spot, other: Spot) -> float:
    """The metres between two spots, as the crow flies."""
    first, last = math.radians(one.latitude), math.radians(other.latitude)
    half = math.sin((last - first) / 2) ** 2
    half += math.cos(first) * math.cos(last) * math.sin(math.radians(other.longitude - one.longitude) / 2) ** 2
    return 2 * METRES_PER_DEGREE * math.degrees(math.asin(math.sqrt(min(1.0, half))))


@dataclass(frozen=True)
class Stop:
    """A row of stops.txt. The place of a stop or platform is its parent station, if it has one."""
    id: str
    name: str
    kind: str
    parent: str
    code: str
    platform: str
    spot: Optional[Spot]

    @property
    def place(self) -> str:
        return self.parent if self.kind == STOP and self.parent else self.id


@functools.lru_cache(maxsize=4)
def stops_of(folder: str, rows: Reader = rows_in) -> tuple[Stop, ...]:
    """The stops of a feed, which are read once."""
    optional = ("stop_name", "location_type", "parent_station", "stop_code", "platform_code", "stop_lat", "stop_lon")
    table = rows(folder, "stops.txt", ["stop_id"], optional)
    return tuple(Stop(stop, name, LOCATIONS.get(kind, kind), parent, code, platform, spot_of(latitude, longitude))
                 for _, (stop, name, kind, parent, code, platform, latitude, longitude) in table)


@dataclass(frozen=True)
class Trip:
    """A trip, with its route and its service."""
    id: str
    route: str
    service: str
    sign: str
    short_name: str


@dataclass(frozen=True)
class Route:
    """A route as travellers know it, its type, and its colour as six hexadecimal digits, if it has one."""
    id: str
    kind: str
    short_name: str
    long_name: str
    color: str = ""

    def vehicle(self) -> str:
        kind = number_in(self.kind)
        return "trip" if kind is None else VEHICLES.get(kind, EXTENDED.get(kind // 100, "trip"))


def trip_of_run(run: str) -> str:
    """The trip id in the name of a run: what follows the colon, after the service date and, in repeats, the start."""
    return run.partition(":")[2]


def trips_of(folder: str, wanted: Optional[set[str]] = None) -> dict[str, Trip]:
    """The trips with these ids, or all trips."""
    required, optional = ["trip_id", "route_id", "service_id"], ["trip_headsign", "trip_short_name"]
    if wanted is not None:
        return {row[0]: Trip(*row) for row in rows_with(folder, "trips.txt", wanted, required, optional)}
    return {row[0]: Trip(*row) for _, row in rows_in(folder, "trips.txt", required, optional)}


def routes_of(folder: str, wanted: Optional[set[str]] = None) -> dict[str, Route]:
    """The routes with these ids, or all routes."""
    table = rows_in(folder, "routes.txt", ["route_id", "route_type"], ["route_short_name", "route_long_name", "route_color"])
    return {row[0]: Route(*row) for _, row in table if wanted is None or row[0] in wanted}


def kept_stops(folder: str, wanted: set[str]) -> dict[str, list[str]]:
    """The stops of the kept rows of each of these trips, by rising sequence. A row with a stop and a time is kept."""
    rows: dict[str, list[tuple[int, str]]] = defaultdict(list)
    columns = ["trip_id", "stop_id", "stop_sequence", "arrival_time", "departure_time"]
    for trip, stop, sequence, arrival, departure in rows_with(folder, "stop_times.txt", wanted, columns):
        number = number_in(sequence)
        if stop and (arrival or departure) and number is not None:
            rows[trip].append((number, stop))
    return {trip: [stop for _, stop in sorted(of)] for trip, of in rows.items()}


def served_places(folder: str) -> set[str]:
    """The places of the stops at which trips stop at a time."""
    places = {stop.id: stop.place for stop in stops_of(folder)}
    table = rows_in(folder, "stop_times.txt", ["stop_id", "arrival_time", "departure_time"])
    served = {stop for _, (stop, arrival, departure) in table if arrival or departure}
    return {places[stop] for stop in served if stop in places}


def links(feed: str) -> list[tuple[str, str, str]]:
    """The walks of transfers.txt: from one place to another, with their seconds."""
    if not has_table(feed, "transfers.txt"):
        return []
    places = {stop.id: stop.place for stop in stops_of(feed)}
    optional = ["from_route_id", "to_route_id", "from_trip_id", "to_trip_id"]
    table = rows_in(feed, "transfers.txt", ["from_stop_id", "to_stop_id", "transfer_type", "min_transfer_time"], optional)
    found = []
    for _, (first, last, kind, seconds, *of) in table:
        if kind == "2" and seconds and not any(of) and places.get(first) != places.get(last):
            found.append((places.get(first, first), places.get(last, last), seconds))
    return found
