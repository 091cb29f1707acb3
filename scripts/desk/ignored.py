"""Counts what a feed says that the planner does not take into account."""

from __future__ import annotations

from collections import Counter

from .days import Services
from .feeds import BOARDING_AREA, ENTRANCE, NODE, STOP, has_table, stops_of
from .survey import Survey

TRANSFERS = {"": "recommended transfers, type 0", "0": "recommended transfers, type 0",
             "1": "timed transfers, type 1: the departing trip is not known to wait",
             "3": "transfers that are not possible, type 3: a plan may still change there",
             "4": "in-seat transfers between trips, type 4", "5": "in-seat transfers that are not allowed, type 5"}


def ignored(survey: Survey) -> list[tuple[str, int]]:
    """What is not taken into account, and how often it occurs."""
    counts: Counter[str] = Counter()
    for part in (of_stops, of_trips, of_stop_times, of_frequencies, of_transfers, of_quotes):
        counts.update(part(survey))
    return [(what, count) for what, count in counts.items() if count]


def of_stops(survey: Survey) -> Counter[str]:
    counts: Counter[str] = Counter()
    for stop in stops_of(survey.folder, survey.rows):
        if stop.kind in (ENTRANCE, NODE, BOARDING_AREA):
            counts["entrances, nodes and boarding areas: nothing stops there; ask for their stations"] += 1
    return counts


def of_trips(survey: Survey) -> Counter[str]:
    services, counts = Services(survey.folder, survey.rows), Counter[str]()
    for _, (service,) in survey.rows(survey.folder, "trips.txt", ["service_id"]):
        counts["trips whose service is in no calendar: they never run"] += service not in services
    return counts


def of_stop_times(survey: Survey) -> Counter[str]:
    counts: Counter[str] = Counter()
    columns, optional = ["stop_id", "arrival_time", "departure_time"], ["pickup_type", "drop_off_type"]
    for _, (stop, arrival, departure, pickup, drop) in survey.rows(survey.folder, "stop_times.txt", columns, optional):
        if not stop:
            counts["stop times without a stop, on demand: ignored"] += 1
        elif not arrival and not departure:
            counts["stop times without a time: no boarding or alighting there"] += 1
        if pickup in ("2", "3") or drop in ("2", "3"):
            counts["stop times for which one phones ahead or asks the driver, types 2 and 3: treated as any other"] += 1
    return counts


def of_frequencies(survey: Survey) -> Counter[str]:
    counts: Counter[str] = Counter()
    if has_table(survey.folder, "frequencies.txt"):
        for _, (_, exact) in survey.rows(survey.folder, "frequencies.txt", ["trip_id"], ["exact_times"]):
            counts["headways without exact times: treated as a timetable"] += exact != "1"
    return counts


def of_transfers(survey: Survey) -> Counter[str]:
    counts: Counter[str] = Counter()
    if not has_table(survey.folder, "transfers.txt"):
        return counts
    boarded = {stop.id for stop in stops_of(survey.folder, survey.rows) if stop.kind == STOP}
    optional = ["min_transfer_time", "from_route_id", "to_route_id", "from_trip_id", "to_trip_id", "from_stop_id", "to_stop_id"]
    for _, (kind, seconds, *of, first, last) in survey.rows(survey.folder, "transfers.txt", ["transfer_type"], optional):
        if kind != "2":
            counts[TRANSFERS.get(kind, "transfers of unknown types")] += 1
        elif any(of):
            counts["minimum transfer times of routes or trips, type 2: the place's own is used, 2 minutes if it has none"] += 1
        elif not seconds:
            counts["minimum transfer times without a value, type 2: ignored"] += 1
        elif {first, last} - boarded and first != last:
            counts["transfers to or from stations, entrances and the like: they count for the places of these"] += 1
    return counts


def of_quotes(survey: Survey) -> Counter[str]:
    """Quotes that are not as they should be. Everything after one that is never closed is one field of one row."""
    counts: Counter[str] = Counter()
    for name, lines in survey.finished():
        counts[f"quotes in {name} that are never closed: the rows after them are lost"] += lines.is_open
        counts[f"quoted fields in {name} with text after the closing quote"] += lines.rests
    return counts
