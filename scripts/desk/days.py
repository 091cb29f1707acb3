"""The service days of a feed: how many trips run on each, by calendar.txt and calendar_dates.txt."""

from __future__ import annotations

import datetime
from collections import Counter, defaultdict
from typing import Iterator

from .feeds import Reader, has_table, rows_in
from .tables import Refused

Date = datetime.date
ONE_DAY = datetime.timedelta(days=1)
WEEKDAYS = ("monday", "tuesday", "wednesday", "thursday", "friday", "saturday", "sunday")
SHORT = ("Mon", "Tue", "Wed", "Thu", "Fri", "Sat", "Sun")


def date_of(text: str, table: str, line: int) -> Date:
    """The date YYYYMMDD of a row of a table."""
    try:
        if len(text) == 8 and text.isascii() and text.isdigit():
            return Date(int(text[:4]), int(text[4:6]), int(text[6:]))
    except ValueError:
        pass
    raise Refused(f"{table} line {line}: {text or 'an empty field'} is no date; dates are written YYYYMMDD")


class Services:
    """The days on which each service runs: those of its calendar, and the added ones, without the removed ones."""

    def __init__(self, folder: str, rows: Reader = rows_in) -> None:
        self.periods: dict[str, tuple[list[bool], Date, Date]] = {}
        self.added: dict[str, set[Date]] = defaultdict(set)
        self.removed: dict[str, set[Date]] = defaultdict(set)
        if has_table(folder, "calendar.txt"):
            columns = ["service_id", *WEEKDAYS, "start_date", "end_date"]
            for line, (service, *flags, first, last) in rows(folder, "calendar.txt", columns):
                period = date_of(first, "calendar.txt", line), date_of(last, "calendar.txt", line)
                self.periods[service] = [flag == "1" for flag in flags], *period
        if has_table(folder, "calendar_dates.txt"):
            for line, (service, date, kind) in rows(folder, "calendar_dates.txt", ["service_id", "date", "exception_type"]):
                (self.added if kind == "1" else self.removed)[service].add(date_of(date, "calendar_dates.txt", line))

    def __contains__(self, service: str) -> bool:
        return service in self.periods or service in self.added or service in self.removed

    def runs_on(self, service: str, date: Date) -> bool:
        if date in self.removed.get(service, ()):
            return False
        if date in self.added.get(service, ()):
            return True
        if service not in self.periods:
            return False
        flags, first, last = self.periods[service]
        return first <= date <= last and flags[date.weekday()]

    def days(self, service: str) -> Iterator[Date]:
        """The days on which a service runs, in no particular order."""
        flags, first, last = self.periods.get(service, ([], Date.max, Date.min))
        date = first
        while date <= last:
            if flags[date.weekday()] and date not in self.removed[service]:
                yield date
            date += ONE_DAY
        for date in self.added[service] - self.removed[service]:
            if service not in self.periods or not (first <= date <= last and flags[date.weekday()]):
                yield date


def repeats_of(folder: str, rows: Reader = rows_in) -> dict[str, int]:
    """How often each trip with rows in frequencies.txt runs on a day."""
    counts: Counter[str] = Counter()
    if has_table(folder, "frequencies.txt"):
        columns = ["trip_id", "start_time", "end_time", "headway_secs"]
        for line, (trip, start, end, headway) in rows(folder, "frequencies.txt", columns):
            try:
                counts[trip] += max(0, -(-(seconds_of(end) - seconds_of(start)) // int(headway)))
            except (ValueError, ZeroDivisionError):
                raise Refused(f"frequencies.txt line {line}: bad start_time, end_time or headway_secs") from None
    return counts


def seconds_of(time: str) -> int:
    """The seconds of a time H:MM:SS."""
    hours, minutes, seconds = time.split(":")
    return 3600 * int(hours) + 60 * int(minutes) + int(seconds)


def trips_by_service(folder: str, rows: Reader = rows_in) -> Counter[str]:
    """The number of trips of each service; a trip that repeats counts as often as it runs on a day."""
    counts, repeats = Counter[str](), repeats_of(folder, rows)
    for _, (trip, service) in rows(folder, "trips.txt", ["trip_id", "service_id"]):
        counts[service] += repeats.get(trip, 1)
    return counts


def trips_by_day(services: Services, trips: Counter[str]) -> dict[Date, int]:
    """The number of trips on each day that has any, by rising day."""
    counts: Counter[Date] = Counter()
    for service, count in trips.items():
        for date in services.days(service):
            counts[date] += count
    return dict(sorted(counts.items()))


def weeks_of(counts: dict[Date, int]) -> Iterator[tuple[Date, Date, list[int]]]:
    """The first and the last day of each series of equal weeks, with the trips of each weekday. Days without trips have 0."""
    if not counts:
        return
    first, last = min(counts), max(counts)
    monday = first - first.weekday() * ONE_DAY
    begun, before = first, [counts.get(monday + at * ONE_DAY, 0) for at in range(7)]
    while monday <= last:
        week = [counts.get(monday + at * ONE_DAY, 0) for at in range(7)]
        if week != before:
            yield begun, monday - ONE_DAY, before
            begun, before = monday, week
        monday += 7 * ONE_DAY
    yield begun, last, before
