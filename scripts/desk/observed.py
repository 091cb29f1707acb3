"""Observed arrivals, read from a table: how late each was, with its route type, route and hour."""

from __future__ import annotations

import datetime
import re
from dataclasses import dataclass
from fractions import Fraction
from typing import Optional

from .feeds import routes_of, trips_of
from .tables import Refused, Table, TextLines

MOST_DELAY = 86_400
MOST_ROUTE_TYPE = 65_534
DAY = 86_400
# Nobody is early by more than this; a date is wrong then.
MOST_EARLY = 3_600
# If so many observations are late by less than a minute, they are probably in minutes.
FEW, MINUTE = 50, 60
# The columns of a delay file that, with its class, name a group.
GROUP_COLUMNS = ("route_id", "hour")
NUMBER = re.compile(r"-?\d{1,9}([.,]\d{1,9})?", re.ASCII)
TIME = re.compile(r"(\d{1,3}):(\d\d)(?::(\d\d)(?:\.\d+)?)?", re.ASCII)
MOMENT = re.compile(r"(\d{4})-(\d\d)-(\d\d)[T ](\d\d):(\d\d)(?::(\d\d)(?:\.\d+)?)?(Z|[+-]\d\d:?\d\d)?", re.ASCII)
DOTTED = re.compile(r"(\d{1,2})\.(\d{1,2})\.(\d{4}) (\d\d):(\d\d)(?::(\d\d)(?:\.\d+)?)?", re.ASCII)


@dataclass(frozen=True)
class Observation:
    """The route type, the route and the hour of an arrival, empty if not known, and how many seconds late it was."""
    kind: str
    route: str
    hour: str
    late: int


@dataclass(frozen=True)
class Columns:
    """The columns that say how late an arrival was, and the feed that has the routes of its trips."""
    late: str
    due: Optional[str]
    actual: Optional[str]
    feed: Optional[str]
    unit: int = 1

    def needed(self) -> list[str]:
        times = [self.late] if self.due is None or self.actual is None else [self.due, self.actual]
        return times + (["trip_id"] if self.feed is not None else [])


@dataclass(frozen=True)
class Clock:
    """A time: its seconds, whether the day from which they count is known, and whether they are a plain number."""
    seconds: int
    has_day: bool
    is_number: bool = False

    def hour(self) -> str:
        return "" if self.is_number else str(self.seconds // 3600 % 24)


class Bad(Exception):
    """Why an observation is bad."""


def clock_of(text: str) -> Clock:
    """The time that a text gives: a number of seconds, a time of the day, or a moment with or without a zone."""
    if NUMBER.fullmatch(text):
        return Clock(whole_of(text), has_day=False, is_number=True)
    time = TIME.fullmatch(text)
    if time and int(time[2]) < 60 and int(time[3] or 0) < 60:
        return Clock(int(time[1]) * 3600 + int(time[2]) * 60 + int(time[3] or 0), has_day=False)
    moment, dotted = MOMENT.fullmatch(text), DOTTED.fullmatch(text)
    try:
        if moment:
            return Clock(seconds_of(moment[1], moment[2], moment[3], moment[4], moment[5], moment[6]), has_day=True)
        if dotted:
            return Clock(seconds_of(dotted[3], dotted[2], dotted[1], dotted[4], dotted[5], dotted[6]), has_day=True)
    except ValueError:
        pass
    raise Bad(f"{text!r} is not a time; write it as 08:05, 2024-06-03 08:05 or 03.06.2024 08:05, with seconds or without")


def seconds_of(*parts: Optional[str]) -> int:
    """The seconds of a civil moment from 1970-01-01 on, by its year, month, day, hour, minute and second."""
    year, month, day, hour, minute, second = (int(part or 0) for part in parts)
    return int((datetime.datetime(year, month, day, hour, minute, second) - datetime.datetime(1970, 1, 1)).total_seconds())


def whole_of(text: str, unit: int = 1) -> int:
    """A number of seconds, given in a unit of so many, rounded up, so that no delay counts as less than it was."""
    number = Fraction(text.replace(",", ".")) * unit
    return -(-number.numerator // number.denominator)


def zone_of(text: str) -> int:
    """The seconds by which the zone of a moment is ahead, 0 if it has no zone."""
    found = MOMENT.fullmatch(text)
    zone = found[7] if found else None
    if zone is None or zone == "Z":
        return 0
    digits = zone[1:].replace(":", "")
    return (1 if zone[0] == "+" else -1) * (int(digits[:2]) * 3600 + int(digits[2:]) * 60)


def between(due: str, actual: str) -> tuple[int, str]:
    """The seconds from a due time to an actual one, and the hour of the due one. Of times of the day, the nearest are meant."""
    first, last = clock_of(due), clock_of(actual)
    if first.has_day != last.has_day or first.is_number != last.is_number:
        raise Bad(f"{due!r} and {actual!r} do not have the same form")
    late = last.seconds - first.seconds
    if first.has_day:
        late -= zone_of(actual) - zone_of(due)
    elif not first.is_number:
        late = (late + DAY // 2) % DAY - DAY // 2
    return late, first.hour()


class Observations:
    """The observations of a table, and the bad ones in it."""

    def __init__(self, columns: Columns, delimiter: str, skips_bad: bool) -> None:
        self.columns_read, self.delimiter, self.skips_bad = columns, delimiter, skips_bad
        self.found: list[Observation] = []
        self.columns: list[str] = []
        self.early = self.bad = self.unknown = self.left_out = 0
        self.earliest = 0
        self.first_bad = ""
        self.routes: dict[str, tuple[str, str]] = {}

    def read(self, text: str) -> None:
        """Reads the observations of a text."""
        table = Table(TextLines(text), "the input", self.delimiter, is_strict=True)
        header = list(dict.fromkeys(table.header()))
        for name in self.columns_read.needed():
            if name not in header:
                raise Refused(f"there is no column {name}; the columns are {', '.join(header) or 'none'}{self.other_delimiter(header)}")
        self.prepare(header)
        for number, fields in table.rows(header):
            self.take(number, dict(zip(header, fields)))

    def other_delimiter(self, header: list[str]) -> str:
        """What to give for fields with something else between them, if the header looks like it."""
        found = [(name, sign) for name, sign in (("tab", "\t"), ("';'", ";"), ("'|'", "|")) if len(header) == 1 and sign in header[0]]
        return f"; give --delimiter {found[0][0]}" if found else ""

    def prepare(self, header: list[str]) -> None:
        """Finds the columns of the delay file that name groups, and the routes of the feed's trips."""
        columns = self.columns_read
        if columns.feed is not None:
            kinds = {route.id: route.kind for route in routes_of(columns.feed).values()}
            self.routes = {trip.id: (kinds.get(trip.route, ""), trip.route) for trip in trips_of(columns.feed).values()}
        known = {"route_id": columns.feed is not None, "hour": columns.due is not None}
        self.columns = [name for name in GROUP_COLUMNS if name in header or known[name]]

    def take(self, number: int, row: dict[str, str]) -> None:
        try:
            observation = self.observation(row)
        except Bad as fault:
            if not self.skips_bad:
                raise Refused(f"line {number}: {fault}") from None
            self.first_bad = self.first_bad or f"line {number}: {fault}"
            self.bad += 1
        else:
            self.found.append(observation)

    def observation(self, row: dict[str, str]) -> Observation:
        columns = self.columns_read
        if columns.due is not None and columns.actual is not None:
            late, hour = between(row[columns.due], row[columns.actual])
        else:
            text, hour = row[columns.late], ""
            if not NUMBER.fullmatch(text):
                raise Bad(f"{text!r} is not a number; write it as 90, -30 or 12.5")
            late = whole_of(text, columns.unit)
        if late < -MOST_EARLY:
            raise Bad(f"it is early by {-late} seconds, more than an hour")
        if late > MOST_DELAY:
            raise Bad(f"{late} seconds are more than a day")
        kind, route = row.get("route_type", ""), row.get("route_id", "")
        if columns.feed is not None:
            known = self.routes.get(row["trip_id"])
            self.unknown += known is None
            kind, route = known or (kind, route)
        hour = number_of(row.get("hour", ""), 10**5, "hour", 24) or hour
        kind = number_of(kind, MOST_ROUTE_TYPE, "route_type", None)
        self.early += late < 0
        self.earliest = min(self.earliest, late)
        return Observation(kind, route, hour, max(late, 0))

    def leave_out(self, share: float) -> list[int]:
        """Leaves out the latest ones, a share in percent, and returns their delays, rising."""
        count = int(len(self.found) * Fraction(str(share)) / 100)
        if not count:
            return []
        order = sorted(range(len(self.found)), key=lambda at: self.found[at].late)
        gone = set(order[-count:])
        left_out = [self.found[at].late for at in order[-count:]]
        self.found = [observation for at, observation in enumerate(self.found) if at not in gone]
        self.left_out = count
        return left_out

    def are_minutes(self) -> bool:
        """Whether a column of seconds looks like one of minutes."""
        return (self.columns_read.due is None and self.columns_read.unit == 1 and len(self.found) >= FEW
                and 0 < max(observation.late for observation in self.found) < MINUTE)

    def summary(self, groups: int) -> str:
        """A summary in one line."""
        count = len(self.found) + self.left_out + self.bad
        words = [f"{count} observation{'s' if count != 1 else ''}"]
        if self.early:
            words.append(f"{self.early} early by up to {-self.earliest} seconds, counted as on time")
        if self.bad:
            words.append(f"{self.bad} bad and skipped, the first at {self.first_bad}")
        if self.unknown:
            words.append(f"{self.unknown} of trips that are not in the feed")
        if self.left_out:
            words.append(f"{self.left_out} left out")
        words.append(f"{groups} group{'s' if groups != 1 else ''}")
        words.append(f"greatest delay {max(observation.late for observation in self.found)} seconds")
        if len({observation.late for observation in self.found}) == 1:
            words.append("all equally late: plans will rely on this one delay")
        return "; ".join(words)


def number_of(text: str, most: int, name: str, fold: Optional[int]) -> str:
    """A whole number of a field, without leading zeros, and modulo `fold` if that is given; empty if the field is."""
    if not text:
        return ""
    whole = text[:-2] if text.endswith(".0") else text
    if not re.fullmatch(r"\d{1,5}", whole, re.ASCII) or int(whole) > most:
        raise Bad(f"{text!r} is not a valid {name}")
    return str(int(whole) % fold if fold else int(whole))
