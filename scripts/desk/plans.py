"""Reads the rows that the program prints: plans, promises, departures, latest moments, of one place or of each, least worst
arrivals and trips.

    from plans import read, read_plan

`read` takes what `plan`, `punctual`, `departures`, `latest`, `reach`, `safe` or `replay` prints, and `read_plan` only what
`plan` or `punctual` prints. docs/FORMATS.md has the rows. Moments have no zone. Any other text raises `Refused`, with the line and the
reason.
"""

from __future__ import annotations

import datetime
import re
from dataclasses import dataclass, field
from fractions import Fraction
from typing import Callable, Iterator, Optional, Union

from .rows import Row, Rows
from .tables import Refused as Refused

Moment = datetime.datetime

EPOCH = datetime.datetime(1970, 1, 1)
NANOSECONDS = 10**9
MOMENT = re.compile(r"\d{4}-\d\d-\d\dT\d\d:\d\d:\d\d", re.ASCII)
BOUND = re.compile(r"(\d{4}-\d\d-\d\dT\d\d:\d\d:\d\d)\.(\d{9})", re.ASCII)
CHANCE = re.compile(r"[01]\.\d{18}", re.ASCII)
NUMBER = re.compile(r"\d{1,10}", re.ASCII)
# The first field of a text, and the command that prints it.
COMMANDS = {"graph": "plan", "punctual": "punctual", "departures": "departures", "latest": "latest", "reach": "reach", "safe": "safe",
            "ride": "replay", "arrived": "replay", "expanded": "expand", "bounds": "certify", "holds": "check",
            "encloses": "check", "sample": "sample"}


@dataclass(frozen=True)
class Bounds:
    """A lower and an upper bound, in nanoseconds from 1970-01-01 on."""
    lower: int
    upper: int

    def middle(self) -> Moment:
        """The middle of the two, to the second."""
        return EPOCH + datetime.timedelta(seconds=(self.lower + self.upper + NANOSECONDS) // (2 * NANOSECONDS))


@dataclass(frozen=True)
class Leg:
    """A ride: the latest arrival from which it can be taken, its run, where and when it is boarded, and where it is left. The
    steps are those of the first and the last connection of the run that are ridden."""
    by: Moment
    run: str
    entry_step: int
    departure: Moment
    exit_step: int
    exit: str
    arrival: Moment
    entry: str


@dataclass
class Place:
    """A place with its change seconds, and what to take from there, by rising `by`."""
    name: str
    change: int
    legs: list[Leg] = field(default_factory=list)


@dataclass(frozen=True)
class Promise:
    """A promised moment, and bounds on the chance of an arrival after it."""
    moment: Moment
    lower: Fraction
    upper: Fraction


@dataclass
class Plan:
    """A decision graph with its question. There is no first leg if source and target are one place."""
    source: str
    target: str
    start: Moment
    deadline: Moment
    expected: Bounds
    promise: Optional[Promise] = None
    first: Optional[Leg] = None
    places: list[Place] = field(default_factory=list)

    def legs(self) -> list[Leg]:
        """All rides of the plan."""
        return ([self.first] if self.first else []) + [leg for place in self.places for leg in place.legs]

    def leg_after(self, place: str, arrival: Moment) -> Optional[Leg]:
        """What to take after an arrival at a place: the first row that the arrival is in time for."""
        return next((leg for other in self.places if other.name == place for leg in other.legs if leg.by >= arrival), None)

    def on_time(self) -> list[Leg]:
        """The rides if nothing is late."""
        rides: list[Leg] = []
        leg = self.first
        while leg is not None and leg not in rides:
            rides.append(leg)
            leg = self.leg_after(leg.exit, leg.arrival) if leg.exit != self.target else None
        return rides


@dataclass(frozen=True)
class Departure:
    """The best departure for a traveller who sets out by its moment, with bounds on the expected arrival."""
    moment: Moment
    run: str
    step: int
    expected: Bounds


@dataclass
class Departures:
    """What the departures from a source promise, all for one deadline."""
    source: str
    target: str
    first: Moment
    last: Moment
    deadline: Moment
    rows: list[Departure]


@dataclass(frozen=True)
class Latest:
    """The latest moment at which one can set out and arrive by the deadline."""
    source: str
    target: str
    first: Moment
    deadline: Moment
    moment: Moment


@dataclass(frozen=True)
class ReachRow:
    """The latest moment at which one can set out at a place and arrive by the deadline, and bounds on the expected arrival of a
    traveller who sets out there at the first moment."""
    place: str
    latest: Moment
    expected: Bounds


@dataclass
class Reach:
    """The places from which one can arrive at the target by the deadline, all from one moment on."""
    target: str
    first: Moment
    deadline: Moment
    rows: list[ReachRow]


@dataclass(frozen=True)
class Safe:
    """The least worst arrival, and the deadline of plans."""
    source: str
    target: str
    start: Moment
    worst: Moment
    deadline: Moment


@dataclass(frozen=True)
class Ride:
    """A ride that was taken, with its delay in seconds."""
    run: str
    entry: str
    departure: Moment
    exit: str
    due: Moment
    delay: int
    arrival: Moment


@dataclass
class Trip:
    """The rides that were taken under given delays, and the arrival at the target."""
    rides: list[Ride]
    target: str
    arrival: Moment


Printed = Union[Plan, Departures, Latest, Reach, Safe, Trip]


def moment_text(moment: Moment) -> str:
    """A moment as the program writes it."""
    return moment.strftime("%Y-%m-%dT%H:%M:%S").rjust(19, "0")


def nanoseconds_of(moment: Moment) -> int:
    """The nanoseconds from 1970-01-01 on to a moment of whole seconds."""
    return seconds_between(EPOCH, moment) * NANOSECONDS


def seconds_between(first: Moment, last: Moment) -> int:
    """The whole seconds from one moment to another."""
    return (last - first) // datetime.timedelta(seconds=1)


def moment_of(text: str) -> Moment:
    """The moment that a text gives; ValueError if it gives none."""
    if not MOMENT.fullmatch(text):
        raise ValueError(text)
    return datetime.datetime.fromisoformat(text)


class Values(Rows):
    """Rows whose fields are read as values."""

    def name(self, text: str) -> str:
        if not text:
            self.refuse("a name is empty")
        return text

    def moment(self, text: str) -> Moment:
        try:
            return moment_of(text)
        except ValueError:
            self.refuse(f"{text!r} is not a moment")

    def bound(self, text: str) -> int:
        """A bound in nanoseconds."""
        found = BOUND.fullmatch(text)
        if not found:
            self.refuse(f"{text!r} is not a bound")
        return nanoseconds_of(self.moment(found[1])) + int(found[2])

    def bounds(self, row: Row) -> Bounds:
        found = Bounds(self.bound(row["lower"]), self.bound(row["upper"]))
        if found.lower > found.upper:
            self.refuse("the lower bound is after the upper one")
        return found

    def number(self, text: str) -> int:
        if not NUMBER.fullmatch(text):
            self.refuse(f"{text!r} is not a number")
        return int(text)

    def chance(self, text: str) -> Fraction:
        if not CHANCE.fullmatch(text):
            self.refuse(f"{text!r} is not a chance")
        return Fraction(text)

    def versioned(self, kind: str) -> Row:
        """The next row, which is of this kind and of its first version."""
        row = self.next(kind)
        if row["version"] != "1":
            self.refuse(f"this is an unknown version of `{kind}`")
        return row


def row_of_plan(rows: Values, kind: str, has_entry: bool) -> Row:
    """The next row, which is of this kind and of the version of its plan."""
    row = rows.next(kind)
    if ("entry" in row) != has_entry:
        rows.refuse("this row is of another version than the plan")
    return row


def leg_of(rows: Values, row: Row, place: str) -> Leg:
    """The ride of a `start` or `leg` row, at a place."""
    return Leg(rows.moment(row["by"]), rows.name(row["run"]), rows.number(row["entry_step"]), rows.moment(row["departure"]),
               rows.number(row["exit_step"]), rows.name(row["exit"]), rows.moment(row["arrival"]), rows.name(row.get("entry", place)))


def place_of(rows: Values, has_entry: bool) -> Place:
    """A place with its rows."""
    row = row_of_plan(rows, "place", has_entry)
    place, count = Place(rows.name(row["place"]), rows.number(row["change"])), rows.number(row["rows"])
    if not count or row.get("entry"):
        rows.refuse("this is not a valid `place` row")
    for _ in range(count):
        leg = leg_of(rows, row_of_plan(rows, "leg", has_entry), place.name)
        if place.legs and leg.by <= place.legs[-1].by:
            rows.refuse("the rows of a place do not rise")
        place.legs.append(leg)
    return place


def promise_of(rows: Values) -> Promise:
    row = rows.versioned("punctual")
    promise = Promise(rows.moment(row["promise"]), rows.chance(row["late_lower"]), rows.chance(row["late_upper"]))
    if promise.lower > promise.upper:
        rows.refuse("the lower chance is above the upper one")
    return promise


def plan_of(rows: Values) -> Plan:
    """The plan of the rows of `plan` or `punctual`."""
    promise = promise_of(rows) if rows.kind() == "punctual" else None
    row = rows.next("graph")
    if row["version"] != ("2" if "entry" in row else "1"):
        rows.refuse("this is an unknown version of a plan")
    has_entry = "entry" in row
    plan = Plan(rows.name(row["from"]), rows.name(row["to"]), rows.moment(row["at"]), rows.moment(row["deadline"]), rows.bounds(row),
                promise)
    if plan.source != plan.target:
        plan.first = leg_of(rows, row_of_plan(rows, "start", has_entry), plan.source)
        while rows.kind():
            plan.places.append(place_of(rows, has_entry))
    rows.end()
    check_whole(rows, plan)
    return plan


def check_whole(rows: Values, plan: Plan) -> None:
    """Refuses a plan in which a ride leads to a place without rows that is not the target."""
    known = {place.name for place in plan.places} | {plan.target}
    for leg in plan.legs():
        if leg.exit not in known:
            rows.refuse(f"the text ends without a row for {leg.exit}")


def departures_of(rows: Values) -> Departures:
    row = rows.versioned("departures")
    found = Departures(rows.name(row["from"]), rows.name(row["to"]), rows.moment(row["at"]), rows.moment(row["last"]),
                       rows.moment(row["deadline"]), [])
    for _ in range(rows.number(row["rows"])):
        row = rows.next("row")
        departure = Departure(rows.moment(row["moment"]), rows.name(row["run"]), rows.number(row["entry_step"]), rows.bounds(row))
        if found.rows and departure.moment <= found.rows[-1].moment:
            rows.refuse("the departures do not rise")
        found.rows.append(departure)
    rows.end()
    return found


def latest_of(rows: Values) -> Latest:
    row = rows.next("latest")
    rows.end()
    return Latest(rows.name(row["from"]), rows.name(row["to"]), rows.moment(row["at"]), rows.moment(row["deadline"]),
                  rows.moment(row["latest"]))


def reach_of(rows: Values) -> Reach:
    row = rows.versioned("reach")
    found = Reach(rows.name(row["to"]), rows.moment(row["at"]), rows.moment(row["deadline"]), [])
    known = {found.target}
    for _ in range(rows.number(row["rows"])):
        row = rows.next("from")
        if row["place"] in known:
            rows.refuse("a place comes twice, or the target has a row")
        known.add(row["place"])
        found.rows.append(ReachRow(rows.name(row["place"]), rows.moment(row["latest"]), rows.bounds(row)))
    rows.end()
    return found


def safe_of(rows: Values) -> Safe:
    row = rows.next("safe")
    rows.end()
    return Safe(rows.name(row["from"]), rows.name(row["to"]), rows.moment(row["at"]), rows.moment(row["worst"]),
                rows.moment(row["deadline"]))


def trip_of(rows: Values) -> Trip:
    rides = []
    while rows.kind() == "ride":
        row = rows.row()
        rides.append(Ride(rows.name(row["run"]), rows.name(row["entry"]), rows.moment(row["departure"]), rows.name(row["exit"]),
                          rows.moment(row["due"]), rows.number(row["delay"]), rows.moment(row["arrival"])))
    row = rows.next("arrived")
    rows.end()
    return Trip(rides, rows.name(row["to"]), rows.moment(row["arrival"]))


READERS: dict[str, Callable[[Values], Printed]] = {
    "graph": plan_of, "punctual": plan_of, "departures": departures_of, "latest": latest_of, "reach": reach_of,
    "safe": safe_of, "ride": trip_of, "arrived": trip_of}


def read(text: str) -> Printed:
    """Reads a text by the kind of its first row."""
    rows = Values(text)
    kind = rows.kind()
    if not kind:
        raise Refused("there is no text")
    if kind not in READERS:
        found = f"this is the output of `{COMMANDS[kind]}`" if kind in COMMANDS else "the program prints no such first row"
        raise Refused(f"line 1: {found}; expected that of `plan`, `punctual`, `departures`, `latest`, `reach`, `safe` or "
                      "`replay`")
    return READERS[kind](rows)


def read_plan(text: str) -> Plan:
    """Reads the plan in the output of `plan` or `punctual`."""
    rows = Values(text)
    kind = rows.kind()
    if not kind:
        raise Refused("there is no text")
    if kind not in ("graph", "punctual"):
        found = f"this is the output of `{COMMANDS[kind]}`" if kind in COMMANDS else "this is not a `graph` row"
        raise Refused(f"line 1: {found}; expected that of `plan` or `punctual`")
    return plan_of(rows)


def by_first_arrival(plan: Plan) -> Iterator[Place]:
    """The places of a plan in the order in which they can be reached."""
    earliest: dict[str, Moment] = {}
    for leg in plan.legs():
        earliest[leg.exit] = min(earliest.get(leg.exit, leg.arrival), leg.arrival)
    return iter(sorted(plan.places, key=lambda place: earliest.get(place.name, plan.start)))
