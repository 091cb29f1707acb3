"""When a plan arrives: the chance of each arrival, by the delays of a delay file.

The rides of a plan are late independently, each by one of the delays of its group in the delay file. Chances are exact
fractions. This module shares no code with the program, so it is also a check of the bounds that the program prints.
"""

from __future__ import annotations

import datetime
import heapq
from collections import defaultdict
from dataclasses import dataclass
from fractions import Fraction
from typing import NamedTuple, Optional

from .feeds import routes_of, trip_of_run, trips_of
from .plans import Leg, Moment, Plan, seconds_between
from .tables import Refused, Table, number_at

WHOLE = 10_000
# The minutes of a group of arrivals, the first of these that make few enough groups.
STEPS = (1, 2, 5, 10, 15, 30, 60, 120, 240, 480)


class Group(NamedTuple):
    """The group of a row of a delay file: a class, and a route and an hour if the row names them."""
    kind: str
    route: str
    hour: str


Outcomes = list[tuple[int, Fraction]]


class Delays:
    """The delays of a delay file, by class, route and hour, each with its chance."""

    def __init__(self, path: str) -> None:
        self.groups: dict[Group, Outcomes] = defaultdict(list)
        table = Table.open(path)
        for line, (kind, delay, weight, route, hour) in table.rows(["class", "delay", "weight"], ["route_id", "hour"]):
            where = f"{table.name} line {line}"
            group = Group(kind if kind == "*" else str(number_at(kind, where)), route, str(number_at(hour, where)) if hour else "")
            self.groups[group].append((number_at(delay, where), Fraction(number_at(weight, where), WHOLE)))
        for group, outcomes in self.groups.items():
            if sum(chance for _, chance in outcomes) != 1:
                raise Refused(f"{table.name}: the weights of class {group.kind} do not add up to {WHOLE}")
        if Group("*", "", "") not in self.groups:
            raise Refused(f"{table.name}: class * is missing")

    def greatest(self) -> int:
        """The greatest delay, in seconds."""
        return max(delay for outcomes in self.groups.values() for delay, _ in outcomes)

    def of(self, kind: str, route: str, due: Moment) -> Outcomes:
        """The delays of a ride with a route type and a route, due at a moment: those of the first group that exists."""
        hour = str(due.hour)
        ranked = ([Group("*", route, hour), Group("*", route, "")] if route else []) + [
            Group(kind, "", hour), Group(kind, "", ""), Group("*", "", hour)]
        return next((self.groups[group] for group in ranked if group in self.groups), self.groups[Group("*", "", "")])


class RideKinds:
    """The route type and the route of each ride of a plan, from its feed or its cut file."""

    def __init__(self, plan: Plan, feed: Optional[str], cut: Optional[str]) -> None:
        self.is_feed = feed is not None
        self.routes: dict[str, str] = {}
        self.kinds: dict[str, str] = {}
        self.of_steps: dict[tuple[str, int], str] = {}
        if feed is not None:
            trips = trips_of(feed, {trip_of_run(leg.run) for leg in plan.legs()})
            routes = routes_of(feed, {trip.route for trip in trips.values()})
            self.routes = {trip.id: trip.route for trip in trips.values()}
            self.kinds = {route.id: str(number_at(route.kind, f"the type of route {route.id}")) for route in routes.values()}
        elif cut is not None:
            self.read_steps(Table.open(cut), {(leg.run, leg.exit_step) for leg in plan.legs()})

    def read_steps(self, table: Table, wanted: set[tuple[str, int]]) -> None:
        """Reads the route types of some steps of a cut file, each with its run."""
        for line, (run, text, kind) in table.rows(["run", "step"], ["class"]):
            where = f"{table.name} line {line}"
            step = number_at(text, where)
            if (run, step) in wanted:
                self.of_steps[run, step] = kind if kind in ("", "*") else str(number_at(kind, where))

    def of(self, run: str, step: int) -> tuple[str, str]:
        """The class and the route of the connection at a step of a run; the route is empty in a cut file."""
        if self.is_feed:
            route = self.routes.get(trip_of_run(run))
            if route is None or route not in self.kinds:
                raise Refused(f"the feed has no trip of run {run}: the plan belongs to another feed")
            return self.kinds[route], route
        if (run, step) not in self.of_steps:
            raise Refused(f"the cut file has no step {step} of run {run}: the plan belongs to another file")
        return self.of_steps[run, step] or "*", ""


@dataclass
class Course:
    """What may come of a plan: the chance of each arrival at the target, that each ride is taken, and of being at a place at a
    moment for which the plan has no row; and the latest arrival of each ride. A plan for these files has no such place."""
    arrivals: dict[Moment, Fraction]
    rides: dict[Leg, Fraction]
    stranded: dict[tuple[Moment, str], Fraction]
    ends: dict[Leg, Moment]

    def mean(self, start: Moment) -> Fraction:
        """The mean of the arrivals, in seconds after a moment."""
        return sum((chance * seconds_between(start, moment) for moment, chance in self.arrivals.items()), Fraction(0))

    def reached(self, share: Fraction) -> tuple[Moment, Fraction]:
        """The first arrival by which at least this share of all cases has arrived, and the share that has."""
        reached = Fraction(0)
        for moment, chance in self.arrivals.items():
            reached += chance
            if reached >= share:
                return moment, reached
        return max(self.arrivals), reached


def bars_of(course: Course, most: int) -> list[tuple[Moment, Fraction]]:
    """The arrivals in at most so many groups of equal length, each with its last moment and its chance."""
    first, last = min(course.arrivals), max(course.arrivals)
    for minutes in STEPS:
        step = datetime.timedelta(minutes=minutes)
        groups: dict[int, tuple[Moment, Fraction]] = {}
        for moment, chance in course.arrivals.items():
            number = (moment - first) // step
            groups[number] = moment, groups.get(number, (moment, Fraction(0)))[1] + chance
        if len(groups) <= most:
            return list(groups.values())
    return [(last, sum(course.arrivals.values(), Fraction(0)))]


def course_of(plan: Plan, delays: Delays, kinds: RideKinds) -> Course:
    """What may come of a plan, if each ride is late by one of its delays, independently of the others.

    A traveller who is at a place at a moment takes the first row that they are in time for. Departures come after the arrivals
    that lead to them, so arrivals are processed by rising moment."""
    course = Course({}, defaultdict(Fraction), {}, {})
    if plan.first is None:
        return Course({plan.start: Fraction(1)}, {}, {}, {})
    chances: dict[tuple[Moment, str], Fraction] = defaultdict(Fraction)
    arrivals: dict[Moment, Fraction] = defaultdict(Fraction)
    waiting: list[tuple[Moment, str]] = []
    taken = [(plan.first, Fraction(1))]
    while taken or waiting:
        for leg, chance in taken:
            course.rides[leg] += chance
            outcomes = delays.of(*kinds.of(leg.run, leg.exit_step), leg.arrival)
            course.ends[leg] = leg.arrival + datetime.timedelta(seconds=max(delay for delay, _ in outcomes))
            for delay, share in outcomes:
                state = leg.arrival + datetime.timedelta(seconds=delay), leg.exit
                if state not in chances:
                    heapq.heappush(waiting, state)
                chances[state] += chance * share
        taken = []
        if waiting:
            moment, place = heapq.heappop(waiting)
            chance = chances.pop((moment, place))
            leg_there = plan.leg_after(place, moment)
            if place == plan.target:
                arrivals[moment] += chance
            elif leg_there is None:
                course.stranded[moment, place] = chance
            else:
                taken = [(leg_there, chance)]
    course.arrivals = dict(sorted(arrivals.items()))
    return course


def sure_course(plan: Plan, delays: Delays, kinds: RideKinds) -> Course:
    """What may come of a plan that has a row for each arrival; any other plan is refused."""
    course = course_of(plan, delays, kinds)
    for moment, place in course.stranded:
        raise Refused(f"the plan has no row at {place} for {moment.isoformat()}: it belongs to another feed or delay file")
    return course
