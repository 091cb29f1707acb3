"""Why no strategy is safe: the usual causes, tried one by one with the feed and with the program itself, the likely ones first;
and plans that begin or end with a walk, which the program does not make."""

from __future__ import annotations

import copy
import datetime
import functools
from typing import Callable, Iterator, NamedTuple, Optional

from .cards import Clock, span
from .days import ONE_DAY, Services, trips_by_day, trips_by_service
from .feeds import BOARDING_AREA, ENTRANCE, NODE, Stop, links, rows_with, stops_of
from .journeys import HOURS, LEAST_ALPHA, Journey, day_before, never_late
from .plans import Moment, moment_text, read_plan
from .survey import open_quotes
from .tables import number_in

NOT_BOARDED = {ENTRANCE: "an entrance", NODE: "a node of a station", BOARDING_AREA: "a boarding area"}
# The most walks that are tried, the shortest first; and the most pairs of stops, where a name may mean several.
MOST_WALKS, MOST_PAIRS = 5, 4


class Asked(NamedTuple):
    """A journey that is asked for, with its stops."""
    journey: Journey
    source: Stop
    target: Stop


class Walk(NamedTuple):
    """A walk of so many seconds from one place to another, after a journey or, if it is not at its end, before it."""
    seconds: int
    first: str
    last: str
    is_end: bool
    journey: Journey


class Walked(NamedTuple):
    """A plan with a walk before or after it: its journey, its text, and the walk in words."""
    journey: Journey
    text: str
    walk: str


class Diagnosis:
    """What is wrong with a question that has no plan. Its journeys answer it alike: they differ in stops of one name."""

    def __init__(self, asked: list[Asked]) -> None:
        self.asked, self.first = asked, asked[0].journey
        self.feed, self.start = self.first.feed, self.first.start

    @functools.cached_property
    def served(self) -> set[str]:
        """Those of the places at both ends at which a trip stops at a time."""
        ends = {stop.place for one in self.asked for stop in (one.source, one.target)}
        places = {stop.id: stop.place for stop in stops_of(self.feed) if stop.place in ends}
        served: set[str] = set()
        for stop, arrival, departure in rows_with(self.feed, "stop_times.txt", set(places), ["stop_id", "arrival_time", "departure_time"]):
            if arrival or departure:
                served.add(places[stop])
                if served == ends:
                    break
        return served

    @functools.cached_property
    def journeys(self) -> list[Journey]:
        """The journeys between places where trips stop."""
        return [one.journey for one in self.asked if {one.source.place, one.target.place} <= self.served][:MOST_PAIRS]

    @functools.cached_property
    def counts(self) -> dict[datetime.date, int]:
        """The number of trips on each day that has any."""
        return trips_by_day(Services(self.feed), trips_by_service(self.feed))

    def why(self) -> str:
        """The first cause that applies."""
        causes: list[Callable[[], Optional[str]]] = [
            self.open_quote, self.not_boarded, self.no_trip, self.nothing_stops, self.later, self.on_time]
        found = next((text for text in (cause() for cause in causes) if text is not None), None)
        return f"no safe strategy: {found or self.no_way()}"

    def open_quote(self) -> Optional[str]:
        """A quote that is never closed: the rows after it are lost."""
        name = next(iter(open_quotes(self.feed)), None)
        return f"a quote in {name} is never closed, so the rows after it are lost" if name else None

    def not_boarded(self) -> Optional[str]:
        """Nothing stops at an entrance, a node or a boarding area."""
        for stop, word in ((self.asked[0].source, "from"), (self.asked[0].target, "to")):
            if stop.kind in NOT_BOARDED:
                instead = f"; ask for a plan {word} {stop.parent}" if stop.parent else ""
                return f"{stop.id} is {NOT_BOARDED[stop.kind]}, where nothing stops{instead}"
        return None

    def no_trip(self) -> Optional[str]:
        """No trip has the day of the start as its service day."""
        day = self.start.date()
        if not self.counts:
            return "no trip of the feed runs on any day"
        if self.counts.get(day):
            return None
        following = self.next_day()
        rest = f"; the next day with trips is {Clock.day_text(following)}" if following and day > min(self.counts) else (
            f"; the feed has trips from {min(self.counts)} to {max(self.counts)}")
        return f"no trip runs on {Clock.day_text(day)}{rest}"

    def nothing_stops(self) -> Optional[str]:
        """No trip stops at any of the sources, or of the targets."""
        for stops in ({one.source.id: one.source for one in self.asked}, {one.target.id: one.target for one in self.asked}):
            if not any(stop.place in self.served for stop in stops.values()):
                return f"no trip stops at {next(iter(stops.values())).name or next(iter(stops))} ({', '.join(stops)})"
        return None

    def later(self) -> Optional[str]:
        """Something safe leaves later, or more hours of departures would be enough."""
        found = self.next_departure(self.start) if self.first.horizon < HOURS else None
        day = self.next_day()
        found = found or (self.next_departure(datetime.datetime.combine(day, datetime.time())) if day else None)
        if found is None:
            return None
        following, journey = found
        clock, is_today = Clock(self.start), following.date() == self.start.date()
        hours = "an hour" if journey.horizon == 1 else f"{journey.horizon} hours"
        if is_today and following < self.start + datetime.timedelta(hours=journey.horizon):
            return f"the departures of {hours} are not enough, those of {HOURS} are; ask with --horizon {HOURS}"
        before = last_before(journey)
        last = f"the last left at {clock.time(before)}, " if before else ""
        when = f"within {hours}" if is_today else f"any more on {clock.date(self.start)}"
        return f"nothing safe leaves {when}; {last}the next leaves at {clock.time(following)}: ask for {moment_text(following)}"

    def next_departure(self, start: Moment) -> Optional[tuple[Moment, Journey]]:
        """The first moment from a start on at which something safe leaves, and for which journey."""
        found = [(moment, journey) for journey in self.journeys for moment in (first_departure(journey, start),) if moment is not None]
        return min(found, key=lambda of: of[0]) if found else None

    def next_day(self) -> Optional[datetime.date]:
        """The first day with trips after that of the start."""
        return next((day for day in self.counts if day > self.start.date()), None)

    def on_time(self) -> Optional[str]:
        """Without delays there would be a plan."""
        with never_late() as delays:
            plans = [read_plan(text) for journey in self.journeys for text in (heedless(journey, delays),) if text is not None]
        if not plans:
            return None
        arrival = Clock(self.start).time(min(plan.expected.middle() for plan in plans))
        return f"some delays would leave you stranded; if nothing were late, you would be there at {arrival}"

    def no_way(self) -> str:
        """That there is no way at all; and when the feed ends, if it does so within the hours."""
        _, source, target = self.asked[0]
        last, hours = max(self.counts), self.start + datetime.timedelta(hours=HOURS)
        ends = f"; the feed ends on {last}" if hours.date() > last else ""
        return f"there is no way from {source.name or source.id} to {target.name or target.id} within {HOURS} hours{ends}"

    def walked(self, alpha: int) -> Optional[Walked]:
        """A plan that begins or ends with a walk of transfers.txt, by the shortest walks first."""
        names = {stop.id: stop.name or stop.id for stop in stops_of(self.feed)}
        for walk in sorted(self.walks(), key=lambda of: of.seconds)[:MOST_WALKS]:
            journey, there = copy.copy(walk.journey), names.get(walk.last, walk.last)
            if walk.is_end:
                journey.target, words = walk.first, f"From {names.get(walk.first, walk.first)} walk {span(walk.seconds)} to {there}."
            else:
                journey.source, words = walk.last, f"Leave at {Clock(self.start).time(self.start)} and walk {span(walk.seconds)} to {there}."
                journey.start = self.start + datetime.timedelta(seconds=walk.seconds)
            text = journey.plan(alpha)
            if text is not None:
                return Walked(journey, text, words)
        return None

    def walks(self) -> Iterator[Walk]:
        """The walks from the sources and to the targets. A trip stops at the other end of the journey."""
        for first, last, text in links(self.feed):
            seconds = number_in(text)
            if seconds is None:
                continue
            for one in self.asked:
                if last == one.target.place and one.source.place in self.served:
                    yield Walk(seconds, first, last, True, one.journey)
                if first == one.source.place and one.target.place in self.served:
                    yield Walk(seconds, first, last, False, one.journey)


def first_departure(journey: Journey, start: Moment) -> Optional[Moment]:
    """The first moment from a start on at which something safe leaves, by the departures of the most hours."""
    wide = copy.copy(journey)
    wide.start, wide.horizon = start, HOURS
    end = start + datetime.timedelta(hours=HOURS)
    found = wide.departures(end, end + ONE_DAY)
    return found.rows[0].moment if found and found.rows else None


def last_before(journey: Journey) -> Optional[Moment]:
    """The last moment of the day before the start at which something safe left."""
    sooner = copy.copy(journey)
    sooner.start, sooner.horizon = day_before(journey.start), min(HOURS, journey.horizon + 24)
    found = sooner.departures(journey.start, journey.start + datetime.timedelta(hours=HOURS))
    return max((row.moment for row in found.rows if row.moment < journey.start), default=None) if found else None


def heedless(journey: Journey, delays: str) -> Optional[str]:
    """The fastest plan by a delay file in which nothing is late."""
    other = copy.copy(journey)
    other.horizon, other.delays = HOURS, delays
    return other.plan(LEAST_ALPHA)
