"""Many questions to one or two timetables, each a folder or a cut file."""

from __future__ import annotations

import os
from dataclasses import dataclass
from typing import Iterator, NamedTuple, Optional

from .feeds import stops_of
from .journeys import HOURS, Journey, hours_to, moment_from
from .names import plain
from .places import stops_meant
from .plans import Bounds, Moment, Plan, Safe, nanoseconds_of, read_plan
from .tables import Refused, Table, TextLines


class Wanted(NamedTuple):
    """A row of a table of questions, as it is written."""
    line: int
    source: str
    target: str
    start: str
    until: str


@dataclass(frozen=True)
class Question:
    """A journey, with its deadline if it has one of its own."""
    source: str
    target: str
    start: Moment
    until: Optional[Moment]


class Options(NamedTuple):
    """What all questions have in common: the delay file, the percentage of the deadline, and the hours of departures."""
    delays: str
    alpha: int
    horizon: int


class Timetable:
    """A folder or a cut file, which answers questions."""

    def __init__(self, path: str, options: Options) -> None:
        if not os.path.exists(path):
            raise Refused(f"there is no {path}")
        self.path, self.options = path, options
        self.is_feed = os.path.isdir(path)

    def place(self, text: str, option: str) -> str:
        """The id of a stop; in a folder it may be given by its name."""
        if not self.is_feed:
            return text
        stops = stops_meant(self.path, text, option)
        if len(stops) > 1:
            raise Refused(f"{option}: {text} may mean {', '.join(stop.id for stop in stops)}; give the id")
        return stops[0].id

    def name(self, place: str) -> str:
        """The name of a place, if the timetable has names."""
        names = (stop.name for stop in stops_of(self.path) if stop.id == place) if self.is_feed else iter(())
        return plain(next(names, "") or place)

    def question(self, wanted: Wanted) -> Question:
        """A question of a table."""
        start = moment_from(wanted.start, None, "at")
        until = moment_from(wanted.until, None, "until") if wanted.until else None
        if until is not None and until < start:
            raise Refused("until is before at")
        return Question(self.place(wanted.source, "from"), self.place(wanted.target, "to"), start, until)

    def journey(self, question: Question) -> Journey:
        return Journey(self.path, self.options.delays, question.source, question.target, question.start, self.options.horizon)

    def safe(self, question: Question) -> Optional[Safe]:
        """The least worst arrival and the deadline of a plan, if there is one."""
        return self.journey(question).safe(self.options.alpha)

    def plan(self, question: Question, delays: Optional[str] = None) -> Optional[str]:
        """The text of the plan, if there is one; with another delay file if that is given."""
        journey = self.journey(question)
        journey.delays = delays or journey.delays
        return journey.plan(self.options.alpha)

    def punctual(self, question: Question, by: Moment) -> Optional[Plan]:
        """The plan with the least chance of an arrival after a moment, if there is a plan."""
        text = self.journey(question).punctual(by, self.options.alpha)
        return read_plan(text) if text else None

    def expected(self, question: Question, until: Moment) -> Optional[Bounds]:
        """Bounds on the least expected arrival by a deadline, for a traveller who sets out at the start."""
        if question.source == question.target:
            return Bounds(nanoseconds_of(question.start), nanoseconds_of(question.start))
        journey = self.journey(question)
        journey.horizon = max(1, min(HOURS, max(self.options.horizon, hours_to(question.start, until))))
        found = journey.departures(question.start, until)
        return found.rows[0].expected if found and found.rows else None


def wanted_of(text: str) -> Iterator[Wanted]:
    """The rows of a table of questions."""
    for line, fields in Table(TextLines(text), "questions").rows(["from", "to", "at"], ["until"]):
        yield Wanted(line, *fields)
