"""The sentences of a card, the same for text and for a page."""

from __future__ import annotations

import datetime
import os
from dataclasses import dataclass
from fractions import Fraction
from typing import Iterator, Optional, Union

from .arrivals import Course, Delays
from .names import Names
from .plans import Departures, Leg, Moment, Plan, by_first_arrival, seconds_between

# A card says by when one arrives in at least this many of 100 cases, with the share that it then is.
SHARES = (50, 95, 100)
WEEKDAYS = ("Mon", "Tue", "Wed", "Thu", "Fri", "Sat", "Sun")
# A row that is ridden in fewer of 100 cases than this is a rare one.
RARE = Fraction(1, 100)


class Clock:
    """Moments as clock times, with the day if it is not that of the start."""

    def __init__(self, start: Moment) -> None:
        self.day = start.date()

    def minute(self, moment: Moment) -> str:
        """A moment to the nearest minute."""
        return self.time((moment + datetime.timedelta(seconds=30)).replace(second=0))

    def time(self, moment: Moment) -> str:
        text = moment.strftime("%H:%M:%S" if moment.second else "%H:%M")
        days = (moment.date() - self.day).days
        if days == 0:
            return text
        # Of the days of a week the weekday is enough.
        return f"{text} on {WEEKDAYS[moment.weekday()] if 0 < days < 7 else self.date(moment)}"

    @staticmethod
    def date(moment: Moment) -> str:
        return Clock.day_text(moment.date())

    @staticmethod
    def day_text(day: datetime.date) -> str:
        return f"{WEEKDAYS[day.weekday()]} {day.isoformat()}"


def span(seconds: int) -> str:
    """A number of seconds in words."""
    minutes, rest = divmod(seconds, 60)
    words = ([f"{minutes} min"] if minutes else []) + ([f"{rest} s"] if rest or not minutes else [])
    return " ".join(words)


def cases(chance: Fraction) -> str:
    """A chance as a number of cases of 100, rounded up."""
    if chance == 0:
        return "never"
    hundredths = -(-chance.numerator * 10_000 // chance.denominator)
    if hundredths == 1 and chance * 10_000 < 1:
        return "in fewer than 0.01 of 100 cases"
    whole, rest = divmod(hundredths, 100)
    digits = f"{whole}.{rest:02}".rstrip("0").rstrip(".")
    return f"in at most {digits} of 100 cases"


def share(chance: Fraction) -> str:
    """A chance as a number of cases of 100, rounded down."""
    whole = 100 * chance.numerator // chance.denominator
    return "all" if chance == 1 else str(whole) if whole else "under 1"


def today() -> datetime.date:
    """The day on which a card is made: today, or that of SOURCE_DATE_EPOCH, where a card has to be the same on each day."""
    fixed = os.environ.get("SOURCE_DATE_EPOCH", "")
    if fixed.isascii() and fixed.isdigit():
        return (datetime.datetime(1970, 1, 1) + datetime.timedelta(seconds=int(fixed))).date()
    return datetime.date.today()


@dataclass(frozen=True)
class Origin:
    """What a card is made of: the timetable, and the greatest delay that its delay file knows, in seconds."""
    timetable: Optional[str]
    greatest: Optional[int]

    @staticmethod
    def of(timetable: Optional[str], delays: Optional[Delays]) -> Origin:
        return Origin(timetable, delays.greatest() if delays else None)

    def sentence(self) -> str:
        parts = [f"timetable {self.timetable}"] if self.timetable else []
        parts += [f"delays of up to {span(self.greatest)}"] if self.greatest is not None else []
        text = f"{', '.join(parts)}; made on {today()}." if parts else f"made on {today()}."
        return text[0].upper() + text[1:]


@dataclass(frozen=True)
class Name:
    """A name from a feed or a file, which keeps its own writing direction."""
    text: str


Words = list[Union[str, Name]]


@dataclass
class Step:
    """What to take: by when to be there for it (empty at the start), and the parts of the ride; the chance that it is ridden,
    where that is known."""
    until: str
    ride: Words
    departure: str
    target: Words
    arrival: str
    chance: Optional[Fraction] = None
    # Whether it is ridden if nothing is late.
    is_on_time: bool = False

    def is_rare(self) -> bool:
        return self.chance is not None and self.chance < RARE

    def words(self) -> Words:
        """The step as one sentence."""
        return [*self.ride, f" at {self.departure} to ", *self.target, f", due {self.arrival}"]


@dataclass
class Part:
    """A place, and what to do there; or a list of departures. The columns are the headings of a page."""
    heading: Words
    steps: list[Step]
    columns: tuple[str, ...]
    has_departures: bool = False


def joined(words: Words) -> str:
    return "".join(word.text if isinstance(word, Name) else word for word in words)


class Card:
    """A card: its title, the sentences at its head, its parts, and the sentences at its foot."""
    of_chances = "In brackets: in how many of 100 cases a row is ridden, rounded down."
    names: Names

    def title(self) -> Words:
        raise NotImplementedError

    def head(self) -> list[str]:
        raise NotImplementedError

    def parts(self) -> Iterator[Part]:
        raise NotImplementedError

    def foot(self) -> list[str]:
        return []


def departure_part(departures: Departures, names: Names, clock: Clock, heading: str) -> Part:
    """A table of departures."""
    target: Words = [Name(names.place(departures.target))]
    steps = [Step(clock.time(row.moment), [Name(names.run(row.run))], clock.time(row.moment), target, clock.minute(row.expected.middle()))
             for row in departures.rows]
    return Part([heading], steps, ("set out by", "take", "at", "to", "there on average"), has_departures=True)


class PlanCard(Card):
    """The card of a plan."""
    columns = ("if you are there by", "take", "at", "to", "due")

    def __init__(self, plan: Plan, names: Names, course: Optional[Course], origin: Origin) -> None:
        self.plan, self.names, self.course, self.origin, self.clock = plan, names, course, origin, Clock(plan.start)
        self.way = plan.on_time()
        # More sentences for the head of the card and after its rows, and the departures that follow, from its maker.
        self.more: list[str] = []
        self.last: list[str] = []
        self.following: Optional[Departures] = None

    def title(self) -> Words:
        return [Name(self.names.place(self.plan.source)), " to ", Name(self.names.place(self.plan.target))]

    def head(self) -> list[str]:
        plan, time = self.plan, self.clock.time
        lines = [f"{self.clock.date(plan.start)}, from {time(plan.start)} on."]
        if plan.first is None:
            return [*lines, "You are there already."]
        lines.append(self.promised(self.course) if self.course else f"Whatever the delays, not later than {time(plan.deadline)}.")
        if plan.promise:
            lines.append(f"Later than {time(plan.promise.moment)} {cases(plan.promise.upper)}.")
        lines.append(f"On average there at {self.clock.minute(plan.expected.middle())}.")
        return [*lines, self.on_time(plan.first), *self.more]

    def on_time(self, first: Leg) -> str:
        """When one leaves and arrives if nothing is late, how long that takes, and with how many changes."""
        last, changes = self.way[-1], len(self.way) - 1
        often = "no change" if not changes else "1 change" if changes == 1 else f"{changes} changes"
        return (f"If nothing is late: {self.clock.time(first.departure)} to {self.clock.time(last.arrival)}, "
                f"{span(seconds_between(first.departure, last.arrival))}, {often}.")

    def promised(self, course: Course) -> str:
        """By when one arrives, in how many of 100 cases."""
        reached = dict(course.reached(Fraction(least, 100)) for least in SHARES)
        words = [f"by {self.clock.time(moment)} in {share(chance)}" for moment, chance in reached.items()]
        words[0] += " cases" if next(iter(reached.values())) == 1 else " of 100 cases"
        last = f" and {words.pop()}" if len(words) > 1 else ""
        return f"There {', '.join(words)}{last}."

    def ride(self, leg: Leg, place: str) -> Words:
        """The ride, with the walk before it and the platform from which it leaves."""
        words: Words = []
        if leg.entry != place:
            walk = span(seconds_between(leg.by, leg.departure))
            words += [f"walk {walk} to ", Name(self.names.other_place(leg.entry, place)), ", "]
        words.append(Name(self.names.run(leg.run)))
        platform = self.names.entry_platform(leg)
        return [*words, " from platform ", Name(platform)] if platform else words

    def step(self, leg: Leg, place: str, until: str) -> Step:
        target: Words = [Name(self.names.other_place(leg.exit, leg.entry))]
        platform = self.names.exit_platform(leg)
        if platform:
            target += [" (platform ", Name(platform), ")"]
        chance = self.course.rides.get(leg, Fraction(0)) if self.course else None
        return Step(until, self.ride(leg, place), self.clock.time(leg.departure), target, self.clock.time(leg.arrival), chance,
                    leg in self.way)

    def parts(self) -> Iterator[Part]:
        if self.plan.first is None:
            return
        source = self.plan.source
        yield Part(["At ", Name(self.names.place(source))], [self.step(self.plan.first, source, "")], self.columns)
        for place in by_first_arrival(self.plan):
            steps = [self.step(leg, place.name, self.clock.time(leg.by)) for leg in place.legs]
            yield Part(["At ", Name(self.names.place(place.name)), f" (a change takes {span(place.change)})"], steps, self.columns)
        if self.following is not None:
            names = Names.of_departures(self.names.folder, self.following)
            until = self.clock.time(self.following.deadline)
            yield departure_part(self.following, names, self.clock, f"Departures that follow, each there by {until} whatever the delays")

    def foot(self) -> list[str]:
        rule = ["At each place take the first row that you are in time for.",
                "Where no row is left, a trip was later than the delay table knows: ask again from there."]
        if self.course and self.plan.places:
            rule.append(self.of_chances)
        return [*self.last, *(rule if self.plan.places else []), self.origin.sentence()]


class DepartureCard(Card):
    """The card of a table of departures."""

    def __init__(self, departures: Departures, names: Names, origin: Origin) -> None:
        self.departures, self.names, self.origin, self.clock = departures, names, origin, Clock(departures.first)

    def title(self) -> Words:
        return [Name(self.names.place(self.departures.source)), " to ", Name(self.names.place(self.departures.target))]

    def head(self) -> list[str]:
        found, time = self.departures, self.clock.time
        lines = [f"{self.clock.date(found.first)}, from {time(found.first)} to {time(found.last)}.",
                 f"Each departure arrives by {time(found.deadline)} whatever the delays."]
        return lines if found.rows else [*lines, "There are no departures."]

    def parts(self) -> Iterator[Part]:
        if self.departures.rows:
            yield departure_part(self.departures, self.names, self.clock, "Departures")

    def foot(self) -> list[str]:
        return [self.origin.sentence()]
