"""Questions to the program about one journey over a feed."""

from __future__ import annotations

import contextlib
import datetime
import os
import re
import tempfile
from typing import Iterator, Optional

from .commands import Value, answer_of, ask, words_of, write_file
from .plans import Departures, Latest, Moment, Safe, seconds_between
from .tables import Refused

# The greatest value of --horizon, in hours, and the least and the greatest of --alpha, in percent.
HOURS = 72
LEAST_ALPHA, MOST_ALPHA = 100, 1000
# The first moment that --at takes.
FIRST = Moment(1970, 1, 8)
DAY = datetime.timedelta(days=1)
TIME = re.compile(r"(\d{1,2}):(\d\d)(?::(\d\d))?", re.ASCII)
MOMENT = re.compile(r"(\d{4}-\d\d-\d\d)[T ](\d{1,2}:\d\d(?::\d\d)?)", re.ASCII)


def moment_from(text: str, day: Optional[datetime.date], option: str) -> Moment:
    """The moment that a text gives; a time alone is on the given day, if there is one."""
    found = MOMENT.fullmatch(text)
    time = TIME.fullmatch(found[2] if found else text)
    try:
        date = datetime.date.fromisoformat(found[1]) if found else day
        if time and date:
            return Moment(date.year, date.month, date.day, int(time[1]), int(time[2]), int(time[3] or 0))
    except ValueError:
        pass
    raise Refused(f"{option}: {text} is not a moment; write it as 2024-06-03T08:00{', or 08:00 for today' if day else ''}")


@contextlib.contextmanager
def never_late() -> Iterator[str]:
    """The path of a delay file by which nothing is ever late."""
    with tempfile.TemporaryDirectory() as folder:
        path = os.path.join(folder, "delays.csv")
        write_file(path, "class,delay,weight\n*,0,10000\n")
        yield path


class Journey:
    """A source, a target and a start over a feed, with the number of hours of departures to consider; or over a cut file, of which
    all are considered."""

    def __init__(self, feed: str, delays: str, source: str, target: str, start: Moment, horizon: int = 24) -> None:
        self.feed, self.delays, self.source, self.target = feed, delays, source, target
        self.start, self.horizon = start, horizon

    def words(self, command: str, **more: Value) -> list[str]:
        """The words of a call about this journey. More options come after its own, or replace them."""
        own: dict[str, Value] = {"feed": self.feed, "delays": self.delays, "source": self.source, "target": self.target,
                                 "at": self.start, "horizon": self.horizon, **more}
        if os.path.isfile(self.feed):
            own = {"cut": self.feed, **own, "feed": None, "horizon": None}
        return words_of(command, **own)

    def safe(self, alpha: Optional[int] = None) -> Optional[Safe]:
        """The least worst arrival and the deadline of a plan, if some strategy always arrives."""
        return answer_of(Safe, self.words("safe", alpha=alpha))

    def plan(self, alpha: int) -> Optional[str]:
        """The text of a plan, if there is one."""
        return ask(self.words("plan", alpha=alpha)).text or None

    def punctual(self, by: Moment, alpha: int) -> Optional[str]:
        """The text of the plan with the least chance of an arrival after a moment, if there is a plan."""
        return ask(self.words("punctual", alpha=alpha, by=by)).text or None

    def departures(self, last: Moment, deadline: Moment) -> Optional[Departures]:
        """The departures up to a moment, each with what it promises by a deadline."""
        return answer_of(Departures, self.words("departures", last=last, until=deadline))

    def latest(self, deadline: Moment) -> Optional[Moment]:
        """The latest moment from the start on at which one can leave and be there by a deadline, whatever the delays. The
        departures up to the deadline are considered."""
        hours = max(1, min(HOURS, hours_to(self.start, deadline)))
        found = answer_of(Latest, self.words("latest", horizon=hours, until=deadline))
        return found.moment if found else None


def hours_to(first: Moment, last: Moment) -> int:
    """The hours from one moment to another, rounded up."""
    return -(-max(0, seconds_between(first, last)) // 3600)


def alpha_within(safe: Safe, by: Moment) -> int:
    """The greatest percentage whose deadline is not after a moment, which is not before the least worst arrival."""
    least, most = seconds_between(safe.start, safe.worst), seconds_between(safe.start, by)
    if most < least:
        raise Refused("the deadline is before the least worst arrival")
    if least == 0:
        return MOST_ALPHA
    # The deadline is the start plus this percentage of the least time, rounded down to a second.
    return max(LEAST_ALPHA, min(MOST_ALPHA, ((most + 1) * 100 - 1) // least))


def day_before(moment: Moment) -> Moment:
    return max(FIRST, moment - DAY)
