"""The planner from Python: asks it, and reads what it prints.

    import sys
    sys.path.insert(0, "scripts")
    import meat

    answer = meat.plan(feed="examples/old_town/feed", delays="examples/old_town/delays.csv",
                       source="MIL", target="AIR", at="2024-06-03T08:00:00")
    for row in answer.rows:
        print(row["kind"], row.get("run"), row.get("departure"))

Each command of the program is a function with its options as arguments (docs/FORMATS.md); `source` and `target` are its `--from`
and `--to`. Moments are given as texts or as `datetime.datetime`, without a zone. An answer has the status, the text, and its rows
as dictionaries, which a data frame takes as they are. At status 1 there is no safe strategy, and no row. Any other status but 0
raises `Refused` with the program's line. The program is what MEAT names, the launcher of the repository, or the installed one.
"""

from __future__ import annotations

from dataclasses import dataclass

from desk import commands
from desk.commands import Value
from desk.rows import Row, rows_of
from desk.tables import Refused

__all__ = ["Answer", "Refused", "Row", "ask", "certify", "check", "departures", "expand", "latest", "plan", "punctual", "reach",
           "replay", "rows_of", "safe", "sample"]


@dataclass(frozen=True)
class Answer:
    """What a call printed, and how it ended: at status 0 with an answer, at status 1 since no strategy is safe."""
    status: int
    text: str
    rows: list[Row]


def ask(command: str, **options: Value) -> Answer:
    """Calls a command with its options."""
    answer = commands.ask(commands.words_of(command, **options))
    return Answer(answer.status, answer.text, rows_of(answer.text) if answer.status == 0 else [])


def safe(**options: Value) -> Answer:
    """The least guaranteed arrival, and the deadline."""
    return ask("safe", **options)


def plan(**options: Value) -> Answer:
    """The decision graph that is best on average, by place."""
    return ask("plan", **options)


def expand(**options: Value) -> Answer:
    """The same strategy, ride by ride."""
    return ask("expand", **options)


def replay(**options: Value) -> Answer:
    """The trip by a saved graph under given delays."""
    return ask("replay", **options)


def certify(**options: Value) -> Answer:
    """Lower bounds that no safe strategy beats, one for each connection."""
    return ask("certify", **options)


def check(**options: Value) -> Answer:
    """Whether a certificate holds, or bounds on the expected arrival of a graph."""
    return ask("check", **options)


def punctual(**options: Value) -> Answer:
    """The decision graph with the least chance of being later than a promise."""
    return ask("punctual", **options)


def departures(**options: Value) -> Answer:
    """Every departure that is best for someone, with its expected arrival."""
    return ask("departures", **options)


def latest(**options: Value) -> Answer:
    """The last moment at which one can leave and still be sure to arrive."""
    return ask("latest", **options)


def reach(**options: Value) -> Answer:
    """For every place, how late one can leave and still be sure to arrive, and the expected arrival."""
    return ask("reach", **options)


def sample(**options: Value) -> Answer:
    """A plan over a large made timetable."""
    return ask("sample", **options)
