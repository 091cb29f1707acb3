"""A card as text, at most 80 columns wide where its words allow it."""

from __future__ import annotations

import textwrap

from .arrivals import Course, bars_of
from .cards import Card, Part, PlanCard, Step, joined, share

WIDTH = 80
# The most bars of arrivals, and the signs of a bar for all cases.
MOST_BARS, BAR = 10, 50
# A space at which no line ends. No name has one.
NO_BREAK = "\u00a0"


def wrapped(text: str, first: str = "", later: str = "") -> list[str]:
    return textwrap.wrap(text, width=WIDTH, initial_indent=first, subsequent_indent=later, break_long_words=False,
                         break_on_hyphens=False) or [""]


def sentence(part: Part, step: Step) -> str:
    if part.has_departures:
        return f"{step.departure} {joined(step.ride)}, there at {step.arrival} on average"
    until = f"if you are there by {step.until}: " if step.until else ""
    chance = f"({share(step.chance)} in 100)" if step.chance is not None and step.chance < 1 else ""
    # What is in brackets stays in one line.
    return until + joined(step.words()) + (f" {chance.replace(' ', NO_BREAK)}" if chance else "")


def bar_lines(card: PlanCard, course: Course) -> list[str]:
    """The arrivals as bars of signs, each with the last moment of its group."""
    bars = [(card.clock.time(moment), chance) for moment, chance in bars_of(course, MOST_BARS)]
    width = max(len(time) for time, _ in bars)
    return [f"  {time.ljust(width)} {'#' * max(1, round(BAR * chance))} {share(chance)}" for time, chance in bars]


def as_text(card: Card) -> str:
    lines = wrapped(joined(card.title()))
    for line in card.head():
        lines += wrapped(line)
    for part in card.parts():
        lines += ["", *wrapped(joined(part.heading))]
        for step in part.steps:
            lines += wrapped(sentence(part, step), "  ", "    ")
    if isinstance(card, PlanCard) and card.course and len(card.course.arrivals) > 1:
        lines += ["", "Arrivals, in cases of 100:", *bar_lines(card, card.course)]
    if card.foot():
        lines.append("")
        for line in card.foot():
            lines += wrapped(line)
    return "\n".join(lines).replace(NO_BREAK, " ") + "\n"
