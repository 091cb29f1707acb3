"""Pictures of a plan as SVG, for the page of a card: the plan in time and space, and below it its arrivals as bars.

They have no scripts and no colours of their own but those of the routes, so they serve in light and dark and on paper. A picture
is as wide as its page: lines are stretched across it, and texts keep their size."""

from __future__ import annotations

import datetime
import html
import re
from fractions import Fraction
from typing import Iterable, Iterator, Optional

from .arrivals import Course
from .cards import RARE, Clock, PlanCard, share
from .plans import Leg, Moment, Plan, seconds_between

# Across, a picture goes from 0 to ACROSS, with a margin on both sides; down, it is in pixels.
ACROSS, MARGIN = 1000, 60
TOP, STEP, BARS, BOTTOM = 44, 64, 84, 24
# Between two bars.
GAP = 4
# Over so many rows, or places, the rows that are rarely ridden are left out.
MOST_ROWS, MOST_PLACES = 40, 12
# The minutes between two lines of the clock, the first of these with few enough lines; and of a bar, the first that is wide enough.
GRIDS = (5, 10, 15, 30, 60, 120, 240, 480, 1440)
SPANS = (1, 2, 5, 10, 15, 30, 60, 120, 240, 480, 1440)
MOST_LINES, LEAST_BAR, LEAST_COUNT = 7, 45, Fraction(3, 100)
COLOR = re.compile("[0-9A-Fa-f]{6}", re.ASCII)


def escaped(text: str) -> str:
    return html.escape(text, quote=True)


def color_of(digits: str) -> str:
    """The colour of a route, if it can be told from white and from black."""
    if not COLOR.fullmatch(digits):
        return "currentColor"
    red, green, blue = (int(digits[at:at + 2], 16) for at in (0, 2, 4))
    light = (299 * red + 587 * green + 114 * blue) / 255_000
    return f"#{digits}" if 0.2 <= light <= 0.8 else "currentColor"


def places_of(plan: Plan, legs: list[Leg]) -> list[str]:
    """The places of some rides, in the order in which they are first reached or left, the target last."""
    first: dict[str, Moment] = {}
    for leg in legs:
        for place, moment in ((leg.exit, leg.arrival), (leg.entry, leg.departure)):
            first[place] = min(first.get(place, moment), moment)
    between = sorted((place for place in first if place not in (plan.source, plan.target)), key=lambda place: first[place])
    return [plan.source, *between, plan.target]


class Frame:
    """Where moments and places are in the picture: the clock across, places down in the order in which they are reached, and the
    line on which the arrivals stand."""

    def __init__(self, plan: Plan, legs: list[Leg], arrivals: Iterable[Moment]) -> None:
        self.arrival, last = min(arrivals), max([*arrivals, *(leg.arrival for leg in legs)])
        self.first, self.minutes = plan.start, max(1.0, seconds_between(plan.start, last) / 60)
        self.bar = next((span for span in SPANS if span * self.per_minute() >= LEAST_BAR), SPANS[-1])
        # The last bar is whole.
        self.minutes = seconds_between(self.first, self.bar_of(last) + datetime.timedelta(minutes=self.bar)) / 60
        self.places = places_of(plan, legs)
        self.base = self.down(plan.target) + BARS
        self.height = self.base + BOTTOM

    def per_minute(self) -> float:
        return (ACROSS - 2 * MARGIN) / self.minutes

    def across(self, moment: Moment) -> float:
        return round(MARGIN + seconds_between(self.first, moment) / 60 * self.per_minute(), 1)

    def down(self, place: str) -> int:
        return TOP + STEP * self.places.index(place)

    def midnight(self) -> Moment:
        return datetime.datetime.combine(self.first.date(), datetime.time())

    def bar_of(self, moment: Moment) -> Moment:
        """The first moment of the bar of a moment. The first bar begins with the first arrival."""
        span = datetime.timedelta(minutes=self.bar)
        return self.arrival + (moment - self.arrival) // span * span

    def lines(self) -> Iterator[Moment]:
        """The moments of the lines of the clock."""
        step = next((minutes for minutes in GRIDS if self.minutes / minutes <= MOST_LINES), GRIDS[-1])
        span = datetime.timedelta(minutes=step)
        moment = self.midnight() + -((self.midnight() - self.first) // span) * span
        while self.across(moment) <= ACROSS - MARGIN:
            yield moment
            moment += span


def text_at(kind: str, x: float, y: float, text: str, title: str = "") -> str:
    """A text at a place of the picture, whose width is a share of that of the page."""
    told = f"<title>{escaped(title)}</title>" if title else ""
    return f'<text class="{kind}" x="{x * 100 / ACROSS:.2f}%" y="{y:g}">{told}{escaped(text)}</text>'


def line_of(kind: str, way: str, title: str = "", style: str = "") -> str:
    """A line, or a shape, along a way."""
    styled = f' style="{style}"' if style else ""
    return f'<path class="{kind}"{styled} d="{way}"' + (f"><title>{escaped(title)}</title></path>" if title else "/>")


def clock_lines(frame: Frame) -> Iterator[str]:
    for moment in frame.lines():
        yield line_of("grid", f"M{frame.across(moment)} {TOP - 20}V{frame.base}")


def place_lines(frame: Frame) -> Iterator[str]:
    for y in [*map(frame.down, frame.places), frame.base]:
        yield line_of("place", f"M0 {y}H{ACROSS}")


def is_free_at_left(frame: Frame, legs: list[Leg], course: Course, place: str) -> bool:
    """Whether the rides and walks to a place leave more room for its name before them than after them."""
    to = [leg for leg in legs if leg.exit == place]
    arrivals = [leg.arrival for leg in to] + [leg.departure for leg in legs if leg.entry == place != frame.places[0]]
    if not arrivals:
        return True
    last = max([*arrivals, *(course.ends.get(leg, leg.arrival) for leg in to)])
    return frame.across(min(arrivals)) >= ACROSS - frame.across(last)


def texts(frame: Frame, card: PlanCard, course: Course, legs: list[Leg]) -> Iterator[str]:
    """The clock above and below, the names of the places, and those of the rides on the way on time."""
    for moment in frame.lines():
        for y in (TOP - 28, frame.base + 15):
            yield text_at("clock", frame.across(moment), y, moment.strftime("%H:%M"))
    for leg in legs:
        if leg in card.way:
            words = card.names.run(leg.run).partition(" towards ")[0].partition(" to ")[0]
            x = (frame.across(leg.departure) + frame.across(leg.arrival)) / 2
            yield text_at("label", x + 12, (frame.down(leg.entry) + frame.down(leg.exit)) / 2, words[:16])
    for place in frame.places:
        name, is_left = card.names.place(place), is_free_at_left(frame, legs, course, place)
        short = name if len(name) <= 30 else f"{name[:29]}…"
        yield text_at("name" if is_left else "name right", 0 if is_left else ACROSS, frame.down(place) - 6, short, name)
    yield text_at("name", 0, frame.down(frame.places[-1]) + 18, "Arrivals, in cases of 100")


def ride_lines(frame: Frame, card: PlanCard, course: Course, legs: list[Leg]) -> Iterator[str]:
    """The rides as lines, as wide as they are likely, the way on time in the colour of its route; behind each how late it may be."""
    for leg in sorted(legs, key=lambda of: course.rides.get(of, Fraction(0))):
        chance = course.rides.get(leg, Fraction(0))
        x, y, due, end = frame.across(leg.departure), frame.down(leg.entry), frame.across(leg.arrival), frame.down(leg.exit)
        route = card.names.route(leg.run)
        color = color_of(route.color if route else "") if leg in card.way else "currentColor"
        late = frame.across(course.ends.get(leg, leg.arrival))
        platform = card.names.entry_platform(leg)
        words = (f"{card.names.run(leg.run)}: {card.clock.time(leg.departure)} to {card.clock.time(leg.arrival)}, "
                 f"{share(chance)} in 100{f', from platform {platform}' if platform else ''}")
        if chance >= RARE:
            yield line_of("late", f"M{x} {y}L{due} {end}H{late}Z", style=f"fill:{color}")
        yield line_of("way" if leg in card.way else "rescue", f"M{x} {y}L{due} {end}", words,
                      f"stroke:{color};stroke-width:{0.7 + 3.3 * float(chance):.2f}")


def change_lines(frame: Frame, card: PlanCard, legs: list[Leg]) -> Iterator[str]:
    """At each place the moments by which to be there for a ride, and from there the change or the walk to it."""
    for place in card.plan.places:
        for leg in place.legs:
            if leg in legs:
                x, y = frame.across(leg.by), frame.down(place.name)
                yield line_of("change" if leg.entry == place.name else "walk", f"M{x} {y}L{frame.across(leg.departure)} {frame.down(leg.entry)}")
                yield line_of("by", f"M{x} {y - 5}V{y + 5}", f"catch by {card.clock.time(leg.by)}")


def bars_in(frame: Frame, course: Course) -> dict[Moment, Fraction]:
    """The arrivals by bars, each with its first moment."""
    bars: dict[Moment, Fraction] = {}
    for moment, chance in course.arrivals.items():
        first = frame.bar_of(moment)
        bars[first] = bars.get(first, Fraction(0)) + chance
    return bars


def bar_lines(frame: Frame, course: Course, clock: Clock) -> Iterator[str]:
    """The arrivals as bars on a line."""
    bars = bars_in(frame, course)
    most, span = max(bars.values()), datetime.timedelta(minutes=frame.bar)
    for first, chance in bars.items():
        x, last = frame.across(first), first + span - datetime.timedelta(minutes=1)
        times = clock.time(first) if last == first else f"{clock.time(first)} to {clock.time(last)}"
        way = f"M{x} {frame.base}V{bar_top(frame, chance / most)}H{frame.across(first + span) - GAP}V{frame.base}Z"
        yield line_of("bar", way, f"{times}: {share(chance)} in 100")


def bar_top(frame: Frame, part: Fraction) -> float:
    """The top of a bar, by its part of the greatest one."""
    return round(frame.base - max(1.5, (BARS - 40) * float(part)), 1)


def bar_counts(frame: Frame, course: Course) -> Iterator[str]:
    """The number of cases of 100 above each bar that has at least three."""
    bars = bars_in(frame, course)
    most, half = max(bars.values()), datetime.timedelta(minutes=frame.bar) / 2
    for first, chance in bars.items():
        if chance >= LEAST_COUNT:
            yield text_at("count", frame.across(first + half), bar_top(frame, chance / most) - 4, share(chance))


def shown_legs(plan: Plan, course: Course) -> tuple[list[Leg], int]:
    """The rides that are drawn, and how many are left out since they are rare."""
    legs = plan.legs()
    if len(legs) <= MOST_ROWS and len(plan.places) <= MOST_PLACES:
        return legs, 0
    kept = [leg for leg in legs if course.rides.get(leg, Fraction(0)) >= RARE]
    return kept, len(legs) - len(kept)


def picture_of(card: PlanCard, course: Course) -> Optional[str]:
    """The plan in time and space; none if one is there already."""
    plan = card.plan
    if plan.first is None or not course.arrivals:
        return None
    legs, missing = shown_legs(plan, course)
    frame = Frame(plan, legs, course.arrivals)
    title = f"{card.names.place(plan.source)} to {card.names.place(plan.target)} in time and space"
    lines = [f'<svg class="picture" xmlns="http://www.w3.org/2000/svg" height="{frame.height}" role="img">', f"<title>{escaped(title)}</title>",
             "<desc>Places from top to bottom, the clock from left to right. Each line is a ride, as wide as it is likely to be taken; "
             "the shade behind it is how late it may be. Marks at a place are the moments by which one has to be there. The bars are "
             "the arrivals, in cases of 100.</desc>",
             f'<svg width="100%" height="{frame.height}" viewBox="0 0 {ACROSS} {frame.height}" preserveAspectRatio="none">']
    lines += [*clock_lines(frame), *place_lines(frame), *bar_lines(frame, course, card.clock), *ride_lines(frame, card, course, legs),
              *change_lines(frame, card, legs), "</svg>", *texts(frame, card, course, legs), *bar_counts(frame, course), "</svg>"]
    if missing:
        lines.append(f"<p>{missing} rides in fewer than 1 of 100 cases are left out of the picture.</p>")
    return "\n".join(lines)
