"""The rows of `reach` as a map: the places of a feed as dots, in SVG or as GeoJSON."""

from __future__ import annotations

import html
import json
import math
from dataclasses import dataclass
from typing import Iterator, NamedTuple, Optional, Sequence

from .feeds import ENTRANCE, NODE, Spot, stops_of
from .plans import NANOSECONDS, Moment, Reach, ReachRow, nanoseconds_of, seconds_between
from .tables import Refused

WIDTH, MARGIN, LINE = 640, 24, 32
# The most places whose differences are listed, of each sign, and the most letters of a name.
MOST_NAMED, MOST_LETTERS = 5, 27
# The radius of a dot, by the most places that have it; a map of more has the last one.
RADII = ((300, 5.0), (3000, 3.0), (math.inf, 1.8))
# Colours that all can tell apart: of a scale, and of a difference from sooner to later.
SCALE = ("#fde725", "#8fd744", "#35b779", "#21908c", "#31688e", "#443a83", "#440154")
DIFFERENCE = ("#2166ac", "#67a9cf", "#d1e5f0", "#f7f7f7", "#fddbc7", "#ef8a62", "#b2182b")
NONE = "#9a9a9a"
LOST, GAINED = "lost", "gained"
SHAPES = {LOST: "M{left:.1f} {top:.1f}h{wide}l-{half} {wide}z", GAINED: "M{left:.1f} {low:.1f}h{wide}l-{half} -{wide}z"}
STYLE = """svg { background: #fff; color: #111; font: 16px system-ui, sans-serif; fill: currentColor; }
circle, rect, .shape { stroke: currentColor; stroke-width: .8; }
.less { opacity: .8; }
@media (prefers-color-scheme: dark) { svg { background: #111; color: #eee; } }
@media (max-width: 30rem) { svg { font-size: 25px; } circle { r: %gpx; } }"""


class Value(NamedTuple):
    """The value of a place in minutes, if it has one; of a difference what it means: `later`, `sooner`, `same`, `lost` or `gained`."""
    minutes: Optional[float]
    verdict: str = ""


@dataclass(frozen=True)
class Dot:
    """A place with its name, where it is, and its value."""
    place: str
    name: str
    spot: Spot
    value: Value

    def words(self) -> str:
        minutes = self.value.minutes
        return f"{self.name}: {f'{minutes:.1f} min' if minutes is not None else self.value.verdict or 'none'}"


def minutes_of(row: ReachRow, first: Moment, by: str) -> float:
    """The value of a row, in minutes after the first moment."""
    if by == "latest":
        return seconds_between(first, row.latest) / 60
    return ((row.expected.lower + row.expected.upper) / 2 - nanoseconds_of(first)) / (60 * NANOSECONDS)


def values_of(one: Reach, other: Optional[Reach], by: str) -> dict[str, Value]:
    """The value of each place, or by how much it is greater in the other timetable; a place with a row in only one of them is lost
    or gained."""
    found = {row.place: minutes_of(row, one.first, by) for row in one.rows}
    if other is None:
        return {place: Value(minutes) for place, minutes in found.items()}
    if (one.target, one.first, one.deadline) != (other.target, other.first, other.deadline):
        raise Refused("the rows of --with are of another question")
    more = {row.place: minutes_of(row, other.first, by) for row in other.rows}
    lost = {place: Value(None, LOST) for place in found if place not in more}
    gained = {place: Value(None, GAINED) for place in more if place not in found}
    return {**lost, **gained, **{place: difference(more[place] - found[place]) for place in found if place in more}}


def difference(minutes: float) -> Value:
    return Value(minutes, "later" if minutes > 0 else "sooner" if minutes < 0 else "same")


def spots_of(feed: str) -> Iterator[tuple[str, str, Optional[Spot]]]:
    """The places at which something may stop, with their names and where they are: the place itself or the middle of its stops."""
    stops: dict[str, list[Spot]] = {}
    names: dict[str, str] = {}
    for stop in stops_of(feed):
        if stop.kind in (ENTRANCE, NODE):
            continue
        names.setdefault(stop.place, stop.name)
        if stop.id == stop.place:
            names[stop.place] = stop.name
        stops.setdefault(stop.place, [])
        if stop.spot:
            stops[stop.place] = [stop.spot] if stop.id == stop.place else [*stops[stop.place], stop.spot]
    for place, spots in stops.items():
        middle = Spot(*(sum(part) / len(spots) for part in zip(*spots))) if spots else None
        yield place, names[place] or place, middle


def dots_of(feed: str, values: dict[str, Value], target: str) -> tuple[list[Dot], int]:
    """The dots of the places with coordinates, and how many places have a value and no coordinates."""
    dots, missing = [], 0
    for place, name, spot in spots_of(feed):
        if spot is not None:
            dots.append(Dot(place, name, spot, Value(None) if place == target else values.get(place, Value(None))))
        elif place in values:
            missing += 1
    if not dots:
        raise Refused("no place of the feed has coordinates")
    return dots, missing


def steps_of(values: Sequence[float], is_difference: bool) -> list[float]:
    """The least values of the second and further colours: equal steps of whole minutes, round zero for a difference."""
    if is_difference:
        step = max(1, math.ceil(max((abs(value) for value in values), default=1.0) / 3.5))
        return [(at - 2.5) * step for at in range(6)]
    least = math.floor(min(values, default=0.0))
    step = max(1, math.ceil((max(values, default=1.0) - least) / len(SCALE)))
    return [least + step * at for at in range(1, len(SCALE))]


def short(name: str) -> str:
    return name if len(name) <= MOST_LETTERS else f"{name[:MOST_LETTERS - 1]}…"


class Map:
    """A map in SVG: its dots, the target, what the values are, and whether they are differences."""

    def __init__(self, dots: list[Dot], target: str, title: str, is_difference: bool) -> None:
        self.dots, self.target, self.title, self.is_difference = dots, target, title, is_difference
        self.values = [dot.value.minutes for dot in dots if dot.value.minutes is not None]
        self.colors = DIFFERENCE if is_difference else SCALE
        self.steps = steps_of(self.values, is_difference)
        self.radius = next(radius for most, radius in RADII if len(dots) <= most)
        middle = math.cos(math.radians(sum(dot.spot.latitude for dot in dots) / len(dots)))
        spots = [(dot.spot.longitude * middle, -dot.spot.latitude) for dot in dots]
        left, top = min(x for x, _ in spots), min(y for _, y in spots)
        wide, high = max(x for x, _ in spots) - left or 1e-6, max(y for _, y in spots) - top or 1e-6
        scale = min((WIDTH - 2 * MARGIN) / wide, (WIDTH - 2 * MARGIN) / high)
        # Where each dot is, in the order of the dots.
        self.spots = [(MARGIN + scale * (x - left), MARGIN + scale * (y - top)) for x, y in spots]
        self.height = 2 * MARGIN + scale * high

    def color(self, minutes: float) -> int:
        """The number of the colour of a value."""
        return sum(minutes >= step for step in self.steps)

    def shape(self, dot: Dot, x: float, y: float) -> str:
        """The shape of a dot: a cross at the target, a triangle where a row is lost or gained, and otherwise a circle."""
        title, value, size = f"<title>{html.escape(dot.words())}</title>", dot.value, self.radius
        if dot.place == self.target:
            title = f"<title>{html.escape(dot.name)}: the target</title>"
            return f'<path d="M{x - 9:.1f} {y:.1f}h18m-9 -9v18" stroke="currentColor" stroke-width="2.5">{title}</path>'
        if value.verdict in SHAPES:
            way = SHAPES[value.verdict].format(left=x - 1.4 * size, top=y - size, low=y + size, wide=2.8 * size, half=1.4 * size)
            return f'<path class="shape" fill="{DIFFERENCE[-1 if value.verdict == LOST else 0]}" d="{way}">{title}</path>'
        color = NONE if value.minutes is None else self.colors[self.color(value.minutes)]
        return f'<circle cx="{x:.1f}" cy="{y:.1f}" r="{size:g}" fill="{color}">{title}</circle>'

    def shapes(self) -> list[str]:
        """The dots, those that say more above the others."""
        def rank(at: int) -> tuple[bool, bool, float]:
            value = self.dots[at].value
            return self.dots[at].place == self.target, value != Value(None), abs(value.minutes or 0) if self.is_difference else 0
        return [self.shape(self.dots[at], *self.spots[at]) for at in sorted(range(len(self.dots)), key=rank)]

    def legend(self) -> Iterator[str]:
        """The colours with their least values and how many places have each."""
        counts = [sum(self.color(value) == at for value in self.values) for at in range(len(self.colors))]
        wide, top = (WIDTH - 2 * MARGIN) / len(self.colors), self.height + 2.6 * LINE
        for at, color in enumerate(self.colors):
            x, least = MARGIN + wide * at, f"{self.steps[at - 1]:g}" if at else "less"
            yield f'<rect x="{x:.0f}" y="{top - 16:.0f}" width="{wide:.0f}" height="18" fill="{color}"/>'
            yield f'<text x="{x:.0f}" y="{top + 26:.0f}">{least}</text>'
            yield f'<text class="less" x="{x:.0f}" y="{top + 26 + LINE:.0f}">({counts[at]})</text>'

    def words(self) -> Iterator[str]:
        """What the other marks mean, and the places that gain and lose the most."""
        none = sum(dot.value == Value(None) and dot.place != self.target for dot in self.dots)
        yield f"grey: no row ({none}); the cross is the target"
        if self.is_difference:
            lost, gained = (sum(dot.value.verdict == verdict for dot in self.dots) for verdict in (LOST, GAINED))
            yield f"▼ a row only before ({lost}); ▲ only after ({gained})"
        for verdict in ("later", "sooner") if self.is_difference else ():
            found = sorted((dot for dot in self.dots if dot.value.verdict == verdict), key=lambda dot: -abs(dot.value.minutes or 0))
            yield from (f"{abs(dot.value.minutes or 0):.1f} min {verdict}: {short(dot.name)}" for dot in found[:MOST_NAMED])

    def svg(self, name: str) -> str:
        """The map; the name is that of the target."""
        words = list(self.words())
        height = self.height + (5 + len(words)) * LINE
        lines = [f'<svg xmlns="http://www.w3.org/2000/svg" viewBox="0 0 {WIDTH} {height:.0f}" role="img">',
                 f"<title>{html.escape(f'to {name}: {self.title}')}</title>", f"<style>{STYLE % (1.5 * self.radius)}</style>",
                 *self.shapes()]
        for at, text in enumerate((f"to {short(name)}", self.title)):
            lines.append(f'<text x="{MARGIN}" y="{self.height + (0.6 + at) * LINE:.0f}">{html.escape(text)}</text>')
        lines += self.legend()
        for at, text in enumerate(words):
            lines.append(f'<text class="less" x="{MARGIN}" y="{self.height + (5.4 + at) * LINE:.0f}">{html.escape(text)}</text>')
        return "\n".join([*lines, "</svg>"]) + "\n"


def geojson_of(dots: list[Dot]) -> str:
    """The places as points, with their values."""
    features = []
    for dot in dots:
        properties = {"place": dot.place, "name": dot.name, "minutes": dot.value.minutes}
        if dot.value.verdict:
            properties["verdict"] = dot.value.verdict
        features.append({"type": "Feature", "geometry": {"type": "Point", "coordinates": [dot.spot.longitude, dot.spot.latitude]},
                         "properties": properties})
    return json.dumps({"type": "FeatureCollection", "features": features}, ensure_ascii=False, indent=1) + "\n"
