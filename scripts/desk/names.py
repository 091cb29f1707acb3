"""The names of places and runs, from the tables of a feed if there is one."""

from __future__ import annotations

import re
from typing import Optional

from .feeds import ENTRANCE, NODE, Route, Stop, Trip, has_table, kept_stops, routes_of, rows_in, stops_of, trip_of_run, trips_of
from .plans import Departures, Leg, Plan

# A language as BCP 47 writes it, and the one that stands for several.
LANGUAGE = re.compile("[A-Za-z]{2,8}(-[A-Za-z0-9]{1,8})*", re.ASCII)
SEVERAL = "mul"
# Where a feed says in which language its names are, in the order in which it counts.
LANGUAGES = (("feed_info.txt", "feed_lang"), ("agency.txt", "agency_lang"))


class Names:
    """The names of the places and runs of a printed text. Only the rows of the feed that the text mentions are kept."""

    def __init__(self, folder: Optional[str], places: set[str], runs: set[str]) -> None:
        self.folder = folder
        self.stops: dict[str, Stop] = {}
        self.trips: dict[str, Trip] = {}
        self.routes: dict[str, Route] = {}
        self.ridden: dict[str, list[str]] = {}
        self.language = ""
        if folder is None:
            return
        self.language = language_of(folder)
        has_platforms = False
        for stop in stops_of(folder):
            if stop.id in places or stop.place in places and stop.kind not in (ENTRANCE, NODE):
                self.stops[stop.id] = stop
                has_platforms = has_platforms or bool(stop.platform)
        trips = {trip_of_run(run) for run in runs}
        self.trips = trips_of(folder, trips)
        self.routes = routes_of(folder, {trip.route for trip in self.trips.values()})
        if has_platforms:
            self.ridden = kept_stops(folder, trips)

    @staticmethod
    def of_plan(folder: Optional[str], plan: Plan) -> Names:
        places = {plan.source, plan.target} | {name for leg in plan.legs() for name in (leg.entry, leg.exit)}
        return Names(folder, places, {leg.run for leg in plan.legs()})

    @staticmethod
    def of_departures(folder: Optional[str], departures: Departures) -> Names:
        return Names(folder, {departures.source, departures.target}, {row.run for row in departures.rows})

    def place(self, place: str) -> str:
        """The name of a place."""
        stop = self.stops.get(place)
        return plain(stop.name) if stop and stop.name else plain(place)

    def other_place(self, place: str, beside: str) -> str:
        """The name of a place; with its code or id, if the place before it has the same name."""
        name = self.place(place)
        if name != self.place(beside) or place not in self.stops:
            return name
        return f"{name} ({plain(self.stops[place].code or place)})"

    def run(self, run: str) -> str:
        """A run as a traveller knows it: its vehicle and line, with the number and the headsign of the trip."""
        trip = self.trips.get(trip_of_run(run))
        return line_of(trip, self.routes.get(trip.route)) if trip else plain(run)

    def route(self, run: str) -> Optional[Route]:
        """The route of a run, if the feed is known."""
        trip = self.trips.get(trip_of_run(run))
        return self.routes.get(trip.route) if trip else None

    def platform(self, run: str, row: int) -> str:
        """The platform at which a run stops in a kept row of its trip, empty if the feed gives none."""
        stops = self.ridden.get(trip_of_run(run), [])
        stop = self.stops.get(stops[row]) if row < len(stops) else None
        return plain(stop.platform) if stop else ""

    def entry_platform(self, leg: Leg) -> str:
        return self.platform(leg.run, leg.entry_step)

    def exit_platform(self, leg: Leg) -> str:
        return self.platform(leg.run, leg.exit_step + 1)


def line_of(trip: Trip, route: Optional[Route]) -> str:
    """A trip as a traveller knows it: its vehicle and line, with its number and its headsign."""
    line = (route and (route.short_name or route.long_name)) or trip.short_name or trip.id
    vehicle = route.vehicle() if route else "trip"
    number = f" ({plain(trip.short_name)})" if trip.short_name and trip.short_name != line else ""
    sign = plain(trip.sign)
    towards = "" if not sign else f" {sign}" if sign.lower().startswith("to ") else f" towards {sign}"
    return f"{vehicle} {plain(line)}{number}{towards}"


def language_of(folder: str) -> str:
    """The language of a feed's names, if it says one; empty if it says none, or several."""
    for name, column in LANGUAGES:
        found = {text for _, (text,) in rows_in(folder, name, [], [column])} if has_table(folder, name) else set()
        if len(found) == 1:
            return next((text for text in found if LANGUAGE.fullmatch(text) and text != SEVERAL), "")
    return ""


def plain(text: str) -> str:
    """A name in one line: control characters and line ends become spaces."""
    return " ".join("".join(letter if letter.isprintable() or letter in FORMATS else " " for letter in text).split())


# Characters that are not printed, but belong to names: the joiners in some scripts and in emoji.
FORMATS = "\u200c\u200d"
