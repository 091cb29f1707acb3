"""Finds the stops of a feed by the names that a person uses.

A name is found by its words, in any order and by their beginnings, whatever their case and accents; `ae`, `oe` and `ue` are the
same as `ä`, `ö` and `ü`. An id and a stop code are found in any case."""

from __future__ import annotations

import difflib
import unicodedata
from typing import Callable, Iterable, Optional

from .feeds import BOARDING_AREA, ENTRANCE, NODE, STATION, Stop, metres, routes_of, rows_with, stops_of, trips_of
from .names import line_of
from .plans import Refused

KINDS = {STATION: "station", ENTRANCE: "entrance", NODE: "node of a station", BOARDING_AREA: "boarding area"}
MOST_SHOWN, MOST_MEANT = 10, 3
# How much of a word is that of another which it is like.
LIKE = 0.6
# Stops of one name that are at most so many metres apart are one wish: mostly the two sides of a street.
NEAR = 150.0
# Letters that no rule of Unicode takes apart, and pairs of letters that stand for one with two dots.
LETTERS = str.maketrans({"ł": "l", "ø": "o", "đ": "d", "ı": "i", "æ": "ae", "œ": "oe", "ð": "d", "þ": "th"})
PAIRS = (("ae", "a"), ("oe", "o"), ("ue", "u"))


def words_of(text: str) -> list[str]:
    """The words of a text, without case, accents and punctuation."""
    letters = unicodedata.normalize("NFKD", text.casefold().translate(LETTERS))
    plain = "".join(letter if letter.isalnum() else " " for letter in letters if not unicodedata.combining(letter))
    for pair, letter in PAIRS:
        plain = plain.replace(pair, letter)
    return plain.split()


def begins_words(wanted: list[str], words: list[str]) -> bool:
    """Whether each of the wanted words begins one of these words."""
    return all(any(word.startswith(part) for word in words) for part in wanted)


def stops_by_name(folder: str, text: str) -> list[Stop]:
    """The stops, of every kind, that a text may mean by name, id or code; those whose names begin with it come first."""
    wanted = words_of(text)
    if not wanted:
        return []
    found = [stop for stop in stops_of(folder)
             if begins_words(wanted, [word for part in (stop.name, stop.id, stop.code) for word in words_of(part)])]
    return sorted(found, key=lambda stop: (words_of(stop.name)[:len(wanted)] != wanted, stop.name, stop.id))


def shown(stop: Stop, more: str = "") -> str:
    kind = KINDS.get(stop.kind, "platform" if stop.parent else "stop")
    code = f" {stop.platform}" if stop.platform else ""
    return f"{stop.id} ({kind}{code}, {stop.name or 'no name'}{more})"


def told_apart(folder: str, stop: Stop) -> str:
    """What tells a stop from others of its name: its code, and a line that stops there."""
    code = f", code {stop.code}" if stop.code else ""
    ids = {other.id for other in stops_of(folder) if other.place == stop.place}
    row = next(rows_with(folder, "stop_times.txt", ids, ["stop_id", "trip_id"]), None)
    trip = next(iter(trips_of(folder, {row[1]}).values()), None) if row else None
    return f"{code}, {line_of(trip, routes_of(folder, {trip.route}).get(trip.route))}" if trip else code


def heads_of(stops: list[Stop]) -> list[Stop]:
    """For each place of some stops one of them: the place itself, if it is among them."""
    heads: dict[str, Stop] = {}
    for stop in stops:
        if stop.place not in heads or stop.id == stop.place:
            heads[stop.place] = stop
    return sorted(heads.values(), key=lambda stop: (stop.name, stop.id))


def are_one_wish(heads: list[Stop]) -> bool:
    """Whether stops have one name and are near each other."""
    spots = [stop.spot for stop in heads if stop.spot]
    return (len({tuple(words_of(stop.name)) for stop in heads}) == 1 and len(spots) == len(heads)
            and all(metres(spots[0], spot) <= NEAR for spot in spots))


def refuse_several(folder: str, text: str, option: str, heads: list[Stop]) -> Refused:
    """Why a text is not enough: the places that it may mean, those of one name told apart."""
    if len(heads) > MOST_SHOWN:
        choices = ", ".join(shown(stop) for stop in heads[:MOST_SHOWN])
        return Refused(f"{option}: {text} may mean {choices} and {len(heads) - MOST_SHOWN} more; write more of the name")
    names = [stop.name for stop in heads]
    choices = ", ".join(shown(stop, told_apart(folder, stop) if names.count(stop.name) > 1 else "") for stop in heads)
    return Refused(f"{option}: {text} may mean {choices}; give the id")


def names_like(stops: Iterable[Stop], text: str) -> list[str]:
    """Names of stops that are like a text, at most three: each of its words may be misspelt."""
    names = {stop.name: words_of(stop.name) for stop in stops if stop.name}
    known = sorted({word for words in names.values() for word in words})
    nearest = [next(iter(difflib.get_close_matches(word, known, n=1, cutoff=LIKE)), word) for word in words_of(text)]
    found = sorted(name for name, words in names.items() if begins_words(nearest, words))
    if found and nearest:
        return found[:MOST_MEANT]
    joined = {" ".join(words): name for name, words in names.items()}
    return [joined[near] for near in difflib.get_close_matches(" ".join(words_of(text)), list(joined), n=MOST_MEANT, cutoff=LIKE)]


def meant(stops: Iterable[Stop], text: str) -> str:
    """A question after names that are like a text, empty if there are none."""
    near = names_like(stops, text)
    return f"did you mean {' or '.join(near)}?" if near else ""


def refuse_unknown(text: str, option: str, boarded: list[Stop]) -> Refused:
    """That there is no such stop, and names that are like it."""
    if not words_of(text):
        return Refused(f"{option}: the name or the id of a stop is expected")
    hint = meant(boarded, text) or "`look FEED WORD` finds stops by a part of their name"
    return Refused(f"{option}: there is no stop {text}; {hint}")


def stops_meant(folder: str, text: str, option: str) -> list[Stop]:
    """The stops that a person means: by id; else by id or code in any case, by the whole name, or by words of the name, the first
    of these that finds one. They are one place, or places of one name that are near each other.

    Entrances and the like are found only by their ids."""
    exact = next((stop for stop in stops_of(folder) if stop.id == text), None)
    if exact is not None:
        return [exact]
    wanted, boarded = words_of(text), [stop for stop in stops_of(folder) if stop.kind not in (ENTRANCE, NODE, BOARDING_AREA)]
    tests: list[Callable[[Stop], bool]] = [
        lambda stop: wanted in (words_of(stop.id), words_of(stop.code)), lambda stop: words_of(stop.name) == wanted,
        lambda stop: begins_words(wanted, words_of(stop.name))]
    for test in tests if wanted else []:
        heads = heads_of([stop for stop in boarded if test(stop)])
        if len(heads) == 1 or heads and are_one_wish(heads):
            return [place_of(boarded, stop) for stop in heads]
        if heads:
            raise refuse_several(folder, text, option, heads)
    raise refuse_unknown(text, option, boarded)


def place_of(boarded: list[Stop], stop: Stop) -> Stop:
    """The station of a platform, if it is a stop of the feed, or else the stop."""
    found: Optional[Stop] = next((other for other in boarded if other.id == stop.place), None)
    return found or stop
