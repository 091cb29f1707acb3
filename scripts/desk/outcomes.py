"""The outcomes of a group of observed delays: a limited number of values, never less than the observed ones, with weights."""

from __future__ import annotations

import heapq
from collections import Counter

WHOLE = 10_000


def outcomes_of(delays: list[int], most: int, multiple: int) -> list[tuple[int, int]]:
    """The delays that represent these, at most `most` of them, rising, each with its weight of 10,000."""
    values = values_of(delays, most, multiple)
    return list(zip((value for value, _ in values), weights_of([count for _, count in values])))


def values_of(delays: list[int], most: int, multiple: int) -> list[tuple[int, int]]:
    """At most `most` values, each with the number of delays that it represents: the delays themselves if they are few;
    otherwise they are rounded up to a multiple, but not above the greatest, and merged."""
    exact = sorted(Counter(delays).items())
    if len(exact) <= most:
        return exact
    greatest = exact[-1][0]
    rounded: Counter[int] = Counter()
    for value, count in exact:
        rounded[min(-(-value // multiple) * multiple, greatest)] += count
    return merged(sorted(rounded.items()), most)


def merged(values: list[tuple[int, int]], most: int) -> list[tuple[int, int]]:
    """Merges values into the next greater ones, first where that adds the fewest seconds in all, until `most` remain."""
    delays, counts = [delay for delay, _ in values], [count for _, count in values]
    later = [at + 1 for at in range(len(values))]
    sooner = [at - 1 for at in range(len(values))]

    def added(at: int) -> int:
        return (delays[later[at]] - delays[at]) * counts[at]

    steps = [(added(at), at) for at in range(len(values) - 1)]
    heapq.heapify(steps)
    kept = set(range(len(values)))
    while len(kept) > most:
        cost, at = heapq.heappop(steps)
        if at not in kept or cost != added(at):
            continue
        kept.remove(at)
        up, down = later[at], sooner[at]
        counts[up] += counts[at]
        sooner[up] = down
        if down >= 0:
            later[down] = up
            heapq.heappush(steps, (added(down), down))
        if later[up] < len(values):
            heapq.heappush(steps, (added(up), up))
    return [(delays[at], counts[at]) for at in sorted(kept)]


def weights_of(counts: list[int]) -> list[int]:
    """Shares that add up to 10,000, by the largest remainders. Each is at least 1, at the cost of the largest shares."""
    total = sum(counts)
    shares = [max(1, count * WHOLE // total) for count in counts]
    spare = WHOLE - sum(shares)
    by_remainder = sorted(range(len(counts)), key=lambda at: (-(counts[at] * WHOLE % total), at))
    for at in by_remainder[:max(spare, 0)]:
        shares[at] += 1
    while spare < 0:
        shares[max(range(len(shares)), key=lambda at: (shares[at], -at))] -= 1
        spare += 1
    return shares
