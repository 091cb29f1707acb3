"""In which order the crates of a build are proved, with how many processes each, and how long the rest of it takes.

A crate has a weight: the processor seconds that its proof took in some earlier build. Only their proportions matter, and a crate
without a weight has one by its size. The command `weights` writes the file.
"""

from __future__ import annotations

import csv
import os
from collections.abc import Iterable, Mapping
from typing import Optional

from sources import TOP, Crates, home_of

WEIGHTS = os.path.join(os.path.dirname(os.path.realpath(__file__)), "weights.csv")
HEADER = ["crate", "weight"]
MOST_JOBS = 4
# How many times as fast a crate is proved by one process, by two, three and four.
SPEEDS = (1.0, 1.5, 1.8, 2.0)
# The least part of a running crate that is taken to remain, however long it has run.
LEAST_PART = 0.05


def size_of(name: str) -> int:
    """The size of the code of a crate with its contracts, in bytes."""
    folder = os.path.join(home_of(name), "src")
    return sum(os.path.getsize(os.path.join(at, file)) for at, _, files in os.walk(folder) for file in files)


def read_weights(path: str = WEIGHTS) -> dict[str, float]:
    """The weights of a file, of each crate the last; none if there is no file."""
    if not os.path.exists(path):
        return {}
    with open(path, encoding="utf-8", newline="") as file:
        return {row["crate"]: float(row["weight"]) for row in csv.DictReader(file, fieldnames=HEADER) if row["crate"] != "crate"}


def weights_of(crates: Iterable[str], known: Mapping[str, float]) -> dict[str, float]:
    """The weight of each crate: the known one, or else one by its size, at the rate of those that are known."""
    sizes = {name: size_of(name) + 1 for name in crates}
    rated = [name for name in sizes if name in known]
    rate = sum(known[name] for name in rated) / sum(sizes[name] for name in rated) if rated else 1.0
    return {name: known.get(name, rate * size) for name, size in sizes.items()}


class Schedule:
    """The crates of a build by their weights, and how many are proved at a time."""

    def __init__(self, crates: Crates, weights: Mapping[str, float], lanes: int) -> None:
        self.crates, self.weights, self.lanes = crates, weights, lanes
        self.chains, self.below = self.chains_of(), self.below_of()

    def chains_of(self) -> dict[str, float]:
        """How much has to be proved from each crate to the last one, along the longest chain."""
        chains = {name: 0.0 for name in self.crates}
        for name in reversed(self.crates):
            chains[name] += self.weights[name]
            for other in self.crates[name]:
                if other in chains:
                    chains[other] = max(chains[other], chains[name])
        return chains

    def below_of(self) -> dict[str, set[str]]:
        """The crates on which each crate stands."""
        below: dict[str, set[str]] = {}
        for name, others in self.crates.items():
            below[name] = {other for other in others if other in self.crates}.union(*(below.get(other, set()) for other in others))
        return below

    def jobs_of(self, name: str, proved: Iterable[str]) -> int:
        """How many of the lanes are a crate's: its share of the work that can be done beside it."""
        done = {*proved, name} | self.below[name]
        beside = sum(weight for other, weight in self.weights.items() if other not in done and name not in self.below[other])
        return max(1, min(MOST_JOBS, round(self.lanes * self.weights[name] / (self.weights[name] + beside))))

    def ready(self, proved: Iterable[str], running: Iterable[str]) -> list[str]:
        """The crates that can be proved now, those at the head of the longest chain first."""
        done, taken = set(proved), {*proved, *running}
        found = [name for name, others in self.crates.items() if name not in taken
                 and all(other in done or other not in self.crates for other in others)]
        return sorted(found, key=lambda name: -self.chains[name])

    def next(self, proved: Iterable[str], running: Mapping[str, int]) -> dict[str, int]:
        """The crates to begin now, each with its number of processes: one, and more only where processors would be idle, now
        or later."""
        begun = {name: self.jobs_of(name, proved) for name in self.ready(proved, running)[:max(0, self.lanes - len(running))]}
        idle = self.lanes - sum(running.values()) - sum(begun.values())
        while idle > 0 and any(jobs < MOST_JOBS for jobs in begun.values()):
            for name in [name for name, jobs in begun.items() if jobs < MOST_JOBS][:idle]:
                begun[name] += 1
                idle -= 1
        return begun

    def rest(self, proved: Iterable[str], running: Mapping[str, tuple[int, float]], pace: float) -> float:
        """The seconds until all crates are proved. Of a running crate its processes are given and for how many seconds it has
        run; the pace is the seconds of one process for a weight of 1."""
        done, jobs = list(proved), {name: number for name, (number, _) in running.items()}
        ends = {name: max(self.seconds(name, number, pace) - spent, LEAST_PART * self.seconds(name, number, pace))
                for name, (number, spent) in running.items()}
        now = 0.0
        while True:
            for name, number in self.next(done, jobs).items():
                jobs[name], ends[name] = number, now + self.seconds(name, number, pace)
            if not jobs:
                return now
            first = min(jobs, key=lambda name: ends[name])
            now = ends[first]
            del jobs[first]
            done.append(first)

    def seconds(self, name: str, jobs: int, pace: float) -> float:
        """How long the proof of a crate takes."""
        return self.weights[name] * pace / SPEEDS[jobs - 1]

    def share(self, proved: Iterable[str], running: Mapping[str, tuple[int, float]], pace: Optional[float]) -> float:
        """The share of the work that is done, running crates included once the pace is known."""
        done = sum(self.weights[name] for name in proved)
        for name, (jobs, spent) in running.items():
            if pace:
                done += self.weights[name] * min(1 - LEAST_PART, spent / self.seconds(name, jobs, pace))
        return done / sum(self.weights.values())
