"""Tests of scripts/reading: its lists, in order and whole, and the numbers of docs/PROMISES.md."""

from __future__ import annotations

import os
import re
import unittest

from support import TOP, Case, call, content

from desk.definitions import Reading

RING = re.compile(r"^\|[^|]*\| `([^`]+)` \| (\d+) \| (\d+) \|$", re.M)


class Listed(Case):
    """What is listed."""

    def test_rings(self) -> None:
        rings = RING.findall(content(os.path.join(TOP, "docs", "PROMISES.md")))
        self.assertEqual(len(rings), 4)
        for names, definitions, lines in rings:
            ran = call("reading", "", *names.split(), "--count")
            self.assertEqual((ran.status, ran.printed.split(",")[0]), (0, f"{definitions} definitions in {lines} lines"), names)

    def test_order(self) -> None:
        ran = call("reading", "", "IsSafeFor")
        self.assertEqual(ran.status, 0)
        names = [line.partition(" ")[2] for line in ran.printed.splitlines()[:-1]]
        self.assertEqual(names[-1], "IsSafeFor")
        order = [names.index(name) for name in ("NetworkModel", "Tree, Done, Ride, Stuck, Kids, Nil, Kid", "IsLeg", "IsSafe, AreSafe",
                                                "IsSafeFromStart", "IsSafeFor")]
        self.assertEqual(order, sorted(order))
        self.assertEqual(len(names), len(set(names)))

    def test_nothing_is_lost(self) -> None:
        reading = Reading()
        crates = {module.split(".")[1] for module in reading.modules}
        lost = [(module.path, name) for module in reading.modules.values() for source, name in module.used.values()
                if source.split(".")[1] in crates and ".specs." in source and not reading.at(source, name)]
        self.assertEqual(lost, [])

    def test_places(self) -> None:
        for line in call("reading", "", "IsSafeFor").printed.splitlines()[:-1]:
            place, _, names = line.partition(" ")
            path, _, lines = place.rpartition(":")
            first, last = (int(number) for number in lines.split("-"))
            text = content(os.path.join(TOP, path)).split("\n")[first - 1:last]
            for name in names.split(", "):
                self.assertIn(name, " ".join(text))


class Refusals(Case):
    """What is refused."""

    def test_no_name(self) -> None:
        ran = call("reading", "", "IsNowhereDefined")
        self.assertEqual((ran.status, ran.errors), (1, "reading: IsNowhereDefined: no definition has this name\n"))

    def test_several(self) -> None:
        ran = call("reading", "", "IsTextOf")
        self.assertEqual(ran.status, 1)
        self.assertRegex(ran.errors, r"^reading: IsTextOf: several have this name: \S+, \S+\n$")
        place = ran.errors.split(": ")[3].split(",")[0]
        crate = place.split("/")[1]
        self.assertIn(place + " IsTextOf", call("reading", "", f"{crate}/IsTextOf").printed)


if __name__ == "__main__":
    unittest.main()
