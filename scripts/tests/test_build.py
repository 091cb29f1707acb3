"""Tests of what a build knows of its work: the order of the crates, the share that is done, the time that remains, the weights."""

from __future__ import annotations

import os
import shutil
import subprocess
import unittest

from support import SCRIPTS, Case, content

import schedule
from schedule import SPEEDS, Schedule, read_weights, weights_of
from sources import PROGRAM, crates_of

# Two chains over one crate, and a program on top of both.
CRATES = {"low": ["std"], "long": ["low"], "short": ["low"], "longer": ["long"], "top": ["longer", "short"]}
WEIGHTS = {"low": 10.0, "long": 20.0, "short": 5.0, "longer": 20.0, "top": 30.0}


def made(lanes: int) -> Schedule:
    return Schedule(CRATES, WEIGHTS, lanes)


class Order(unittest.TestCase):
    def test_longest_chain_first(self) -> None:
        self.assertEqual(made(1).ready([], []), ["low"])
        self.assertEqual(made(2).ready(["low"], []), ["long", "short"])
        self.assertEqual(made(2).ready(["low"], ["long"]), ["short"])
        self.assertEqual(made(2).ready(["low", "short"], ["long"]), [])
        self.assertEqual(made(1).next(["low"], {}), {"long": 1})

    def test_processors_that_would_be_idle_go_to_the_longest_chain(self) -> None:
        self.assertEqual(made(4).next([], {}), {"low": 4})
        self.assertEqual(made(9).next([], {}), {"low": 4})
        self.assertEqual(made(3).next(["low"], {}), {"long": 2, "short": 1})
        self.assertEqual(made(4).next(["low"], {}), {"long": 3, "short": 1})
        self.assertEqual(made(4).next(["low"], {"long": 1}), {"short": 3})
        self.assertEqual(made(4).next(["low"], {"long": 4}), {"short": 1})
        self.assertEqual(made(1).next(["low"], {"long": 1}), {})

    def test_the_share_of_a_crate_is_that_of_its_work_beside_the_rest(self) -> None:
        self.assertEqual(made(4).jobs_of("short", ["low"]), 1)
        self.assertEqual(made(4).jobs_of("short", ["low", "long"]), 1)
        self.assertEqual(made(4).jobs_of("long", ["low"]), 3)
        self.assertEqual(made(4).jobs_of("longer", ["low", "long", "short"]), 4)


class Remaining(unittest.TestCase):
    def test_one_lane_takes_all_weights(self) -> None:
        self.assertEqual(made(1).rest([], {}, 2.0), 2 * sum(WEIGHTS.values()))
        self.assertEqual(made(1).rest(["low"], {"long": (1, 15.0)}, 1.0), 5 + 5 + 20 + 30)
        self.assertEqual(made(1).rest(list(CRATES), {}, 1.0), 0)

    def test_more_lanes_take_the_longest_chain(self) -> None:
        fast = SPEEDS[3]
        self.assertAlmostEqual(made(4).rest(["low", "long", "short", "longer"], {}, 1.0), 30 / fast)
        self.assertAlmostEqual(made(4).rest(["low", "short", "long"], {"longer": (1, 0.0)}, 1.0), 20 + 30 / fast)

    def test_a_crate_that_runs_for_too_long_remains_a_little(self) -> None:
        self.assertAlmostEqual(made(1).rest(["low", "long", "short", "longer"], {"top": (1, 100.0)}, 1.0), 1.5)

    def test_share(self) -> None:
        self.assertEqual(made(1).share([], {}, None), 0)
        self.assertEqual(made(1).share(list(CRATES), {}, 1.0), 1)
        self.assertAlmostEqual(made(1).share(["low"], {"long": (1, 10.0)}, 1.0), 20 / 85)
        self.assertAlmostEqual(made(1).share(["low"], {"long": (1, 100.0)}, 1.0), 29 / 85)


class Weights(Case):
    def test_each_crate_of_the_program_has_a_weight(self) -> None:
        weights = weights_of(crates_of(PROGRAM), read_weights())
        self.assertTrue(all(weight > 0 for weight in weights.values()), weights)

    def test_a_crate_without_a_weight_has_one_by_its_size(self) -> None:
        plan_model, csv_rows = schedule.size_of("plan_model") + 1, schedule.size_of("csv_rows") + 1
        weights = weights_of(["plan_model", "csv_rows"], {"plan_model": 60.0})
        self.assertEqual(weights, {"plan_model": 60.0, "csv_rows": 60.0 / plan_model * csv_rows})
        self.assertGreater(weights_of(["csv_rows"], {})["csv_rows"], 0)

    def test_the_command_writes_the_last_time_of_each_crate(self) -> None:
        launcher = f"{self.room}/top/scripts/launcher"
        shutil.copytree(os.path.join(SCRIPTS, "launcher"), launcher, ignore=shutil.ignore_patterns("__pycache__"))
        self.write("top/crates.txt", "low:\nmeat_cli: low\n")
        self.write("top/out/times.csv", "low,70.1\n")
        command = [f"{launcher}/weights"]
        ran = subprocess.run(command, capture_output=True, timeout=60)
        self.assertEqual(ran.returncode, 1)
        self.assertIn(b"no time of meat_cli: remove out/", ran.stderr)
        self.write("top/out/times.csv", "low,70.1\nmeat_cli,0.2\ngone,5.0\nlow,59.6\n")
        self.assertEqual(subprocess.run(command, capture_output=True, timeout=60).returncode, 0)
        self.assertEqual(content(f"{launcher}/weights.csv"), "crate,weight\nlow,60\nmeat_cli,1\n")


if __name__ == "__main__":
    unittest.main()
