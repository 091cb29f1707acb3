"""Tests of the line of the guide that asks many questions side by side: what has failed is asked again, and nothing else."""

from __future__ import annotations

import os
import shutil
import subprocess
import unittest

from support import TOP, Case, content

# A planner that fails for one question until there is a file `mended`, and notes its calls.
PLANNER = """#!/bin/sh
echo "$*" >>"$ROOM/calls"
case $* in *"--to S,1 --at 2024-06-03T07"*) [ -e "$ROOM/mended" ] || exit 4 ;; esac
echo "answer $*"
"""
# A remote shell that stays here, and sets SHELL as a login does.
SHELL = """#!/bin/sh
while [ "${1#-}" != "$1" ]; do shift; done
shift
[ "$1" != -- ] || shift
SHELL=/bin/sh exec sh -c "$*"
"""


def line_of_the_guide() -> str:
    (line,) = [line[2:] for line in content(os.path.join(TOP, "docs", "GUIDE.md")).split("\n") if line.startswith("$ parallel ")]
    return line


@unittest.skipUnless(shutil.which("parallel"), "GNU parallel is not installed")
class Parallel(Case):
    def setUp(self) -> None:
        super().setUp()
        for name, text in (("meat", PLANNER), ("ssh", SHELL)):
            os.chmod(self.write(name, text), 0o755)
        os.makedirs(f"{self.room}/out/guide")

    def parallel(self, more: str = "") -> tuple[int, list[str]]:
        """Runs the line, and returns its status and the calls of the planner."""
        line = line_of_the_guide().replace("parallel ", f"parallel {more} ", 1)
        environment = {**os.environ, "ROOM": self.room, "HOME": self.room, "PARALLEL_SSH": f"{self.room}/ssh"}
        ran = subprocess.run(["bash", "-o", "pipefail", "-c", line], cwd=self.room, env=environment, stdin=subprocess.DEVNULL, capture_output=True, timeout=60)
        calls = sorted(content(f"{self.room}/calls").splitlines()) if os.path.exists(f"{self.room}/calls") else []
        self.write("calls", "")
        return ran.returncode, calls

    def test_after_a_fault(self) -> None:
        status, calls = self.parallel()
        self.assertEqual((status, len(calls), len(set(calls))), (1, 6, 6))
        self.assertIn("answer reach", content(f"{self.room}/out/guide/reach/AIR 06.txt"))
        self.write("mended", "")
        status, calls = self.parallel()
        self.assertEqual((status, len(calls)), (0, 1))
        self.assertIn("--to S,1 --at 2024-06-03T07:00:00", calls[0])
        self.assertIn("answer reach", content(f"{self.room}/out/guide/reach/S,1 07.txt"))
        self.assertEqual(self.parallel(), (0, []))

    def test_after_an_interruption(self) -> None:
        self.write("mended", "")
        self.parallel()
        log = f"{self.room}/out/guide/reach.log"
        self.write("out/guide/reach.log", "".join(content(log).splitlines(keepends=True)[:4]))
        status, calls = self.parallel()
        self.assertEqual((status, len(calls)), (0, 3))

    def test_other_machines(self) -> None:
        self.write("mended", "")
        status, calls = self.parallel(f"--sshlogin :,2/second --workdir '{self.room}' --env ROOM")
        self.assertEqual((status, len(calls)), (0, 6))
        self.assertIn("second", content(f"{self.room}/out/guide/reach.log"))


if __name__ == "__main__":
    unittest.main()
