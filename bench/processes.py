"""What the scripts of this folder share: running the program, finding it, and printing tables of what was measured."""

from __future__ import annotations

import argparse
import os
import re
import resource
import shutil
import subprocess
import sys
import tempfile
from dataclasses import dataclass
from typing import Callable, Optional, Sequence

TOP = os.path.dirname(os.path.dirname(os.path.abspath(__file__)))
sys.path.insert(0, os.path.join(TOP, "scripts"))
# The launcher's program, and the one that `rt run` or `rt ci` has built.
BUILT = [os.path.join(TOP, "out", "meat"), os.path.join(TOP, "crates", "meat_cli", "out", "meat_cli")]
# The most processor seconds of a run, and how many times longer it may take while it is counted.
SECONDS, SLOWER = 600, 100


@dataclass(frozen=True)
class Run:
    """What a run took, processor seconds and peak memory in MiB, how it ended, and its line on standard error."""
    seconds: float
    peak: float
    status: int
    line: str

    def cells(self) -> list[str]:
        return [f"{self.seconds:.3f}", f"{self.peak:.1f}"]


def measure(words: Sequence[str], seconds: int = SECONDS, memory: int = resource.RLIM_INFINITY) -> Run:
    """Runs a process and drops its output. One that takes more processor seconds is ended by a signal."""
    def limited() -> None:
        resource.setrlimit(resource.RLIMIT_CPU, (seconds, seconds))
        resource.setrlimit(resource.RLIMIT_AS, (memory, memory))

    with tempfile.TemporaryFile() as errors:
        process = subprocess.Popen(words, stdin=subprocess.DEVNULL, stdout=subprocess.DEVNULL, stderr=errors, preexec_fn=limited)
        _, status, usage = os.wait4(process.pid, 0)
        process.returncode = os.waitstatus_to_exitcode(status)
        errors.seek(0)
        line = errors.read(200).decode("utf-8", "replace").strip()
    return Run(usage.ru_utime + usage.ru_stime, usage.ru_maxrss / 1024, process.returncode, line)


def fastest(words: Sequence[str], times: int) -> Run:
    """The fastest of several runs."""
    return min((measure(words) for _ in range(times)), key=lambda run: run.seconds)


def instructions(words: Sequence[str]) -> int:
    """The instructions of a process, counted by valgrind; other work on the machine does not change them."""
    if not shutil.which("valgrind"):
        sys.exit("To count instructions takes valgrind, which is not on PATH.")
    with tempfile.NamedTemporaryFile(mode="r", encoding="utf-8", errors="replace") as log:
        measure(["valgrind", "--tool=callgrind", "--callgrind-out-file=/dev/null", f"--log-file={log.name}", *words], SLOWER * SECONDS)
        found = re.search(r"Collected : (\d+)", log.read())
    if not found:
        sys.exit(f"valgrind counted nothing of `{' '.join(words)}`")
    return int(found[1])


def write_apart(write: Callable[[], None]) -> None:
    """Writes files in a separate process, so that this one, from which each run starts, stays small."""
    pid = os.fork()
    if pid == 0:
        try:
            write()
            os._exit(0)
        finally:
            os._exit(1)
    if os.waitpid(pid, 0)[1] != 0:
        sys.exit("The inputs cannot be written.")


def printed(words: Sequence[str], path: str) -> str:
    """Saves what a process prints in a file, and returns its path."""
    with open(path, "wb") as file:
        subprocess.run(words, stdin=subprocess.DEVNULL, stdout=file, stderr=subprocess.DEVNULL, check=False)
    return path


def parser_of(description: str) -> argparse.ArgumentParser:
    """A parser with the options that all scripts share."""
    parser = argparse.ArgumentParser(description=description)
    built = next((program for program in BUILT if os.access(program, os.X_OK)), BUILT[0])
    parser.add_argument("--program", default=os.environ.get("MEAT", built), help="the program (MEAT, or the one that is built)")
    parser.add_argument("--times", type=int, default=3, help="runs of each, of which the fastest counts (3)")
    return parser


def options_of(parser: argparse.ArgumentParser) -> argparse.Namespace:
    """The options of a call. A program that is not there is refused."""
    options = parser.parse_args()
    if not os.access(options.program, os.X_OK):
        sys.exit(f"The program is not built: {options.program} is not there. `./meat` with no words builds it.")
    options.program = os.path.abspath(options.program)
    return options


def sizes(text: str) -> list[int]:
    """The numbers of a comma-separated list, for an option."""
    return [int(number) for number in text.split(",") if number]


class Table:
    """A Markdown table, printed row by row."""

    def __init__(self, *titles: str) -> None:
        self.last: dict[str, tuple[int, float]] = {}
        self.row(*titles)
        self.row("---", *("--:" for _ in titles[1:]))

    def row(self, *cells: str) -> None:
        print(f"| {' | '.join(cells)} |", flush=True)

    def growth(self, kind: str, items: int, value: Optional[float]) -> str:
        """How a value rose since the last one of its kind, divided by how the items rose: 1 is linear. A dash at first."""
        before = self.last.get(kind)
        if value is None:
            return "-"
        self.last[kind] = items, value
        return f"{value * before[0] / (before[1] * items):.2f}" if before and before[1] else "-"
