"""What the scripts share as commands: their streams, how they end, and how they call the program."""

from __future__ import annotations

import argparse
import codecs
import datetime
import errno
import os
import shutil
import subprocess
import sys
from typing import Callable, Optional, TypeVar, Union

from .plans import Printed, moment_text, read
from .tables import Refused

# The folder of the commands.
HERE = os.path.dirname(os.path.dirname(os.path.realpath(__file__)))


def read_input(encoding: str = "") -> str:
    """The text on standard input, in UTF-8 or, if it says so by its first bytes, in UTF-16; or in a given encoding."""
    data = sys.stdin.buffer.read()
    try:
        return data.decode(encoding or ("utf-16" if data.startswith((codecs.BOM_UTF16_LE, codecs.BOM_UTF16_BE)) else "utf-8-sig"))
    except UnicodeDecodeError:
        raise Refused(f"the input is not {encoding or 'UTF-8: save it as CSV UTF-8, or convert it by iconv -f WINDOWS-1252 -t UTF-8'}") from None
    except LookupError:
        raise Refused(f"there is no encoding {encoding}") from None


def show(text: str) -> None:
    """Writes a text to standard output, in UTF-8 whatever the locale."""
    sys.stdout.buffer.write(text.encode("utf-8", errors="surrogateescape"))
    sys.stdout.buffer.flush()


def report(name: str, text: str) -> None:
    """Writes a line to standard error."""
    try:
        sys.stderr.buffer.write(f"{name}: {text}\n".encode("utf-8", errors="backslashreplace"))
        sys.stderr.buffer.flush()
    except OSError:
        pass


def run(name: str, work: Callable[[], int]) -> None:
    """Ends with the status of the work. A refusal, or a stream that fails, is one line on standard error, and status 1."""
    try:
        status = work()
    except Refused as fault:
        report(name, str(fault))
        status = 1
    except OverflowError:
        report(name, "a moment is before the year 1 or after the year 9999")
        status = 1
    except KeyboardInterrupt:
        status = 130
    except OSError as fault:
        if fault.errno != errno.EPIPE:
            report(name, f"cannot write: {fault.strerror}" if fault.filename is None else f"{fault.filename}: {fault.strerror}")
        status = 1
    # What is still buffered cannot be written either, and is not tried again.
    try:
        sys.stdout.flush()
    except OSError:
        os.dup2(os.open(os.devnull, os.O_WRONLY), 1)
    sys.exit(status)


def whole_number(least: int, most: int) -> Callable[[str], int]:
    """Reads a whole number between two bounds, for an option."""
    def read(text: str) -> int:
        if not (text.isascii() and text.isdigit() and least <= int(text) <= most):
            raise argparse.ArgumentTypeError(f"a whole number from {least} to {most} is expected")
        return int(text)
    return read


def program() -> str:
    """The path of the planner: what MEAT names, the launcher of the repository, or the one installed beside the scripts."""
    named = os.environ.get("MEAT")
    beside = [os.path.join(HERE, "..", "meat"), os.path.join(HERE, "..", "..", "bin", "meat")]
    found = [named] if named else [path for path in beside if os.path.isfile(path) and os.access(path, os.X_OK)]
    path = found[0] if found else shutil.which("meat")
    if path is None:
        raise Refused("the planner `meat` was not found: name its path in the environment as MEAT")
    return os.path.abspath(path)


Value = Union[str, int, datetime.datetime, None]
# The options that are named otherwise in Python.
NAMES = {"source": "from", "target": "to"}


def words_of(command: str, **options: Value) -> list[str]:
    """The words of a call: the command, and each option that has a value."""
    words = [command]
    for name, value in options.items():
        if value is not None:
            words += [f"--{NAMES.get(name, name)}", moment_text(value) if isinstance(value, datetime.datetime) else str(value)]
    return words


class Answer:
    """What a call of the program printed, and how it ended."""

    def __init__(self, words: list[str], status: int, text: str, line: str) -> None:
        self.words, self.status, self.text, self.line = words, status, text, line


# The status at which no strategy reaches the target by the deadline whatever the delays.
NO_STRATEGY = 1


def ask(words: list[str]) -> Answer:
    """Calls the program: its answer, or that there is no strategy. Any other refusal is passed on with its line."""
    try:
        ran = subprocess.run([program(), *words], stdin=subprocess.DEVNULL, stdout=subprocess.PIPE, stderr=subprocess.PIPE)
    except OSError as fault:
        raise Refused(f"the planner cannot be run: {fault.strerror}") from None
    lines = ran.stderr.decode("utf-8", errors="replace").rstrip("\n").split("\n")
    if ran.returncode not in (0, NO_STRATEGY):
        raise Refused(lines[-1] or f"the planner ended with status {ran.returncode}")
    return Answer(words, ran.returncode, ran.stdout.decode("utf-8"), lines[-1])


Kind = TypeVar("Kind", bound=Printed)


def answer_of(kind: type[Kind], words: list[str]) -> Optional[Kind]:
    """What the program answers, read as what it is; `None` if there is no strategy."""
    answer = ask(words)
    found = read(answer.text) if answer.status == 0 else None
    return found if isinstance(found, kind) else None


def write_file(path: str, text: str) -> None:
    """Writes a file whole, or leaves what was there."""
    made = f"{path}.new"
    try:
        with open(made, "w", encoding="utf-8", newline="") as file:
            file.write(text)
        os.replace(made, path)
    except OSError as fault:
        raise Refused(f"cannot write {path}: {fault.strerror}") from None
