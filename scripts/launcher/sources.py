"""What the program is made of: its crates, each with what it names, and the kit."""

from __future__ import annotations

import os
import re
import sys

if sys.version_info < (3, 9):
    sys.exit("This needs Python 3.9 or later, and is run by Python " + sys.version.split()[0] + ".")

TOP = os.path.dirname(os.path.dirname(os.path.dirname(os.path.realpath(__file__))))
PROGRAM = "meat_cli"
# What each crate names, by the name of the crate; a crate comes after those that it names.
Crates = dict[str, list[str]]


def crates_of(program: str) -> Crates:
    """The crates that a program needs, itself the last, each with what it names, libraries of the kit included."""
    named: Crates = {}
    with open(os.path.join(TOP, "crates.txt"), encoding="utf-8") as file:
        for line in file:
            name, colon, others = line.partition("#")[0].partition(":")
            if colon:
                named[name.split()[0]] = others.split()
    found: Crates = {}

    def visit(name: str) -> None:
        if name in named and name not in found:
            for other in named[name]:
                visit(other)
            found[name] = named[name]

    visit(program)
    return found


def home_of(name: str) -> str:
    """The folder of a crate."""
    return os.path.join(TOP, "crates", name)


def root_of(name: str) -> str:
    """The first source of a crate, in its folder."""
    return os.path.join("src", "main.rt" if name == PROGRAM else "lib.rt")


class Kit:
    """The kit, whose programs and libraries lie below one folder."""

    def __init__(self, rt: str) -> None:
        self.top = os.path.dirname(os.path.dirname(os.path.realpath(rt)))

    def path(self, *names: str) -> str:
        return os.path.join(self.top, *names)

    def named_by(self, library: str) -> list[str]:
        """The libraries of the kit that one of them names."""
        with open(self.path("rlibs", f"{library}.rlib", "format"), encoding="utf-8") as file:
            return re.findall(r"^dep (\w+)$", file.read(), re.M)
