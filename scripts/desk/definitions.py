"""The definitions of the contracts, and which of them a definition stands on.

Definitions are in `crates/CRATE/specs`. One stands on what its words name: definitions of its own file, what the file takes from
others by `use`, and types of the code. A lemma is none of them: what it says is proved. A word that is also the name of a
variable counts, so a list may have a definition too many.
"""

from __future__ import annotations

import glob
import os
import re
from dataclasses import dataclass, field
from typing import Iterator, Optional

TOP = os.path.dirname(os.path.dirname(os.path.dirname(os.path.realpath(__file__))))
HEAD = re.compile(r"(?:abbrev|unfoldable|pub|mutual|record|data|module)\b")
NAMED = re.compile(r"(?:(?:abbrev|unfoldable|pub|record|data) )+(?!mutual\b)(\S+)")
INSIDE = re.compile(r"  (?:(?:abbrev|unfoldable|pub|record|data) )*(\S+) (?::|\()")
CONSTRUCTOR = re.compile(r" {2,4}([A-Z]\w*) :")
LEMMA = re.compile(r"\S+ : ")
USE = re.compile(r"(?:pub )?use (\S+?)(?:\.\{(.*)\}| as (\w+))?$")
WORD = re.compile(r"[^\s()\[\]{},;]+")
RUST_TYPE = re.compile(r"(?:pub(?:\(\w+\))? )?(?:struct|enum|const|trait|static) (\w+)")


@dataclass
class Definition:
    """Some lines of a file that define these names."""
    path: str
    first: int
    last: int
    names: list[str]
    code: list[str] = field(default_factory=list)

    def place(self) -> str:
        return f"{self.path}:{self.first}-{self.last}"

    def words(self) -> Iterator[str]:
        """The words of its lines, of a path only the first name."""
        for line in self.code:
            for word in WORD.findall(line):
                yield word.partition(".")[0]

    def add(self, number: int, line: str) -> None:
        self.last = number
        self.code.append(line)


def names_at(line: str, kind: str) -> list[str]:
    """The names that a line of a definition of this kind defines."""
    if not line.startswith(" "):
        found = NAMED.match(line)
    elif kind in ("mutual", "module"):
        found = INSIDE.match(line) or CONSTRUCTOR.match(line)
    else:
        found = CONSTRUCTOR.match(line) if kind == "data" else None
    return [found.group(1)] if found else []


def kind_of(head: str) -> str:
    """The kind of a definition, by its first line."""
    words = head.split()
    return next((kind for kind in ("mutual", "module", "data") if kind in words[:3]), "")


def taken(module: str, group: str) -> Iterator[tuple[str, str]]:
    """What a `use` of a module takes by a group of names, each with its module. A group may have groups of modules below it."""
    depth, part = 0, ""
    for sign in group + ",":
        depth += (sign == "{") - (sign == "}")
        if sign != "," or depth:
            part += sign
            continue
        below, brace, inner = part.strip().partition(".{")
        if brace:
            yield from taken(f"{module}.{below}", inner[:-1])
        else:
            path, _, name = below.rpartition(".")
            yield f"{module}.{path}".rstrip("."), name
        part = ""


class Module:
    """A file of definitions: these by their names, and what it takes from elsewhere, each as a module and a name there."""

    def __init__(self, path: str) -> None:
        self.path = path
        self.definitions: dict[str, Definition] = {}
        self.used: dict[str, tuple[str, str]] = {}
        current: Optional[Definition] = None
        kind = ""
        with open(os.path.join(TOP, path), encoding="utf-8") as file:
            for number, line in enumerate(file.read().split("\n"), 1):
                if line.lstrip().startswith("--") or not line.strip():
                    continue
                if line.startswith("pub mod "):
                    continue
                if USE.match(line):
                    self.take(line)
                    continue
                if HEAD.match(line):
                    current, kind = Definition(path, number, number, []), kind_of(line)
                elif LEMMA.match(line):
                    current = None
                if current:
                    current.add(number, line)
                    for name in names_at(line, kind):
                        if name not in current.names:
                            current.names.append(name)
                        self.definitions[name] = current

    def take(self, line: str) -> None:
        found = USE.match(line)
        module, names, alias = found.groups() if found else ("", "", "")
        if alias:
            self.used[alias] = module, ""
        for home, name in taken(module, names or ""):
            there, _, here = name.partition(" as ")
            self.used[(here or there).strip("◌").partition("◌")[0]] = home, there


def taken_by(path: str) -> dict[str, str]:
    """The crate of each name that a source of the code takes from another crate."""
    with open(os.path.join(TOP, path), encoding="utf-8") as file:
        taken = re.findall(r"^use (\w+)::([^;]*);", file.read(), re.M)
    return {name: crate for crate, names in taken for name in re.findall(r"\w+", names)}


def types_of(path: str) -> Iterator[Definition]:
    """The types and constants of a source of the code."""
    current: Optional[Definition] = None
    with open(os.path.join(TOP, path), encoding="utf-8") as file:
        for number, line in enumerate(file.read().split("\n"), 1):
            found = RUST_TYPE.match(line)
            if found:
                current = Definition(path, number, number, [found.group(1)])
            if current and not line.lstrip().startswith("//"):
                current.add(number, re.sub(r"[<>:&]", " ", line))
            if current and (line.startswith("}") or line.endswith(";") and number == current.first):
                yield current
                current = None


class Reading:
    """All modules and types, and what a definition stands on."""

    def __init__(self) -> None:
        self.modules: dict[str, Module] = {}
        self.types: dict[tuple[str, str], Definition] = {}
        crates = os.path.join(TOP, "crates")
        for full in sorted(glob.glob(os.path.join(crates, "*", "specs", "**", "*.antt"), recursive=True)):
            path = os.path.relpath(full, TOP)
            parts = os.path.relpath(full, crates)[:-len(".antt")].split(os.sep)
            self.modules[".".join(["Rattle", *parts])] = Module(path)
        for full in sorted(glob.glob(os.path.join(crates, "*", "src", "**", "*.rt"), recursive=True)):
            crate = os.path.relpath(full, crates).split(os.sep)[0]
            for one in types_of(os.path.relpath(full, TOP)):
                self.types.setdefault((crate, one.names[0]), one)

    def named(self, name: str) -> list[Definition]:
        """The definitions of this name, or of that name in a crate: CRATE/NAME."""
        crate, _, own = name.rpartition("/")
        return [module.definitions[own] for at, module in self.modules.items()
                if own in module.definitions and (not crate or at.split(".")[1] == crate)]

    def at(self, module: str, name: str) -> Optional[Definition]:
        """What a module calls so, itself or from another."""
        if module in self.modules:
            return self.found(self.modules[module], name)
        parts = module.split(".")
        if "declared" not in parts:
            return None
        own = parts[-2] if parts[-1].startswith("The") else parts[-1]
        return self.types.get((parts[1], own)) or self.types.get((parts[1], name))

    def found(self, module: Module, word: str) -> Optional[Definition]:
        """The definition that a word of a module names, if it names one of this repository."""
        if word in module.definitions:
            return module.definitions[word]
        return self.at(*module.used[word]) if word in module.used else None

    def below(self, one: Definition) -> Iterator[Definition]:
        """What the words of a definition or of a type name."""
        if one.path.endswith(".antt"):
            module = next(module for module in self.modules.values() if module.path == one.path)
            found = (self.found(module, word) for word in one.words())
        else:
            crate, taken = one.path.split(os.sep)[1], taken_by(one.path)
            found = (self.types.get((taken.get(word, crate), word)) or self.types.get((crate, word)) for word in one.words())
        return (other for other in found if other and other is not one)

    def list(self, first: list[Definition]) -> list[Definition]:
        """All that these stand on and they themselves, each after what it stands on where no circle hinders that."""
        order: list[Definition] = []
        seen: set[str] = set()
        waiting = [(one, False) for one in reversed(first)]
        while waiting:
            one, is_done = waiting.pop()
            if is_done:
                order.append(one)
            elif one.place() not in seen:
                seen.add(one.place())
                waiting.append((one, True))
                waiting.extend((other, False) for other in reversed(list(self.below(one))))
        return order
