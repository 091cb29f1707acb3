"""The rows that the program prints, of every command, with a name for each field (docs/FORMATS.md)."""

from __future__ import annotations

from typing import NoReturn

from .tables import Refused, Table, TextLines

QUESTION = ("version", "from", "to", "at", "deadline")
LEG = ("by", "run", "entry_step", "departure", "exit_step", "exit", "arrival")
# The fields of each kind of row after its kind; those without a name are empty.
FIELDS = {
    "safe": ("from", "to", "at", "worst", "deadline"),
    "graph": (*QUESTION, "lower", "upper"),
    "expanded": (*QUESTION, "lower", "upper"),
    "start": LEG,
    "place": ("place", "change", "rows", "", "", "", ""),
    "leg": LEG,
    "ride": ("rows", "run", "entry_step", "departure", "exit_step", "exit", "arrival"),
    "next": LEG,
    "arrived": ("to", "arrival"),
    "bounds": (*QUESTION, "rows"),
    "value": ("run", "step", "value"),
    "holds": ("from", "to", "at", "deadline", "least"),
    "encloses": ("from", "to", "at", "deadline", "lower", "upper"),
    "punctual": ("version", "promise", "late_lower", "late_upper"),
    "departures": ("version", "from", "to", "at", "last", "deadline", "rows"),
    "row": ("moment", "run", "entry_step", "lower", "upper"),
    "latest": ("from", "to", "at", "deadline", "latest"),
    "reach": ("version", "to", "at", "deadline", "rows"),
    "from": ("place", "latest", "lower", "upper"),
    "sample": ("size", "connections", "rides", "lower", "upper"),
}
# In the second version of a graph each row has one more field: where its leg begins.
OF_GRAPHS = ("graph", "expanded", "start", "place", "leg", "ride", "next")
ENTRY = ("entry",)
# A row `ride` of a trip by `replay`, which has no number of rows.
RIDDEN = ("run", "entry", "departure", "exit", "due", "delay", "arrival")

Row = dict[str, str]


class Rows:
    """The rows of a text one after the other, each with its fields by name. Blank lines are not rows and have no number. A text
    that the program has not printed is refused, with the line and the reason."""

    def __init__(self, text: str) -> None:
        self.records = list(Table(TextLines(text), "the text", is_strict=True).records())
        self.is_trip = self.records[:1] != [] and self.records[0][0] in ("ride", "arrived")
        self.line = 0

    def refuse(self, why: str) -> NoReturn:
        raise Refused(f"line {self.line}: {why}")

    def kind(self) -> str:
        """The kind of the next row, empty at the end of the text."""
        return self.records[self.line][0] if self.line < len(self.records) else ""

    def row(self) -> Row:
        """The next row, with its kind and its fields."""
        kind, *values = self.records[self.line]
        self.line += 1
        names = RIDDEN if self.is_trip and kind == "ride" else FIELDS.get(kind)
        if names is None:
            self.refuse(f"{kind!r} is no kind of row")
        if len(values) == len(names) + 1 and kind in OF_GRAPHS:
            names += ENTRY
        if len(values) != len(names):
            self.refuse(f"there are {len(values) + 1} fields, not {len(names) + 1}")
        if any(value for name, value in zip(names, values) if not name):
            self.refuse(f"this is not a valid `{kind}` row")
        return {"kind": kind, **{name: value for name, value in zip(names, values) if name}}

    def next(self, kind: str) -> Row:
        """The next row, which is of this kind."""
        found = self.kind()
        if found == kind:
            return self.row()
        self.line += 1
        self.refuse(f"this is not a `{kind}` row" if found else f"the text ends where a `{kind}` row is expected")

    def end(self) -> None:
        """Refuses any more rows."""
        if self.kind():
            self.line += 1
            self.refuse("there are more rows than expected")


def rows_of(text: str) -> list[Row]:
    """All rows of a text."""
    rows = Rows(text)
    return [rows.row() for _ in rows.records]
