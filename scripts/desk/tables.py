"""Tables of comma-separated values: the one place that reads their headers and rows, and copies them.

Rows are read one at a time, and only the columns that are asked for are kept. Blank lines are no rows. Spaces around a field and
a byte-order mark are dropped, short rows have empty fields at their end, and of two columns with one name the first one counts.
"""

from __future__ import annotations

import csv
import io
import os
import sys
from typing import Callable, Iterable, Iterator, Optional

# A field may be as long as its file.
csv.field_size_limit(sys.maxsize)


class Refused(Exception):
    """Why something cannot be done, in words for the user."""


class NoTable(Refused):
    """A text that is not a table, such as one with a quote that is never closed."""


class FileLines:
    """The lines of a file, read anew by each iteration."""

    def __init__(self, path: str, errors: str = "replace") -> None:
        self.path, self.errors = path, errors

    def __iter__(self) -> Iterator[str]:
        with open(self.path, encoding="utf-8-sig", errors=self.errors, newline="") as file:
            yield from file


class TextLines:
    """The lines of a text."""

    def __init__(self, text: str) -> None:
        self.text = text

    def __iter__(self) -> Iterator[str]:
        return io.StringIO(self.text.removeprefix("\ufeff"), newline="")


def reason_of(fault: Exception) -> str:
    """Why a file cannot be read, without its path."""
    if isinstance(fault, OSError):
        return str(fault.strerror)
    return str(fault)


def number_in(text: str) -> Optional[int]:
    """The whole number that a field contains, of one to nine decimal digits; `None` if it contains none."""
    return int(text) if 0 < len(text) <= 9 and text.isascii() and text.isdigit() else None


def number_at(text: str, where: str) -> int:
    """The whole number that a field contains; any other field is refused."""
    number = number_in(text)
    if number is None:
        raise Refused(f"{where}: {text or 'an empty field'} is no whole number")
    return number


class Table:
    """The lines of a table, which are read anew by each of its functions, and its name in refusals."""

    def __init__(self, lines: Iterable[str], name: str, delimiter: str = ",", is_strict: bool = False) -> None:
        self.lines, self.name, self.delimiter, self.is_strict = lines, name, delimiter, is_strict

    @classmethod
    def open(cls, path: str) -> Table:
        """The table of a file."""
        return cls(FileLines(path), os.path.basename(path))

    def records(self) -> Iterator[list[str]]:
        """The header and the rows, with all of their fields as they are."""
        try:
            yield from (row for row in csv.reader(self.lines, delimiter=self.delimiter, strict=self.is_strict) if row)
        except OSError as fault:
            raise Refused(f"cannot read {self.name}: {reason_of(fault)}") from None
        except csv.Error as fault:
            raise NoTable(f"{self.name} is not a table: {fault}") from None

    def header(self) -> list[str]:
        """The names of the columns."""
        return names_of(next(self.records(), []))

    def rows(self, required: Iterable[str], optional: Iterable[str] = ()) -> Iterator[tuple[int, list[str]]]:
        """The fields of each row in some columns, and the number of the row; the header is row 1. Optional columns may be absent."""
        records = self.records()
        header = names_of(next(records, []))
        indexes = [self.index(header, name) for name in required]
        indexes += [header.index(name) if name in header else len(header) for name in optional]
        most = max(indexes, default=0) + 1
        for number, row in enumerate(records, start=2):
            row = row[:len(header)] + [""] * (most - min(len(row), len(header)))
            yield number, [row[index].strip(" ") for index in indexes]

    def index(self, header: list[str], name: str) -> int:
        if name not in header:
            raise Refused(f"{self.name} has no column {name}")
        return header.index(name)


def names_of(header: list[str]) -> list[str]:
    return [name.strip(" ") for name in header]


def copy_rows(path: str, made: str, column: str, is_kept: Callable[[str], bool]) -> tuple[int, int]:
    """Copies the header of a file and those of its rows whose field in a column is kept, byte by byte but for their quotes and
    line ends. Returns how many rows are kept, and how many there are."""
    table = Table(FileLines(path, errors="surrogateescape"), os.path.basename(path))
    records, kept, count = table.records(), 0, 0
    header: list[str] = next(records, [])
    index = table.index(names_of(header), column)
    try:
        with open(made, "w", encoding="utf-8", errors="surrogateescape", newline="") as file:
            file.write(line_of(header))
            for row in records:
                count += 1
                if is_kept(row[index].strip(" ") if index < len(row) else ""):
                    file.write(line_of(row))
                    kept += 1
    except OSError as fault:
        raise Refused(f"cannot copy {table.name}: {reason_of(fault)}") from None
    return kept, count


def line_of(fields: Iterable[object]) -> str:
    """A row as a line."""
    text = io.StringIO()
    csv.writer(text, lineterminator="\n").writerow(fields)
    return text.getvalue()
