"""The tables of a feed, each read once, and what reading them shows besides their rows: encodings, and quotes that are not closed."""

from __future__ import annotations

import os
import re
from typing import Iterable, Iterator

from .feeds import NumberedRows, has_table, table_of
from .found_lines import are_plain
from .tables import FileLines, Refused, Table, reason_of

TABLES = ("stops.txt", "routes.txt", "trips.txt", "stop_times.txt", "frequencies.txt", "calendar.txt", "calendar_dates.txt",
          "transfers.txt")
# Larger tables are not kept; they are read by one reader only.
MOST_KEPT = 1 << 25
# What cannot be decoded, and the end of a text in UTF-16.
NO_TEXT = re.compile("[\0\udc80-\udcff]")
# A line in which each quoted field is closed, and nothing is after it; and the parts of any other line.
WHOLE = re.compile(r'(?:"[^"]*"|[^",\r\n][^,\r\n]*|)(?:,(?:"[^"]*"|[^",\r\n][^,\r\n]*|))*[\r\n]*')
OPENING, CLOSING, ENDS = re.compile(r'(?<![^,])"'), re.compile(r'[^"]*(?:""[^"]*)*"(?!")'), ("", ",", "\r", "\n")


def is_text(text: str) -> bool:
    """Whether a text of a table could be decoded."""
    return not NO_TEXT.search(text)


class NotedLines(FileLines):
    """The lines of a table, and what reading them shows: whether they are UTF-8, whether a quoted field is not closed at their end,
    and after how many closing quotes text follows."""

    def __init__(self, path: str) -> None:
        super().__init__(path, "surrogateescape")
        self.kept: list[str] = []
        self.is_read, self.is_text, self.is_open, self.rests = False, True, False, 0

    def __iter__(self) -> Iterator[str]:
        return iter(self.kept) if self.kept else self.read()

    def read(self) -> Iterator[str]:
        kept: list[str] = []
        is_small = os.path.getsize(self.path) <= MOST_KEPT
        self.is_read, self.is_text, self.is_open, self.rests = False, True, False, 0
        for line in super().__iter__():
            if self.is_open or '"' in line or not line.isascii() or not self.is_read:
                self.note(line)
            if is_small:
                kept.append(line)
            self.is_read = True
            yield line
        self.kept = kept

    def note(self, line: str) -> None:
        self.is_text = self.is_text and is_text(line)
        if self.is_open or not WHOLE.fullmatch(line):
            self.note_quotes(line)

    def note_quotes(self, line: str) -> None:
        """Follows the quotes of a line, from those of the lines before it."""
        at = 0
        while at < len(line):
            found = (CLOSING.match if self.is_open else OPENING.search)(line, at)
            if not found:
                return
            at, self.is_open = found.end(), not self.is_open
            self.rests += not self.is_open and line[at:at + 1] not in ENDS


class Survey:
    """The tables of a feed, for readers that take its `rows`."""

    def __init__(self, folder: str) -> None:
        self.folder = folder
        self.noted: dict[str, NotedLines] = {}

    def lines(self, name: str) -> NotedLines:
        return self.noted.setdefault(name, NotedLines(os.path.join(self.folder, name)))

    def rows(self, folder: str, name: str, required: Iterable[str], optional: Iterable[str] = ()) -> NumberedRows:
        """The rows of a table, as `feeds.rows_in` has them."""
        table, lines = table_of(folder, name), self.lines(name)
        try:
            yield from Table(lines, table.name).rows(required, optional)
        except Refused:
            if lines.is_text:
                raise
            raise Refused(f"{name} is not UTF-8: convert it, for example by iconv -f UTF-16 -t UTF-8") from None

    def finished(self, names: Iterable[str] = TABLES) -> Iterator[tuple[str, NotedLines]]:
        """Each of these tables that the feed has, when all of it is read."""
        for name in names:
            if has_table(self.folder, name):
                lines = self.lines(name)
                if not lines.is_read:
                    read_all(lines, name)
                yield name, lines


def read_all(lines: NotedLines, name: str) -> None:
    try:
        for _ in lines:
            pass
    except OSError as fault:
        raise Refused(f"cannot read {name}: {reason_of(fault)}") from None


def open_quotes(folder: str) -> Iterator[str]:
    """The tables with a quote that is never closed. Those without a quote are not read for this."""
    quoted = [name for name in TABLES if has_table(folder, name) and not are_plain(os.path.join(folder, name))]
    return (name for name, lines in Survey(folder).finished(quoted) if lines.is_open)
