"""The few lines of a large table in which some texts occur, found by a search over its bytes.

To read a table of some million rows row by row takes a script twenty seconds, and to search its bytes less than one. A line is
a row only if no field goes over several lines. So a table in which the quotes of some line do not pair is read as a whole."""

from __future__ import annotations

import mmap
import os
import re
from typing import Iterable, Iterator, Optional

def lines_with(path: str, texts: Iterable[str]) -> Optional[Iterator[str]]:
    """The header of a table and its lines in which one of these texts occurs, in their order; `None` if lines are not rows."""
    with open(path, "rb") as file:
        header = file.readline()
        if header and not header.strip() or not are_rows(path):
            return None
    return found_lines(path, header, texts)


def are_rows(path: str) -> bool:
    """Whether each line is a row: quotes pair in each line, and no line ends with a carriage return alone."""
    if not os.path.getsize(path):
        return True
    with open(path, "rb") as file, mmap.mmap(file.fileno(), 0, access=mmap.ACCESS_READ) as data:
        if data.find(b"\r") >= 0 and re.search(rb"\r(?!\n)", data):
            return False
        return data.find(b'"') < 0 or not any(line.count(b'"') % 2 for line in file)


def are_plain(path: str) -> bool:
    """Whether a table has no quote at all."""
    if not os.path.getsize(path):
        return True
    with open(path, "rb") as file, mmap.mmap(file.fileno(), 0, access=mmap.ACCESS_READ) as data:
        return data.find(b'"') < 0


def found_lines(path: str, header: bytes, texts: Iterable[str]) -> Iterator[str]:
    """The header, and the lines after it in which one of these texts occurs."""
    yield header.decode("utf-8-sig", errors="replace")
    wanted = sorted({text.encode("utf-8", errors="replace") for text in texts if text}, key=len, reverse=True)
    if not wanted or not header:
        return
    pattern, begun = re.compile(b"|".join(map(re.escape, wanted))), len(header)
    with open(path, "rb") as file, mmap.mmap(file.fileno(), 0, access=mmap.ACCESS_READ) as data:
        found = pattern.search(data, begun)
        while found is not None:
            begin = max(data.rfind(b"\n", 0, found.start()) + 1, begun)
            begun = data.find(b"\n", found.end()) + 1 or len(data)
            yield data[begin:begun].decode("utf-8", errors="replace")
            found = pattern.search(data, begun)
