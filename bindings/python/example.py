#!/usr/bin/env python3
"""Edits the kerning of examples/kerning on its sheet, and shows what becomes of the source.

The source has remarks above its lines and behind them. The sheet hides them, so
the edit below need not know of them; put brings them back with their pairs.
"""

from __future__ import annotations

import difflib
from pathlib import Path
from typing import Iterator, List

import noontrough

KERNING = Path(__file__).resolve().parent.parent.parent / "examples" / "kerning"


def place_of(pair: str, lines: List[str]) -> int:
    """Where the line of a pair stands: 'A;V' is that of 'A;V;-80'."""
    return next(place for place, line in enumerate(lines) if line.startswith(pair + ";"))


def edit(sheet: str) -> str:
    """Moves a pair, changes a value, adds a pair and deletes one."""
    lines = sheet.splitlines()
    moved = lines.pop(place_of("L;quoteright", lines))
    lines.insert(place_of("A;V", lines), moved)
    lines[place_of("T;comma", lines)] = "T;comma;-115"
    lines.insert(place_of("A;V", lines) + 1, "V;A;-75")
    del lines[place_of("A;W", lines)]
    return "".join(line + "\n" for line in lines)


def changes(old: str, new: str) -> Iterator[str]:
    """The lines that went, with a minus before them, and those that came, with a plus."""
    for line in difflib.ndiff(old.splitlines(), new.splitlines()):
        if line[0] in "-+":
            yield line.rstrip()


def main() -> None:
    table = (KERNING / "program.table").read_bytes()
    source = (KERNING / "source").read_bytes()
    sheet = noontrough.get(table, source)
    edited = edit(sheet.decode("utf-8")).encode("utf-8")
    result = noontrough.put(table, edited, source)
    print("Lines of the source that changed:")
    for line in changes(source.decode("utf-8"), result.decode("utf-8")):
        print(line)
    print("Entries:", result.tally)


if __name__ == "__main__":
    main()
