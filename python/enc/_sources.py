"""Lines of source for sequence points, from folders that the user names."""

from __future__ import annotations

import os
import re
from typing import Dict, Iterator, List, Optional, Tuple

# A longer file isn't read.
MOST_BYTES = 4_000_000


def _unescaped(printed: str) -> str:
    """A document's name as it was before it was printed."""
    part = re.sub(r"\\x([0-9a-f]{2})", lambda match: chr(int(match.group(1), 16)), printed)
    return part.encode("latin-1", "replace").decode("utf-8", "replace")


class Sources:
    """Folders with sources. Of a document `/src/Bank.cs` and a body of generation 2 the first of these is taken that is
    there: `DIR/2/Bank.cs`, `DIR/Bank.2.cs`; and, for a method's newest body, `DIR/src/Bank.cs` and `DIR/Bank.cs`.
    No name leads out of a folder."""

    def __init__(self, folders: List[str]) -> None:
        self._folders = [os.path.realpath(folder) for folder in folders]
        self._files: Dict[str, Optional[List[str]]] = {}
        self._known: Dict[Tuple[str, int, bool], Optional[List[str]]] = {}

    def line(self, document: str, number: int, generation: int, newest: bool) -> Optional[str]:
        """A line of a document, from 1, as a body of a generation means it; None where it isn't at hand."""
        if not self._folders:
            return None
        key = (document, generation, newest)
        if key not in self._known:
            self._known[key] = self._found(*key)
        lines = self._known[key]
        return lines[number - 1] if lines is not None and 0 < number <= len(lines) else None

    def _found(self, document: str, generation: int, newest: bool) -> Optional[List[str]]:
        for folder in self._folders:
            for name in _names(_unescaped(document), generation, newest):
                lines = self._read(folder, name)
                if lines is not None:
                    return lines
        return None

    def _read(self, folder: str, name: str) -> Optional[List[str]]:
        path = os.path.realpath(os.path.join(folder, name))
        if "\0" in name or os.path.commonpath([folder, path]) != folder or not os.path.isfile(path):
            return None
        if path not in self._files:
            self._files[path] = None
            if os.path.getsize(path) <= MOST_BYTES:
                with open(path, encoding="utf-8-sig", errors="replace") as file:
                    self._files[path] = file.read().split("\n")
        return self._files[path]


def _names(document: str, generation: int, newest: bool) -> Iterator[str]:
    """The names under which a document may be in a folder."""
    parts = [part for part in re.split(r"[/\\]", document) if part not in ("", ".", "..")]
    if not parts or "\0" in document:
        return
    stem, end = os.path.splitext(parts[-1])
    yield os.path.join(str(generation), parts[-1])
    yield f"{stem}.{generation}{end}"
    if newest:
        for i in range(len(parts)):
            yield os.path.join(*parts[i:])
