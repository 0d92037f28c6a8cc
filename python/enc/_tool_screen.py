"""What `enc-tool` prints: lines with colours where they are wanted, JSON, and a bar of progress."""

from __future__ import annotations

import json
import os
import sys
import time
from typing import Any, IO, Optional

from ._tool_words import safe

_CODES = {"token": "33", "kind": "36", "name": "1", "add": "32", "remove": "31", "dim": "2", "error": "31"}
# How often a bar is drawn, and for how long nothing is.
_PAUSE = 0.1
_WIDTH = 30


def is_terminal(file: Any) -> bool:
    """Whether a file is a terminal."""
    try:
        return bool(file.isatty())
    except (AttributeError, ValueError):
        return False


def wants_color(when: str, file: Any) -> bool:
    """Whether colours are wanted: `auto` is on a terminal that isn't dumb, where NO_COLOR isn't set."""
    if when != "auto":
        return when == "always"
    return is_terminal(file) and not os.environ.get("NO_COLOR") and os.environ.get("TERM") != "dumb"


class Screen:
    """Where a command prints."""

    def __init__(self, color: bool = False) -> None:
        self.color = color

    def paint(self, text: str, role: str) -> str:
        """A text that is safe on a terminal, in the colour of its role: token, kind, name, add, remove or dim."""
        text = safe(text)
        return f"\x1b[{_CODES[role]}m{text}\x1b[0m" if self.color and text else text

    def put(self, line: str = "") -> None:
        """Prints a line, of which each part is safe."""
        sys.stdout.write(line + "\n")

    def document(self, value: Any) -> None:
        """Prints a JSON document."""
        sys.stdout.write(json.dumps(value, indent=1) + "\n")

    def entry(self, value: Any) -> None:
        """Prints a line of JSON."""
        sys.stdout.write(json.dumps(value) + "\n")


class Bar:
    """A bar of progress on a terminal; on anything else nothing is written."""

    def __init__(self, file: IO[str], total: Optional[int]) -> None:
        self._file = file
        self._total = total
        self._is_on = is_terminal(file)
        self._shown = False
        self._next = time.monotonic() + _PAUSE

    def at(self, done: int, count: int) -> None:
        """Draws how much is done: bytes of the total, and how many frames."""
        if self._is_on and time.monotonic() >= self._next:
            self._next = time.monotonic() + _PAUSE
            self._shown = True
            self._file.write(f"\r\x1b[K{self._text(done, count)}")
            self._file.flush()

    def _text(self, done: int, count: int) -> str:
        """The bar."""
        if not self._total:
            return f"{count:,} frames"
        part = min(1.0, done / self._total)
        full = int(part * _WIDTH)
        return f"[{'#' * full}{'.' * (_WIDTH - full)}] {part:4.0%} {count:,} frames"

    def clear(self) -> None:
        """Takes the bar away, before something else is written and at the end."""
        if self._shown:
            self._shown = False
            self._file.write("\r\x1b[K")
            self._file.flush()
