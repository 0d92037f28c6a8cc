"""The facts of a page as the JSON that its script draws from: each text and each line stands in it once.

Lines are numbers of a table, so that thousands of bodies stay within the length of a page. docs/report.md has the
schema of `--json`, which is for other programs; this form is the page's own."""

from __future__ import annotations

import base64
import json
from itertools import groupby
from typing import Any, Callable, Dict, List, NamedTuple, Optional, Sequence

from . import _sides
from ._report_facts import MOST_CODES, Change, Facts, Group, Source
from ._report_names import Names
from ._sides import Line, Pair
from .rows import Token
from .tables import table

# How long the JSON gets, how much of it are rows and bytes of code, and how long a method is at least.
MOST_BYTES = 4_400_000
MOST_ROW_BYTES = 1_500_000
MOST_CODE_BYTES = 1_200_000
LEAST_BYTES = 12_000

_LETTERS = {"same": "s", "alike": "l", "changed": "c", "beside": "b", "removed": "r", "added": "a"}
_OWNED = ("Field", "MethodDef", "Param", "Event", "Property")


class Packed(NamedTuple):
    """The JSON, safe within a script element, and how many methods are in it without their bodies."""

    text: str
    without: int


def safe(value: Any) -> str:
    """JSON that ends no element of HTML.

    >>> safe("</script>")
    '"\\\\u003c/script>"'
    """
    return json.dumps(value, ensure_ascii=False, separators=(",", ":")).replace("<", "\\u003c").replace("&", "\\u0026")


class Table:
    """Values by their numbers."""

    def __init__(self) -> None:
        self.values: List[Any] = []
        self._numbers: Dict[Any, int] = {}
        self.length = 0

    def number(self, value: Any) -> int:
        """The number of a value, which is added where it isn't there."""
        if value not in self._numbers:
            self._numbers[value] = len(self.values)
            self.values.append(value)
            self.length += len(value) + 3 if isinstance(value, str) else len(str(value))
        return self._numbers[value]

    def cut(self, count: int) -> None:
        """Forgets all values but the first so many."""
        for value in self.values[count:]:
            self.length -= len(value) + 3 if isinstance(value, str) else len(str(value))
            del self._numbers[value]
        del self.values[count:]


def _lengths(lines: Sequence[Line], code: bytes) -> Dict[int, int]:
    """How many bytes each instruction has, by the number of its line."""
    at = [(i, int(line.label[3:], 16)) for i, line in enumerate(lines) if line.label]
    ends = [offset for _, offset in at[1:]] + [len(code)]
    return {i: max(1, end - offset) for (i, offset), end in zip(at, ends)}


class Packing:
    """The JSON while it is made."""

    def __init__(self, facts: Facts, names: Names) -> None:
        self._facts = facts
        self._names = names
        self._texts, self._lines = Table(), Table()
        self._said: Dict[str, int] = {}
        codes = sum(len(code) for one in facts.changes for code in one.codes)
        self._with_code = 4 * codes // 3 <= MOST_CODE_BYTES and len(facts.changes) <= MOST_CODES
        self._spent = 0

    def packed(self) -> Packed:
        """All of it: rows first, then methods in what room is left."""
        rows = {number: [self._group(group) for group in made] for number, made in self._facts.groups.items()}
        self._spent = len(safe(rows))
        changes = self._methods()
        without = sum(1 for made, change in zip(changes, self._facts.changes) if "p" not in made and change.pairs)
        value = {
            "texts": self._texts.values, "lines": self._lines.values, "changes": changes, "rows": rows,
            "names": self._said, "newest": {str(Token(token)): at for token, at in self._facts.newest.items()},
            "code": self._with_code, "twins": self._facts.twins,
        }  # fmt: skip
        return Packed(safe(value), without)

    # Rows.

    def _text(self, text: str) -> int:
        return self._texts.number(text)

    def _group(self, group: Group) -> Any:
        columns = [column for column in table(group.table).columns if column.kind != "run"]
        names = [column.name for column in columns] + (["owner"] if group.table in _OWNED else [])
        return {"table": group.table, "count": group.total, "inserted": group.inserted, "columns": names,
                "rows": [self._row(item) for item in group.items]}  # fmt: skip

    def _row(self, item: Any) -> Any:
        cells: List[Any] = []
        if self._spent < MOST_ROW_BYTES:
            for cell in item.cells:
                for token in (cell.token, cell.before_token):
                    self._say(token)
                now = self._text(cell.now)
                cells.append([now, self._text(cell.before)] if cell.before else now)
        self._spent += 30 + 8 * len(cells)
        return [str(item.token), int(item.inserted), self._text(item.name), cells]

    def _say(self, token: str) -> None:
        """Remembers what a token is called."""
        if token and token not in self._said and int(token, 16) & 0xFFFFFF:
            name = self._names.of(int(token, 16)).full
            if name:
                self._said[token] = self._text(name)

    # Methods.

    def _methods(self) -> List[Any]:
        """The methods with their bodies: each has its share, and those for which it is too short what is left."""
        changes = self._facts.changes
        found: List[Any] = []
        for i, change in enumerate(changes):
            room = self._room()
            most = max(room // (len(changes) - i), min(room // 3, LEAST_BYTES))
            found.append(self._bounded(change, most))
        late = [i for i, made in enumerate(found) if made is None]
        for k, i in enumerate(late):
            found[i] = self._bounded(changes[i], self._room() // (len(late) - k)) or self._head(changes[i])
        return found

    def _room(self) -> int:
        return MOST_BYTES - self._spent - self._texts.length - self._lines.length

    def _bounded(self, change: Change, most: int) -> Any:
        """A method with its body: all of it, where that is too long what differs, None where that is too."""
        marks = len(self._texts.values), len(self._lines.values)
        ways: List[Callable[[List[Pair]], List[Any]]] = [list, _sides.near]
        for shorten in ways:
            pairs = shorten(change.pairs)
            before = self._texts.length + self._lines.length
            made = self._change(change, pairs)
            length = len(json.dumps(made))
            if length + self._texts.length + self._lines.length - before <= most:
                self._spent += length
                return made
            self._texts.cut(marks[0])
            self._lines.cut(marks[1])
        return None

    def _head(self, change: Change) -> Any:
        made: Dict[str, Any] = {
            "g": change.generation, "t": str(change.item.token), "h": self._text(change.declared.words),
            "n": self._text(change.declared.name), "s": change.state, "c": list(change.counts[:3]),
        }  # fmt: skip
        spans = [f"{span.document} {span.first}–{span.last}" if span else "" for span in change.spans]
        if any(spans):
            made["at"] = [self._text(span) for span in spans]
        if change.others:
            made["o"] = change.others[-12:]
        return made

    def _change(self, change: Change, pairs: List[Any]) -> Any:
        made = self._head(change)
        whole = len(pairs) == len(change.pairs) and not any(isinstance(pair, int) for pair in pairs)
        made["f"] = [[cell.name, self._text(cell.now), self._text(cell.before) if cell.before else -1]
                     for cell in change.item.cells if cell.name != "Name" or cell.before]  # fmt: skip
        if change.cut:
            made["cut"] = change.cut
        if change.pairs:
            self._body(made, change, pairs)
        if change.source is not None:
            made["src"] = self._source(change.source)
        if self._with_code and whole:
            made["x"] = [base64.b64encode(code).decode() for code in change.codes]
        return made

    def _body(self, made: Dict[str, Any], change: Change, pairs: List[Any]) -> None:
        """The lines of both sides, how they stand beside each other, and the sequence points."""
        made["p"] = _runs(pairs, change.pairs)
        for i, (lines, points) in enumerate((("b", "bp"), ("a", "ap"))):
            own = _lines_of(change.pairs, 1 + i)
            lengths = {id(own[k]): length for k, length in _lengths(own, change.codes[i]).items()}
            shown = _lines_of(pairs, 1 + i)
            made[lines] = [self._line(line, lengths.get(id(line), 0)) for line in shown]
            found = [self._point(k, point, change, i) for k, line in enumerate(shown) for point in line.points]
            if found:
                made[points] = found

    def _line(self, line: Line, length: int) -> int:
        full = self._text(line.full) if line.full and line.full != line.text else -1
        return self._lines.number((line.word, self._text(line.text), full, line.token, length))

    def _point(self, at: int, point: _sides.Point, change: Change, side: int) -> List[int]:
        if not point.start[0]:
            return [at]
        text = change.shown_lines[side].get(f"{point.document}:{point.start[0]}", "")
        return [at, *point.start, *point.end, self._text(text) if text else -1]

    def _source(self, source: Source) -> Any:
        made: Dict[str, Any] = {"d": self._text(source.document), "p": _runs(source.pairs, source.pairs)}
        made["c"] = list(source.counts[:2])
        for i, name in ((1, "b"), (2, "a")):
            lines = _lines_of(source.pairs, i)
            made[name] = [self._line(line, 1) for line in lines]
            made[name + "0"] = int(lines[0].label) if lines else 0
        return made


def _lines_of(pairs: List[Any], side: int) -> List[Line]:
    """The lines of a side; 1 is before, 2 now."""
    return [pair[side] for pair in pairs if not isinstance(pair, int) and pair[side] is not None]


def _offset(pair: Optional[Pair], side: int) -> int:
    line: Any = pair[side] if pair else None
    return int(line.label[3:], 16) if line is not None and line.label.startswith("IL_") else -1


def _kind(pair: Any) -> str:
    return "gap" if isinstance(pair, int) else str(pair.kind)


def _runs(pairs: List[Any], whole: List[Pair]) -> str:
    """How lines stand beside each other: letters with how often they come; a gap is `g` with how many lines are left
    out, and the offsets behind it."""
    parts: List[str] = []
    at = 0
    for kind, run in groupby(pairs, _kind):
        found = list(run)
        if kind == "gap":
            at += found[0]
            behind = whole[at] if at < len(whole) else None
            parts.append(f"g{found[0]}:{_offset(behind, 1)}:{_offset(behind, 2)}")
        else:
            at += len(found)
            parts.append(f"{_LETTERS[kind]}{len(found)}")
    return "".join(parts)


def packed(facts: Facts, names: Names) -> Packed:
    """The JSON of a page."""
    return Packing(facts, names).packed()
