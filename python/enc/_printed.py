"""What `enc show` prints of a row, read back: the only way to a row's columns at an earlier generation."""

from __future__ import annotations

import re
from typing import Dict, List, NamedTuple, Tuple

_CELL = re.compile(r' (\w+)=("[^"]*"|\[[0-9a-f]*\]|[^ ]+)')
_PLACE = re.compile(r" @(\d+)\.(\d+)$")
_RANGE = r" IL_([0-9a-f]+)-IL_([0-9a-f]+)"
_CLAUSE = re.compile(rf"  (catch|filter|finally|fault){_RANGE}{_RANGE}(?: (?:IL_)?([0-9a-f]+))?$")
_KINDS = ("catch", "filter", "finally", "fault")
_CHILDREN = ("fields", "methods", "params", "events", "properties")


class Printed(NamedTuple):
    """A printed row: its cells as they are printed, its place, its owner, its children, its clauses."""

    cells: Dict[str, str]
    place: Tuple[int, int]
    owner: int
    children: Dict[str, List[int]]
    clauses: List[Tuple[int, int, int, int, int, int]]


def _clause(match: "re.Match[str]") -> Tuple[int, int, int, int, int, int]:
    a, b, c, d = (int(match.group(i), 16) for i in range(2, 6))
    return _KINDS.index(match.group(1)), a, b, c, d, int(match.group(6) or "0", 16)


def printed(text: str) -> Printed:
    """The parts of a printed row.

    >>> row = printed('01000002 TypeRef ResolutionScope=23000001 TypeName="String" @1.1\\n')
    >>> row.cells
    {'ResolutionScope': '23000001', 'TypeName': '"String"'}
    >>> row.place
    (1, 1)
    """
    first, *rest = text.rstrip("\n").split("\n")
    place = _PLACE.search(first)
    owner, children, clauses = 0, {}, []
    for line in rest:
        words = line.split()
        clause = _CLAUSE.match(line)
        if clause:
            clauses.append(_clause(clause))
        elif words[0] == "owner":
            owner = int(words[1], 16)
        elif words[0] in _CHILDREN:
            children[words[0]] = [int(word, 16) for word in words[1:]]
    where = (int(place.group(1)), int(place.group(2))) if place else (0, 0)
    return Printed(dict(_CELL.findall(first)), where, owner, children, clauses)


def unquoted(cell: str) -> bytes:
    """The bytes of a text that is printed between `"` signs.

    >>> unquoted('"a\\\\x22b"')
    b'a"b'
    """
    return re.sub(rb"\\x([0-9a-f]{2})", lambda match: bytes([int(match.group(1), 16)]), cell[1:-1].encode("ascii"))
