"""The facts of a report for other programs: `--json`. Its schema is in docs/report.md."""

from __future__ import annotations

from typing import Any, Dict, List, Optional

from ._refusal_page import Refusal
from ._report_facts import Change, Facts, Group, Head, Other, Span
from ._sides import Counts, Line, Pair, text_of


def _lines(pairs: List[Pair]) -> List[Dict[str, str]]:
    return [{"change": pair.kind, **_sides(pair)} for pair in pairs]


def _sides(pair: Pair) -> Dict[str, str]:
    sides = (("before", pair.before), ("after", pair.now))
    return {name: _line(line) for name, line in sides if line is not None}


def _line(line: Line) -> str:
    return f"{text_of(line)} {line.token}".rstrip() if line.word else line.text


def _span(span: Optional[Span]) -> Optional[Dict[str, Any]]:
    return span._asdict() if span else None


def _counts(counts: Counts) -> Dict[str, int]:
    return {"removed": counts.removed, "added": counts.added, "sameByAnotherToken": counts.alike, "same": counts.same}


def _method(change: Change) -> Dict[str, Any]:
    source = change.source
    return {
        "token": str(change.item.token),
        "generation": change.generation,
        "state": change.state,
        "declaration": str(change.declared),
        "name": change.declared.name,
        "lines": {"before": _span(change.spans[0]), "after": _span(change.spans[1])},
        "il": {**_counts(change.counts), "lines": _lines(change.pairs)},
        "source": {**_counts(source.counts), "document": source.document, "lines": _lines(source.pairs)}
        if source
        else None,
        "alsoIn": change.others,
    }


def _other(other: Other) -> Dict[str, Any]:
    return {
        "token": str(other.token),
        "generation": other.generation,
        "kind": other.kind,
        "inserted": other.inserted,
        "declaration": str(other.declared),
        "before": str(other.before) if other.before else None,
        "notes": other.notes,
    }


def _head(head: Head) -> Dict[str, Any]:
    return {
        "number": head.number,
        "file": head.path,
        "encId": head.enc_id or None,
        "rowsInserted": head.inserted,
        "rowsUpdated": head.updated,
        "heaps": head.lengths._asdict(),
    }


def _rows(number: int, groups: List[Group]) -> List[Dict[str, Any]]:
    found = []
    for group in groups:
        for item in group.items:
            cells = {cell.name: [cell.before, cell.now] if cell.before else [cell.now] for cell in item.cells}
            about = {"token": str(item.token), "generation": number, "table": group.table}
            found.append({**about, "inserted": item.inserted, "name": item.name, "columns": cells})
    return found


def _refusal(refusal: Optional[Refusal]) -> Optional[Dict[str, Any]]:
    if refusal is None:
        return None
    names = ("file", "code", "place", "rule", "expected", "found", "todo")
    return {"generation": refusal.number, **{name: getattr(refusal, name) for name in names}}


def facts_of(title: str, facts: Optional[Facts], refusal: Optional[Refusal]) -> Dict[str, Any]:
    """The facts as a value of JSON; `facts` is None where the base is refused."""
    known = facts or Facts({}, [], [], {}, {}, 0, 0, 0, 0, 0, {})
    rows = [row for number, groups in known.groups.items() for row in _rows(number, groups)]
    return {
        "title": title,
        "accepted": refusal is None,
        "methodsChanged": known.changed,
        "methodsAdded": known.added,
        "methodsSame": known.same,
        "generations": [_head(head) for head in known.heads.values()],
        "methods": [_method(change) for change in known.changes],
        "others": [_other(other) for other in known.others],
        "rows": rows,
        "refusal": _refusal(refusal),
    }
