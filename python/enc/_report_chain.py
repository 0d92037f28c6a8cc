"""The picture of a chain: the base, and each delta behind it with what it does to methods."""

from __future__ import annotations

from typing import Any, Dict, List, NamedTuple, Optional

from ._report_facts import Facts
from ._report_text import some

# How many boxes are drawn; of more deltas those in the middle are one box.
MOST_BOXES = 6
_WIDE, _HIGH, _GAP = 168, 66, 34


class Box(NamedTuple):
    """A box: where it begins, its class (`base`, `delta`, `more`, `refused`), its texts, and where it leads."""

    x: int
    kind: str
    name: str
    lines: List[str]
    href: str


class Chain(NamedTuple):
    """The picture in units of its own, and what it says in words."""

    width: int
    height: int
    boxes: List[Box]
    words: str


def _short(name: str) -> str:
    return name if len(name) <= 20 else name[:19] + "…"


def said_of(facts: Facts, number: int) -> List[str]:
    """What a delta does to methods and other members, in at most two texts.

    It counts the changes that are listed."""
    states: Dict[str, int] = {}
    for change in facts.changes:
        if change.generation == number:
            states[change.state] = states.get(change.state, 0) + 1
    changed, added = states.get("changed", 0), states.get("added", 0)
    lines = [f"{some(changed, 'method')} changed"] if changed or not added else []
    if added:
        lines.append(f"{added:,} added" if lines else f"{some(added, 'method')} added")
    others = sum(1 for other in facts.others if other.generation == number)
    if others and len(lines) < 2:
        lines.append(f"{some(others, 'other row')}")
    return lines


def chain_of(facts: Facts, refusal: Optional[Any]) -> Any:
    """The picture of a chain; None where nothing follows the base."""
    numbers = [number for number in facts.heads if number]
    if not numbers and refusal is None:
        return None
    shown: List[Any] = list(numbers)
    room = MOST_BOXES - 1 - (refusal is not None)
    if len(numbers) > room:
        kept = (room - 1) // 2
        shown = [*numbers[: room - 1 - kept], None, *numbers[-kept:]]
    boxes = [("base", facts.heads[0].path, ["generation 0, the base"], "")]
    for number in shown:
        if number is None:
            boxes.append(("more", f"{len(numbers) - len(shown) + 1:,} more", ["deltas"], ""))
        else:
            place = f"g{number}" if facts.changes else ""
            boxes.append(("delta", f"{number}: {facts.heads[number].path}", said_of(facts, number), place))
    if refusal is not None:
        lines = ["refused", f"by rule {refusal.code}"]
        boxes.append(("refused", f"{refusal.number}: {refusal.path}", lines, "refusal"))
    made = []
    for i, (kind, name, lines, href) in enumerate(boxes):
        made.append(Box(2 + i * (_WIDE + _GAP), kind, _short(name), lines, href))
    words = f"{some(len(numbers), 'delta')} {'follows' if len(numbers) == 1 else 'follow'} {facts.heads[0].path}"
    words += ", and one is refused." if refusal is not None else "."
    return Chain(made[-1].x + _WIDE + 2, _HIGH + 4, made, words)
