"""The plot of a report: how many rows each delta inserts and updates, by generation. Of ten deltas and more the bytes
of their heaps too."""

from __future__ import annotations

from typing import Any, List, NamedTuple, Sequence

from ._report_text import some

# Below so many deltas each has a bar of its own with its numbers, and heaps aren't shown.
MANY = 10
_LEFT, _HIGH, _STEP, _ROW, _WIDE = 100, 34, 48, 26, 420


class Bar(NamedTuple):
    """A bar: where it stands, how wide and high it is, its class, and what it says."""

    x: float
    y: float
    width: float
    height: float
    kind: str
    words: str


class Text(NamedTuple):
    """A text: where it stands, to which side of there (`start`, `middle`, `end`), and what it says."""

    x: float
    y: float
    anchor: str
    words: str


class Plot(NamedTuple):
    """The plot in units of its own, and what it says in words."""

    width: float
    height: float
    bars: List[Bar]
    texts: List[Text]
    words: str
    heaps: bool


def _few(heads: Sequence[Any]) -> Plot:
    """A line for each delta: what it inserts, and behind that what it updates."""
    most = max(max(head.inserted + head.updated for head in heads), 1)
    bars, texts = [], []
    for i, head in enumerate(heads):
        y, x = 4.0 + i * _ROW, float(_LEFT)
        texts.append(Text(_LEFT - 8, y + 14, "end", f"{head.number}  {head.path[:14]}"))
        for kind, count in (("inserted", head.inserted), ("updated", head.updated)):
            wide = round(_WIDE * count / most, 1)
            if count:
                bars.append(Bar(x, y, max(wide, 2.0), 18.0, kind, f"generation {head.number}: {count:,} rows {kind}"))
            x += wide
        counts = f"{head.inserted:,} inserted, {head.updated:,} updated"
        texts.append(Text(x + 8, y + 14, "start", counts))
    return Plot(_LEFT + _WIDE + 170, 8.0 + len(heads) * _ROW, bars, texts, "", False)


def _series(name: str, numbers: Sequence[int], first: int, y: float, kind: str) -> List[Bar]:
    """The bars of one number, by generation."""
    most, step = max(max(numbers), 1), _step(len(numbers))
    bars = []
    for i, number in enumerate(numbers):
        if number:
            height = round(max(_HIGH * number / most, 1), 1)
            words = f"generation {first + i}: {name} {number:,}"
            x = round(_LEFT + i * step + step * 0.12, 1)
            bars.append(Bar(x, round(y + _HIGH - height, 1), round(step * 0.76, 1), height, kind, words))
    return bars


def _step(count: int) -> float:
    return min(48.0, max(2.0, 620 / count))


def _many(heads: Sequence[Any]) -> Plot:
    """A column for each delta, of rows and of heaps."""
    lists = {
        "rows inserted": [head.inserted for head in heads],
        "rows updated": [head.updated for head in heads],
        "#Strings": [head.lengths.strings for head in heads],
        "#US": [head.lengths.users for head in heads],
        "#Blob": [head.lengths.blobs for head in heads],
    }
    first, step = heads[0].number, _step(len(heads))
    right = _LEFT + len(heads) * step
    bars: List[Bar] = []
    texts: List[Text] = []
    for i, (name, numbers) in enumerate(lists.items()):
        y = 4.0 + i * _STEP
        kind = {0: "inserted", 1: "updated"}.get(i, "heap")
        bars += _series(name, numbers, first, y, kind)
        texts.append(Text(_LEFT - 8, y + _HIGH, "end", name))
        texts.append(Text(right + 8, y + _HIGH, "start", f"at most {max(numbers):,}{'' if i < 2 else ' bytes'}"))
    low = 4.0 + len(lists) * _STEP
    often = max(1, round(40 / step))
    for i, head in enumerate(heads):
        if i % often == 0:
            texts.append(Text(round(_LEFT + (i + 0.5) * step, 1), low + 8, "middle", str(head.number)))
    return Plot(right + 120, low + 14, bars, texts, "", True)


def plot_of(heads: Sequence[Any]) -> Any:
    """The plot of the heads of deltas; None where there are none."""
    if not heads:
        return None
    made = _few(heads) if len(heads) < MANY else _many(heads)
    inserted, updated = sum(head.inserted for head in heads), sum(head.updated for head in heads)
    one = len(heads) == 1
    rows = f"{'inserts' if one else 'insert'} {some(inserted, 'row')} and {'updates' if one else 'update'} {updated:,}"
    words = f"{some(len(heads), 'delta')} {rows}."
    return made._replace(words=words)
