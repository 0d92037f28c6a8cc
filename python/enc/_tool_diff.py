"""`enc-tool diff`: what each delta changed, by names, with IL and lines of source before and after."""

from __future__ import annotations

import argparse
import shutil
import sys
from typing import Any, Iterator, List

from . import _sides
from ._report_facts import Change, Facts, Head, Other, gathered
from ._report_json import facts_of
from ._report_text import file_name, some
from ._sources import Sources
from ._tool_chain import Chain, opened
from ._tool_screen import Screen, is_terminal
from ._tool_words import Parser, Problem, finished, safe, with_chain

_WORDS = {"changed": "changed", "added": "added", "moved": "moved", "same": "same code", "none": "changed"}
_ROLES = {"-": "remove", "+": "add", "|": "kind", "<": "remove", ">": "add"}
_MARKS = {"same": " ", "alike": "~", "changed": "|", "beside": "|", "removed": "<", "added": ">"}
_MOST_DELTAS = 400
_WIDTH = 120


def diff_parser() -> Parser:
    """What may stand behind `diff`."""
    about = (
        "Tells what each delta changed, by names: its methods with their IL before and after, and other members.\n"
        "- and + mark lines that differ, ~ one that means the same by another token."
    )
    example = "  enc-tool diff examples/bank/bank examples/bank/bank1 examples/bank/bank2"
    made = with_chain(Parser("diff", "BASE DELTA ..", about, example), deltas="+")
    made.add_argument("-y", "--side-by-side", action="store_true", help="before and after in two columns")
    made.add_argument("--width", type=int, metavar="N", help="how wide two columns are: the terminal, or 120")
    made.add_argument("--source", metavar="DIR", action="append", default=[], help="a folder with sources")
    return finished(made)


def diff(given: argparse.Namespace, screen: Screen) -> int:
    """Prints what the deltas of a chain changed."""
    if given.width is not None and given.width < 20:
        raise Problem(f"diff: --width {given.width} is too narrow: 20 columns or more", 2)
    chain = opened(given.base, given.deltas)
    facts, _ = gathered(chain.module, chain.paths, Sources(given.source), True)
    if given.json:
        title = f"{file_name(given.base)} and {some(len(chain.paths) - 1, 'delta')}"
        screen.document(facts_of(title, facts, None))
        return 0
    wide = shutil.get_terminal_size((_WIDTH, 24)).columns if is_terminal(sys.stdout) else _WIDTH
    for line in _lines(chain, facts, given.width or wide if given.side_by_side else 0, screen):
        screen.put(line)
    return 0


def _lines(chain: Chain, facts: Facts, width: int, screen: Screen) -> Iterator[str]:
    """All that is printed."""
    if facts.unlisted:
        yield f"the first {facts.unlisted:,} of {chain.module.generation:,} deltas aren't listed: {_MOST_DELTAS} are"
    for number, head in facts.heads.items():
        if not number:
            continue
        yield screen.paint(f"generation {number}: {head.path}", "name")
        yield _counts(head)
        for other in facts.others:
            if other.generation == number:
                yield from _other(other, screen)
        for change in facts.changes:
            if change.generation == number:
                yield from _change(change, width, screen)
    if facts.missing:
        yield f"{some(facts.missing, 'more change')} of methods aren't listed: `show` and `history` know them"


def _counts(head: Head) -> str:
    """How many rows a delta inserts and updates."""
    return f"  {some(head.inserted, 'row')} inserted, {head.updated:,} updated"


def _other(other: Other, screen: Screen) -> Iterator[str]:
    """A member that isn't a method."""
    what = screen.paint("added", "add") if other.inserted else screen.paint("changed", "kind")
    token = screen.paint(str(other.token), "token")
    yield f"  {what} {other.kind} {token} {safe(str(other.declared))}"
    if other.before:
        yield f"    {screen.paint('- ' + str(other.before), 'remove')}"
        yield f"    {screen.paint('+ ' + str(other.declared), 'add')}"
    yield from (f"    {safe(note)}" for note in other.notes)


def _change(change: Change, width: int, screen: Screen) -> Iterator[str]:
    """A method that a delta inserts or updates."""
    what = screen.paint(_WORDS[change.state], "add" if change.state == "added" else "kind")
    token = screen.paint(str(change.item.token), "token")
    yield f"  {what} method {token} {screen.paint(str(change.declared), 'name')}"
    spans = [f"{safe(one.document)}:{one.first}-{one.last}" if one else "" for one in change.spans]
    if any(spans):
        yield "    lines " + " -> ".join(one for one in dict.fromkeys(spans) if one)
    if change.source:
        yield from _pairs(change.source.pairs, width, screen)
    if change.state in ("added", "changed"):
        yield from _pairs(change.pairs, width, screen)
    if change.cut:
        yield f"    {some(change.cut, 'more line')} of IL: `show` prints them"


def _pairs(pairs: List[_sides.Pair], width: int, screen: Screen) -> Iterator[str]:
    """Two texts as a plain diff, or side by side where a width is given."""
    if width:
        yield from _beside(pairs, width, screen)
        return
    for line in _sides.texts(pairs):
        role = _ROLES.get(line[:1])
        yield "    " + (screen.paint(line, role) if role else safe(line))


def _beside(pairs: List[_sides.Pair], width: int, screen: Screen) -> Iterator[str]:
    """Two texts in two columns, with a mark between."""
    half = max(5, (width - 4 - 3) // 2)
    for pair in _sides.near(pairs):
        if isinstance(pair, int):
            yield f"    ... {some(pair, 'equal line')}"
            continue
        mark = _MARKS[pair.kind]
        left, right = (_fitting(one, half) for one in (pair.before, pair.now))
        line = f"{left} {mark} {right}".rstrip()
        yield "    " + (screen.paint(line, _ROLES[mark]) if mark in _ROLES else line)


def _fitting(line: Any, width: int) -> str:
    """A line in so many columns."""
    text = safe(_sides.text_of(line)) if line is not None else ""
    return (text if len(text) <= width else text[: width - 1] + "…").ljust(width)
