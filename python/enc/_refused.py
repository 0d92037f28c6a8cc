"""Refusals: what breaks a rule, by which, where."""

from __future__ import annotations

from typing import List, Optional, Tuple

from .rules import EDITS, RULES


def _of_edits(code: str, place: str) -> str:
    found = [(shown, words) for known, shown, words in EDITS if known == code]
    exact = [words for shown, words in found if shown == f"`{place}`"]
    return (exact or [words for shown, words in found if shown == "edit"] or [""])[0]


def rule_words(code: str, place: str, act: str = "") -> str:
    """When a file is refused by this code at this place, in the words of docs/rules.md; none for a code of no rule.

    `act` is `merge` or `write` where that is what was refused.

    >>> rule_words("E2", "00000001")
    "its Generation isn't the next"
    >>> rule_words("F5", "1d000001")
    "an RVA, and no bytes of the field's size in a section there, or no known size"
    >>> rule_words("E6", "2", "write")
    'an edit before it is about the same row'
    """
    if act == "write":
        return _of_edits(code, place)
    found: List[Tuple[str, str]] = [(shown, words) for known, shown, words in RULES if known == code]
    exact = [words for shown, words in found if f"`{place}`" in shown]
    if exact:
        return exact[-1 if act == "merge" else 0]
    fitting = [words for shown, words in found if "`" not in shown and ("owner" in shown) == place.endswith(".owner")]
    return (fitting or [words for _, words in found] or [""])[0]


class Refused(Exception):
    """A file, an edit list or what would be saved breaks a rule.

    `code` is the rule (`E16`), `place` where it is broken (`06000001`), `rule` what the rule says, `file` the path
    of the refused file where it has one."""

    def __init__(self, code: str, place: str, rule: str = "", file: Optional[str] = None) -> None:
        super().__init__(code, place, rule, file)
        self.code = code
        self.place = place
        self.rule = rule
        self.file = file

    def __str__(self) -> str:
        head = f"{self.code} {self.place}".strip()
        return f"{head}: {self.rule}" if self.rule else head


class RemapRefused(Refused):
    """A frame may not go on in the newest body, by one of the rules Q1 to Q7 of docs/scripts.md."""
