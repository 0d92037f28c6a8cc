"""What isn't there: exceptions that say what was, or what comes near."""

from __future__ import annotations

from difflib import get_close_matches
from typing import Iterable, List, Sequence, Tuple


class NotFound(LookupError):
    """What was asked for isn't there: a row, a name, a generation, a task. Its text says what there is.

    `near` has words that come near what was asked for, and may be asked for.

    >>> str(NotFound("there is no table Method", ["MethodDef", "MethodPtr"]))
    'there is no table Method: did you mean MethodDef or MethodPtr?'
    """

    __module__ = "enc"

    def __init__(self, words: str, near: Sequence[str] = ()) -> None:
        super().__init__(words, tuple(near))
        self.near: Tuple[str, ...] = tuple(near)

    def __str__(self) -> str:
        words: str = self.args[0]
        return f"{words}: did you mean {' or '.join(self.near)}?" if self.near else words


class NoRow(NotFound, KeyError):
    """There is no row of a token; also a KeyError, as of a dict whose keys are the tokens."""

    __module__ = "enc"


class NoColumn(NotFound, KeyError, IndexError):
    """A row has no column of a name or a number; also a KeyError and an IndexError."""

    __module__ = "enc"


class Ambiguous(LookupError):
    """Several rows have the name that was asked for: `found` are their tokens."""

    __module__ = "enc"

    def __init__(self, words: str, found: Sequence[int]) -> None:
        super().__init__(words, tuple(found))
        self.found = tuple(found)

    def __str__(self) -> str:
        words: str = self.args[0]
        return words


def near(word: str, known: Iterable[str]) -> List[str]:
    """The three of these words that come nearest to one, whatever the case of letters.

    >>> near("methoddeff", ["MethodDef", "Field"]), near("x", ["MethodDef"])
    (['MethodDef'], [])
    """
    lower = {one.lower(): one for one in known}
    return [lower[found] for found in get_close_matches(word.lower(), list(lower), 3, 0.7)]


def listed(words: Iterable[str]) -> str:
    """The first of words with commas between, and how many more there are."""
    shown = list(words)
    more = f" and {len(shown) - 8} more" if len(shown) > 8 else ""
    return ", ".join(shown[:8]) + more


def missing(words: str, word: str, known: Sequence[str], has: str) -> Tuple[str, List[str]]:
    """The text of what isn't there with what comes near it, or where nothing does with what there is.

    >>> missing("Field has no column Nme", "Nme", ["Flags", "Name"], "it has")
    ('Field has no column Nme', ['Name'])
    >>> missing("Field has no column X", "X", ["Flags", "Name"], "it has")
    ('Field has no column X: it has Flags, Name', [])
    """
    found = near(word, known)
    return (words if found or not known else f"{words}: {has} {listed(known)}"), found
