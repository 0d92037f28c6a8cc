"""Texts that are safe to show, and none of them too long."""

from __future__ import annotations

import re

# How long a text and a list of digits are shown.
MOST_TEXT = 120
MOST_DIGITS = 48

_ESCAPED = re.compile(r"(?:\\x[0-9a-f]{2})+")


def cut(text: str, most: int = MOST_TEXT) -> str:
    """A text that is safe to show: no longer than so many characters, with controls and lone surrogates as escapes.

    >>> cut("a\\u202eb\\udc80")
    'a\\\\u202eb\\\\udc80'
    >>> cut("x" * 200, 8)
    'xxxxxxxx… (200 characters)'
    """
    kept = text[:most]
    if not kept.isascii() or not kept.isprintable():
        kept = "".join(sign if sign.isprintable() else sign.encode("unicode_escape").decode() for sign in kept)
    return kept if len(text) <= most else f"{kept}… ({len(text):,} characters)"


def _read_back(match: "re.Match[str]") -> str:
    return bytes.fromhex(match.group().replace("\\x", "")).decode("utf-8", "surrogateescape")


def unescaped(printed: str) -> str:
    """A text as it was before the library printed it: `\\x` stands before the digits of a byte of UTF-8.

    >>> unescaped("caf\\\\xc3\\\\xa9")
    'café'
    """
    return _ESCAPED.sub(_read_back, printed)


def shown_blob(digits: str) -> str:
    """The digits of a blob, not too many."""
    return f"[{digits}]" if len(digits) <= MOST_DIGITS else f"[{digits[:MOST_DIGITS]}…] ({len(digits) // 2:,} bytes)"


def file_name(path: str) -> str:
    """The name of a file without its folders, of this system or another.

    >>> file_name("C:\\\\src\\\\Bank.cs"), file_name("/src/Bank.cs")
    ('Bank.cs', 'Bank.cs')
    """
    return re.split(r"[/\\]", path.rstrip("/\\"))[-1] or path


def some(count: int, one: str, several: str = "") -> str:
    """A number with its noun.

    >>> some(1, "method"), some(2_000, "method"), some(0, "body", "bodies")
    ('1 method', '2,000 methods', '0 bodies')
    """
    return f"{count:,} {one if count == 1 else several or one + 's'}"
