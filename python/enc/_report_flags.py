"""Flags in the words of C# (ECMA-335 II.23.1)."""

from __future__ import annotations

from typing import List

_ACCESS = ("", "private", "private protected", "internal", "protected", "protected internal", "public")
_TYPE_ACCESS = (
    "internal", "public", "public", "private", "protected", "internal", "private protected", "protected internal",
)  # fmt: skip


def access(flags: int) -> str:
    """Who may use a method or a field.

    >>> access(0x86)
    'public'
    """
    return _ACCESS[flags & 7] if flags & 7 < len(_ACCESS) else ""


def _virtual(flags: int) -> List[str]:
    """How a virtual method is declared: one that is new and final only implements an interface."""
    if flags & 0x400:
        return ["abstract"] if flags & 0x100 else ["abstract", "override"]
    if flags & 0x100:
        return [] if flags & 0x20 else ["virtual"]
    return ["sealed", "override"] if flags & 0x20 else ["override"]


def method_words(flags: int) -> str:
    """What stands before a method's return type.

    >>> method_words(0x96), method_words(0x00C6), method_words(0x01E6)
    ('public static', 'public override', 'public')
    """
    words = [access(flags)]
    if flags & 0x10:
        words.append("static")
    elif flags & 0x40:
        words += _virtual(flags)
    if flags & 0x2000:
        words.append("extern")
    return " ".join(word for word in words if word)


def field_words(flags: int) -> str:
    """What stands before a field's type.

    >>> field_words(0x01), field_words(0x8056)
    ('private', 'public const')
    """
    if flags & 0x40:
        return f"{access(flags)} const".strip()
    words = [access(flags), "static" if flags & 0x10 else "", "readonly" if flags & 0x20 else ""]
    return " ".join(word for word in words if word)


def type_words(flags: int, base: str) -> str:
    """What stands before a type's name; `base` is the full name of the type that it extends.

    >>> type_words(0x100180, "System.Object"), type_words(0x101, "System.ValueType")
    ('internal static class', 'public struct')
    """
    words = [_TYPE_ACCESS[flags & 7]]
    kinds = {"System.ValueType": "struct", "System.Enum": "enum", "System.MulticastDelegate": "delegate"}
    if flags & 0x20:
        return " ".join([*words, "interface"])
    if base in kinds:
        return " ".join([*words, kinds[base]])
    if flags & 0x180 == 0x180:
        words.append("static")
    else:
        words += [word for bit, word in ((0x80, "abstract"), (0x100, "sealed")) if flags & bit]
    return " ".join([*words, "class"])
