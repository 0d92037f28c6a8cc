"""Signatures decoded to trees (ECMA-335 II.23.2): what a later call of the library may answer.

The library has judged each signature that a row holds, so a blob that can't be decoded is a ValueError."""

from __future__ import annotations

from functools import lru_cache
from typing import Any, List, NamedTuple, Tuple

from .rows import Token

# The types that are one byte, as C# spells them.
SIMPLE = {
    0x01: "void", 0x02: "bool", 0x03: "char", 0x04: "sbyte", 0x05: "byte", 0x06: "short", 0x07: "ushort",
    0x08: "int", 0x09: "uint", 0x0A: "long", 0x0B: "ulong", 0x0C: "float", 0x0D: "double", 0x0E: "string",
    0x16: "TypedReference", 0x18: "nint", 0x19: "nuint", 0x1C: "object", 0x41: "...",
}  # fmt: skip
_AROUND = {0x0F: "pointer", 0x10: "byref", 0x1D: "vector", 0x45: "pinned"}
_CODED = (0x02, 0x01, 0x1B)


class Node(NamedTuple):
    """A type.

    `kind` is `simple` (`value` is its name), `token` (a Token), `var` or `mvar` (a number), `of` (the first part is a
    generic type, the others are its arguments), `pointer`, `byref`, `vector`, `pinned` (one part), `array` (one part;
    its rank and its bounds), `modified` (one part; whether it is required, and the token of the modifier), `function`
    (a Signature)."""

    kind: str
    value: Any
    parts: Tuple["Node", ...] = ()


class Signature(NamedTuple):
    """A signature of a method or a property: its first byte, how many type parameters it has, what it returns, and
    its parameters."""

    convention: int
    generics: int
    returns: Node
    parameters: List[Node]

    @property
    def has_this(self) -> bool:
        """Whether it is of an instance."""
        return bool(self.convention & 0x20)


class Reader:
    """A blob that is read from its beginning."""

    def __init__(self, blob: bytes) -> None:
        self._blob = blob
        self._at = 0

    def byte(self) -> int:
        """The next byte."""
        if self._at >= len(self._blob):
            raise ValueError("a signature ends too early")
        self._at += 1
        return self._blob[self._at - 1]

    def peek(self) -> int:
        """The next byte, which stays; -1 at the end."""
        return self._blob[self._at] if self._at < len(self._blob) else -1

    def number(self) -> int:
        """The next compressed number."""
        first = self.byte()
        if first < 0x80:
            return first
        more = 1 if first < 0xC0 else 3
        value = first & (0x3F if more == 1 else 0x1F)
        for _ in range(more):
            value = value << 8 | self.byte()
        return value

    def token(self) -> Token:
        """The next TypeDefOrRef."""
        coded = self.number()
        if coded & 3 == 3:
            raise ValueError("a token of a signature has a tag of no table")
        return Token(_CODED[coded & 3] << 24 | coded >> 2)

    def type(self) -> Node:
        """The next type."""
        kind = self.byte()
        if kind in SIMPLE:
            return Node("simple", SIMPLE[kind])
        if kind in _AROUND:
            return Node(_AROUND[kind], None, (self.type(),))
        if kind in (0x11, 0x12):
            return Node("token", self.token())
        if kind in (0x13, 0x1E):
            return Node("var" if kind == 0x13 else "mvar", self.number())
        if kind in (0x1F, 0x20):
            return Node("modified", (kind == 0x1F, self.token()), (self.type(),))
        return self._long(kind)

    def _long(self, kind: int) -> Node:
        if kind == 0x14:
            inner = self.type()
            rank = self.number()
            bounds = [[self.number() for _ in range(self.number())] for _ in range(2)]
            return Node("array", (rank, bounds), (inner,))
        if kind == 0x15:
            self.byte()
            generic = Node("token", self.token())
            return Node("of", None, (generic, *self.types(self.number())))
        if kind == 0x1B:
            return Node("function", self.signature())
        raise ValueError(f"a signature has a type {kind:02x}")

    def types(self, count: int) -> List[Node]:
        """The next so many types."""
        found = []
        for _ in range(count):
            if self.peek() == 0x41:
                self.byte()
            found.append(self.type())
        return found

    def signature(self) -> Signature:
        """The next signature of a method or a property."""
        convention = self.byte()
        generics = self.number() if convention & 0x10 else 0
        count = self.number()
        returns = self.type()
        return Signature(convention, generics, returns, self.types(count))


@lru_cache(1 << 16)
def signature(blob: bytes) -> Signature:
    """The signature of a method or a property.

    >>> found = signature(bytes.fromhex("20010108"))
    >>> found.has_this, found.returns.value, [one.value for one in found.parameters]
    (True, 'void', ['int'])
    """
    return Reader(blob).signature()


def is_field(blob: bytes) -> bool:
    """Whether it is the signature of a field."""
    return blob[:1] == b"\x06"


@lru_cache(1 << 16)
def field(blob: bytes) -> Node:
    """The type of a field."""
    reader = Reader(blob)
    reader.byte()
    return reader.type()


@lru_cache(1 << 16)
def type_spec(blob: bytes) -> Node:
    """The type of a TypeSpec."""
    return Reader(blob).type()


@lru_cache(1 << 16)
def several(blob: bytes) -> List[Node]:
    """The types of local variables, or the arguments of a MethodSpec: a byte, a count, types.

    >>> [one.value for one in several(bytes.fromhex("0702080e"))]
    ['int', 'string']
    """
    reader = Reader(blob)
    reader.byte()
    return reader.types(reader.number())
