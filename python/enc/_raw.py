"""A delta's metadata as its file has it: its rows, its EncLog, its heaps (ECMA-335 II.24.2).

`enc dump` shows it of a delta that is refused, which the library doesn't keep, and the EncLog of any delta; `prepare`
asks the methods of a base before the library has it. It is the one reader of metadata in this package; nothing of it
is proved. What can't be read is a ValueError."""

from __future__ import annotations

import struct
from typing import Dict, Iterator, List, NamedTuple, Optional, Tuple

from .rows import Token
from .tables import TABLES, Column, Table, table

_ATTRIBUTED = (
    "MethodDef Field TypeRef TypeDef Param InterfaceImpl MemberRef Module DeclSecurity Property Event StandAloneSig "
    "ModuleRef TypeSpec Assembly AssemblyRef File ExportedType ManifestResource GenericParam GenericParamConstraint "
    "MethodSpec"
)

# The tables of each coding by tag, `-` for a tag of no table (ECMA-335 II.24.2.6).
CODINGS: Dict[str, List[str]] = {
    "TypeDefOrRef": "TypeDef TypeRef TypeSpec".split(),
    "HasConstant": "Field Param Property".split(),
    "HasCustomAttribute": _ATTRIBUTED.split(),
    "HasFieldMarshal": "Field Param".split(),
    "HasDeclSecurity": "TypeDef MethodDef Assembly".split(),
    "MemberRefParent": "TypeDef TypeRef ModuleRef MethodDef TypeSpec".split(),
    "HasSemantics": "Event Property".split(),
    "MethodDefOrRef": "MethodDef MemberRef".split(),
    "MemberForwarded": "Field MethodDef".split(),
    "Implementation": "File AssemblyRef ExportedType".split(),
    "CustomAttributeType": "- - MethodDef MemberRef".split(),
    "ResolutionScope": "Module ModuleRef AssemblyRef TypeRef".split(),
    "TypeOrMethodDef": "TypeDef MethodDef".split(),
}
_BITS = {"HasCustomAttribute": 5, "CustomAttributeType": 3}
_HEAPS = {"text": (1, "#Strings"), "guid": (2, "#GUID"), "blob": (4, "#Blob")}
_WIDTHS = {"num8": 2, "num16": 2, "num32": 4, "body": 4, "bytes": 4}

FUNCTIONS = ("Default", "AddMethod", "AddField", "AddParameter", "AddProperty", "AddEvent")


class Raw(NamedTuple):
    """The streams of a root by their names, and the cells of each table's rows, as numbers."""

    streams: Dict[str, bytes]
    rows: Dict[int, List[Tuple[int, ...]]]

    def log(self) -> List[Tuple[Token, int]]:
        """EncLog: tokens and what is done."""
        return [(Token(cells[0]), cells[1]) for cells in self.rows.get(table("EncLog").number, [])]

    def map(self) -> List[Token]:
        """EncMap."""
        return [Token(cells[0]) for cells in self.rows.get(table("EncMap").number, [])]


def _bits(coding: str) -> int:
    return _BITS.get(coding, max(1, (len(CODINGS[coding]) - 1).bit_length()))


def _width(column: Column, counts: Dict[str, int], wide: bool, flags: int) -> int:
    """The bytes that a column takes in its row."""
    if column.kind in _WIDTHS:
        return _WIDTHS[column.kind]
    if column.kind in _HEAPS:
        return 4 if flags & _HEAPS[column.kind][0] else 2
    if column.kind != "coded":
        return 4 if wide or counts.get(column.table, 0) >= 1 << 16 else 2
    most = max(counts.get(name, 0) for name in CODINGS[column.table])
    return 4 if wide or most >= 1 << (16 - _bits(column.table)) else 2


def _places(metadata: bytes) -> Dict[str, Tuple[int, int]]:
    """Where the streams of a root begin, and their sizes. Of two with one name the first counts."""
    if metadata[:4] != b"BSJB":
        raise ValueError("it doesn't begin with BSJB")
    (length,) = struct.unpack_from("<I", metadata, 12)
    at = 16 + length
    (count,) = struct.unpack_from("<H", metadata, at + 2)
    at += 4
    places: Dict[str, Tuple[int, int]] = {}
    for _ in range(count):
        start, size = struct.unpack_from("<II", metadata, at)
        end = metadata.find(b"\0", at + 8)
        if end < 0:
            raise ValueError("the name of a stream has no end")
        places.setdefault(metadata[at + 8 : end].decode("latin-1"), (start, size))
        at += 8 + ((end - at - 8) // 4 + 1) * 4
    return places


def _streams(metadata: bytes) -> Dict[str, bytes]:
    """The streams of a root."""
    return {name: metadata[start : start + size] for name, (start, size) in _places(metadata).items()}


def streams_in(image: bytes) -> Dict[str, bytes]:
    """The streams of the first root in an image whose headers stand whole; none where there is no such root."""
    at = image.find(b"BSJB")
    while at >= 0:
        try:
            return _streams(image[at:])
        except (struct.error, ValueError):
            at = image.find(b"BSJB", at + 1)
    return {}


def _rows(stream: bytes, of: Table, count: int, at: int, widths: List[int]) -> Iterator[Tuple[int, ...]]:
    """The rows of a table that begin at an offset of its stream."""
    if at + count * sum(widths) > len(stream):
        raise ValueError(f"the rows of {of.name} pass the end of its stream")
    for _ in range(count):
        cells = []
        for width in widths:
            cells.append(int.from_bytes(stream[at : at + width], "little"))
            at += width
        yield tuple(cells)


class _Heads(NamedTuple):
    """What the table stream begins with: its bytes, the flags of its heaps, the rows of each table that is there,
    and whether indices are always wide."""

    stream: bytes
    flags: int
    counts: Dict[int, int]
    wide: bool

    def first(self) -> int:
        """Where the rows begin."""
        return 24 + 4 * len(self.counts) + (4 if self.flags & 0x40 else 0)

    def widths(self, number: int) -> List[int]:
        """The bytes of each column of a table."""
        if number >= len(TABLES):
            raise ValueError(f"there is a table {number:02x}")
        names = {TABLES[number].name: count for number, count in self.counts.items() if number < len(TABLES)}
        return [_width(column, names, self.wide, self.flags) for column in TABLES[number].columns]


def _heads(metadata: bytes) -> _Heads:
    """What the table stream of a root begins with."""
    try:
        places = _places(metadata)
        start, size = places.get("#-", places.get("#~", (0, 0)))
        stream = metadata[start : start + size]
        valid = struct.unpack_from("<Q", stream, 8)[0]
        present = [number for number in range(64) if valid >> number & 1]
        counts = dict(zip(present, struct.unpack_from(f"<{len(present)}I", stream, 24)))
    except struct.error:
        raise ValueError("its headers don't stand whole in it") from None
    return _Heads(stream, stream[6], counts, "#JTD" in places)


def raw(metadata: bytes) -> Raw:
    """What stands in bare metadata."""
    heads = _heads(metadata)
    at = heads.first()
    rows: Dict[int, List[Tuple[int, ...]]] = {}
    for number, count in heads.counts.items():
        widths = heads.widths(number)
        rows[number] = list(_rows(heads.stream, TABLES[number], count, at, widths))
        at += count * sum(widths)
    return Raw(_streams(metadata), rows)


def rows_of(metadata: bytes, which: str) -> Iterator[Tuple[int, ...]]:
    """The cells of the rows of one table in bare metadata, one row after the other."""
    heads, wanted = _heads(metadata), table(which)
    at = heads.first()
    for number, count in heads.counts.items():
        if number < wanted.number:
            at += count * sum(heads.widths(number))
    return _rows(heads.stream, wanted, heads.counts.get(wanted.number, 0), at, heads.widths(wanted.number))


def decoded(column: Column, number: int) -> Optional[Token]:
    """The token that an index stands for; None of a column of another kind, or a tag of no table."""
    if column.kind == "index":
        return Token(table(column.table).number << 24 | number & 0xFFFFFF) if number else Token(0)
    if column.kind != "coded":
        return None
    bits, names = _bits(column.table), CODINGS[column.table]
    tag, row = number & ((1 << bits) - 1), number >> bits
    if not row:
        return Token(0)
    if tag >= len(names) or names[tag] == "-" or row >= 1 << 24:
        return None
    return Token(table(names[tag]).number << 24 | row)


def entry_length(heap: bytes, at: int) -> Tuple[int, int]:
    """Where the entry of `#US` or `#Blob` at an offset begins, behind its length, and where it ends."""
    first = heap[at]
    if first < 0x80:
        return at + 1, at + 1 + first
    if first < 0xC0:
        return at + 2, at + 2 + ((first & 0x3F) << 8 | heap[at + 1])
    return at + 4, at + 4 + (int.from_bytes(heap[at : at + 4], "big") & 0x1FFFFFFF)


def entries(name: str, heap: bytes) -> Iterator[Tuple[int, bytes]]:
    """The entries of a heap from its beginning: offset (number of `#GUID`) and bytes. It ends where none stands
    whole."""
    if name == "#GUID":
        yield from ((i + 1, heap[16 * i : 16 * i + 16]) for i in range(len(heap) // 16))
        return
    at = 0
    while at < len(heap):
        try:
            start, end = (at, heap.index(b"\0", at)) if name == "#Strings" else entry_length(heap, at)
        except (IndexError, ValueError):
            return
        if end > len(heap):
            return
        yield at, heap[start:end]
        at = end + 1 if name == "#Strings" else end
