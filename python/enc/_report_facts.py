"""The facts of a report: what each delta of a chain does, by name. The page and `--json` are both made of these.

All of it is what the library answers of rows, bodies and sequence points at a generation; which lines are equal is
computed here."""

from __future__ import annotations

from collections import Counter
from typing import Any, Callable, Dict, Iterator, List, NamedTuple, Optional, Set, Tuple

from . import _sides
from ._printed import Printed, printed
from ._report_names import Declared, Names, Spelled
from ._report_text import cut, file_name, shown_blob, unescaped
from ._sides import Counts, Line, Pair, Side
from ._sources import Sources
from .module import AtGeneration, Module
from .rows import Entry, Lengths, Token
from .tables import TABLES, Column

# How many rows are listed, and of how many deltas.
MOST_ROWS = 6000
MOST_GENERATIONS = 400
# How long a method's source may be that is compared, and of how many methods the bytes of code are shown.
MOST_SOURCE = 400
MOST_CODES = 3000

METHOD = 0x06
REFERENCES = ("TypeRef", "MemberRef", "TypeSpec", "MethodSpec", "StandAloneSig", "AssemblyRef", "ModuleRef")
_QUIET = (*REFERENCES, "Module", "Param", "EventMap", "PropertyMap", "NestedClass", "MethodSemantics")
KINDS = {
    "TypeDef": "type", "InterfaceImpl": "interface", "CustomAttribute": "attribute", "GenericParam": "type parameter",
    "GenericParamConstraint": "constraint", "Param": "parameter", "ClassLayout": "layout", "ImplMap": "import",
}  # fmt: skip


class Cell(NamedTuple):
    """A column of a row as it is printed, and as it was where that differs; its token where it has one."""

    name: str
    now: str
    token: str
    before: str = ""
    before_token: str = ""


class Item(NamedTuple):
    """A row that a generation inserts or updates: its token, what it is called, its columns."""

    token: Token
    inserted: bool
    name: str
    cells: List[Cell]


class Span(NamedTuple):
    """Lines of a document: its name, the first and the last."""

    document: str
    first: int
    last: int


class Source(NamedTuple):
    """A method's source before and after: lines side by side."""

    document: str
    pairs: List[Pair]
    counts: Counts


class Change(NamedTuple):
    """A method that a generation inserts or updates: its declaration, its body's lines and its source side by side,
    its code before and after, its lines, the columns that differ, the other generations that change it.

    `state` is `added`, `changed`, `moved` (the same code at other lines), `same` (emitted anew, with the same code)
    or `none` (it has no body)."""

    generation: int
    item: Item
    declared: Declared
    state: str
    pairs: List[Pair]
    counts: Counts
    codes: Tuple[bytes, bytes]
    spans: Tuple[Optional[Span], Optional[Span]]
    source: Optional[Source]
    shown_lines: Dict[int, Dict[str, str]]
    others: List[int]
    cut: int


class Other(NamedTuple):
    """A type, a field or another row that isn't a reference: what it is, its declaration before and after."""

    generation: int
    token: Token
    kind: str
    inserted: bool
    declared: Declared
    before: Optional[Declared]
    notes: List[str]


class Head(NamedTuple):
    """A generation: its number, the name of its file, its EncId, how many rows it inserts and updates, its heaps."""

    number: int
    path: str
    enc_id: str
    inserted: int
    updated: int
    lengths: Lengths


class Group(NamedTuple):
    """The rows of a table in a generation: how many there are, how many are new, those that are listed."""

    table: str
    total: int
    inserted: int
    items: List[Item]


class Facts(NamedTuple):
    """What is known of a chain: its heads, its methods, other members, rows by generation, and the newest generation of
    each listed row; how many methods are changed, added and emitted anew with the same code; how many deltas and
    changes of methods aren't listed; and for tokens those that stood for the same before."""

    heads: Dict[int, Head]
    changes: List[Change]
    others: List[Other]
    groups: Dict[int, List[Group]]
    newest: Dict[int, int]
    changed: int
    added: int
    same: int
    unlisted: int
    missing: int
    twins: Dict[str, str]


def first_lines(text: str) -> str:
    """The line of a printed row's columns, and that of its owner."""
    first, _, rest = text.partition("\n")
    owner = rest.partition("\n")[0]
    return f"{first}\n{owner}" if owner.startswith("  owner ") else first


def shown_cell(column: Column, cell: str) -> str:
    """A printed cell, not too long: blobs by their digits, texts by their characters."""
    if cell.startswith("["):
        return shown_blob(cell[1:-1])
    return cut(unescaped(cell), 160) if cell.startswith('"') else cell


def cells_of(token: Token, now: Printed, before: Optional[Printed]) -> List[Cell]:
    """The columns of a row, beside those before where it was there."""
    found = []
    for column in TABLES[token >> 24].columns:
        cell = now.cells.get(column.name)
        if cell is None:
            continue
        is_token = column.kind in ("index", "coded")
        old = before.cells.get(column.name, cell) if before else cell
        made = Cell(column.name, shown_cell(column, cell), cell if is_token else "")
        if old != cell:
            made = made._replace(before=shown_cell(column, old), before_token=old if is_token else "")
        found.append(made)
    if now.owner:
        found.append(Cell("owner", str(Token(now.owner)), str(Token(now.owner))))
    return found


def _fair(entries: List[Entry], share: int) -> List[Entry]:
    """So many entries at most: as many of each table, in their order."""
    if len(entries) <= share:
        return entries
    left = Counter(entry.token >> 24 for entry in entries)
    room: Dict[int, int] = {}
    for i, (table, count) in enumerate(sorted(left.items(), key=lambda pair: pair[1])):
        room[table] = min(count, share // (len(left) - i))
        share -= room[table]
    found = []
    for entry in entries:
        if room[entry.token >> 24]:
            room[entry.token >> 24] -= 1
            found.append(entry)
    return found


def moved_points(pairs: List[Pair]) -> bool:
    """Whether sequence points of equal lines differ."""
    equal = [(pair.before, pair.now) for pair in pairs if pair.kind in ("same", "alike")]
    return any(before.points != now.points for before, now in equal)


def span_of(side: Side, shown: Callable[[str], str]) -> Optional[Span]:
    """The lines of a body in the document of its first sequence point."""
    points = list(side.points())
    if not points:
        return None
    own = [point for point in points if point.document == points[0].document]
    name = cut(shown(unescaped(own[0].document)))
    return Span(name, min(point.start[0] for point in own), max(point.end[0] for point in own))


class Gathering:
    """The facts while they are asked for."""

    def __init__(self, module: Module, paths: List[str], sources: Sources, shown: Callable[[str], str]) -> None:
        self.module = module
        self.names = Names(module)
        self._paths = paths
        self._sources = sources
        self._shown = shown
        self._listed: Dict[int, List[Entry]] = {}
        self._newest: Dict[int, int] = {}
        self._where: Dict[int, List[int]] = {}
        self._entries: Dict[int, List[Entry]] = {}
        self._twins: Dict[str, str] = {}
        self._views: Dict[int, AtGeneration] = {}
        self._lines: Dict[Tuple[str, str], Line] = {}
        self._many = False

    def facts(self) -> Facts:
        """All of them."""
        heads = self._list()
        self._many = sum(1 for _ in self._of_methods()) > MOST_CODES
        changes = [self._change(number, entry) for number, entry in self._of_methods()]
        groups = {number: self._groups(number) for number in self._listed}
        others = list(self._others(groups))
        updated, added = self._methods()
        states: Dict[int, Set[str]] = {}
        for change in changes:
            states.setdefault(change.item.token, set()).add(change.state)
        same = {token for token, found in states.items() if found <= {"same", "moved"} and token not in added}
        unlisted = self.module.generation - len(self._listed)
        counts = (len(updated - added - same), len(added), len(same), unlisted)
        every = sum(1 for entries in self._entries.values() for entry in entries if entry.token >> 24 == METHOD)
        return Facts(heads, changes, others, groups, self._newest, *counts, every - len(changes), self._twins)

    # What is listed.

    def _list(self) -> Dict[int, Head]:
        """Asks for the generations, and decides which rows are listed: each generation has its share."""
        left, last = MOST_ROWS, self.module.generation
        heads = {0: self._head(0, [])}
        for number in range(max(1, last - MOST_GENERATIONS + 1), last + 1):
            entries = self._entries[number] = self.module.entries(number)
            heads[number] = self._head(number, entries)
            self._listed[number] = _fair(entries, left // (last - number + 1))
            left -= len(self._listed[number])
            for entry in self._listed[number]:
                self._newest[entry.token] = number
                self._where.setdefault(entry.token, []).append(number)
        return heads

    def _head(self, number: int, entries: List[Entry]) -> Head:
        inserted = sum(1 for entry in entries if entry.inserted) if number else rows_of_the_base(self.module)
        enc_id = str(self.module.enc_id(number)) if number else ""
        updated = len(entries) - inserted if number else 0
        return Head(number, self._shown(self._paths[number]), enc_id, inserted, updated, self.module.lengths(number))

    def _of_methods(self) -> Iterator[Tuple[int, Entry]]:
        for number, entries in self._listed.items():
            yield from ((number, entry) for entry in entries if entry.token >> 24 == METHOD)

    def _methods(self) -> Tuple[Set[int], Set[int]]:
        """The methods that are updated, and those that are new."""
        of_methods = [entry for entries in self._entries.values() for entry in entries if entry.token >> 24 == METHOD]
        added = {int(entry.token) for entry in of_methods if entry.inserted}
        return {int(entry.token) for entry in of_methods if not entry.inserted}, added

    # Rows.

    def _at(self, number: int) -> AtGeneration:
        """The module as it was at a generation."""
        if number not in self._views:
            self._views[number] = self.module.at(number)
        return self._views[number]

    def _texts(self, number: int, entry: Entry) -> Tuple[str, str]:
        """A row as it is printed before a generation (nothing where it wasn't there), and at it."""
        now = self._at(number).text(entry.token)
        return "" if entry.inserted else self._at(number - 1).text(entry.token), now

    def _item(self, entry: Entry, texts: Tuple[str, str]) -> Item:
        before = printed(first_lines(texts[0])) if texts[0] else None
        cells = cells_of(entry.token, printed(first_lines(texts[1])), before)
        return Item(entry.token, entry.inserted, self.names.of(entry.token).full, cells)

    def _groups(self, number: int) -> List[Group]:
        counts = Counter(entry.token >> 24 for entry in self._entries[number])
        inserted = Counter(entry.token >> 24 for entry in self._entries[number] if entry.inserted)
        found: Dict[int, List[Item]] = {table: [] for table in sorted(counts) if table != METHOD}
        for entry in self._listed[number]:
            if entry.token >> 24 != METHOD:
                found[entry.token >> 24].append(self._item(entry, self._texts(number, entry)))
        return [Group(TABLES[table].name, counts[table], inserted[table], items) for table, items in found.items()]

    def _others(self, groups: Dict[int, List[Group]]) -> Iterator[Other]:
        """What isn't a method or a reference, and has changed."""
        for number, made in groups.items():
            for group in made:
                for item in group.items:
                    is_shown = group.table not in _QUIET or (group.table == "Param" and not item.inserted)
                    if is_shown and self._differs(item):
                        yield self._other(number, group.table, item)

    def _differs(self, item: Item) -> bool:
        """Whether a row is new, or a column of it means something else. The library accepts another signature only
        where it is alike, and so means the same."""
        if item.inserted:
            return True
        cells = [cell for cell in item.cells if cell.before and cell.name not in ("Signature", "Type", "Instantiation")]
        return any(not cell.token or not self._same(cell.before_token, cell.token) for cell in cells)

    def _same(self, before: str, now: str) -> bool:
        """Whether two tokens mean the same."""
        return self.names.of(Token(before)).exact == self.names.of(Token(now)).exact

    def _other(self, number: int, table: str, item: Item) -> Other:
        kind = KINDS.get(table, table.lower())
        now = self.names.declared(item.token)
        before, notes = None, []
        for cell in item.cells:
            if cell.before and cell.name == "Flags":
                flags = {"Flags": cell.before}, {"Flags": cell.now}
                before, now = (self.names.declared(item.token, of) for of in flags)
            if cell.before and (cell.name != "Flags" or before == now):
                was, is_now = self._said(cell.before, cell.before_token), self._said(cell.now, cell.token)
                notes.append(f"{cell.name} {was} → {is_now}")
        return Other(number, item.token, kind, item.inserted, now, before if before != now else None, notes)

    def _said(self, text: str, token: str) -> str:
        return (self.names.of(Token(token)).full if token else "") or text

    # Methods.

    def _meanings(self, method: Token) -> _sides.Meanings:
        """What tokens mean in a method's body."""

        def of(token: int) -> Spelled:
            return self.names.within(method, self.names.of(token))

        def types(token: int) -> List[Spelled]:
            return [self.names.within(method, one) for one in self.names.locals(token)]

        return _sides.Meanings(of, types, self._lines)

    def _change(self, number: int, entry: Entry) -> Change:
        texts = self._texts(number, entry)
        meanings = self._meanings(entry.token)
        before, now = (_sides.side_of(text, meanings) for text in texts)
        pairs = _sides.pairs_of(before.lines, now.lines)
        counts = _sides.counts_of(pairs)
        item = self._item(entry, texts)
        declared = self.names.declared(entry.token, printed(first_lines(texts[1])).cells)
        dates = tuple(generation_of(text) for text in texts)
        newest = self._newest[entry.token] == number
        state = _state(item, pairs, self._differs(item))
        spans = (span_of(before, self._shown), span_of(now, self._shown))
        self._remember_twins(pairs)
        return Change(
            number, item, declared, state, pairs, counts, self._codes(number, entry), spans,
            self._source((before, now), dates, newest), self._shown_lines((before, now), dates, newest),
            [other for other in self._where[entry.token] if other != number], before.cut + now.cut,
        )  # fmt: skip

    def _remember_twins(self, pairs: List[Pair]) -> None:
        """Which tokens stand for what another one did before."""
        for pair in pairs:
            if pair.kind == "alike" and pair.now.token and pair.now.token != pair.before.token:
                self._twins.setdefault(pair.now.token, pair.before.token)

    def _codes(self, number: int, entry: Entry) -> Tuple[bytes, bytes]:
        """The code before a generation and at it; nothing where there are too many methods."""
        found: List[bytes] = []
        if self._many:
            return b"", b""
        for at in (number - 1, number):
            try:
                found.append(b"" if entry.inserted and at < number else self._at(at).body(entry.token).code)
            except LookupError:
                found.append(b"")
        return found[0], found[1]

    def _line(self, document: str, number: int, date: int, newest: bool) -> Optional[str]:
        return self._sources.line(document, number, date, newest)

    def _shown_lines(self, sides: Tuple[Side, Side], dates: Any, newest: bool) -> Dict[int, Dict[str, str]]:
        """The lines of source at which instructions begin, of each side (0 is before), by document and number."""
        found: Dict[int, Dict[str, str]] = {0: {}, 1: {}}
        for i, side in enumerate(sides):
            for point in side.points():
                text = self._line(point.document, point.start[0], dates[i], bool(i) and newest)
                if text is not None:
                    found[i][f"{point.document}:{point.start[0]}"] = cut(text.strip())
        return found

    def _source(self, sides: Tuple[Side, Side], dates: Any, newest: bool) -> Optional[Source]:
        """A method's lines of source before and after; None where they aren't at hand on each side."""
        texts: List[List[Line]] = []
        for i, side in enumerate(sides):
            span = span_of(side, str)
            if span is None:
                if side.lines:
                    return None
                texts.append([])
                continue
            document = next(side.points()).document
            numbers = range(span.first, min(span.last, span.first + MOST_SOURCE) + 1)
            lines = [self._line(document, number, dates[i], bool(i) and newest) for number in numbers]
            if any(line is None for line in lines):
                return None
            texts.append([_source_line(number, line or "") for number, line in zip(numbers, lines)])
        span = span_of(sides[1], self._shown)
        if span is None:
            return None
        pairs = _sides.pairs_of(*texts)
        return Source(span.document, pairs, _sides.counts_of(pairs))


def _source_line(number: int, text: str) -> Line:
    return Line(str(number), "", cut(text.rstrip().expandtabs(4), 300), "", "", (), text.rstrip(), [])


def _state(item: Item, pairs: List[Pair], differs: bool) -> str:
    """What has happened to a method."""
    if item.inserted:
        return "added"
    if not pairs:
        return "none"
    if differs or any(pair.kind not in ("same", "alike") for pair in pairs):
        return "changed"
    return "moved" if moved_points(pairs) else "same"


def rows_of_the_base(module: Module) -> int:
    """How many rows the base has."""
    return sum(module.at(0).count(of.number) for of in TABLES)


def generation_of(text: str) -> int:
    """The generation in which a printed row stands."""
    return printed(first_lines(text)).place[0] if text else 0


def shown_path(with_folders: bool) -> Callable[[str], str]:
    """How the path of a file is shown."""
    return (lambda path: path) if with_folders else file_name


def gathered(module: Module, paths: List[str], sources: Sources, with_folders: bool) -> Tuple[Facts, Names]:
    """The facts of a module that has taken deltas, and its names; `paths` are those of the base and the deltas. Names
    of files are shown without their folders unless they are asked for."""
    gathering = Gathering(module, paths, sources, shown_path(with_folders))
    return gathering.facts(), gathering.names
