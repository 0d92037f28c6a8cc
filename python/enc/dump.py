"""`python3 -m enc dump`: the rows of a module after deltas, or of one generation, in tables; and of a delta that is
refused what its file has."""

from __future__ import annotations

import uuid
from typing import Callable, Dict, Iterator, List, NamedTuple, Optional

from . import _files, _printed, _raw
from ._refused import Refused
from .module import Module
from .rows import Token
from .tables import TABLES, Column, Table, table

_LOG, _MAP = table("EncLog").number, table("EncMap").number


class Wanted(NamedTuple):
    """What is asked for: a generation, a table, neither or both."""

    generation: Optional[int]
    table: Optional[int]

    def has(self, number: int) -> bool:
        """Whether rows of this table are asked for."""
        return self.table is None or self.table == number


class Failed(NamedTuple):
    """A delta that is refused: its files' path, its metadata, the refusal."""

    path: str
    metadata: bytes
    refused: Refused


class Chain(NamedTuple):
    """A module with the deltas that it took, the base's image and their metadata, and the first that is refused."""

    module: Module
    files: List[bytes]
    failed: Optional[Failed]

    def streams(self, generation: int) -> Dict[str, bytes]:
        """The streams in a generation's own file."""
        return _raw.streams_in(self.files[generation])


def load(base: str, deltas: List[str], last: Optional[int]) -> Chain:
    """Opens a base and adds deltas, so many at most, up to the first that is refused."""
    module = Module(base)
    taken = [_files.read(_files.base_path(base))]
    for path in deltas[:last]:
        files = _files.delta_files(path, None, None)
        try:
            module.apply(files.first, files.second, files.pdb)
        except Refused as refused:
            named = Refused(refused.code, refused.place, refused.rule, files.refused_file(refused.code))
            return Chain(module, taken, Failed(path, files.first, named))
        taken.append(files.first)
    return Chain(module, taken, None)


def _safe_name(module: Module, token: Token) -> str:
    """The name of a token, nothing where it has none."""
    if not token.row or token not in module:
        return ""
    name = module.name(token)
    return "" if name == str(token) else name


class Names:
    """Names of tokens, looked up once."""

    def __init__(self, module: Module) -> None:
        self._module = module
        self._known: Dict[Token, str] = {}

    def of(self, token: Token) -> str:
        """The name of a token; nothing where it has none."""
        if token not in self._known:
            self._known[token] = _safe_name(self._module, token)
        return self._known[token]

    def beside(self, token: Token) -> str:
        """A token, and its name behind it where it has one."""
        name = self.of(token)
        return f"{token} ({name})" if name else str(token)


def _cells(of: Table, row: _printed.Printed, names: Names) -> Iterator[str]:
    """The columns of a printed row, with names beside tokens."""
    for column in of.columns:
        cell = row.cells.get(column.name)
        if cell is None:
            continue
        is_token = column.kind in ("index", "coded")
        yield f"{column.name}={names.beside(Token(cell)) if is_token else cell}"


def row_line(module: Module, token: Token, names: Names) -> str:
    """A row: its token, its place, its columns, its owner."""
    row = _printed.printed(module.text(token))
    parts = [str(token), f"@{row.place[0]}.{row.place[1]}", *_cells(table(token >> 24), row, names)]
    if row.owner:
        parts.append(f"owner={names.beside(Token(row.owner))}")
    return " ".join(parts)


def heading(of: Table, count: int) -> str:
    """The heading of a table."""
    return f"{of.number:02x} {of.name}: {count} row{'' if count == 1 else 's'}"


def table_lines(module: Module, number: int, names: Names) -> Iterator[str]:
    """A table of the module: its heading, and a line for each row."""
    yield heading(TABLES[number], module.count(number))
    for token in module.tokens(number):
        yield "  " + row_line(module, token, names)


def heaps_line(module: Module, generation: int) -> str:
    """How long a generation's own heaps are."""
    found = module.lengths(generation)
    return f"#Strings {found.strings}, #US {found.users}, #Blob {found.blobs}, #GUID {found.guids}"


def generation_line(chain: Chain, generation: int) -> str:
    """A generation: its EncId, its heaps, and of a delta how many rows it inserts and updates."""
    module = chain.module
    if not generation:
        return f"generation 0, the base: {heaps_line(module, 0)}"
    entries = module.entries(generation)
    inserted = sum(1 for entry in entries if entry.inserted)
    counts = f"{inserted} inserted, {len(entries) - inserted} updated"
    return f"generation {generation} {module.enc_id(generation)}: {heaps_line(module, generation)}; {counts}"


def all_tables(module: Module, wanted: Wanted, names: Names) -> Iterator[str]:
    """The tables of the module that have rows, or the one that is wanted."""
    for number in range(len(TABLES)):
        if wanted.table == number or (wanted.table is None and module.count(number)):
            if number not in (_LOG, _MAP):
                yield from table_lines(module, number, names)


def own_lines(chain: Chain, generation: int, wanted: Wanted, names: Names) -> Iterator[str]:
    """What a generation's own file has beside rows: of a delta EncLog and EncMap, and the heaps."""
    about = f"generation {generation}"
    if generation:
        yield from log_lines(about, chain.files[generation], wanted, names)
    if wanted.table is None:
        yield from heap_lines(about, chain.streams(generation), before(chain.module, generation))


def whole(chain: Chain, wanted: Wanted) -> Iterator[str]:
    """The module after all deltas: its generations, its tables, and what each generation's file has beside rows."""
    module, names = chain.module, Names(chain.module)
    for generation in range(module.generations):
        yield generation_line(chain, generation)
    yield from all_tables(module, wanted, names)
    for generation in range(module.generations):
        yield from own_lines(chain, generation, wanted, names)


def one(chain: Chain, wanted: Wanted, generation: int) -> Iterator[str]:
    """A generation, the newest of the module: the rows that it inserts and updates in the order of its EncMap, its
    EncLog and its heaps; of the base all rows."""
    module, names = chain.module, Names(chain.module)
    yield generation_line(chain, generation)
    if not generation:
        yield from all_tables(module, wanted, names)
    entries = [entry for entry in module.entries(generation) if wanted.has(entry.token >> 24)]
    if generation and (entries or wanted.table not in (_LOG, _MAP)):
        yield f"rows: {len(entries)}"
    for entry in entries:
        mark = "insert" if entry.inserted else "update"
        yield f"  {mark} {entry.token.table} {row_line(module, entry.token, names)}"
    yield from own_lines(chain, generation, wanted, names)


def log_lines(about: str, metadata: bytes, wanted: Wanted, names: Names) -> Iterator[str]:
    """EncLog and EncMap of a delta, from its file."""
    try:
        found = _raw.raw(metadata)
    except ValueError as error:
        yield f"EncLog of {about} can't be read: {error}"
        return
    if wanted.has(_LOG):
        yield f"{heading(TABLES[_LOG], len(found.log()))} in {about}"
        for i, (token, function) in enumerate(found.log(), 1):
            yield f"  log {i} {token.table} {names.beside(token)} {function_name(function)}"
    if wanted.has(_MAP):
        yield f"{heading(TABLES[_MAP], len(found.map()))} in {about}"
        for i, token in enumerate(found.map(), 1):
            yield f"  map {i} {token.table} {names.beside(token)}"


def function_name(function: int) -> str:
    """What an entry of EncLog does."""
    known = function < len(_raw.FUNCTIONS)
    return f"{function} {_raw.FUNCTIONS[function]}" if known else f"{function} (no such code)"


def before(module: Module, generation: int) -> Dict[str, int]:
    """Where the heaps of a generation begin in the joined ones; of `#GUID` how many entries those before it have, which
    its own heap repeats or has as zeros."""
    lengths = [module.lengths(earlier) for earlier in range(generation)]
    return {
        "#Strings": sum(length.strings for length in lengths),
        "#US": sum(length.users for length in lengths),
        "#Blob": sum(length.blobs for length in lengths),
        "#GUID": max((length.guids for length in lengths), default=0),
    }


def quoted(part: bytes) -> str:
    """A text as `enc show` quotes it."""
    kept = (chr(byte) if 0x20 <= byte < 0x7F and byte not in b'"\\' else f"\\x{byte:02x}" for byte in part)
    return '"' + "".join(kept) + '"'


def entry_text(heap: str, part: bytes) -> str:
    """An entry of a heap."""
    if heap == "#Strings":
        return quoted(part)
    if heap == "#US":
        return quoted(part[: len(part) & ~1].decode("utf-16-le", "replace").encode("utf-8"))
    return str(uuid.UUID(bytes_le=part)) if heap == "#GUID" else f"[{part.hex()}]"


# Rules that a delta breaks before or because it doesn't follow: where its heaps begin in the joined ones isn't known.
UNPLACED = ("F1", "F2", "F6", "E1", "E2", "E3", "E5")
UNPLACED_WORDS = (
    "where its heaps begin isn't known: offsets stand alone, its heaps are shown from 0, and names beside tokens are "
    "those of the module before it"
)


def begins_of(module: Module, code: str) -> Optional[Dict[str, int]]:
    """Where the heaps of a delta begin in the joined ones that a rule refuses; None where that isn't known."""
    return None if code in UNPLACED else before(module, module.generations)


def heap_lines(about: str, streams: Dict[str, bytes], begins: Optional[Dict[str, int]]) -> Iterator[str]:
    """The entries of a file's own heaps, by their offsets in the joined ones, or else by their own."""
    for heap in ("#Strings", "#US", "#Blob", "#GUID"):
        own, begin = streams.get(heap, b""), begins[heap] if begins and heap != "#GUID" else 0
        length = f"{len(own)} bytes" + (f" from {begin:08x}" if begins and heap != "#GUID" else "")
        yield f"{heap}: {length} in {about}"
        for at, part in _raw.entries(heap, own):
            if part:
                yield f"  {begin + at:08x} {entry_text(heap, part)}"


def own_entry(found: _raw.Raw, heap: str, at: int) -> Optional[bytes]:
    """What stands at an offset of a delta's own heap."""
    own = found.streams.get(heap, b"")
    if heap == "#GUID":
        return own[16 * at - 16 : 16 * at] if 0 < at <= len(own) // 16 else None
    if not 0 <= at < len(own):
        return None
    try:
        start, end = (at, own.index(b"\0", at)) if heap == "#Strings" else _raw.entry_length(own, at)
    except (IndexError, ValueError):
        return None
    return own[start:end] if end <= len(own) else None


def own_part(found: _raw.Raw, heap: str, number: int, begins: Optional[Dict[str, int]]) -> Optional[bytes]:
    """What a number of the joined heaps stands for, where it is in a delta's own heap, and it is known where that
    begins."""
    if heap == "#GUID":
        part = own_entry(found, heap, number) if not begins or number > begins[heap] else None
        return part if part and any(part) else None
    return own_entry(found, heap, number - begins[heap]) if begins else None


def raw_cell(found: _raw.Raw, column: Column, number: int, begins: Optional[Dict[str, int]], names: Names) -> str:
    """A cell as a delta's file has it; of an offset what stands there, where that is in the delta's own heap and it is
    known where that begins. Of `#GUID`, whose entries have the same numbers in every file, it need not be known."""
    heaps = {"text": "#Strings", "blob": "#Blob", "guid": "#GUID"}
    if column.kind in heaps:
        heap = heaps[column.kind]
        part = own_part(found, heap, number, begins)
        text = f" {entry_text(heap, part)}" if part is not None and number else ""
        return f"{column.name}={heap}:{number:x}{text}"
    token = _raw.decoded(column, number)
    if column.kind in ("index", "coded"):
        return f"{column.name}={names.beside(token) if token is not None else f'{number:x} (no row)'}"
    digits = {"num8": 2, "num16": 4}.get(column.kind, 8)
    return f"{column.name}={number:0{digits}x}"


def failed_lines(chain: Chain, failed: Failed, wanted: Wanted) -> Iterator[str]:
    """A refused delta as its file has it: its rows, its EncLog and EncMap, its heaps."""
    module, names = chain.module, Names(chain.module)
    yield f"{failed.path}, refused: what its file has"
    try:
        found = _raw.raw(failed.metadata)
    except ValueError as error:
        yield f"  it can't be read: {error}"
        return
    begins = begins_of(module, failed.refused.code)
    if begins is None:
        yield f"  {failed.refused.code}: {UNPLACED_WORDS}"
    tokens = found.map()
    for number, rows in found.rows.items():
        if number in (_LOG, _MAP) or not wanted.has(number):
            continue
        listed = [token for token in tokens if token >> 24 == number]
        yield heading(TABLES[number], len(rows))
        columns = TABLES[number].columns
        for i, cells in enumerate(rows):
            token = str(listed[i]) if i < len(listed) else "--------"
            shown = (raw_cell(found, column, cell, begins, names) for column, cell in zip(columns, cells))
            yield f"  {token} row {i + 1} " + " ".join(shown)
    yield from log_lines(failed.path, failed.metadata, wanted, names)
    if wanted.table is None:
        yield from heap_lines(failed.path, found.streams, begins)


def refusal_lines(failed: Failed) -> Iterator[str]:
    """A refusal as `enc` prints it, and the rule in words."""
    refused = failed.refused
    yield f"refused {refused.file} {refused.code} {refused.place}"
    yield f"  {refused.code}: {refused.rule}"


def lines(chain: Chain, wanted: Wanted) -> Iterator[str]:
    """All that is printed."""
    failed, taken = chain.failed, chain.module.generation
    if wanted.generation is None:
        yield from whole(chain, wanted)
    elif wanted.generation <= taken:
        yield from one(chain, wanted, wanted.generation)
    if failed is not None:
        yield from failed_lines(chain, failed, wanted)
        yield from refusal_lines(failed)


def dump(base: str, deltas: List[str], wanted: Wanted, put: Callable[[str], None]) -> int:
    """Prints what is wanted of a base and its deltas, and tells the status: 1 where a file is refused."""
    if wanted.generation is not None and not 0 <= wanted.generation <= len(deltas):
        put(f"there is no generation {wanted.generation}: the base is 0, and there are {len(deltas)} deltas")
        return 2
    try:
        chain = load(base, deltas, wanted.generation)
    except Refused as refused:
        put(f"refused {refused.file} {refused.code} {refused.place}")
        put(f"  {refused.code}: {refused.rule}")
        return 1
    for line in lines(chain, wanted):
        put(line)
    return 1 if chain.failed is not None else 0
