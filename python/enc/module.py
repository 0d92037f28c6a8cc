"""A module: a base with the deltas that follow it, and what every token, row, body and sequence point means after
them."""

from __future__ import annotations

import ctypes
import json
import operator
import os
import re
import uuid
from types import TracebackType
from typing import (
    Any,
    Dict,
    Iterable,
    Iterator,
    List,
    NamedTuple,
    Optional,
    Sequence,
    Tuple,
    Type,
    TypeVar,
    Union,
    overload,
)

from . import _files, _library, _printed
from ._files import Delta, Path, Source
from ._library import ABSENT, DONE, REFUSED, Buffer, Handle, number, u8, u32
from ._missing import Ambiguous, NoRow, NotFound, listed, near
from ._refused import Refused, rule_words
from .columns import ROWS, MethodDef, TypeDef
from .rows import (
    Body,
    Clause,
    Entry,
    Lengths,
    Move,
    Place,
    Point,
    Row,
    Token,
    Value,
    columns_of,
    token_of,
)
from .tables import Column, table

Which = Union[Token, Row, int, str]
_Row = TypeVar("_Row", bound=Row)

_KINDS = ("catch", "filter", "finally", "fault")
_KIDS = {"Field": "fields", "MethodDef": "methods", "Param": "params", "Event": "events", "Property": "properties"}
_MEMBERS = ("MethodDef", "Field", "Property", "Event")
_NESTED = table("NestedClass").number


def refused_of(
    handle: Handle, numbers: _library.RefusalNumbers, act: str = "", files: Optional[_files.Files] = None
) -> Refused:
    """The exception of a refusal."""
    code, _, place = _library.words_of(handle.library, numbers).partition(" ")
    return Refused(code, place, rule_words(code, place, act), files.refused_file(code) if files else None)


def clause_of(kind: int, begin: int, end: int, handler_begin: int, handler_end: int, extra: int) -> Clause:
    """A clause of its numbers."""
    catches = Token(extra) if kind == 0 else None
    return Clause(_KINDS[kind], begin, end, handler_begin, handler_end, catches, extra if kind == 1 else None)


def text_of(part: bytes) -> str:
    """A text of `#Strings`; bytes that aren't UTF-8 stay as surrogates."""
    return part.decode("utf-8", "surrogateescape")


class Compacted(NamedTuple):
    """An ordinary module with its PDB as bytes, and the tokens that moved."""

    image: bytes
    pdb: bytes
    moves: List[Move]


class Saved(NamedTuple):
    """The one module with all edits, and its PDB, as bytes."""

    image: bytes
    pdb: bytes


class View(_library.Uncopied):
    """A module as it is at a generation: what both `Module` and `module.at(generation)` answer.

    Tokens may be given as numbers, as eight digits, as `Token` or as the `Row` itself. As of a dict whose keys are the
    tokens, `token in view` asks for a row, `view[token]` gives it, and iteration gives the tokens of all rows.

    Whatever is asked for by a token raises `NoRow` where there is no such row, ValueError of a text that is no eight
    digits, and TypeError of a float or another type. Each question raises ValueError where the module is closed, and
    MemoryError where memory runs out."""

    _handle: Handle
    _at: Optional[int]
    # The enclosing types of nested ones, and how many generations there were when they were looked up.
    _nested: Tuple[int, Dict[Token, Token]] = (0, {})

    def _generations(self) -> int:
        """How many generations its rows are of."""
        return self._handle.one("the number of generations", "enc_generations") if self._at is None else self._at + 1

    def _call(self, name: str) -> Tuple[str, Tuple[Any, ...]]:
        """The call of this name at this generation, and what it takes first."""
        return (name, ()) if self._at is None else (name + "_at", (u32(self._at),))

    def count(self, which: "int | str") -> int:
        """How many rows a table has.

        >>> bank.count("MethodDef")
        5

        Raises `NotFound` where there is no such table.
        """
        name, at = self._call("enc_count")
        return self._handle.one(f"the count of {which}", name, *at, u8(table(which).number))

    def tokens(self, which: "int | str") -> List[Token]:
        """The tokens of a table's rows.

        >>> bank.tokens("Field")
        [Token('04000001'), Token('04000002')]

        Raises `NotFound` where there is no such table.
        """
        first = table(which).number << 24
        return [Token(first + row) for row in range(1, self.count(which) + 1)]

    @overload
    def rows(self, which: "int | str") -> Iterator[Row]: ...

    @overload
    def rows(self, which: Type[_Row]) -> Iterator[_Row]: ...

    def rows(self, which: "int | str | Type[Row]") -> Iterator[Row]:
        """The rows of a table: by its name, its number, or the class of its rows in `enc.columns`.

        >>> [row.Name for row in bank.rows("Field")]
        ['balance', 'deposits']
        >>> import enc.columns
        >>> [row.Signature.hex() for row in bank.rows(enc.columns.Field)]
        ['0608', '0608']

        Raises `NotFound` where there is no such table.
        """
        named = which.__name__ if isinstance(which, type) else which
        return (self[token] for token in self.tokens(named))

    def types(self) -> List[TypeDef]:
        """The rows of TypeDef.

        >>> [row.TypeName for row in bank.types()]
        ['<Module>', 'Account', 'Bank']
        """
        with self._handle.lock:
            return list(self.rows(TypeDef))

    def methods(self) -> List[MethodDef]:
        """The rows of MethodDef.

        >>> for method in bank.methods():
        ...     print(method.token, method.Name, method.place)
        06000001 .ctor 0.1
        06000002 Deposit 2.1
        06000003 Print 2.2
        06000004 Main 0.4
        06000005 PrintDeposits 2.3
        """
        with self._handle.lock:
            return list(self.rows(MethodDef))

    def text(self, which: Which) -> str:
        """A row as `enc show` prints it.

        >>> print(bank.text("04000001"), end="")
        04000001 Field Flags=0001 Name="balance" Signature=[0608] @0.1
          owner 02000002

        Raises `NoRow`.
        """
        token = token_of(which)
        name, at = self._call("enc_row")
        try:
            text: bytes = self._handle.copied(f"the row {token}", name, ctypes.c_char, *at, u32(token))
        except NotFound:
            raise self._no_row(token) from None
        return text.decode("ascii")

    def _no_row(self, token: Token) -> NoRow:
        """What says that there is no row of a token."""
        if token >> 24 >= _TABLE_COUNT:
            return NoRow(f"there is no row {token}: tables are 00 to {_TABLE_COUNT - 1:02x}")
        rows = self.count(token >> 24)
        first = token >> 24 << 24
        has = f"has {rows} rows, {Token(first + 1)} to {Token(first + rows)}" if rows > 1 else f"has {rows} row"
        return NoRow(f"there is no row {token}: {token.table} {has if rows else 'has no rows'}")

    def __getitem__(self, which: Which) -> Row:
        """The row of a token.

        >>> row = bank["06000003"]
        >>> row.table, row.Name, row.owner, row.place
        ('MethodDef', 'Print', Token('02000002'), Place(generation=2, position=2))

        Raises `NoRow`.
        """
        token = token_of(which)
        text = self.text(token)
        return self._printed_row(token, _printed.printed(text), text)

    def __contains__(self, which: object) -> bool:
        """Whether there is a row of a token. Raises ValueError of a text that is no eight digits."""
        if not isinstance(which, (int, str, Row)):
            return False
        token = token_of(which)
        return 0 < token.row and token >> 24 < _TABLE_COUNT and token.row <= self.count(token >> 24)

    def __iter__(self) -> Iterator[Token]:
        """The tokens of all rows, table by table.

        >>> len(list(bank)), next(iter(bank)), Token("06000003") in list(bank)
        (39, Token('00000001'), True)
        """
        return (token for number in range(_TABLE_COUNT) for token in self.tokens(number))

    def _printed_row(self, token: Token, row: _printed.Printed, text: str) -> Row:
        children = tuple(Token(child) for kind in row.children.values() for child in kind)
        columns = {column.name: _printed_value(column, row) for column in columns_of(token)}
        owner = Token(row.owner) if row.owner else None
        return ROWS[token >> 24](token, Place(*row.place), columns, owner, children, lambda: text)

    def name(self, which: Which) -> str:
        """The name of a row with its namespace, types that it is nested in (`/`) and its type. A row without a name
        has that of what it is about, or its token.

        >>> bank.name("06000003"), bank.name("01000001"), bank.name("0a00000b")
        ('Account.Print', 'System.Console', 'System.Console.WriteLine')
        >>> bank.name("08000001")
        'Account.Deposit.amount'

        Raises `NoRow`.
        """
        with self._handle.lock:
            return self._name_of(self[which], 0)

    def _name_of(self, row: Row, depth: int) -> str:
        """The name of a row; `depth` ends what leads back into itself."""
        if depth > 100:
            return str(row.token)
        if row.table in ("TypeDef", "TypeRef", "ExportedType"):
            return self._type_name(row, depth)
        above = _above(row)
        if above is not None:
            outer = self._name_of(self[above], depth + 1) if above.row else ""
            own = row.columns.get("Name")
            return ".".join(part for part in (outer, own) if isinstance(part, str) and part) or str(row.token)
        own = row.columns.get("Name")
        return own if isinstance(own, str) else str(row.token)

    def _type_name(self, row: Row, depth: int) -> str:
        name = f"{row.TypeNamespace}.{row.TypeName}" if row.TypeNamespace else str(row.TypeName)
        outer = self._outer(row)
        if outer is None:
            return name
        return self._name_of(self[outer], depth + 1) + "/" + name

    def _outer(self, row: Row) -> Optional[Token]:
        """The type that a type is nested in."""
        if row.table == "TypeDef":
            return self._nesting().get(row.token)
        scope: Token = row.ResolutionScope if row.table == "TypeRef" else row.Implementation
        return scope if scope.table == row.table and scope.row else None

    def _nesting(self) -> Dict[Token, Token]:
        """The enclosing type of each nested one, looked up once for each generation."""
        generations = self._generations()
        if self._nested[0] != generations:
            pairs = {row.NestedClass: row.EnclosingClass for row in self.rows(_NESTED)}
            self._nested = (generations, pairs)
        return self._nested[1]

    def signature(self, which: Which) -> bytes:
        """The bytes of the signature of a field, method, property, MemberRef, StandAloneSig or TypeSpec.

        >>> bank.signature("06000002").hex()
        '20010108'

        Raises `NoRow`, and ValueError where its table has no signatures.
        """
        row = self[which]
        for name in ("Signature", "Type", "Instantiation"):
            found = row.columns.get(name)
            if isinstance(found, bytes):
                return found
        raise ValueError(f"{row.table} has no signature")

    def has_body(self, which: Which) -> bool:
        """Whether a method has a body. Raises `NoRow`, and ValueError where it is no method."""
        token = token_of(which)
        return self._code(token) is not None or self._none_of(token)

    def _none_of(self, token: Token) -> bool:
        """False where there is a row; `NoRow` where there is none."""
        if token not in self:
            raise self._no_row(token)
        return False

    def _code(self, method: Token) -> Optional[Tuple[bytes, _library.CodeHead]]:
        name, at = self._call("enc_code")
        buffer, head = Buffer(ctypes.c_char, 1024), _library.CodeHead()
        status = self._handle.fill(name, (*at, u32(method)), [buffer], [ctypes.byref(head)])
        if status == ABSENT:
            return None
        if status != DONE:
            _library.fail(status, f"the body of {method}")
        return buffer.taken(), head

    def body(self, method: Which) -> Body:
        """The body of a method.

        >>> body = bank.body("06000002")
        >>> body.stack, body.locals, body.init, len(body.code), body.clauses
        (8, None, False, 30, [])

        Raises `NotFound` where it has none, `NoRow`, and ValueError where it is no method.
        """
        token = token_of(method)
        with self._handle.lock:
            found = self._code(token)
            if found is None:
                self._none_of(token)
                raise NotFound(f"{token} has no body")
            code, head = found
            local = Token(0x11 << 24 | head.locals) if head.locals else None
            return Body(head.stack, local, head.init != 0, code, self._clauses(token))

    def _clauses(self, method: Token) -> List[Clause]:
        return [clause_of(*clause) for clause in _printed.printed(self.text(method)).clauses]

    def points(self, method: Which) -> List[Point]:
        """The sequence points of a method, with the names of their documents; none where no PDB has any.

        >>> [(point.offset, point.document, point.start_line) for point in bank.points("06000004")][:2]
        [(0, '/src/Bank.cs', 22), (1, '/src/Bank.cs', 23)]

        Raises `NoRow`, and ValueError where it is no method.
        """
        token = token_of(method)
        name, at = self._call("enc_points")
        with self._handle.lock:
            self._none_of(token)
            found = self._handle.copied(f"the points of {token}", name, _library.PointNumbers, *at, u32(token))
            names = {point.document: self._document(token, point.document) for point in found if not point.hidden}
        return [_point(point, names.get(point.document)) for point in found]

    def _document(self, method: Token, number: int) -> Optional[str]:
        name, at = self._call("enc_document")
        buffer = Buffer(ctypes.c_char, 256)
        status = self._handle.fill(name, (*at, u32(method), u32(number)), [buffer])
        if status == ABSENT:
            return None
        if status != DONE:
            _library.fail(status, f"the document {number} of {method}")
        return text_of(buffer.taken())


_TABLE_COUNT = table("GenericParamConstraint").number + 1


def _point(point: Any, document: Optional[str]) -> Point:
    hidden = point.hidden != 0
    lines = (point.start_line, point.start_column, point.end_line, point.end_column)
    return Point(point.offset, hidden, None if hidden else document, *lines)


def _above(row: Row) -> Optional[Token]:
    """The row whose name stands before that of a row."""
    if row.owner is not None:
        return row.owner
    if row.table in ("EventMap", "PropertyMap"):
        return token_of(row.Parent)
    if row.table == "MemberRef":
        return token_of(row.Class)
    if row.table == "MethodSpec":
        return token_of(row.Method)
    return None


def _printed_value(column: Column, row: _printed.Printed) -> Value:
    """The value of a column of a printed row."""
    if column.kind == "run":
        return tuple(Token(child) for child in row.children.get(_KIDS[column.table], []))
    cell = row.cells[column.name]
    if column.kind == "body":
        return cell == "body"
    if column.kind in ("blob", "bytes"):
        return bytes.fromhex(cell[1:-1])
    if column.kind == "text":
        return text_of(_printed.unquoted(cell))
    if column.kind == "guid":
        return uuid.UUID(cell)
    number = int(cell, 16)
    return Token(number) if column.kind in ("index", "coded") else number


class AtGeneration(View):
    """A module as it was after its first deltas; `module.at(generation)` makes it. It answers what `View` has: rows,
    counts, names, bodies and points. It keeps its module open, unless that is closed by `close` or `with`."""

    def __init__(self, module: "Module", generation: int) -> None:
        self._module = module
        self._handle = module._handle
        self._at = generation

    @property
    def generation(self) -> int:
        """Its generation."""
        return self._at or 0

    def __repr__(self) -> str:
        return f"<{self._handle.about} at generation {self._at}>"


class Module(View):
    """A base and the deltas that follow it.

    `base` is a path, with `.dll` or without, or the bytes of a module. A PDB of the same name beside it is taken
    where there is one; `pdb` is another one, and `b""` is none.

    With `prepare=True` the base is one that a compiler wrote and the library refuses: what is in its way is taken out
    in memory, as `enc.prepare` says, and `prepared` tells what was. An embedded PDB is then taken before one beside
    the file.

    Raises `Refused` where it breaks a rule, `PrepareError` where it can't be prepared, OSError where a file can't be
    read, MemoryError.

    >>> with Module("examples/bank/bank") as module:
    ...     module.apply("examples/bank/bank1")
    ...     module.name("06000003"), module["06000003"].place.generation
    1
    ('Account.Print', 1)
    >>> Module(b"MZ")
    Traceback (most recent call last):
    enc._refused.Refused: F3 headers: MZ, PE\\0\\0 or the magic of PE32 or PE32+ isn't there, ...

    Any thread may ask it, apply to it and close it: threads take turns, and each answer is of one state."""

    def __init__(self, base: Source, pdb: Optional[Source] = None, *, prepare: bool = False) -> None:
        files, done = _files.prepared_files(base, pdb) if prepare else (_files.base_files(base, pdb), ())
        self._at = None
        self._done = done
        self._handle = Handle(_library.library(), "enc_close", f"the module {files.names[0] or 'of bytes'}")
        self._size = len(files.first) + len(files.pdb)
        refusal = _library.RefusalNumbers()
        status = self._handle.call("enc_open", *_library.given((files.first, files.pdb)), ctypes.byref(refusal))
        self._ended(status, refusal, "opening it", "", files)

    def _ended(
        self, status: int, refusal: Any, about: str, act: str = "", files: Optional[_files.Files] = None
    ) -> None:
        """Raises what a call that judges came to, where it isn't done."""
        if status == REFUSED:
            raise refused_of(self._handle, refusal, act, files)
        if status != DONE:
            _library.fail(status, about)

    def __enter__(self) -> "Module":
        return self

    def __exit__(
        self, kind: Optional[Type[BaseException]], error: Optional[BaseException], trace: Optional[TracebackType]
    ) -> None:
        self.close()

    def __del__(self) -> None:
        if "_handle" in self.__dict__:
            self._handle.close()

    def __repr__(self) -> str:
        return f"<{self._handle.about}>"

    def close(self) -> None:
        """Frees what the module holds. A closed module answers nothing more (ValueError), and may be closed again."""
        self._handle.close()

    @property
    def prepared(self) -> Tuple[str, ...]:
        """What was done to the base, in sentences; nothing where it wasn't prepared or nothing had to be done.

        >>> Module("examples/bank/bank", prepare=True).prepared
        ()
        """
        return self._done

    # Deltas.

    def apply(self, meta: "Source | Delta", il: Optional[Source] = None, pdb: Optional[Source] = None) -> int:
        """Adds a delta, and tells its generation.

        `apply(path)` takes the files whose names begin with the path: `.meta`, `.il` and `.pdb`, else `.dmeta`,
        `.dil` and `.dpdb` as hotreload-delta-gen names them; a path of one of them will do. The PDB may be absent.
        `apply(meta, il, pdb)` takes files of any names, or their bytes. `apply(delta)` takes what `merge` and
        `write` give.

        >>> module = Module("examples/bank/bank.dll")
        >>> module.apply("examples/bank/bank1")
        1
        >>> module.apply("examples/bank/bank2.meta", "examples/bank/bank2.il", "examples/bank/bank2.pdb")
        2
        >>> module.apply("examples/bank/bank2")
        Traceback (most recent call last):
        enc._refused.Refused: E2 00000001: its Generation isn't the next

        Raises `Refused`, OSError where a file can't be read, TypeError of bytes without their IL, ValueError where the
        module is closed, MemoryError; then nothing is added.
        """
        files = _files.delta_files(meta, il, pdb)
        with self._handle.lock:
            self._judge("enc_apply", files)
            self._size += sum(len(part) for part in files[:3])
            return self.generation

    def check(self, meta: "Source | Delta", il: Optional[Source] = None, pdb: Optional[Source] = None) -> None:
        """Raises what `apply` would, and adds nothing."""
        self._judge("enc_check", _files.delta_files(meta, il, pdb))

    def _judge(self, name: str, files: _files.Files) -> None:
        refusal = _library.RefusalNumbers()
        status = self._handle.call(name, *_library.given(files[:3]), ctypes.byref(refusal))
        self._ended(status, refusal, "judging a delta", "", files)

    # Generations.

    @property
    def generations(self) -> int:
        """How many generations there are, the base among them.

        >>> bank.generations
        3
        """
        return self._generations()

    @property
    def generation(self) -> int:
        """The newest generation: how many deltas were added."""
        return self.generations - 1

    def at(self, generation: int) -> AtGeneration:
        """The module as it was at a generation, 0 for the base.

        >>> bank.at(1).name("06000003"), bank.at(0).count("MethodDef")
        ('Account.Print', 4)
        >>> bank.at(3)
        Traceback (most recent call last):
        enc.NotFound: there is no generation 3: there are 3, from 0

        Raises `NotFound` where there is no such generation."""
        self._known(generation)
        return AtGeneration(self, generation)

    def _known(self, generation: int) -> None:
        there = self.generations
        if not 0 <= operator.index(generation) < there:
            raise NotFound(f"there is no generation {generation}: there are {there}, from 0")

    def enc_id(self, generation: int) -> uuid.UUID:
        """The EncId of a generation, nil for the base.

        >>> bank.enc_id(1)
        UUID('6ee46faf-d977-00c3-7d5f-707c7a6d5dfd')

        Raises `NotFound` where there is no such generation.
        """
        self._known(generation)
        found: bytes = self._handle.copied(f"the EncId of {generation}", "enc_id", ctypes.c_char, u32(generation))
        return uuid.UUID(bytes_le=found)

    def entries(self, generation: int) -> List[Entry]:
        """The rows that a generation inserts or updates, in the order of its EncMap; the base has none.

        >>> bank.entries(2)[2:4]
        [Entry(token=Token('04000002'), inserted=True), Entry(token=Token('06000002'), inserted=False)]

        Raises `NotFound` where there is no such generation.
        """
        self._known(generation)
        about = f"the entries of {generation}"
        found = self._handle.copied(about, "enc_entries", _library.EntryNumbers, u32(generation))
        return [Entry(Token(entry.token), entry.inserted != 0) for entry in found]

    def lengths(self, generation: int) -> Lengths:
        """How long a generation's own heaps are.

        >>> bank.lengths(0)
        Lengths(strings=234, users=20, blobs=88, guids=1)

        Raises `NotFound` where there is no such generation.
        """
        self._known(generation)
        found = self._handle.told(f"the heaps of {generation}", "enc_lengths", _library.HeapLengths, u32(generation))
        return Lengths(found.strings, found.users, found.blobs, found.guids)

    # Rows.

    def place(self, which: Which) -> Place:
        """Where the newest place of a row is.

        >>> bank.place("06000003")
        Place(generation=2, position=2)

        Raises `NoRow`.
        """
        token = token_of(which)
        try:
            found = self._handle.told(f"the row {token}", "enc_locate", _library.PlaceNumbers, u32(token))
        except NotFound:
            raise self._no_row(token) from None
        return Place(found.generation, found.position)

    def place_in_heap(self, heap: str, offset: int) -> Place:
        """In which generation an offset of a joined heap stands, and where there; `heap` is `#Strings`, `#US`,
        `#Blob` or `#GUID`, in which entries are counted from 1.

        >>> bank.place_in_heap("#Strings", 240)
        Place(generation=1, position=6)

        Raises `NotFound` where it stands in none, ValueError where there is no such heap.
        """
        names = ("#Strings", "#US", "#Blob", "#GUID")
        if heap not in names:
            raise ValueError(f"there is no heap {heap}")
        about = f"the offset {offset} of {heap}"
        at = (u32(names.index(heap)), u32(number(offset)))
        found = self._handle.told(about, "enc_locate_heap", _library.PlaceNumbers, *at)
        return Place(found.generation, found.position)

    def __getitem__(self, which: Which) -> Row:
        """The newest row of a token, with named columns.

        >>> row = bank["02000002"]
        >>> row.TypeName, row["Extends"], row.children[:2]
        ('Account', Token('01000002'), (Token('04000001'), Token('04000002')))
        >>> list(row)
        ['Flags', 'TypeName', 'TypeNamespace', 'Extends', 'FieldList', 'MethodList']
        >>> bank["02000009"]
        Traceback (most recent call last):
        enc.NoRow: there is no row 02000009: TypeDef has 3 rows, 02000001 to 02000003

        Raises `NoRow`.
        """
        token = token_of(which)
        with self._handle.lock:
            place, generation = self.place(token), self.generation
            columns = {column.name: self._value(token, i, column) for i, column in enumerate(columns_of(token))}
            owner = self._owner(token)
        runs = [columns[column.name] for column in columns_of(token) if column.kind == "run"]
        children = tuple(child for run in runs if isinstance(run, tuple) for child in run)
        return ROWS[token >> 24](token, place, columns, owner, children, self._text_at(token, generation))

    def _text_at(self, token: Token, generation: int) -> Any:
        """What prints a row as it is now, also after later deltas."""

        def text() -> str:
            with self._handle.lock:
                return (self if self.generation == generation else self.at(generation)).text(token)

        return text

    def _owner(self, token: Token) -> Optional[Token]:
        if token.table not in _KIDS:
            return None
        return Token(self._handle.one(f"the owner of {token}", "enc_owner", u32(token)))

    def _value(self, token: Token, i: int, column: Column) -> Value:
        """The value in a column."""
        if column.kind == "run":
            return self._kids(token, table(column.table).number)
        if column.kind == "body":
            return self.has_body(token)
        if column.kind == "bytes":
            return bytes.fromhex(_printed.printed(self.text(token)).cells[column.name][1:-1])
        about, at = f"{column.name} of {token}", (u32(token), u8(i))
        if column.kind in ("index", "coded"):
            return Token(self._handle.one(about, "enc_token", *at))
        if column.kind.startswith("num"):
            return self._handle.one(about, "enc_number", *at)
        part: bytes = self._handle.copied(about, "enc_" + column.kind, ctypes.c_char, *at)
        if column.kind == "guid":
            return uuid.UUID(bytes_le=part)
        return text_of(part) if column.kind == "text" else part

    def _kids(self, token: Token, kind: int) -> Tuple[Token, ...]:
        found = self._handle.copied(f"the children of {token}", "enc_kids", u32, u32(token), u8(kind))
        return tuple(Token(kind << 24 | row) for row in found)

    def _clauses(self, method: Token) -> List[Clause]:
        found = self._handle.copied(f"the clauses of {method}", "enc_clauses", _library.ClauseNumbers, u32(method))
        return [clause_of(*(getattr(clause, name) for name, _ in clause._fields_)) for clause in found]

    def user_text(self, offset: int) -> str:
        """The user text that `ldstr` names: its offset in the joined `#US`, or its token.

        >>> bank.user_text(0x70000001)
        'balance:'

        Raises `NotFound` where none begins there.
        """
        about = f"the user text {number(offset):08x}"
        units: bytes = self._handle.copied(about, "enc_user_text", ctypes.c_char, u32(offset & 0xFFFFFF))
        return units.decode("utf-16-le", "surrogatepass")

    # Names.

    def find(self, name: str) -> Token:
        """The row with this name.

        A name is that of a type (`Namespace.Type`, nested `Outer/Inner`, or `Outer+Inner`), or that of a type and a
        method, field, property or event (`Namespace.Type.Member`, `Namespace.Type..ctor`). Of types with equal names
        the first counts.

        >>> bank.find("Account.Print"), bank.find("Account..ctor"), bank.find("Account")
        (Token('06000003'), Token('06000001'), Token('02000002'))
        >>> bank.find("Account.Withdraw")
        Traceback (most recent call last):
        enc.NotFound: nothing has the name Account.Withdraw: Account has balance, deposits, .ctor, Deposit, Print, ...
        >>> bank.find("Account.deposit")
        Traceback (most recent call last):
        enc.NotFound: nothing has the name Account.deposit: did you mean Account.Deposit or Account.deposits or ...

        Raises `NotFound` where none has it, `Ambiguous` where several have it.
        """
        with self._handle.lock:
            found = self.find_all(name)
            if not found:
                raise self._no_name(name)
        if len(found) > 1:
            raise Ambiguous(f"{len(found)} rows have the name {name}: {' '.join(map(str, found))}", found)
        return found[0]

    def _no_name(self, name: str) -> NotFound:
        """What says that nothing has a name: with names of the type's members that come near, or of types."""
        words, dot = f"nothing has the name {name}", name.rstrip(".").rfind(".")
        outer = self.find_all(name[:dot])[:1] if dot > 0 else []
        if not outer or outer[0].table != "TypeDef":
            return NotFound(words, near(name, self._type_names()))
        members = [text for text in (self._own_name(child) for child in self[outer[0]].children) if text]
        found = near(name[dot + 1 :], members)
        if found:
            return NotFound(words, [name[: dot + 1] + member for member in found])
        return NotFound(f"{words}: {name[:dot]} has {listed(members)}" if members else words)

    def _own_name(self, token: Token, column: str = "Name") -> str:
        names = [one.name for one in columns_of(token)]
        found = self._value(token, names.index(column), columns_of(token)[names.index(column)])
        return found if isinstance(found, str) else ""

    def _type_names(self) -> List[str]:
        pairs = (
            (self._own_name(token, "TypeNamespace"), self._own_name(token, "TypeName"))
            for token in self.tokens("TypeDef")
        )
        return [f"{space}.{name}" if space else name for space, name in pairs]

    def find_all(self, name: str) -> List[Token]:
        """The rows with this name, such as all overloads of a method.

        >>> bank.find_all("Account.balance"), bank.find_all("Account.nothing")
        ([Token('04000001')], [])
        """
        with self._handle.lock:
            return self._named(name)

    def _named(self, name: str) -> List[Token]:
        *outer, last = re.split("[/+]", name)
        enclosing = 0
        for part in outer:
            enclosing = self._find_type(enclosing, part)
            if not enclosing:
                return []
        found = [Token(self._find_type(enclosing, last))]
        for dot in (match.start() for match in re.finditer(r"\.", last)):
            found += self._members(self._find_type(enclosing, last[:dot]), last[dot + 1 :])
        return [token for token in found if token]

    def _find_type(self, enclosing: int, name: str) -> int:
        """The token of a type of a name with its namespace; 0 where there is none."""
        space, _, own = name.rpartition(".")
        found = u32()
        parts = _library.given((space.encode("utf-8", "surrogateescape"), own.encode("utf-8", "surrogateescape")))
        status = self._handle.call("enc_find_type", u32(enclosing), *parts, ctypes.byref(found))
        if status not in (DONE, ABSENT):
            _library.fail(status, f"the type {name}")
        return found.value if status == DONE else 0

    def _members(self, kind: int, name: str) -> List[Token]:
        if not kind or not name:
            return []
        found: List[Token] = []
        for member in _MEMBERS:
            buffer, kin = Buffer(u32, 16), table(member).number
            before = (u32(kind), u8(kin), *_library.given((name.encode("utf-8", "surrogateescape"),)))
            status = self._handle.fill("enc_find_member", before, [buffer])
            if status not in (DONE, ABSENT):
                _library.fail(status, f"the member {name}")
            found += [Token(kin << 24 | row) for row in buffer.taken()] if status == DONE else []
        return found

    # Frames.

    def may_remap(
        self, method: Which, generation: int, offset: int, map: Iterable[Tuple[int, int]]
    ) -> Optional[str]:
        """Whether a frame of a method that stands at an offset of its body of a generation may go on in the newest
        body, by a map of offsets: None where it may, else the rule of docs/scripts.md that it breaks (`Q3` to
        `Q7`). Raises `NotFound` where there is no such generation, or the method had no body then."""
        pairs = pairs_of(map)
        self._known(generation)
        before = (u32(token_of(method)), u32(generation), u32(number(offset)), pairs, len(pairs))
        rule = self._handle.one("whether a frame may be moved", "enc_may_remap", *before)
        return f"Q{rule}" if rule else None

    # What is saved.

    def _several(self, name: str, given: Sequence[bytes], kinds: Sequence[Any], act: str) -> List[Any]:
        """What a call gives in several buffers."""
        refusal = _library.RefusalNumbers()
        buffers = [Buffer(kind, self._size + 65536 if kind is ctypes.c_char else 1024) for kind in kinds]
        status = self._handle.fill(name, _library.given(given), buffers, [ctypes.byref(refusal)])
        self._ended(status, refusal, act, act)
        return [buffer.taken() for buffer in buffers]

    def saved(self) -> Saved:
        """The one module with all edits and its PDB, as bytes. Raises `Refused` (L4) where it would be too large."""
        return Saved(*self._several("enc_save", (), (ctypes.c_char,) * 2, "save"))

    def save(self, path: Path) -> None:
        """Saves the one module with all edits, and its PDB, as `enc apply` does: `PATH.dll` and `PATH.pdb`. Raises
        `Refused` as `saved`, and OSError where they can't be saved."""
        self._put(path, self.saved())

    def compacted(self) -> Compacted:
        """The same as an ordinary module, its PDB, and the tokens that moved. Raises `Refused` as `saved`."""
        kinds = (ctypes.c_char, ctypes.c_char, _library.MoveNumbers)
        image, pdb, moves = self._several("enc_compact", (), kinds, "compact")
        return Compacted(image, pdb, [Move(Token(move.before), Token(move.after)) for move in moves])

    def compact(self, path: Path) -> List[Move]:
        """Saves the same as an ordinary module, as `enc compact` does, and tells which tokens moved. Raises what `save`
        does."""
        made = self.compacted()
        self._put(path, Saved(made.image, made.pdb))
        return made.moves

    def _put(self, path: Path, made: Saved) -> None:
        path = os.fspath(path)
        _files.write(path + ".dll", made.image)
        _files.write(path + ".pdb", made.pdb)

    def merge(self) -> Delta:
        """One delta that stands for the last two. Raises ValueError where there are fewer, `Refused` where it can't be
        made, `Limit` where one of them is too long."""
        return Delta(*self._several("enc_merge", (), (ctypes.c_char,) * 3, "merge"))

    def write(self, edits: "str | bytes | Dict[str, Any]") -> Delta:
        """The delta of an edit list (docs/edits.md), as JSON or as the dict that it says. Nothing is added:
        `module.apply(module.write(edits))` does that. Raises `Refused` where it can't be made."""
        if not isinstance(edits, (str, bytes)):
            edits = json.dumps(edits)
        part = edits.encode("utf-8", "surrogatepass") if isinstance(edits, str) else edits
        return Delta(*self._several("enc_write", (part,), (ctypes.c_char,) * 3, "write"))


def pairs_of(map: Iterable[Tuple[int, int]]) -> Any:
    """The pairs of a map of offsets as a call takes them."""
    pairs = [_library.PairNumbers(number(before), number(after)) for before, after in map]
    return (_library.PairNumbers * len(pairs))(*pairs)
