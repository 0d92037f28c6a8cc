"""Tokens, rows and the other answers about a module."""

from __future__ import annotations

import operator
import re
import uuid
from typing import (
    Any,
    Callable,
    Dict,
    ItemsView,
    Iterator,
    KeysView,
    List,
    NamedTuple,
    Optional,
    Tuple,
    Union,
    ValuesView,
    overload,
)

from ._missing import NoColumn, missing
from .tables import TABLES, table

_DIGITS = re.compile("[0-9A-Fa-f]{8}")


class Token(int):
    """A token: the table in the top byte, the row in the three below. It is a number, and prints as eight digits.
    It is made of a number or of eight digits, 0 to 9 and a to f of either case.

    Raises ValueError of another text and of a number of more than 32 bits, TypeError of another type.

    >>> token = Token("06000003")
    >>> token, token.table, token.row
    (Token('06000003'), 'MethodDef', 3)
    >>> token == 0x06000003
    True
    >>> print(Token(0x02000002))
    02000002
    """

    def __new__(cls, token: "int | str") -> "Token":
        if isinstance(token, str):
            if not _DIGITS.fullmatch(token):
                raise ValueError(f"a token has eight hexadecimal digits: {token}")
            token = int(token, 16)
        token = operator.index(token)
        if not 0 <= token < 1 << 32:
            raise ValueError(f"a token has 32 bits: {token}")
        return super().__new__(cls, token)

    @property
    def table(self) -> str:
        """The name of its table; two digits where there is none."""
        number = self >> 24
        return TABLES[number].name if number < len(TABLES) else f"{number:02x}"

    @property
    def row(self) -> int:
        """Its row, from 1; 0 is none."""
        return self & 0xFFFFFF

    def __str__(self) -> str:
        return f"{int(self):08x}"

    def __format__(self, form: str) -> str:
        return format(str(self), form) if not form or form[-1] in "s<>^" or form.isdigit() else format(int(self), form)

    def __repr__(self) -> str:
        return f"Token('{self}')"


class Place(NamedTuple):
    """Where a row stands: its generation, 0 for the base, and its position in that generation's table, from 1."""

    generation: int
    position: int

    def __str__(self) -> str:
        return f"{self.generation}.{self.position}"


class Clause(NamedTuple):
    """An exception clause: `catch`, `filter`, `finally` or `fault`, its ranges from the first offset to one past the
    last byte, and the token of the class that it catches, or the offset of its filter."""

    kind: str
    try_begin: int
    try_end: int
    handler_begin: int
    handler_end: int
    catches: Optional[Token]
    filter: Optional[int]


class Body(NamedTuple):
    """A method's body: the most values on its stack, the token of its local signature, whether locals begin as
    zeros, its code and its exception clauses."""

    stack: int
    locals: Optional[Token]
    init: bool
    code: bytes
    clauses: List[Clause]


class Point(NamedTuple):
    """A sequence point. A hidden one has lines and columns 0, and no document."""

    offset: int
    hidden: bool
    document: Optional[str]
    start_line: int
    start_column: int
    end_line: int
    end_column: int


class Entry(NamedTuple):
    """A token of a generation's EncMap: a row that the generation inserts, or one that it updates."""

    token: Token
    inserted: bool


class Lengths(NamedTuple):
    """How many bytes of `#Strings`, `#US` and `#Blob` count in a generation's own file, and the entries of its
    `#GUID`."""

    strings: int
    users: int
    blobs: int
    guids: int


class Move(NamedTuple):
    """A token before a module was made compact, and after."""

    before: Token
    after: Token


Value = Union[int, str, bytes, bool, uuid.UUID, Token, Tuple[Token, ...]]


class Row:
    """A row of a module as it was when it was asked for: its columns by their names in ECMA-335 II.22, or by their
    numbers from 0.

    `row.Name`, `row["Name"]` and `row[3]` are the value in a column, `row[1:3]` those of several; iteration gives the
    names, and `keys`, `values`, `items` and `dict(row)` are as of a dict. A number is an int, a text a str, a blob
    bytes, a GUID a UUID, an index a Token (00000000 is nil). A column that begins a run (`MethodList`) is the tokens
    of the run. `RVA` of a method is whether it has a body, `RVA` of FieldRVA the bytes of the field. The rows of each
    table are of a class in `enc.columns` that has the types of its columns.

    `token`, `table` (a name), `place`, `owner` (of a field, method, parameter, event or property) and `children` are
    there for every row, and `text` is the row as `enc show` prints it. A row keeps its module.

    Rows are equal where their tokens, columns, owners and children are; their places may differ. A row may stand in a
    set, or be a key of a dict.

    >>> row = bank["06000003"]
    >>> row.Name, row["Name"], row[3], row[-1], row[1:4]
    ('Print', 'Print', 'Print', (), (0, 134, 'Print'))
    >>> list(row)[:3], len(row), "Name" in row, dict(row)["Flags"]
    (['RVA', 'ImplFlags', 'Flags'], 6, True, 134)
    >>> row["name"]
    Traceback (most recent call last):
    enc.NoColumn: MethodDef has no column name: did you mean Name?
    >>> row[6]
    Traceback (most recent call last):
    enc.NoColumn: MethodDef has no column 6: it has 6, from 0

    `row[..]` raises `NoColumn`, `row.Nothing` AttributeError, and `text` ValueError where the module is closed."""

    def __init__(
        self,
        token: Token,
        place: Place,
        columns: Dict[str, Value],
        owner: Optional[Token],
        children: Tuple[Token, ...],
        text: Callable[[], str],
    ) -> None:
        self.token = token
        self.table = token.table
        self.place = place
        self.columns = columns
        self.owner = owner
        self.children = children
        self._text = text

    @property
    def text(self) -> str:
        """The row as `enc show` prints it, with its body and its sequence points."""
        return self._text()

    @overload
    def __getitem__(self, which: "int | str") -> Value: ...

    @overload
    def __getitem__(self, which: slice) -> Tuple[Value, ...]: ...

    def __getitem__(self, which: "int | str | slice") -> "Value | Tuple[Value, ...]":
        if isinstance(which, slice):
            return tuple(self.columns.values())[which]
        if not isinstance(which, str):
            return self._at(operator.index(which))
        if which not in self.columns:
            raise NoColumn(*self._missing(which))
        return self.columns[which]

    def _at(self, which: int) -> Value:
        if not -len(self) <= which < len(self):
            raise NoColumn(f"{self.table} has no column {which}: it has {len(self)}, from 0")
        return tuple(self.columns.values())[which]

    def _missing(self, name: str) -> Tuple[str, List[str]]:
        return missing(f"{self.table} has no column {name}", name, list(self.columns), "it has")

    def __getattr__(self, name: str) -> Any:
        columns = self.__dict__.get("columns", {})
        if name in columns:
            return columns[name]
        if name.startswith("_") or "columns" not in self.__dict__:
            raise AttributeError(name)
        raise AttributeError(str(NoColumn(*self._missing(name))))

    def keys(self) -> KeysView[str]:
        """The names of the columns."""
        return self.columns.keys()

    def values(self) -> ValuesView[Value]:
        """The values in the columns."""
        return self.columns.values()

    def items(self) -> ItemsView[str, Value]:
        """Names and values."""
        return self.columns.items()

    def __iter__(self) -> Iterator[str]:
        return iter(self.columns)

    def __len__(self) -> int:
        return len(self.columns)

    def __dir__(self) -> List[str]:
        return [*super().__dir__(), *self.columns]

    def __eq__(self, other: object) -> bool:
        if not isinstance(other, Row):
            return NotImplemented
        mine = (self.token, self.columns, self.owner, self.children)
        return mine == (other.token, other.columns, other.owner, other.children)

    def __hash__(self) -> int:
        return hash(self.token)

    def __repr__(self) -> str:
        return f"<{self.table} {self.token} @{self.place}>"


def token_of(which: "Token | Row | int | str") -> Token:
    """The token of a token, a row, a number or eight digits."""
    if isinstance(which, Row):
        return which.token
    return which if isinstance(which, Token) else Token(which)


def columns_of(token: Token) -> Any:
    """The columns of a token's table; `NotFound` where there is no such table."""
    return table(token >> 24).columns
