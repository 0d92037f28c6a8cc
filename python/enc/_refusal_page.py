"""What a report says of a file that is refused: the rule in words, and what stands at its place.

The library keeps nothing of a refused delta, so this is taken from its file as `dump` takes it, and isn't judged."""

from __future__ import annotations

import re
from typing import Any, Callable, Dict, List, NamedTuple, Optional, Tuple

from . import _raw
from ._printed import printed
from ._refused import Refused
from ._report_advice import advice
from ._report_flags import field_words, method_words
from .dump import Names, begins_of, function_name, raw_cell
from .rows import Token
from .tables import TABLES, Column

# The columns that a rule is about where its place is a whole row.
_ABOUT: Dict[str, Tuple[str, ...]] = {
    "E1": ("Mvid",),
    "E2": ("Generation",),
    "E3": ("EncBaseId",),
    "E4": ("EncId",),
    "E16": ("RVA",),
    "E17": ("RVA",),
    "E18": ("Flags",),
    "E19": ("Flags",),
    "E20": ("Name", "Signature", "Type"),
    "E23": ("RVA",),
}


_UNPLACED = "Where its heaps begin isn't known, so offsets of texts and blobs stand alone."


class Cell(NamedTuple):
    """A column of the refused row: what the file has, what stood there before, and whether the rule is about it."""

    name: str
    now: str
    before: str
    marked: bool


class Entry(NamedTuple):
    """An entry of EncLog, by its number."""

    number: int
    token: str
    words: str
    marked: bool


class Refusal(NamedTuple):
    """A refusal: the file, the rule and its words, the place, what is expected there and found, what to do, and what
    stands there."""

    number: int
    path: str
    file: str
    code: str
    place: str
    rule: str
    expected: str
    found: str
    todo: str
    row: str
    row_name: str
    is_new: bool
    cells: List[Cell]
    log: List[Entry]
    notes: List[str]
    not_asked: int


class Asked(NamedTuple):
    """What a refusal is asked about: the module with the deltas before it, the shown names of the base and all deltas,
    and how the name of a file is shown."""

    module: Any
    paths: List[str]
    shown: Callable[[str], str]


def _made(refused: Refused, number: int, path: str, shown: Callable[[str], str]) -> Refusal:
    said = advice(refused.code)
    head = (number, shown(path), shown(refused.file or path), refused.code, refused.place, refused.rule)
    return Refusal(*head, said.expected, "", said.todo, "", "", False, [], [], [], 0)


def of_base(refused: Refused, shown: Callable[[str], str]) -> Refusal:
    """The refusal of a base, or of its PDB."""
    return _made(refused, 0, refused.file or "", shown)


def of_delta(asked: Asked, taken: int, metadata: bytes, refused: Refused) -> Refusal:
    """The refusal of the delta that follows so many; those behind it aren't asked."""
    made = _made(refused, taken + 1, asked.paths[taken + 1], asked.shown)
    made = made._replace(not_asked=len(asked.paths) - taken - 2)
    try:
        return _compared(asked.module, _placed(asked, made, _raw.raw(metadata)))
    except ValueError as error:
        return made._replace(notes=[*made.notes, f"What stands there can't be shown: {error}."])


def _compared(module: Any, made: Refusal) -> Refusal:
    """With what is expected and what is found, where that is a value."""
    marked = [cell for cell in made.cells if cell.marked]
    last = module.generation
    wanted = {
        "E1": str(module["00000001"].Mvid),
        "E2": f"{last + 1:04x}, generation {last + 1:,}",
        "E3": f"{module.enc_id(last)}, the EncId of generation {last:,}",
    }
    if marked and made.code in wanted:
        cells = [cell._replace(before=wanted[made.code]) if cell.marked else cell for cell in made.cells]
        marked = [cell for cell in cells if cell.marked]
        made = made._replace(cells=cells)
    if len(marked) != 1:
        entry = "".join(f"entry {one.number}: {one.token} {one.words}" for one in made.log if one.marked)
        return made._replace(found=entry or "".join(made.notes[-1:]))
    expected = f"{marked[0].name} {marked[0].before}" if marked[0].before else made.expected
    return made._replace(expected=expected, found=f"{marked[0].name} {marked[0].now}")


def _placed(page: Asked, made: Refusal, found: _raw.Raw) -> Refusal:
    """With what stands at the place."""
    log = re.fullmatch(r"log (\d+)", made.place)
    if log:
        return made._replace(log=_log(page, found, int(log.group(1))))
    cell = re.fullmatch(r"([0-9a-f]{8})(?:\.(\w+))?", made.place)
    if cell is None:
        return made
    token = Token(cell.group(1))
    if token >> 24 >= len(TABLES):
        method = Token(0x06000000 | token.row)
        return made._replace(notes=[*made.notes, f"It is about the points of {Names(page.module).beside(method)}."])
    if not token.row:
        return made._replace(notes=[*made.notes, _table_note(found, token)])
    if made.code in ("E6", "E8", "E9", "E11"):
        made = made._replace(notes=[*made.notes, _listed_note(page, found, token)])
    return _row(page, made, found, (token, cell.group(2) or ""))


def _table_note(found: _raw.Raw, token: Token) -> str:
    rows = len(found.rows.get(token >> 24, []))
    tokens = sum(1 for listed in found.map() if listed >> 24 == token >> 24)
    return f"Its file has {rows:,} rows of {token.table}, and {tokens:,} tokens of it in EncMap."


def _listed_note(page: Asked, found: _raw.Raw, token: Token) -> str:
    """How often a token is listed, and how many rows its table had."""
    maps = found.map().count(token)
    codes = [function_name(function) for other, function in found.log() if other == token]
    listed = f"{len(codes):,} times in EncLog ({', '.join(codes[:8])})" if codes else "not in EncLog"
    rows = page.module.count(token >> 24)
    return f"It stands {maps:,} times in EncMap and {listed}. {token.table} had {rows:,} rows before."


def _log(page: Asked, found: _raw.Raw, number: int) -> List[Entry]:
    """The entries of EncLog around one."""
    names = Names(page.module)
    entries = list(enumerate(found.log(), 1))[max(0, number - 4) : number + 3]
    return [Entry(i, names.beside(token), function_name(function), i == number) for i, (token, function) in entries]


def _raw_row(found: _raw.Raw, token: Token) -> Optional[Tuple[int, ...]]:
    """A token's row in the file: the rows of a table stand in the order of their tokens in EncMap."""
    rows = found.rows.get(token >> 24, [])
    if token == 1:
        return rows[0] if rows else None
    listed = [other for other in found.map() if other >> 24 == token >> 24]
    at = listed.index(token) if token in listed else len(rows)
    return rows[at] if at < len(rows) else None


def _row(page: Asked, made: Refusal, found: _raw.Raw, place: Tuple[Token, str]) -> Refusal:
    """The row at the place: as the file has it, and as it was before."""
    token, column = place
    cells = _raw_row(found, token)
    module, names = page.module, Names(page.module)
    is_new = token not in module
    old = {} if is_new else printed(module.text(token)).cells
    begins = begins_of(module, made.code)
    notes = made.notes if begins else [*made.notes, _UNPLACED]
    marked = (column,) if column else _ABOUT.get(made.code, ())
    shown = []
    for i, of in enumerate(TABLES[token >> 24].columns):
        if of.kind == "run" and of.name != column:
            continue
        now = _now(raw_cell(found, of, cells[i], begins, names).partition("=")[2], of) if cells else ""
        was = _old(of, old, names)
        shown.append(Cell(of.name, _with_words(token, of, now), _with_words(token, of, was), of.name in marked))
    return made._replace(is_new=is_new, cells=shown, row=str(token), row_name=names.of(token), notes=notes)


def _now(text: str, column: Column) -> str:
    """A cell as the file has it, without where in a heap it stands if that can be read."""
    if column.kind == "body":
        return f"a body at {text} of the .il" if int(text, 16) else "no body"
    return re.sub(r"^#\w+:[0-9a-f]+ (?=.)", "", text)


def _with_words(token: Token, column: Column, digits: str) -> str:
    """The flags of a method or a field with what they say."""
    makers = {"MethodDef": method_words, "Field": field_words}
    maker = makers.get(token.table) if column.name == "Flags" and digits else None
    return f"{digits}, {maker(int(digits, 16)) or 'no words'}" if maker else digits


def _old(column: Column, cells: Dict[str, str], names: Names) -> str:
    """A cell as it was before, with the name of its token."""
    cell = cells.get(column.name, "")
    return names.beside(Token(cell)) if cell and column.kind in ("index", "coded") else cell
