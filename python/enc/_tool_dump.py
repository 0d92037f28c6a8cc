"""`enc-tool dump` and `report`: those of `python3 -m enc`, with the errors, the names of files and the JSON of
`enc-tool`."""

from __future__ import annotations

import argparse
import importlib.util
import os
import sys
import webbrowser
from pathlib import Path
from typing import Any, Dict, Iterator, List, Optional, Tuple

from . import _files, _raw, _refusal_page
from . import dump as dumping
from . import report as reporting
from ._printed import Printed, printed
from ._refused import Refused
from ._report_facts import first_lines
from ._report_text import unescaped
from ._tool_chain import base_file, delta_paths, distinct, refusal_line
from ._tool_screen import Screen
from ._tool_words import Parser, Problem, finished, safe, with_chain, with_generation
from .module import Module
from .rows import Token
from .tables import TABLES, table

_BANK = "examples/bank/bank"
_ENTRIES = ("EncLog", "EncMap")


def _table(word: str) -> int:
    """The number of a table."""
    try:
        return table(word).number
    except LookupError as error:
        raise argparse.ArgumentTypeError(str(error)) from None


def dump_parser() -> Parser:
    """What may stand behind `dump`."""
    about = (
        "Prints rows in tables, with names beside tokens: the whole module, one generation or one table.\n"
        "Of a refused delta it prints what its file has."
    )
    example = f"  enc-tool dump {_BANK} {_BANK}1 --generation 1 --table MethodDef"
    made = with_chain(Parser("dump", "BASE [DELTA ..]", about, example))
    made = with_generation(made, "what the G-th delta inserts and updates; 0: the base")
    made.add_argument("--table", type=_table, metavar="T", help="one table, by its name or its number (06)")
    return finished(made, "print lines of JSON: generations, rows, entries of EncLog and EncMap, of heaps")


def _loaded(given: argparse.Namespace) -> dumping.Chain:
    """The chain, up to the first delta that is refused."""
    deltas = distinct(given.deltas)
    last = given.generation
    if last is not None and not 0 <= last <= len(deltas):
        raise Problem(f"dump: there is no generation {last}: 0 is the base, and there are {len(deltas)} deltas", 2)
    for word in deltas:
        delta_paths(word)
    try:
        return dumping.load(base_file(given.base), deltas, last)
    except Refused as refused:
        raise Problem(refusal_line(refused)) from None


def dump(given: argparse.Namespace, screen: Screen) -> int:
    """Prints rows; a `Problem` where a delta is refused, behind what its file has."""
    chain = _loaded(given)
    wanted = dumping.Wanted(given.generation, given.table)
    if given.json:
        for value in _values(chain, wanted):
            screen.entry(value)
    else:
        for line in _texts(chain, wanted):
            screen.put(line)
    if chain.failed is not None:
        raise Problem(_failed_line(chain, [given.base, *distinct(given.deltas)]))
    return 0


def _failed_line(chain: dumping.Chain, paths: List[str]) -> str:
    """The refusal of a delta in one line."""
    assert chain.failed is not None
    taken = chain.module.generation
    asked = _refusal_page.Asked(chain.module, paths, str)
    said = _refusal_page.of_delta(asked, taken, chain.failed.metadata, chain.failed.refused)
    return refusal_line(chain.failed.refused, said)


def _texts(chain: dumping.Chain, wanted: dumping.Wanted) -> Iterator[str]:
    """What `python3 -m enc dump` prints, without the refusal at its end."""
    every = list(dumping.lines(chain, wanted))
    return iter(every[: len(every) - (2 if chain.failed else 0)])


def _values(chain: dumping.Chain, wanted: dumping.Wanted) -> Iterator[Dict[str, Any]]:
    """The same as JSON."""
    module, names = chain.module, dumping.Names(chain.module)
    numbers = range(module.generations) if wanted.generation is None else [wanted.generation]
    for number in numbers:
        if number <= module.generation:
            yield _generation(module, number)
    yield from _rows(module, wanted, names)
    for number in numbers:
        if number <= module.generation:
            begins = dumping.before(module, number)
            yield from _own(chain.files[number], number, begins, wanted)
    if chain.failed is not None:
        yield from _refused(module, chain.failed, wanted, names)


def _refused(
    module: Module, failed: dumping.Failed, wanted: dumping.Wanted, names: dumping.Names
) -> Iterator[Dict[str, Any]]:
    """What the file of a refused delta has, and the refusal."""
    begins, number = dumping.begins_of(module, failed.refused.code), module.generations
    try:
        found = _raw.raw(failed.metadata)
    except ValueError:
        found = _raw.Raw({}, {})
    tokens = found.map()
    for table_number, rows in found.rows.items():
        of = TABLES[table_number]
        if not wanted.has(table_number) or of.name in _ENTRIES:
            continue
        listed = [token for token in tokens if token >> 24 == table_number]
        for i, cells in enumerate(rows):
            texts = (dumping.raw_cell(found, column, cell, begins, names) for column, cell in zip(of.columns, cells))
            token = str(listed[i]) if i < len(listed) else None
            about = {"is": "refused row", "generation": number, "token": token, "table": of.name, "position": i + 1}
            yield {**about, "columns": dict(text.split("=", 1) for text in texts)}
    yield from _own(failed.metadata, number, begins, wanted)
    refused = failed.refused
    about = {"is": "refused", "generation": number, "file": refused.file, "code": refused.code}
    yield {**about, "place": refused.place, "rule": refused.rule}


def _generation(module: Module, number: int) -> Dict[str, Any]:
    """A generation."""
    entries = module.entries(number) if number else []
    inserted = sum(1 for entry in entries if entry.inserted)
    enc_id = str(module.enc_id(number)) if number else None
    about: Dict[str, Any] = {"is": "generation", "generation": number, "encId": enc_id}
    about.update(inserted=inserted, updated=len(entries) - inserted, heaps=module.lengths(number)._asdict())
    return about


def _tokens(module: Module, wanted: dumping.Wanted) -> Iterator[Tuple[Token, Optional[str]]]:
    """The rows that are wanted, and what a generation did to them."""
    if wanted.generation:
        if wanted.generation > module.generation:
            return
        for entry in module.entries(wanted.generation):
            if wanted.has(entry.token >> 24):
                yield entry.token, "inserted" if entry.inserted else "updated"
        return
    for of in TABLES:
        if wanted.has(of.number) and of.name not in _ENTRIES:
            yield from ((token, None) for token in module.tokens(of.number))


def _rows(module: Module, wanted: dumping.Wanted, names: dumping.Names) -> Iterator[Dict[str, Any]]:
    """The rows that are wanted."""
    for token, change in _tokens(module, wanted):
        row: Printed = printed(first_lines(module.text(token)))
        cells = {name: unescaped(cell[1:-1]) if cell[:1] == '"' else cell for name, cell in row.cells.items()}
        about: Dict[str, Any] = {"is": "row", "token": str(token), "table": token.table}
        about.update(name=names.of(token) or None, generation=row.place[0], position=row.place[1], columns=cells)
        about["owner"] = str(Token(row.owner)) if row.owner else None
        yield {**about, "change": change} if change else about


def _own(
    part: bytes, number: int, begins: Optional[Dict[str, int]], wanted: dumping.Wanted
) -> Iterator[Dict[str, Any]]:
    """What a generation's own file has beside rows: of a delta EncLog and EncMap, and the heaps."""
    if number:
        try:
            found = _raw.raw(part)
        except ValueError as error:
            yield {"is": "unread", "generation": number, "why": str(error)}
            return
        if wanted.has(table("EncLog").number):
            for token, function in found.log():
                yield {"is": "log", "generation": number, "token": str(token), "function": function}
        if wanted.has(table("EncMap").number):
            yield from ({"is": "map", "generation": number, "token": str(token)} for token in found.map())
    if wanted.table is None:
        yield from _heaps(part, number, begins)


def _heaps(part: bytes, number: int, begins: Optional[Dict[str, int]]) -> Iterator[Dict[str, Any]]:
    """The entries of a file's heaps, by their offsets in the joined ones; by their own where it isn't known where
    these begin."""
    streams = _raw.streams_in(part) if not number else _raw.raw(part).streams
    for heap in ("#Strings", "#US", "#Blob", "#GUID"):
        begin = begins[heap] if begins and heap != "#GUID" else 0
        for at, entry in _raw.entries(heap, streams.get(heap, b"")):
            if entry:
                text = dumping.entry_text(heap, entry)
                shown = unescaped(text[1:-1]) if text[:1] == '"' else text
                yield {"is": "heap", "generation": number, "heap": heap, "offset": begin + at, "value": shown}


def report_parser() -> Parser:
    """What may stand behind `report`."""
    about = "Saves one page about a base and its deltas, for any browser without a network."
    example = f"  enc-tool report {_BANK} {_BANK}1 {_BANK}2 --source examples/bank -o report.html"
    made = with_chain(Parser("report", "BASE [DELTA ..] -o FILE", about, example))
    made.add_argument("-o", dest="out", metavar="FILE", help="where it is saved; JSON is printed without it")
    made.add_argument("--source", metavar="DIR", action="append", default=[], help="a folder with sources")
    made.add_argument("--title", metavar="TEXT", help="the title of the page")
    made.add_argument("--paths", action="store_true", help="name files with their folders")
    made.add_argument("--open", action="store_true", help="open the page in a browser")
    return finished(made, "the same facts as one JSON document, in place of the page")


def _report_base(word: str) -> str:
    """The word for a base as the report takes it, which knows no `.exe` that isn't named."""
    path = base_file(word)
    return word if os.path.exists(_files.base_path(word)) else path


def report(given: argparse.Namespace, screen: Screen) -> int:
    """Saves a page, or prints its facts."""
    if given.out is None and not given.json:
        raise Problem("report: -o FILE is missing: where is the page saved? (--json prints the facts without it)", 2)
    deltas = distinct(given.deltas)
    for word in deltas:
        delta_paths(word)
    for folder in given.source:
        if not os.path.isdir(folder):
            raise Problem(f"--source {folder} is no folder: name the one with the sources")
    if not given.json and importlib.util.find_spec("jinja2") is None:
        raise Problem("report needs jinja2: Debian's python3-jinja2, or in a checkout pip install './python[report]'")
    chain = (_report_base(given.base), deltas, given.out, given.source)
    text, refused = reporting.made_of(reporting.Request(*chain, given.title, given.json, given.paths))
    if given.out is None:
        sys.stdout.write(text)
    else:
        _files.write(given.out, text.encode("utf-8", "backslashreplace"))
        screen.put(f"saved {safe(given.out)}")
        if given.open and not webbrowser.open(Path(given.out).resolve().as_uri()):
            raise Problem(f"no browser is found: open {given.out} in one")
    if refused is not None:
        raise Problem(refusal_line(refused))
    return 0
