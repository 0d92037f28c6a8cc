"""`enc-tool find`, `show`, `methods`, `lines` and `history`: rows of a module by their names."""

from __future__ import annotations

import argparse
import os
from typing import Any, Dict, List, Sequence, Tuple

from . import _files, _sides
from ._printed import Printed, printed
from ._report_facts import first_lines
from ._report_names import Spelled
from ._report_text import unescaped
from ._tool_chain import Chain, opened
from ._tool_names import OWN, REFERENCES, FullNames, Named, kind_of, matches, meant, nothing_found, pair_of, token_in
from ._tool_screen import Screen
from ._tool_words import Parser, Problem, finished, safe, with_chain, with_generation
from .module import View
from .rows import Point, Token
from .tables import table

METHODS = ("MethodDef",)
_BANK = "examples/bank/bank"


def asked(given: argparse.Namespace) -> Tuple[Chain, FullNames]:
    """The chain that is given, and its names; a `Problem` of another kind where it can't be opened because a delta
    stands in a name's place."""
    try:
        chain = opened(given.base, given.deltas)
    except Problem:
        name = getattr(given, "name", "")
        if name and os.path.isfile(_files.delta_paths(name)[0]):
            raise Problem(f"{name} is a delta, where a name should stand: BASE, a name, deltas", 2) from None
        raise
    return chain, FullNames(chain.module)


def _fields(named: Named, names: FullNames) -> Dict[str, Any]:
    """A row as JSON."""
    kind, signature = pair_of(named, names)
    return {"token": str(named.token), "kind": kind, "name": named.name, "signature": signature or None}


def _heading(named: Named, names: FullNames, screen: Screen) -> str:
    """A row in a line: token, kind, full name."""
    token, kind = screen.paint(str(named.token), "token"), screen.paint(kind_of(named.token), "kind")
    return f"{token} {kind} {screen.paint(named.name, 'name')}".rstrip()


# find


def find_parser() -> Parser:
    """What may stand behind `find`."""
    about = "Tells the tokens of a name. Status 1 where nothing has it."
    example = f"  enc-tool find {_BANK} '*Deposit*' {_BANK}1 {_BANK}2"
    made = with_chain(Parser("find", "BASE NAME [DELTA ..]", about, example), "NAME")
    kinds = [kind_of(Token(table(name).number << 24 | 1)) for name in (*OWN, *REFERENCES)]
    made.add_argument("--kind", choices=kinds, metavar="KIND", help="only rows of this kind: " + ", ".join(kinds))
    made.add_argument("--references", action="store_true", help="types and members of other assemblies too")
    made.add_argument("-i", "--ignore-case", action="store_true", help="whatever the case of letters")
    return finished(made)


def _tables(given: argparse.Namespace) -> Sequence[str]:
    """The tables that `find` goes over."""
    if given.kind:
        return [name for name in (*OWN, *REFERENCES) if kind_of(Token(table(name).number << 24 | 1)) == given.kind]
    return OWN + REFERENCES if given.references else OWN


def find(given: argparse.Namespace, screen: Screen) -> int:
    """Prints the rows that a name means."""
    chain, names = asked(given)
    if token_in(given.name) is not None:
        found = meant(names, chain.module, given.name)
    else:
        found = matches(names, given.name, _tables(given), given.ignore_case)
    if not found:
        raise nothing_found(names, given.name, tables=_tables(given))
    if given.json:
        screen.document([_fields(one, names) for one in found])
        return 0
    kinds, width = max(len(kind_of(one.token)) for one in found), max(len(safe(one.name)) for one in found)
    for one in found:
        kind, signature = pair_of(one, names)
        name = screen.paint(one.name, "name") + " " * (width - len(safe(one.name)))
        token = screen.paint(str(one.token), "token")
        line = f"{token}  {screen.paint(kind, 'kind')}{' ' * (kinds - len(kind))}  {name}  {safe(signature)}"
        screen.put(line.rstrip())
    return 0


# show


def show_parser() -> Parser:
    """What may stand behind `show`."""
    about = "Shows a row, and of a method its IL with names and lines of source."
    example = f"  enc-tool show {_BANK} Account::Print {_BANK}1 {_BANK}2"
    made = with_chain(Parser("show", "BASE NAME|TOKEN [DELTA ..]", about, example), "NAME|TOKEN")
    return finished(with_generation(made, "as it was at generation G; 0: the base"))


def show(given: argparse.Namespace, screen: Screen) -> int:
    """Prints rows."""
    chain, names = asked(given)
    view = chain.at(given.generation)
    found = meant(names, chain.module, given.name)
    there = [one for one in found if one.token in view]
    if not there:
        about = f"{found[0].token} {found[0].name}"
        raise Problem(f"{about} isn't there at generation {given.generation}: a later one adds it")
    shown = [_shown(view, names, one) for one in there]
    if given.json:
        screen.document([one.fields() for one in shown])
        return 0
    for number, one in enumerate(shown):
        if number:
            screen.put()
        for line in one.lines(screen):
            screen.put(line)
    return 0


class _Shown:
    """A row that is shown."""

    def __init__(
        self, named: Named, names: FullNames, row: Printed, il: List[_sides.Line], points: List[Point]
    ) -> None:
        self.named = named
        self.names = names
        self.row = row
        self.il = il
        self.points = points

    def _tokens(self) -> Dict[str, str]:
        """The columns that hold tokens, with the names of these; the owner."""
        columns = table(self.named.token >> 24).columns
        found = {one.name: self.row.cells[one.name] for one in columns if one.kind in ("index", "coded")}
        if self.row.owner:
            found["owner"] = str(Token(self.row.owner))
        return found

    def _beside(self, token: str) -> str:
        """A token and its name."""
        name = self.names.full(Token(token))
        return f"{token} {name}".rstrip()

    def fields(self) -> Dict[str, Any]:
        """It as JSON."""
        generation, position = self.row.place
        children = [str(Token(one)) for kind in self.row.children.values() for one in kind]
        code = [
            {"label": one.label or None, "text": _sides.text_of(one._replace(label="")), "token": one.token or None}
            for one in self.il
        ]
        columns = {name: unescaped(cell[1:-1]) if cell[:1] == '"' else cell for name, cell in self.row.cells.items()}
        about = {**_fields(self.named, self.names), "generation": generation, "position": position, "columns": columns}
        owner = str(Token(self.row.owner)) if self.row.owner else None
        points = [_point_fields(point) for point in self.points]
        return {**about, "owner": owner, "children": children, "il": code, "points": points}

    def lines(self, screen: Screen) -> List[str]:
        """It as text."""
        found = [_heading(self.named, self.names, screen)]
        signature = pair_of(self.named, self.names)[1]
        found += [f"  {safe(signature)}"] if signature else []
        generation, position = self.row.place
        found.append(f"  from {f'delta {generation}' if generation else 'the base'}, row {position} there")
        plain = {**self.row.cells, **{name: "" for name in self._tokens()}}
        found.append("  " + " ".join(f"{name}={safe(unescaped(cell))}" for name, cell in plain.items() if cell))
        found += [f"  {name} {safe(self._beside(token))}" for name, token in self._tokens().items()]
        for kind, children in self.row.children.items():
            one = "property" if kind == "properties" else kind[:-1]
            found += [f"  {one} {safe(self._beside(str(Token(child))))}" for child in children]
        return [line for line in found if line.strip()] + self._code(screen)

    def _code(self, screen: Screen) -> List[str]:
        """The body, with lines of source above the instructions that begin them."""
        at = {point.offset: point for point in self.points}
        found = []
        for line in self.il:
            point = at.get(int(line.label[3:], 16)) if line.label else None
            if point is not None and not point.hidden:
                found.append("    " + screen.paint(f"// {_where(point)}", "dim"))
            token = f" {screen.paint(line.token, 'token')}" if line.token else ""
            found.append(f"    {safe(_sides.text_of(line))}{token}")
        return found


def _meanings(names: FullNames, method: Token) -> _sides.Meanings:
    """What tokens mean in a method's body."""

    def of(token: int) -> Spelled:
        return names.within(method, names.of(token))

    def types(token: int) -> List[Spelled]:
        return [names.within(method, one) for one in names.locals(token)]

    return _sides.Meanings(of, types, {})


def _shown(view: View, names: FullNames, named: Named) -> _Shown:
    """A row with its body and its points."""
    text = view.text(named.token)
    row = printed(first_lines(text)) if named.token.table == "MethodDef" else printed(text)
    il: List[_sides.Line] = []
    points: List[Point] = []
    if named.token.table == "MethodDef":
        meanings = _meanings(names, named.token)
        row = printed("".join(line + "\n" for line in text.splitlines() if not line.startswith("  IL_")))
        for line in text.splitlines()[1:]:
            il += _sides._made(line, meanings)
        points = view.points(named.token)
    return _Shown(named, names, row, il, points)


# methods


def methods_parser() -> Parser:
    """What may stand behind `methods`."""
    about = "Lists the methods: token, newest generation, full name, signature."
    example = f"  enc-tool methods {_BANK} {_BANK}1 {_BANK}2"
    made = with_chain(Parser("methods", "BASE [DELTA ..]", about, example))
    made.add_argument("--changed", action="store_true", help="only those that a delta inserted or updated")
    return finished(made)


def methods(given: argparse.Namespace, screen: Screen) -> int:
    """Prints the methods of a module."""
    chain, names = asked(given)
    found = [(one, chain.module.place(one.token).generation) for one in names.every(METHODS)]
    found = [pair for pair in found if pair[1] or not given.changed]
    if given.json:
        has_body = chain.module.has_body
        screen.document(
            [{**_fields(one, names), "generation": newest, "body": has_body(one.token)} for one, newest in found]
        )
        return 0
    width = max((len(safe(one.name)) for one, _ in found), default=0)
    digits = len(str(chain.module.generation))
    for one, newest in found:
        name = screen.paint(one.name, "name") + " " * (width - len(safe(one.name)))
        token = screen.paint(str(one.token), "token")
        screen.put(f"{token}  {newest:>{digits}}  {name}  {safe(pair_of(one, names)[1])}".rstrip())
    return 0


# lines


def lines_parser() -> Parser:
    """What may stand behind `lines`."""
    about = "Lists the sequence points of a method: IL offset, document, line and column."
    example = f"  enc-tool lines {_BANK} Account::Deposit {_BANK}1 {_BANK}2"
    made = with_chain(Parser("lines", "BASE METHOD [DELTA ..]", about, example), "METHOD")
    return finished(with_generation(made, "those of its body at generation G; 0: the base"))


def _point_fields(point: Point) -> Dict[str, Any]:
    """A point as JSON."""
    if point.hidden:
        return {"offset": point.offset, "hidden": True}
    place = {"line": point.start_line, "column": point.start_column}
    end = {"endLine": point.end_line, "endColumn": point.end_column}
    return {"offset": point.offset, "hidden": False, "document": point.document, **place, **end}


def _where(point: Point) -> str:
    """Where a point is in its source."""
    if point.hidden:
        return "hidden"
    end = f"{point.end_line}:{point.end_column}"
    return f"{point.document or 'no document'}:{point.start_line}:{point.start_column}-{end}"


def lines(given: argparse.Namespace, screen: Screen) -> int:
    """Prints sequence points."""
    chain, names = asked(given)
    view = chain.at(given.generation)
    found = [one for one in meant(names, chain.module, given.name, METHODS) if one.token in view]
    if not found:
        raise Problem(f"{given.name} isn't there at generation {given.generation}: a later one adds it")
    points = {one: view.points(one.token) for one in found}
    if given.json:
        made = [
            {**_fields(one, names), "points": [_point_fields(point) for point in own]} for one, own in points.items()
        ]
        screen.document(made)
        return 0
    for one, own in points.items():
        screen.put(_heading(one, names, screen))
        for point in own:
            screen.put(f"  {screen.paint(f'IL_{point.offset:04x}', 'token')} {safe(_where(point))}")
        if not own:
            screen.put("  no sequence points: " + ("no PDB has any" if view.has_body(one.token) else "it has no body"))
    return 0


# history


def history_parser() -> Parser:
    """What may stand behind `history`."""
    about = "Tells in which generations a row was inserted or updated."
    example = f"  enc-tool history {_BANK} Account::Print {_BANK}1 {_BANK}2"
    return finished(with_chain(Parser("history", "BASE NAME|TOKEN DELTA ..", about, example), "NAME|TOKEN", "+"))


def _events(chain: Chain, tokens: List[Token]) -> Dict[Token, List[Tuple[int, str]]]:
    """What the generations did to rows."""
    base = chain.module.at(0)
    found: Dict[Token, List[Tuple[int, str]]] = {token: [(0, "base")] if token in base else [] for token in tokens}
    for number in range(1, chain.module.generations):
        for entry in chain.module.entries(number):
            if entry.token in found:
                found[entry.token].append((number, "inserted" if entry.inserted else "updated"))
    return found


def history(given: argparse.Namespace, screen: Screen) -> int:
    """Prints the generations of rows."""
    chain, names = asked(given)
    found = {one.token: one for one in meant(names, chain.module, given.name)}
    events = _events(chain, list(found))
    if given.json:
        made = []
        for token, own in events.items():
            each = [{"generation": number, "change": what, "file": chain.paths[number]} for number, what in own]
            made.append({**_fields(found[token], names), "history": each})
        screen.document(made)
        return 0
    for token, own in events.items():
        screen.put(_heading(found[token], names, screen))
        for number, what in own:
            role = {"inserted": "add", "updated": "kind"}.get(what, "dim")
            screen.put(f"  generation {number} {screen.paint(what, role)} {safe(chain.paths[number])}")
    return 0
