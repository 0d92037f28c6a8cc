"""`python3 -m enc report`: one page of HTML about a base and its deltas, which any browser opens without a network.

The page says what the library says: rows and bodies are taken from what it answers. Of a delta that is refused the
library keeps nothing, so its rows are taken from its file, as `dump` takes them, and the page says so."""

from __future__ import annotations

import argparse
import base64
import functools
import hashlib
import importlib
import importlib.util
import json
import os
import sys
import webbrowser
from pathlib import Path
from typing import Any, Dict, List, NamedTuple, Optional, Tuple

from . import _files, _refusal_page
from ._plot import plot_of
from ._refused import Refused
from ._report_chain import chain_of, said_of
from ._report_facts import Change, Facts, gathered, shown_path
from ._report_json import facts_of
from ._report_names import Names
from ._report_pack import packed
from ._report_text import cut, file_name, some
from ._refusal_page import Refusal
from ._sides import texts
from ._sources import Sources
from .module import Module

ABOUT = """Saves one page about a base and its deltas, for any browser without a network: which methods changed and how,
by name, in lines of source and of IL, and of a refused delta the rule that it breaks."""

HERE = Path(__file__).resolve().parent
STYLES, SCRIPTS = ("report.css",), ("report_diff.js", "report_rows.js", "report.js")

# Up to so many deltas and changes of methods the summary is a table, and above a grid.
MOST_DELTAS = 8
MOST_LISTED = 50
# How many links the list at the side has, and how long the page's plain text for browsers without scripts gets.
MOST_LINKS = 30
MOST_OTHERS = 60
MOST_PLAIN = 300_000


def digest(text: str) -> str:
    """The hash by which a content policy lets an inline style or script in."""
    return "sha256-" + base64.b64encode(hashlib.sha256(text.encode()).digest()).decode()


def breaking(text: str) -> Any:
    """A name that may break behind its dots, commas and brackets, and nowhere else."""
    markupsafe = importlib.import_module("markupsafe")
    shown = str(markupsafe.escape(text))
    for sign in (".", ", ", "("):
        shown = shown.replace(sign, f"{sign}<wbr>")
    return markupsafe.Markup(shown)


@functools.lru_cache(None)
def environment() -> Any:
    """Jinja's environment: all that isn't marked as safe is escaped."""
    jinja2 = importlib.import_module("jinja2")
    made = jinja2.Environment(
        loader=jinja2.FileSystemLoader(HERE),
        autoescape=True,
        trim_blocks=True,
        lstrip_blocks=True,
        undefined=jinja2.StrictUndefined,
    )
    made.filters["number"] = lambda number: f"{number:,}"
    made.filters["cut"] = cut
    made.filters["some"] = some
    made.filters["breaking"] = breaking
    return made


class Row(NamedTuple):
    """A method of the summary, with its changes in the order of their generations."""

    declared: Any
    changes: List[Change]


class Known(NamedTuple):
    """What is known of a chain: the title, how many deltas were given and taken, the facts, the refusal."""

    title: str
    given: int
    taken: int
    facts: Optional[Facts]
    names: Optional[Names]
    refusal: Optional[Refusal]


def rows_of(changes: List[Change]) -> List[Row]:
    """The methods of the summary: those that are changed, then those that are new, by name."""
    found: Dict[int, Row] = {}
    for change in changes:
        found.setdefault(change.item.token, Row(change.declared, [])).changes.append(change)
    states = ("changed", "none", "added", "moved", "same")

    def order(row: Row) -> Tuple[int, str]:
        found = [one.state for one in row.changes]
        return states.index("added" if "added" in found else min(found, key=states.index)), row.declared.name

    return sorted(found.values(), key=order)


def plain_of(facts: Facts) -> Dict[int, str]:
    """What browsers without scripts show of each generation: its methods as plain diffs, and its rows. Nothing where
    that is too long."""
    found: Dict[int, str] = {}
    length = 0
    for number in facts.groups:
        lines: List[str] = []
        for change in facts.changes:
            if change.generation == number:
                source = change.source.pairs if change.source else []
                lines += [f"{change.item.token} {change.declared}", *texts(source), *texts(change.pairs), ""]
        for group in facts.groups[number]:
            lines += [f"{group.table}: {one.token} {one.name}" for one in group.items]
        found[number] = "\n".join(lines)
        length += len(found[number])
        if length > MOST_PLAIN:
            return {}
    return found


def _links(facts: Facts, rows: List[Row]) -> List[Tuple[str, str]]:
    """Where the list at the side leads: to methods, or to generations where there are too many."""
    if len(rows) <= MOST_LINKS:
        return [(f"g{row.changes[-1].generation}-{row.changes[-1].item.token}", row.declared.name) for row in rows]
    numbers = [number for number in facts.groups]
    often = -(-len(numbers) // MOST_LINKS) if numbers else 1
    runs = [numbers[i : i + often] for i in range(0, len(numbers), often)]
    names = [f"Generations {run[0]} to {run[-1]}" if len(run) > 1 else f"Generation {run[0]}" for run in runs]
    return [(f"g{run[0]}", name) for run, name in zip(runs, names)]


def _of_facts(known: Known) -> Dict[str, Any]:
    """What the page shows of the facts."""
    facts = known.facts
    if facts is None or known.names is None:
        return {"facts": None, "rows": [], "links": [], "plot": None, "chain": None, "plain": {}, "data": None}
    rows = rows_of(facts.changes)
    is_grid = len(facts.groups) > MOST_DELTAS or len(facts.changes) > MOST_LISTED
    made = packed(facts, known.names)
    return {
        "facts": facts, "rows": rows, "is_grid": is_grid, "links": _links(facts, rows), "plain": plain_of(facts),
        "said": {number: ", ".join(said_of(facts, number)) for number in facts.groups},
        "plot": plot_of([head for head in facts.heads.values() if head.number]),
        "chain": chain_of(facts, known.refusal), "data": made.text, "without": made.without,
        "others": facts.others[:MOST_OTHERS], "unopened": len(facts.changes) > MOST_LISTED,
    }  # fmt: skip


def rendered(known: Known) -> str:
    """The page of what is known of a chain."""
    style, script = ("".join((HERE / name).read_text() for name in names) for names in (STYLES, SCRIPTS))
    inline = {"style": style, "script": script, "hashes": (digest(style), digest(script))}
    about = {"alone": False, "title": known.title, "given": known.given, "taken": known.taken, "refusal": known.refusal}
    text: str = environment().get_template("report.html.jinja").render(**inline, **about, **_of_facts(known))
    return text


def chain_picture(module: Module, paths: List[str]) -> str:
    """The picture of a module's chain as a file of its own; `paths` are those of the base and the deltas."""
    facts, _ = gathered(module, paths, Sources([]), False)
    picture = environment().get_template("report_chain.svg.html.jinja")
    made: str = picture.render(chain=chain_of(facts, None), alone=True)
    return made.strip() + "\n"


class Request(NamedTuple):
    """What is asked for: the files of a chain, where the page is saved (None: to standard output), where sources are,
    the title, whether JSON is saved in place of a page, whether folders are named, whether a browser is opened."""

    base: str
    deltas: List[str]
    out: Optional[str]
    sources: List[str]
    title: Optional[str] = None
    json: bool = False
    paths: bool = False
    open: bool = False


def load(request: Request, module: Module) -> Tuple[int, Optional[Tuple[bytes, Refused]]]:
    """Adds the deltas, up to the first that is refused: how many were added, the refused one's metadata and refusal."""
    for number, path in enumerate(request.deltas):
        files = _files.delta_files(path, None, None)
        try:
            module.apply(files.first, files.second, files.pdb)
        except Refused as refused:
            named = Refused(refused.code, refused.place, refused.rule, files.refused_file(refused.code))
            return number, (files.first, named)
    return len(request.deltas), None


def known_of(request: Request, module: Module, title: str) -> Tuple[Known, Optional[Refused]]:
    """What is known of a chain, and what was refused."""
    taken, failed = load(request, module)
    paths = [request.base, *request.deltas]
    facts, names = gathered(module, paths, Sources(request.sources), request.paths)
    asked = _refusal_page.Asked(module, paths, shown_path(request.paths))
    refusal = _refusal_page.of_delta(asked, taken, *failed) if failed else None
    return Known(title, len(request.deltas), taken, facts, names, refusal), failed[1] if failed else None


def formed(request: Request, known: Known) -> str:
    """The page or the JSON."""
    if request.json:
        return json.dumps(facts_of(known.title, known.facts, known.refusal), indent=1) + "\n"
    return rendered(known)


def made_of(request: Request) -> Tuple[str, Optional[Refused]]:
    """The page or the JSON, and what was refused."""
    title = request.title or f"{file_name(request.base)} and {some(len(request.deltas), 'delta')}"
    try:
        module = Module(request.base)
    except Refused as refused:
        said = _refusal_page.of_base(refused, shown_path(request.paths))
        return formed(request, Known(title, len(request.deltas), 0, None, None, said)), refused
    with module:
        known, failed = known_of(request, module, title)
        return formed(request, known), failed


def report(request: Request) -> int:
    """Saves the page and tells the status: 1 where a file is refused, which the page says too."""
    for path in [*request.sources, *(part for delta in request.deltas for part in _files.delta_paths(delta)[:2])]:
        os.stat(path)
    text, refused = made_of(request)
    status = 1 if refused is not None else 0
    if request.out is None:
        print(text, end="")
        return status
    try:
        _files.write(request.out, text.encode("utf-8", "backslashreplace"))
    except OSError as error:
        print(f"{request.out}: {error.strerror}", file=sys.stderr)
        return 4
    if refused is not None:
        print(f"refused {refused.file} {refused.code} {refused.place}")
    print(f"saved {request.out}")
    if request.open and not webbrowser.open(Path(request.out).resolve().as_uri()):
        print("no browser is found", file=sys.stderr)
    return status


def parser() -> argparse.ArgumentParser:
    """What may stand behind `report`."""
    made = argparse.ArgumentParser(prog="python3 -m enc report", description=ABOUT)
    made.add_argument("base", metavar="BASE", help="the base, with .dll or without")
    made.add_argument("deltas", metavar="DELTA", nargs="*", help="what the files of a delta begin with, or one of them")
    made.add_argument("-o", dest="out", metavar="FILE", help="where it is saved; JSON is printed without it")
    made.add_argument("--source", metavar="DIR", action="append", default=[], help="a folder with sources")
    made.add_argument("--title", metavar="TEXT", help="the title of the page")
    made.add_argument("--json", action="store_true", help="the same facts as JSON, in place of the page")
    made.add_argument("--paths", action="store_true", help="name files with their folders")
    made.add_argument("--open", action="store_true", help="open the page in a browser")
    return made


def command(words: List[str]) -> int:
    """Does what the words behind `report` say, and tells the status."""
    asking = parser()
    given = asking.parse_intermixed_args(words)
    if given.out is None and not given.json:
        asking.error("the following arguments are required: -o")
    if not given.json and importlib.util.find_spec("jinja2") is None:
        about = "Debian's python3-jinja2, or in a checkout: pip install './python[report]'"
        print(f"enc report needs jinja2: {about}", file=sys.stderr)
        return 4
    chain = (given.base, given.deltas, given.out, given.source)
    return report(Request(*chain, given.title, given.json, given.paths, given.open))
