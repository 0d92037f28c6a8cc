"""The program `python3 -m enc`. Its commands are `dump`, `prepare` and `report`; the others are those of the program
`enc`."""

from __future__ import annotations

import argparse
import os
import sys
from typing import List, Optional

from . import _files
from ._refused import Refused
from .dump import Wanted, dump
from .prepare import PrepareError
from .report import command as report_command
from .report import parser as report_parser
from .tables import table

ABOUT = """Prints the rows of a module after deltas, in tables, with the names of tokens: the whole, one generation
or one table. Of a delta that is refused it prints what its file has (rows, EncLog, EncMap, heaps), and the rule that
it breaks."""


def _table(word: str) -> int:
    try:
        return table(word).number
    except LookupError as error:
        raise argparse.ArgumentTypeError(str(error)) from None


def parser() -> argparse.ArgumentParser:
    """What may stand behind `dump`."""
    made = argparse.ArgumentParser(prog="python3 -m enc dump", description=ABOUT)
    made.add_argument("base", metavar="BASE", help="the base, with .dll or without")
    about = "what the files of a delta begin with, or one of them"
    made.add_argument("deltas", metavar="DELTA", nargs="*", help=about)
    about = "what the G-th delta inserts and updates; 0: the base"
    made.add_argument("--generation", type=int, metavar="G", help=about)
    about = "one table, by its name or its number (06)"
    made.add_argument("--table", type=_table, metavar="T", help=about)
    return made


def prepare_parser() -> argparse.ArgumentParser:
    """What may stand behind `prepare`."""
    about = """Makes a base that enc accepts of one that a compiler wrote: an embedded PDB is unpacked, and the native
    code of ReadyToRun is marked as not there. Prints what was done."""
    made = argparse.ArgumentParser(prog="python3 -m enc prepare", description=about)
    made.add_argument("file", metavar="FILE", help="the base, with .dll or without")
    made.add_argument("out", metavar="OUT", help="what to save; .dll is added where it has no ending")
    return made


def prepare_command(words: List[str]) -> int:
    """Prepares a file, and tells the status."""
    given = prepare_parser().parse_args(words)
    path = _files.base_path(given.file)
    try:
        made = _files.prepared(_files.read(path), path)
    except PrepareError as error:
        print(f"not prepared {path}: {error}")
        return 1
    except Refused as refused:
        print(f"refused {path} {refused.code} {refused.place}")
        return 1
    stem, ending = os.path.splitext(given.out)
    saved = [(stem + (ending or ".dll"), made.module)]
    if made.pdb is not None:
        saved.append((stem + ".pdb", made.pdb))
    for name, part in saved:
        _files.write(name, part)
    print("\n".join(made.done or ("nothing to prepare",)))
    print("saved", *(name for name, _ in saved))
    return 0


def run(words: List[str]) -> int:
    """Does what the words say, and tells the status: those of the program `enc`."""
    if words[:1] not in (["dump"], ["prepare"], ["report"]):
        parser().print_usage()
        prepare_parser().print_usage()
        report_parser().print_usage()
        return 2
    try:
        if words[0] == "report":
            return report_command(words[1:])
        if words[0] == "prepare":
            return prepare_command(words[1:])
        given = parser().parse_intermixed_args(words[1:])
        return dump(given.base, given.deltas, Wanted(given.generation, given.table), print)
    except FileNotFoundError as error:
        print(f"missing {error.filename}")
        return 6
    except MemoryError:
        return 3


def main(words: Optional[List[str]] = None) -> int:
    """`run`, with what the output may come to: 4 where a file can't be read, 5 where nothing can be written."""
    try:
        status = run(sys.argv[1:] if words is None else words)
        sys.stdout.flush()
        return status
    except BrokenPipeError:
        os.dup2(os.open(os.devnull, os.O_WRONLY), sys.stdout.fileno())
        return 5
    except OSError as error:
        if error.filename is None:
            return 5
        print(f"{error.filename}: {error.strerror}", file=sys.stderr)
        return 4


if __name__ == "__main__":
    sys.exit(main())
