"""The program `enc-tool`: questions about a .NET module and its Edit and Continue deltas, by names.

It asks the package `enc` and prints. `enc-tool --help` lists its commands, docs/tool.md tells them."""

from __future__ import annotations

import argparse
import errno
import os
import sys
from typing import List, Optional, Tuple

from ._refused import Refused
from ._tool_chain import refusal_line
from ._tool_completion import completion, completion_parser
from ._tool_diff import diff, diff_parser
from ._tool_dump import dump, dump_parser, report, report_parser
from ._tool_rows import find, find_parser, history, history_parser, lines, lines_parser
from ._tool_rows import methods, methods_parser, show, show_parser
from ._tool_screen import Screen, wants_color
from ._tool_symbolicate import symbolicate, symbolicate_parser
from ._tool_words import Command, Problem, listed_near, safe


def _completion(given: argparse.Namespace, screen: Screen) -> int:
    return completion(given, screen, COMMANDS)


COMMANDS: Tuple[Command, ...] = (
    Command("find", "the tokens of a name", find_parser, find),
    Command("show", "a row, and of a method its IL", show_parser, show),
    Command("methods", "all methods", methods_parser, methods),
    Command("diff", "what each delta changed", diff_parser, diff),
    Command("lines", "the sequence points of a method", lines_parser, lines),
    Command("history", "the generations that changed a row", history_parser, history),
    Command("symbolicate", "frames to names, documents and lines", symbolicate_parser, symbolicate),
    Command("dump", "rows in tables", dump_parser, dump),
    Command("report", "one page about a chain", report_parser, report),
    Command("completion", "a script for bash, zsh or fish", completion_parser, _completion),
)


def usage() -> str:
    """What `enc-tool --help` prints."""
    width = max(len(command.name) for command in COMMANDS)
    rows = [f"  {command.name.ljust(width)}  {command.about}" for command in COMMANDS]
    return "\n".join(
        [
            "usage: enc-tool COMMAND ..",
            "",
            "Questions about a .NET module and the Edit and Continue deltas that follow it.",
            "",
            *rows,
            "",
            "enc-tool COMMAND --help tells what may stand behind one, with an example.",
            "example:",
            "  enc-tool find examples/bank/bank '*Deposit*' examples/bank/bank1",
        ]
    )


def _run(words: List[str]) -> int:
    """Does what the words say."""
    first = words[0] if words else ""
    if first in ("-h", "--help", "help") and (len(words) == 1 or first != "help"):
        print(usage())
        return 0
    if first == "--version":
        from . import __version__

        print(f"enc-tool {__version__}")
        return 0
    if first == "help":
        words = [words[1], "--help"]
    known = {command.name: command for command in COMMANDS}
    if not words or words[0] not in known:
        names = ", ".join(known)
        said = listed_near(f"there is no command {safe(words[0])}", words[0], known) if words else "no command is given"
        raise Problem(f"{said} (commands are {names})", 2)
    command = known[words[0]]
    given = command.parser().parse_intermixed_args(words[1:])
    return command.run(given, Screen(wants_color(given.color, sys.stdout)))


def _say(words: str) -> None:
    """Says one line on standard error."""
    try:
        sys.stderr.write(f"enc-tool: {safe(words)}\n")
    except (OSError, ValueError):
        pass


def _quiet() -> int:
    """What a closed pipe comes to: what is left to print goes nowhere."""
    try:
        os.dup2(os.open(os.devnull, os.O_WRONLY), sys.stdout.fileno())
    except (OSError, ValueError):
        pass
    return 5


def _of_system(error: OSError) -> int:
    """What an error of the system comes to: 1 where a file can't be read or saved, 5 where the output can't be
    written."""
    if isinstance(error, BrokenPipeError) or error.errno == errno.EPIPE:
        return _quiet()
    if error.errno is None:
        _say(str(error))
        return 1
    if error.filename is None:
        _say(f"standard output: {error.strerror or error}")
        return _quiet()
    _say(f"{os.fsdecode(error.filename)}: {error.strerror}")
    return 1


def _ready() -> None:
    """Sees that there are a standard output and a standard error, and that each takes any text."""
    if sys.stderr is None:
        sys.stderr = open(os.devnull, "w")
    if sys.stdout is None:
        sys.stdout = open("/dev/full" if os.path.exists("/dev/full") else os.devnull, "w")
    for stream in (sys.stdout, sys.stderr):
        if hasattr(stream, "reconfigure"):
            stream.reconfigure(errors="backslashreplace")


def main(words: Optional[List[str]] = None) -> int:
    """Does what the words say, and tells the status: 0, 1 where a file is refused or missing or nothing is found, 2 for
    wrong words, 3 where memory ran out, 5 where the output can't be written."""
    _ready()
    try:
        try:
            status = _run(sys.argv[1:] if words is None else words)
        except SystemExit as end:
            status = end.code if isinstance(end.code, int) else 0
        sys.stdout.flush()
        return status
    except Problem as problem:
        return _after(problem)
    except Refused as refused:
        return _after(Problem(refusal_line(refused)))
    except OSError as error:
        return _of_system(error)
    except KeyboardInterrupt:
        return 130
    except MemoryError:
        _say("memory ran out")
        return 3


def _after(problem: Problem) -> int:
    """Says a problem behind what was printed before it."""
    try:
        sys.stdout.flush()
    except OSError as error:
        return _of_system(error)
    _say(problem.words)
    return problem.status


if __name__ == "__main__":
    sys.exit(main())
