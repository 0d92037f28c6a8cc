"""`enc-tool symbolicate`: reads lines of frames, answers them in one process or several, and prints them in order."""

from __future__ import annotations

import argparse
import multiprocessing
import os
import signal
import stat
import sys
from collections import deque
from concurrent.futures import Future, ProcessPoolExecutor
from concurrent.futures.process import BrokenProcessPool
from typing import Any, BinaryIO, Deque, Dict, Iterator, List, NamedTuple, Optional

from ._report_text import some
from ._tool_frames import BadLine, Desk, Files, folder_modules, given_module
from ._tool_screen import Bar, Screen
from ._tool_words import Parser, Problem, finished, safe

# How many lines are answered at once by this process, how many one of several is given, and how many such heaps wait
# for each.
_FEW = 200
_LINES = 2000
_WAITING = 3
_MOST_JOBS = 256


class Numbered(NamedTuple):
    """Lines of a file: its name (nothing for standard input), the number of the first, and the lines."""

    file: str
    first: int
    lines: List[bytes]


class Answered(NamedTuple):
    """What came of lines: what is printed, what is told of bad lines, how many lines and bytes there were."""

    text: str
    bad: List[str]
    lines: int
    size: int


def symbolicate_parser() -> Parser:
    """What may stand behind `symbolicate`."""
    about = (
        "Adds name, document and line to frames. A frame is a line of JSON: module, token, generation (the newest\n"
        "where it is left out) and offset. Other keys stay. A bad line is told by its number and passed over."
    )
    example = (
        "  enc-tool symbolicate frames.jsonl --module bank=examples/bank/bank,examples/bank/bank1,examples/bank/bank2"
    )
    made = Parser("symbolicate", "[FILE ..] --module NAME=BASE[,DELTA..] | --modules DIR", about, example)
    made.add_argument("files", metavar="FILE", nargs="*", help="lines of JSON; - or none: standard input")
    about = "a module by the name that frames have, with its deltas; may stand several times"
    made.add_argument("--module", metavar="NAME=BASE[,DELTA..]", action="append", default=[], help=about)
    about = "a folder with modules and their deltas, numbered: bank.dll, bank1.meta or bank.dll.1.dmeta .."
    made.add_argument("--modules", metavar="DIR", action="append", default=[], help=about)
    made.add_argument("--jobs", type=int, metavar="N", default=1, help="so many processes")
    made.add_argument("--text", action="store_true", help="print lines as a stack trace has them")
    return finished(made, "print lines of JSON, which is so anyway")


def _modules(given: argparse.Namespace) -> Dict[str, Files]:
    """The modules that are given; `--module` counts where a folder has the same name."""
    found: Dict[str, Files] = {}
    for folder in given.modules:
        found.update(folder_modules(folder))
    found.update(given_module(word) for word in given.module)
    if not found:
        raise Problem("symbolicate: no module is given: --module NAME=BASE[,DELTA..] or --modules DIR", 2)
    return found


def _checked(given: argparse.Namespace) -> List[str]:
    """The files that are read; a `Problem` where one can't be."""
    if not 1 <= given.jobs <= _MOST_JOBS:
        raise Problem(f"symbolicate: --jobs is {given.jobs}, and should be 1 to {_MOST_JOBS}", 2)
    if given.json and given.text:
        raise Problem("symbolicate: --json and --text are given: one of them", 2)
    for path in given.files:
        if path != "-":
            open(path, "rb").close()
    files: List[str] = given.files or ["-"]
    if "-" in files and sys.stdin is None:
        raise Problem("standard input is closed: name a file with frames")
    return files


def _total(files: List[str]) -> Optional[int]:
    """How many bytes are read; None where that isn't known."""
    try:
        stats = [os.fstat(sys.stdin.fileno()) if path == "-" else os.stat(path) for path in files]
    except (OSError, ValueError):
        return None
    return sum(one.st_size for one in stats) if all(stat.S_ISREG(one.st_mode) for one in stats) else None


def _heaps(file: BinaryIO, name: str, count: int) -> Iterator[Numbered]:
    """The lines of a file, so many at once."""
    first, lines = 1, []
    for line in file:
        lines.append(line)
        if len(lines) == count:
            yield Numbered(name, first, lines)
            first, lines = first + count, []
    if lines:
        yield Numbered(name, first, lines)


def _as_they_come(file: Any) -> Iterator[Numbered]:
    """The lines of a pipe or a terminal: as many at once as are there, so that none waits for the next."""
    first, begun = 1, []
    while True:
        part = file.read1(1 << 16)
        *whole, rest = part.split(b"\n")
        if whole or not part:
            begun.append(whole[0] if whole else b"")
            lines = [line + b"\n" for line in (b"".join(begun), *whole[1:])]
            yield Numbered("", first, lines)
            first, begun = first + len(lines), []
        if not part:
            return
        begun.append(rest)


def _read(files: List[str], count: int) -> Iterator[Numbered]:
    """The lines of all files, so many at once."""
    for path in files:
        if path == "-" and count < _LINES and _total([path]) is None:
            yield from _as_they_come(sys.stdin.buffer)
        elif path == "-":
            yield from _heaps(sys.stdin.buffer, "", count)
        else:
            with open(path, "rb") as file:
                yield from _heaps(file, path, count)


def _answered(desk: Desk, lines: Numbered, as_text: bool) -> Answered:
    """The answers to lines."""
    found, bad = [], []
    answer = desk.told if as_text else desk.answer
    for number, line in enumerate(lines.lines, lines.first):
        if line.isspace():
            continue
        try:
            found.append(answer(line))
        except BadLine as error:
            where = f"{lines.file}, line {number}" if lines.file else f"line {number}"
            bad.append(safe(f"{where}: {error}"))
    if as_text:
        found = [safe(line) for line in found]
    text = "\n".join(found) + "\n" if found else ""
    return Answered(text, bad, len(lines.lines), sum(map(len, lines.lines)))


_desk: Optional[Desk] = None


def _begin(modules: Dict[str, Files]) -> None:
    """Makes the desk of a process; an interrupt is its parent's affair."""
    global _desk
    signal.signal(signal.SIGINT, signal.SIG_IGN)
    _desk = Desk(modules)


def _work(lines: Numbered, as_text: bool) -> Answered:
    """The answers of a process of its own."""
    assert _desk is not None
    return _answered(_desk, lines, as_text)


def _by_one(modules: Dict[str, Files], files: List[str], as_text: bool) -> Iterator[Answered]:
    """The answers of this process."""
    desk = Desk(modules)
    for lines in _read(files, _FEW):
        yield _answered(desk, lines, as_text)


def _by_several(modules: Dict[str, Files], files: List[str], as_text: bool, jobs: int) -> Iterator[Answered]:
    """The answers of several processes, in the order of the lines."""
    around = multiprocessing.get_context("spawn")
    waiting: Deque["Future[Answered]"] = deque()
    try:
        with ProcessPoolExecutor(jobs, around, _begin, (modules,)) as pool:
            for lines in _read(files, _LINES):
                waiting.append(pool.submit(_work, lines, as_text))
                if len(waiting) >= jobs * _WAITING:
                    yield waiting.popleft().result()
            while waiting:
                yield waiting.popleft().result()
    except BrokenProcessPool:
        raise Problem("a process was ended from outside, so not all lines are answered: try fewer --jobs") from None


def _put(answered: Answered, bar: Bar) -> None:
    """Prints answers, and tells of bad lines."""
    if answered.bad or sys.stdout.isatty():
        bar.clear()
    sys.stdout.write(answered.text)
    for words in answered.bad:
        sys.stderr.write(f"enc-tool: {words}\n")


def symbolicate(given: argparse.Namespace, screen: Screen) -> int:
    """Prints frames with what they mean; status 1 where a line was passed over."""
    files, modules = _checked(given), _modules(given)
    bar = Bar(sys.stderr, _total(files))
    several = given.jobs > 1
    made = _by_several(modules, files, given.text, given.jobs) if several else _by_one(modules, files, given.text)
    counts: Any = [0, 0, 0]
    try:
        for answered in made:
            _put(answered, bar)
            counts = [counts[0] + answered.lines, counts[1] + answered.size, counts[2] + len(answered.bad)]
            bar.at(counts[1], counts[0])
            if "-" in files:
                sys.stdout.flush()
    finally:
        bar.clear()
    sys.stdout.flush()
    if counts[2]:
        raise Problem(f"{counts[2]:,} of {some(counts[0], 'line')} {_passed(counts[2])}: the others are printed")
    return 0


def _passed(count: int) -> str:
    """What has happened to bad lines."""
    return "is passed over" if count == 1 else "are passed over"
