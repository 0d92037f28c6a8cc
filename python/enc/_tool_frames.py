"""Frames as lines of JSON to lines with name, document and line: what `enc-tool symbolicate` asks of modules. Nothing
here prints."""

from __future__ import annotations

import json
import os
import re
from bisect import bisect_right
from typing import Any, Dict, List, NamedTuple, Optional, Tuple

from ._missing import listed
from ._tool_chain import ENDINGS, opened
from ._tool_names import FullNames
from ._tool_words import Problem, listed_near
from .module import Module
from .rows import Token

EXAMPLE = '{"module": "bank", "token": "06000003", "generation": 2, "offset": 11}'
_DELTAS = (".meta", ".dmeta")
_ADDED = ("name", "document", "line")
_TOKEN = re.compile(r"(?:0[xX])?([0-9A-Fa-f]{8})")
_OFFSET = re.compile(r"(?:0[xX]|IL_)([0-9A-Fa-f]{1,8})")
# How many bodies are kept at most, of all modules.
_MOST_BODIES = 200_000


class BadLine(Exception):
    """A line that is no frame, or a frame that is of no body that is given; its text says why."""


class Files(NamedTuple):
    """The base of a module and its deltas, in order."""

    base: str
    deltas: List[str]


class _Body(NamedTuple):
    """A body of a method: its name, how long its code is (None where it has none), the offsets of its points that
    aren't hidden, and what is said of a frame behind each of them; before the first one nothing is known."""

    name: str
    size: Optional[int]
    offsets: List[int]
    said: List[Tuple[Optional[str], Optional[int]]]
    json: List[str]


def plain_name(name: str) -> str:
    """The name of a module without folders and `.dll` or `.exe`.

    >>> plain_name("C:\\\\app\\\\Bank.DLL"), plain_name("bank")
    ('Bank', 'bank')
    """
    last = re.split(r"[/\\]", name)[-1]
    return last[:-4] if last.lower().endswith(ENDINGS) else last


def given_module(word: str) -> Tuple[str, Files]:
    """What `--module` says.

    >>> given_module("bank=out/bank.dll,out/bank1,out/bank2")
    ('bank', Files(base='out/bank.dll', deltas=['out/bank1', 'out/bank2']))
    """
    name, sign, rest = word.partition("=")
    base, *deltas = rest.split(",")
    if not sign or not name or not base or not all(deltas):
        raise Problem(f"symbolicate: --module {word} isn't of the form NAME=BASE[,DELTA..]", 2)
    return name, Files(base, deltas)


def _number_behind(stem: str, base: str) -> Optional[int]:
    """The number of a delta: what its name has behind that of its module, such as 2 of `bank2`, `bank.2` and
    `bank.dll.2`."""
    match = re.fullmatch(r"(?:\.dll|\.exe)?[._-]?(\d{1,9})", stem[len(base) :], re.I)
    return int(match.group(1)) if stem.startswith(base) and match else None


def folder_modules(folder: str) -> Dict[str, Files]:
    """The modules of a folder: each `.dll` and `.exe`, with the deltas whose names go on with a number, in the order of
    these. A delta belongs to the longest name that fits."""
    try:
        names = sorted(os.listdir(folder))
    except OSError as error:
        raise Problem(f"--modules {folder}: {error.strerror}: name a folder with modules and their deltas") from None
    bases = {name[:-4]: name for name in reversed(names) if name.lower().endswith(ENDINGS)}
    if not bases:
        raise Problem(f"--modules {folder}: there is no .dll and no .exe in it")
    deltas: Dict[str, List[Tuple[int, str]]] = {base: [] for base in bases}
    for name in names:
        stem, ending = os.path.splitext(name)
        found = [base for base in bases if ending in _DELTAS and _number_behind(stem, base) is not None]
        if found:
            base = max(found, key=len)
            deltas[base].append((_number_behind(stem, base) or 0, os.path.join(folder, name)))
    return {
        base: Files(os.path.join(folder, name), [path for _, path in sorted(deltas[base])])
        for base, name in bases.items()
    }


def _whole(value: Any, form: "re.Pattern[str]", name: str, right: str) -> int:
    """A number of a frame, or its text; the first group of a form has its digits."""
    if isinstance(value, int) and not isinstance(value, bool) and 0 <= value < 1 << 32:
        return value
    match = form.fullmatch(value) if isinstance(value, str) else None
    if match is None:
        raise BadLine(f'"{name}" is {json.dumps(value)[:80]}, and should be {right}')
    return int(match.group(1), 16)


class Desk:
    """The modules, each opened when the first frame asks for it, and the bodies that were asked for."""

    def __init__(self, modules: Dict[str, Files]) -> None:
        self._modules = modules
        self._plain = {plain_name(name): name for name in modules}
        self._opened: Dict[str, Tuple[Module, FullNames]] = {}
        self._failed: Dict[str, str] = {}
        self._bodies: Dict[Tuple[Any, ...], _Body] = {}

    def answer(self, line: bytes) -> str:
        """The line with name, document and line; `BadLine` where it is no frame of a module that is given."""
        frame = self._read(line)
        body, at = self._placed(frame)
        line = line.strip()
        is_plain = line.isascii() and line[-1:] == b"}" and b"\r" not in line and b"\0" not in line
        if is_plain and not any(name in frame for name in _ADDED):
            return line.decode("ascii")[:-1].rstrip() + body.json[at]
        document, number = body.said[at]
        try:
            return json.dumps({**frame, "name": body.name, "document": document, "line": number})
        except RecursionError:
            raise BadLine("its values lie too deep in each other") from None

    def told(self, line: bytes) -> str:
        """The same as one line of text, as a stack trace has it."""
        body, at = self._placed(self._read(line))
        document, number = body.said[at]
        return f"at {body.name}" + (f" in {document}:line {number}" if number else "")

    def _read(self, line: bytes) -> Dict[str, Any]:
        """A frame."""
        try:
            frame = json.loads(line)
        except (ValueError, RecursionError) as error:
            raise BadLine(f"it is no JSON ({error}): a frame is {EXAMPLE}") from None
        if not isinstance(frame, dict):
            raise BadLine(f"it is {type(frame).__name__} and no object: a frame is {EXAMPLE}")
        missing = [name for name in ("module", "token", "offset") if name not in frame]
        if missing:
            raise BadLine(f'there is no "{missing[0]}": a frame is {EXAMPLE}')
        if not isinstance(frame["module"], str):
            raise BadLine(f'"module" is {json.dumps(frame["module"])[:80]}, and should be a name such as "bank"')
        return frame

    def _placed(self, frame: Dict[str, Any]) -> Tuple[_Body, int]:
        """The body of a frame, and which of its points stands before the frame."""
        offset = frame["offset"]
        if type(offset) is not int or offset < 0:
            offset = _whole(offset, _OFFSET, "offset", 'a number from 0, or such as "IL_000b"')
        token, generation = frame["token"], frame.get("generation")
        key = (frame["module"], token, generation, type(token), type(generation))
        try:
            body = self._bodies.get(key)
        except TypeError:
            body = None
        if body is None:
            body = self._body(*key[:3])
            if len(self._bodies) >= _MOST_BODIES:
                self._bodies.clear()
            self._bodies[key] = body
        if body.size is not None and offset >= body.size:
            raise BadLine(f"offset {offset} is past the end of {body.name}, which has {body.size} bytes of code there")
        return body, bisect_right(body.offsets, offset)

    def _body(self, name: str, token_given: Any, generation_given: Any) -> _Body:
        """The body of a method at a generation."""
        module, names = self._module(name)
        token = Token(_whole(token_given, _TOKEN, "token", 'eight digits such as "06000003", or their number'))
        generation = module.generation
        if generation_given is not None:
            if type(generation_given) is not int or not 0 <= generation_given <= module.generation:
                there = f"{name} has 0 (the base) to {module.generation}"
                raise BadLine(f'"generation" is {json.dumps(generation_given)[:80]}, and {there}')
            generation = generation_given
        if token.table != "MethodDef":
            raise BadLine(f"{token} is no method: the tokens of methods begin with 06")
        return _body_of(module, names, token, generation)

    def _module(self, name: str) -> Tuple[Module, FullNames]:
        """A module by its name, opened once."""
        known = name if name in self._modules else self._plain.get(plain_name(name))
        if known is None:
            words = listed_near(f"no module {json.dumps(name)[:80]} is given", plain_name(name), self._modules)
            raise BadLine(words if words.endswith("?") else f"{words}: they are {listed(self._modules)}")
        if known in self._failed:
            raise BadLine(self._failed[known])
        if known not in self._opened:
            try:
                module = opened(*self._modules[known]).module
            except Problem as problem:
                self._failed[known] = f"the module {known} can't be opened: {problem.words}"
                raise BadLine(self._failed[known]) from None
            self._opened[known] = (module, FullNames(module))
        return self._opened[known]


def _body_of(module: Module, names: FullNames, token: Token, generation: int) -> _Body:
    """A body with its points."""
    view = module.at(generation)
    if token not in view:
        try:
            view.text(token)
        except LookupError as error:
            raise BadLine(f"at generation {generation} {error}") from None
    size = len(view.body(token).code) if view.has_body(token) else None
    points = [point for point in view.points(token) if not point.hidden]
    said: List[Tuple[Optional[str], Optional[int]]] = [(None, None)]
    said += [(point.document, point.start_line) for point in points]
    name = names.full(token)
    texts = [json.dumps({"name": name, "document": document, "line": line}) for document, line in said]
    return _Body(name, size, [point.offset for point in points], said, [", " + text[1:] for text in texts])
