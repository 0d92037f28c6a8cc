"""The files that `enc-tool` is given: which ones a word means, a module opened with its deltas, and refusals in one
line."""

from __future__ import annotations

import os
from typing import List, NamedTuple, Optional, Tuple, Union

from . import _files, _refusal_page
from ._refused import Refused
from ._report_advice import advice
from ._tool_words import Problem, listed_near, safe
from .module import AtGeneration, Module

ENDINGS = (".dll", ".exe")


class Chain(NamedTuple):
    """A module with its deltas, and the words that named the base and them."""

    module: Module
    paths: List[str]

    def at(self, generation: Optional[int]) -> Union[Module, AtGeneration]:
        """The module at a generation, the newest where none is given; a `Problem` where there is no such."""
        if generation is None:
            return self.module
        if not 0 <= generation <= self.module.generation:
            last = self.module.generation
            has = f"they are 0 (the base) to {last}" if last else "no delta is given, so 0 (the base) is the only one"
            raise Problem(f"there is no generation {generation}: {has}")
        return self.module.at(generation)


def _beside(path: str) -> List[str]:
    """The files in a path's folder that may be meant."""
    folder = os.path.dirname(path)
    try:
        return [os.path.join(folder, name) for name in sorted(os.listdir(folder or "."))]
    except OSError:
        return []


def _no_file(what: str, path: str, tried: List[str], endings: Tuple[str, ...]) -> Problem:
    """What says that a file isn't there: what was looked for, and what comes near."""
    known = [name for name in _beside(path) if name.endswith(endings)]
    words = f"no {what} {safe(path)}: there is no {' and no '.join(safe(one) for one in tried)}"
    return Problem(listed_near(words, tried[0], known))


def base_file(word: str) -> str:
    """The file of a base: `bank`, `bank.dll` or `bank.exe`. Without an ending `.dll` comes first, then `.exe`, then the
    word itself.

    >>> base_file("examples/bank/bank"), base_file("examples/bank/bank.dll")
    ('examples/bank/bank.dll', 'examples/bank/bank.dll')
    """
    has_ending = word.lower().endswith(ENDINGS)
    tried = [word] if has_ending else [*(word + ending for ending in ENDINGS), word]
    for path in tried:
        if os.path.isfile(path) or (path != word and os.path.exists(path)):
            return path
    if os.path.isdir(word):
        within = os.path.join(word, "bank.dll")
        raise Problem(f"{safe(word)} is a folder: name the module in it, such as {safe(within)}")
    if os.path.exists(word):
        return word
    raise _no_file("module", word, tried[:2], ENDINGS)


def base_pdb(path: str) -> Union[str, bytes]:
    """The PDB beside a base, no bytes where there is none."""
    stem = path[:-4] if path.lower().endswith(ENDINGS) else path
    return stem + ".pdb" if os.path.isfile(stem + ".pdb") else b""


def delta_paths(word: str) -> Tuple[str, str, Optional[str]]:
    """The files of a delta; a `Problem` where its metadata or its IL isn't there."""
    meta, il, pdb = _files.delta_paths(word)
    if not os.path.exists(meta):
        stem = next((word[: -len(end)] for family in _files.FAMILIES for end in family if word.endswith(end)), word)
        tried = [stem + family[0] for family in _files.FAMILIES]
        raise _no_file("delta", word, tried, tuple(family[0] for family in _files.FAMILIES))
    if not os.path.exists(il):
        raise Problem(f"the delta {safe(word)} has {safe(meta)}, but there is no {safe(il)}: both are needed")
    return meta, il, pdb


def distinct(words: List[str]) -> List[str]:
    """The words for deltas, one for each: several files of one delta that follow each other, as a shell's `bank1.*`
    gives them, are that one. The same word twice is the delta twice."""
    found: List[str] = []
    meant: List[str] = []
    last = ""
    for word in words:
        meta = delta_paths(word)[0]
        if meta != last or word in meant:
            found.append(word)
            last, meant = meta, []
        elif _files.delta_paths(os.path.splitext(meta)[0])[0] == meta:
            found[-1] = os.path.splitext(meta)[0]
        meant.append(word)
    return found


def refusal_line(refused: Refused, said: Optional[_refusal_page.Refusal] = None) -> str:
    """A refusal in one line: the file, the rule, the place, what is found and expected, what to do."""
    place = f" at {refused.place}" if refused.place else ""
    parts = [f"refused {refused.file or 'the file'}: {refused.code}{place}: {refused.rule}"]
    hint = advice(refused.code)
    expected, todo = (said.expected, said.todo) if said else (hint.expected, hint.todo)
    if said and said.found:
        parts.append(f"found {said.found.rstrip('.')}")
    if expected:
        parts.append(f"expected {expected}")
    return safe("; ".join(parts) + (f". {todo}" if todo else "")).replace("`python3 -m enc dump`", "`enc-tool dump`")


def opened_base(word: str) -> Module:
    """A base alone, with the PDB beside it."""
    path = base_file(word)
    try:
        return Module(path, base_pdb(path))
    except Refused as refused:
        raise Problem(refusal_line(refused)) from None


def apply(module: Module, paths: List[str], number: int) -> None:
    """Adds the delta of this number; a `Problem` where it is refused. `paths` are the words for the base and all
    deltas."""
    names = delta_paths(paths[number])
    try:
        files = _files.delta_files(*names)
    except Refused as refused:
        raise Problem(refusal_line(refused)) from None
    try:
        module.apply(files.first, files.second, files.pdb)
    except Refused as refused:
        named = Refused(refused.code, refused.place, refused.rule, files.refused_file(refused.code))
        asked = _refusal_page.Asked(module, paths, str)
        said = _refusal_page.of_delta(asked, number - 1, files.first, named)
        raise Problem(refusal_line(named, said)) from None


def opened(base: str, deltas: List[str]) -> Chain:
    """A base with its deltas; a `Problem` where a file is missing or refused."""
    paths = [base, *distinct(deltas)]
    module = opened_base(base)
    for number in range(1, len(paths)):
        apply(module, paths, number)
    return Chain(module, paths)
