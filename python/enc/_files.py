"""Files of modules and deltas: which ones a path means, and their bytes."""

from __future__ import annotations

import os
from typing import NamedTuple, Optional, Tuple, Union

from ._refused import Refused, rule_words
from .prepare import Prepared, PrepareError, prepare

Path = Union[str, "os.PathLike[str]"]
Source = Union[bytes, bytearray, memoryview, Path]

# The most bytes that a file may have.
LONGEST = 1 << 26

# The names that compilers give the files of a delta.
FAMILIES = ((".meta", ".il", ".pdb"), (".dmeta", ".dil", ".dpdb"))


class Files(NamedTuple):
    """The bytes of a base (no second file) or of a delta, and the paths where they have any."""

    first: bytes
    second: bytes
    pdb: bytes
    names: Tuple[Optional[str], Optional[str]]

    def refused_file(self, code: str) -> Optional[str]:
        """The path of the file that a rule refuses: F12 and E22 are of the PDB."""
        return self.names[1] if code in ("F12", "E22") else self.names[0]


class Delta(NamedTuple):
    """The three files of a delta as bytes.

    >>> Delta(b"BSJB", b"", b"").il
    b''
    """

    meta: bytes
    il: bytes
    pdb: bytes

    def save(self, path: Path) -> None:
        """Saves `PATH.meta`, `PATH.il` and `PATH.pdb`. Raises OSError where they can't be saved."""
        for ending, part in zip(FAMILIES[0], self):
            write(os.fspath(path) + ending, part)


def read(path: str) -> bytes:
    """The bytes of a file; `Refused` (L1) where it has more than a file may have, of which no more is read."""
    with open(path, "rb") as file:
        part = file.read(LONGEST + 1)
    if len(part) > LONGEST:
        raise Refused("L1", "length", rule_words("L1", "length"), path)
    return part


def write(path: str, part: bytes) -> None:
    """Saves a file."""
    with open(path, "wb") as file:
        file.write(part)


def _part(source: Optional[Source]) -> Tuple[bytes, Optional[str]]:
    """The bytes of a source, and its path."""
    if source is None:
        return b"", None
    if isinstance(source, (bytes, bytearray, memoryview)):
        return bytes(source), None
    path = os.fspath(source)
    return read(path), path


def _pdb(source: Optional[Source]) -> Tuple[bytes, Optional[str]]:
    """A PDB. To the library no bytes are no PDB; a file without bytes is one that it refuses, as it does one zero
    byte."""
    part, path = _part(source)
    return (b"\0" if path is not None and not part else part), path


def _beside(path: str) -> Optional[str]:
    return path if os.path.isfile(path) else None


def base_path(path: Path) -> str:
    """The path of a base, given with `.dll` or without.

    >>> base_path("examples/bank/bank")
    'examples/bank/bank.dll'
    >>> base_path("examples/bank/bank.dll")
    'examples/bank/bank.dll'
    """
    path = os.fspath(path)
    if path.endswith(".dll") or (os.path.exists(path) and not os.path.exists(path + ".dll")):
        return path
    return path + ".dll"


def base_files(base: Source, pdb: Optional[Source]) -> Files:
    """A base, with the PDB beside it where none is given."""
    image, path = _base(base)
    return _with_pdb(image, path, pdb)


def prepared_files(base: Source, pdb: Optional[Source]) -> Tuple[Files, Tuple[str, ...]]:
    """A base that is prepared, and what was done. The PDB that is given comes first, then the one that was in it, and
    then the one beside it."""
    image, path = _base(base)
    made = prepared(image, path)
    if pdb is None and made.pdb is not None:
        return Files(made.module, b"", made.pdb, (path, path)), made.done
    return _with_pdb(made.module, path, pdb), made.done


def prepared(image: bytes, path: Optional[str]) -> Prepared:
    """What `prepare` makes of a file; its PrepareError names the file."""
    try:
        return prepare(image)
    except PrepareError as error:
        raise PrepareError(str(error), path) from None


def _base(base: Source) -> Tuple[bytes, Optional[str]]:
    """The bytes of a base, and its path."""
    return _part(base if isinstance(base, (bytes, bytearray, memoryview)) else base_path(base))


def _with_pdb(image: bytes, path: Optional[str], pdb: Optional[Source]) -> Files:
    """A base with a PDB that is given, else with the one beside it."""
    if pdb is None and path is not None:
        pdb = _beside(os.path.splitext(path)[0] + ".pdb")
    found, pdb_path = _pdb(pdb)
    return Files(image, b"", found, (path, pdb_path))


def delta_paths(path: Path) -> Tuple[str, str, Optional[str]]:
    """The paths of a delta's files: of what they begin with, or of one of them. The PDB may be absent.

    >>> delta_paths("examples/bank/bank1")
    ('examples/bank/bank1.meta', 'examples/bank/bank1.il', 'examples/bank/bank1.pdb')
    >>> delta_paths("examples/k1.il")
    ('examples/k1.meta', 'examples/k1.il', None)
    """
    path = os.fspath(path)
    for family in FAMILIES:
        for ending in family:
            if path.endswith(ending) and os.path.isfile(path):
                return _family(path[: -len(ending)], family)
    for family in FAMILIES:
        if os.path.isfile(path + family[0]):
            return _family(path, family)
    return _family(path, FAMILIES[0])


def _family(stem: str, family: Tuple[str, str, str]) -> Tuple[str, str, Optional[str]]:
    return stem + family[0], stem + family[1], _beside(stem + family[2])


def delta_files(meta: "Source | Delta", il: Optional[Source], pdb: Optional[Source]) -> Files:
    """A delta: of a path, of a Delta, or of its metadata, its IL and its PDB as bytes or paths."""
    if isinstance(meta, Delta):
        return Files(meta.meta, meta.il, meta.pdb, (None, None))
    if il is None:
        if isinstance(meta, (bytes, bytearray, memoryview)):
            raise TypeError("the IL of a delta is missing: a delta is apply(path) or apply(meta, il, pdb)")
        meta, il, beside = delta_paths(meta)
        pdb = beside if pdb is None else pdb
    metadata, path = _part(meta)
    code, _ = _part(il)
    debug, pdb_path = _pdb(pdb)
    return Files(metadata, code, debug, (path, pdb_path))
