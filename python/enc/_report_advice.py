"""What a rule expects, and what to do where a file breaks it, in sentences; by the codes of docs/rules.md."""

from __future__ import annotations

from typing import Dict, NamedTuple


class Advice(NamedTuple):
    """What is expected at the place, and what to do."""

    expected: str
    todo: str


_CHAIN = "Emit the delta from the baseline that the last accepted one made, and keep the deltas in their order."
_TABLES = "The writer of the delta is at fault: compare its EncLog and EncMap with those of `python3 -m enc dump`."
_RUDE = "Undo this edit and restart the program with a new build: Edit and Continue can't make it."
_FILE = "The file is damaged or isn't what its name says: make it again, and copy it as bytes."

_ADVICE: Dict[str, Advice] = {
    "L1": Advice("a file of at most 67,108,864 bytes", "Check that the path names the right file."),
    "L2": Advice("at most 536,870,912 bytes in all files", "Merge deltas with `enc merge`, or give fewer of them."),
    "F1": Advice("a whole metadata root", _FILE),
    "F2": Advice("each stream once and within the root", _FILE),
    "F3": Advice("a PE image with whole headers", "Give the module (.dll or .exe), not its sources or its PDB."),
    "F4": Advice("a CLI header with ILONLY", "Mixed and native images can't be edited: build the module as IL only."),
    "F5": Advice("the whole range within a section", _FILE),
    "F6": Advice("one row of Module, and whole tables", "Give an ordinary module as the base; deltas stand behind it."),
    "F7": Advice("a row that is there", _FILE),
    "F8": Advice("an offset within its heap", _FILE),
    "F9": Advice("a PDB in a file of its own", "Build with `-p:DebugType=portable`."),
    "F10": Advice("a whole body of IL", _FILE),
    "F11": Advice("a signature of its kind", _FILE),
    "F12": Advice("a whole Portable PDB", "Build with `-p:DebugType=portable`; Windows PDBs aren't read."),
    "E1": Advice("the Mvid of the base", "Give the very base that the delta was made from, or emit the delta again."),
    "E2": Advice("the next generation", _CHAIN),
    "E3": Advice("the EncId of the generation before as EncBaseId", _CHAIN),
    "E4": Advice("an EncId that is new", "Give each delta a new GUID as EncId; see that no delta is given twice."),
    "E5": Advice("heaps within their limits", "Restart with a new build: the chain has grown too long."),
    "E6": Advice("tokens that rise in EncMap", _TABLES),
    "E7": Advice("as many rows of the table as tokens in EncMap", _TABLES),
    "E8": Advice("the next row of its table", _CHAIN),
    "E9": Advice("the token in EncMap, and in EncLog with code 0", _TABLES),
    "E10": Advice("codes 0 to 5, and behind an Add entry its new child", _TABLES),
    "E11": Advice("one Add entry for each new member", _TABLES),
    "E12": Advice("a table that a delta may change", _TABLES),
    "E13": Advice("a row that is there after the delta", _TABLES),
    "E14": Advice("an offset within the joined heaps", _CHAIN),
    "E15": Advice("what the row said before", _RUDE),
    "E16": Advice("a whole body of IL in the delta's .il", "Give the .meta and the .il of one and the same delta."),
    "E17": Advice("a body: the method had one", _RUDE),
    "E18": Advice("a static field, or a field of a class without a layout of its own", _RUDE),
    "E19": Advice("a method that isn't virtual in an old interface, nor abstract in an old type", _RUDE),
    "E20": Advice("a name and a signature that no sibling has", "Update the old member in place of adding it again."),
    "E21": Advice("a signature of its kind", _TABLES),
    "E22": Advice("sequence points within the method's code", "Give the .pdb of the same delta, or leave it out."),
    "E23": Advice("a signature of local variables", _TABLES),
    "E24": Advice("at most 65,535 deltas and 16,777,215 rows of a table", "Restart with a new build."),
}


def advice(code: str) -> Advice:
    """What a rule expects, and what to do; empty for a code of no rule.

    >>> advice("E2").expected
    'the next generation'
    """
    return _ADVICE.get(code, Advice("", ""))
