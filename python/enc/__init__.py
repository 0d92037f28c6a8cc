"""enc: .NET modules and the Edit and Continue deltas that follow them, over the C library `libenc`.

What each call answers is proved of the library: docs/library.md says how. This package turns it into Python, by
ctypes alone.

>>> import enc
>>> bank = enc.Module("examples/bank/bank")
>>> bank.apply("examples/bank/bank1"), bank.apply("examples/bank/bank2")
(1, 2)
>>> deposit = bank.find("Account.Deposit")
>>> bank[deposit].Name, bank[deposit].place
('Deposit', Place(generation=2, position=1))
>>> try:
...     bank.apply("examples/bank/bank2")
... except enc.Refused as refused:
...     print(refused.code, refused.place, refused.rule)
E2 00000001 its Generation isn't the next

In the examples of the docstrings `bank` is this module, with both deltas.
"""

from ._files import Delta
from ._library import Limit
from ._missing import Ambiguous, NoColumn, NoRow, NotFound
from ._refused import Refused, RemapRefused, rule_words
from .module import AtGeneration, Compacted, Module, Saved, View
from .prepare import Prepared, PrepareError
from .rows import Body, Clause, Entry, Lengths, Move, Place, Point, Row, Token, Value
from .session import Event, Frame, Remapped, Session, Slot, Stepped
from .tables import TABLES, Column, Table, table

__version__ = "0.9.0"

__all__ = [
    "Ambiguous",
    "AtGeneration",
    "Body",
    "Clause",
    "Column",
    "Compacted",
    "Delta",
    "Entry",
    "Event",
    "Frame",
    "Lengths",
    "Limit",
    "Module",
    "Move",
    "NoColumn",
    "NoRow",
    "NotFound",
    "Place",
    "Point",
    "PrepareError",
    "Prepared",
    "Refused",
    "RemapRefused",
    "Remapped",
    "Row",
    "Saved",
    "Session",
    "Slot",
    "Stepped",
    "TABLES",
    "Table",
    "Token",
    "Value",
    "View",
    "rule_words",
    "table",
]
