"""Writes enc/columns.py from enc/tables.py: a class for the rows of each table, with the types of its columns.

Usage: python3 python/make_columns.py"""

import sys
from pathlib import Path

HERE = Path(__file__).resolve().parent
sys.path.insert(0, str(HERE))

from enc.tables import TABLES  # noqa: E402

TYPES = {
    "text": "str",
    "guid": "uuid.UUID",
    "blob": "bytes",
    "bytes": "bytes",
    "body": "bool",
    "index": "Token",
    "coded": "Token",
    "run": "Tuple[Token, ...]",
}
HEAD = '''"""The rows of each table, with the types of their columns. Written by python/make_columns.py."""

from __future__ import annotations

import uuid
from typing import List, Tuple, Type

from .rows import Row, Token
'''


def class_of(table):
    """The lines of a table's class."""
    about = f'    """A row of {table.name} ({table.number:02x})."""'
    columns = [f"    {column.name}: {TYPES.get(column.kind, 'int')}" for column in table.columns]
    return ["", "", f"class {table.name}(Row):", about, "", *columns]


def made():
    """The whole of enc/columns.py."""
    lines = [line for table in TABLES for line in class_of(table)]
    lines += ["", "", "# By the numbers of their tables.", "ROWS: List[Type[Row]] = ["]
    return HEAD + "\n".join(lines + [f"    {table.name}," for table in TABLES] + ["]", ""])


if __name__ == "__main__":
    (HERE / "enc" / "columns.py").write_text(made(), encoding="utf-8")
