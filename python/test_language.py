"""Tests of what the package is to Python: types, rows, what isn't there, docstrings. test.py runs them."""

import inspect
import pickle
import re
import shutil
import subprocess
import unittest
from pathlib import Path

import make_columns
from testing import CHAINS, HERE, Folder, every_token, needs, opened

import enc
from enc import _missing, columns

TYPED = """
import enc, enc.columns
module = enc.Module("examples/k")
for method in module.methods():
    reveal_type((method.Name, method.Flags, method.ParamList, method.RVA, method.Signature))
for row in module.rows(enc.columns.MemberRef):
    reveal_type(row.Class)
for every in module.rows("MemberRef"):
    if isinstance(every, enc.columns.Module):
        reveal_type(every.Mvid)
reveal_type(module["06000001"]["Name"])
reveal_type(module["06000001"][1:2])
method.Nothing
"""
VALUE = "Union[int, str, bytes, bool, UUID, Token, Tuple[Token, ...]]"
WANTED = (
    "Tuple[str, int, Tuple[Token, ...], bool, bytes]",
    "Token",
    "UUID",
    VALUE,
    f"Tuple[{VALUE}, ...]",
)


class Types(Folder):
    """The package is typed, with the types of columns."""

    def mypy(self, *files):
        if not shutil.which("mypy"):
            self.skipTest("no mypy here")
        words = ["mypy", "--strict", "--no-error-summary", "--cache-dir", self.path("cache"), *map(str, files)]
        made = subprocess.run(words, capture_output=True, text=True, cwd=HERE)
        self.assertEqual(made.stderr, "")
        return made.stdout.splitlines()

    def test_mypy_strict(self):
        Path(self.path("typed.py")).write_text(TYPED)
        lines = self.mypy("enc", self.path("typed.py"))
        revealed = [re.search('Revealed type is "(.*)"', line) for line in lines]
        told = [re.sub(r"(\w+\.)+(?=\w)", "", found.group(1)) for found in revealed if found]
        self.assertEqual([line.lower() for line in told], [line.lower() for line in WANTED])
        self.assertEqual([line for line, found in zip(lines, revealed) if not found], [])

    def test_classes_of_rows_are_made_of_the_tables(self):
        self.assertEqual((HERE / "enc" / "columns.py").read_text(encoding="utf-8"), make_columns.made())

    def test_values_have_the_types_of_their_columns(self):
        kinds = {"bool": bool, "str": str, "bytes": bytes, "int": int, "Token": enc.Token, "uuid.UUID": object}
        for base, deltas in CHAINS:
            module = opened(base, deltas)
            for row in map(module.__getitem__, every_token(module)):
                self.assertIs(type(row), columns.ROWS[row.token >> 24])
                for name, said in type(row).__annotations__.items():
                    self.assertIsInstance(row[name], kinds.get(said, tuple), (row, name))
            for view in (module, module.at(0)):
                self.assertLessEqual({type(row) for row in view.rows(columns.TypeDef)}, {columns.TypeDef})


class Rows(unittest.TestCase):
    """A row goes by name and by number."""

    def test_by_number_and_slice(self):
        for base, deltas in CHAINS:
            module = opened(base, deltas)
            for row in map(module.__getitem__, module):
                values = [row[name] for name in row]
                self.assertEqual([row[i] for i in range(len(row))], values)
                self.assertEqual([row[i - len(row)] for i in range(len(row))], values)
                self.assertEqual((row[:], row[1:], row[::-2]), tuple(tuple(values[at]) for at in _SLICES))
                self.assertEqual((dict(row), list(row.items())), (row.columns, list(zip(row, values))))
                self.assertEqual((list(row.keys()), list(row.values())), (list(row), values))

    def test_what_is_no_column(self):
        row = opened(*CHAINS[0])["06000002"]
        for wrong in (6, -7, "name", "Nothing", ""):
            for kind in (LookupError, KeyError, IndexError, enc.NoColumn, enc.NotFound):
                self.assertRaises(kind, row.__getitem__, wrong)
        for wrong in (1.5, None, b"Name"):
            self.assertRaises(TypeError, row.__getitem__, wrong)
        with self.assertRaisesRegex(AttributeError, "MethodDef has no column name: did you mean Name?"):
            row.name
        with self.assertRaisesRegex(KeyError, "it has RVA, ImplFlags, Flags, Name, Signature, ParamList$"):
            row["Xyz"]
        self.assertFalse(hasattr(row, "Nothing"))


_SLICES = (slice(None), slice(1, None), slice(None, None, -2))


class Missing(unittest.TestCase):
    """What isn't there is a LookupError that says what is."""

    def says(self, words, act, *arguments, kind=enc.NotFound):
        with self.assertRaises(LookupError) as raised:
            act(*arguments)
        self.assertIsInstance(raised.exception, kind)
        self.assertEqual(str(raised.exception), words)
        again = pickle.loads(pickle.dumps(raised.exception))
        self.assertEqual((type(again), str(again)), (type(raised.exception), words))

    def test_rows(self):
        module = opened(*CHAINS[0])
        has = "MethodDef has 5 rows, 06000001 to 06000005"
        for act in (module.__getitem__, module.text, module.place, module.name, module.body, module.points):
            self.says(f"there is no row 06000009: {has}", act, "06000009", kind=enc.NoRow)
            self.assertRaises(KeyError, act, "06000009")
        for act in (module.has_body, module.signature, module.at(2).body, module.at(2).points, module.at(2).name):
            self.says(f"there is no row 06000000: {has}", act, "06000000", kind=enc.NoRow)
        earlier = "there is no row 06000005: MethodDef has 4 rows, 06000001 to 06000004"
        self.says(earlier, module.at(1).__getitem__, "06000005", kind=enc.NoRow)
        self.says("there is no row 29000001: NestedClass has no rows", module.text, 0x29000001, kind=enc.NoRow)
        self.says("there is no row 00000002: Module has 1 row", module.text, 2, kind=enc.NoRow)
        self.says("there is no row 77000001: tables are 00 to 2c", module.__getitem__, 0x77000001, kind=enc.NoRow)

    def test_tables_and_generations(self):
        module = opened(*CHAINS[0])
        self.says("there is no table Fields: did you mean Field or FieldRVA or FieldPtr?", module.count, "Fields")
        self.says("there is no table 99: they are 00 to 2c", module.tokens, 0x99)
        for act in (module.at, module.enc_id, module.entries, module.lengths):
            self.says("there is no generation 3: there are 3, from 0", act, 3)

    @needs("enc_find_type", "enc_find_member")
    def test_names(self):
        module = opened(*CHAINS[0])
        self.says("nothing has the name Acount: did you mean Account?", module.find, "Acount")
        self.says("nothing has the name Account.print: did you mean Account.Print?", module.find, "Account.print")
        said = "Account has balance, deposits, .ctor, Deposit, Print, PrintDeposits"
        self.says(f"nothing has the name Account.X: {said}", module.find, "Account.X")
        self.says("nothing has the name Nothing.At.All", module.find, "Nothing.At.All")

    @needs("enc_write", "enc_find_member")
    def test_names_of_several(self):
        module = enc.Module("examples/k")
        row = module["06000001"]
        again = {"do": "add", "table": "MethodDef", "owner": "02000002", "cells": [0, 2182, row.Name, "20010108"]}
        again["code"] = {"max": 1, "code": [["ldnull"], ["throw"]]}
        module.apply(module.write({"encId": "66666666-7777-8888-9999-aaaaaaaaaaaa", "edits": [again]}))
        name = module.name(row)
        words = f"2 rows have the name {name}: 06000001 06000003"
        self.says(words, module.find, name, kind=enc.Ambiguous)
        with self.assertRaises(enc.Ambiguous) as raised:
            module.find(name)
        self.assertEqual(list(raised.exception.found), module.find_all(name))

    @needs("enc_session_open")
    def test_tasks_and_frames(self):
        session = enc.Session(CHAINS[0][0])
        self.says("there is no task 1: there is none", session.step, 1)
        session.spawn("06000004")
        session.spawn("06000004")
        for act in (session.step, session.task, session.frames):
            self.says("there is no task 3: there are 2, from 1", act, 3)
        self.says("the task 1 has no frame 5: it has 1, from 0", session.values, 1, 5, "stack")
        self.says("there is no task 9: there are 2, from 1", session.values, 9, 0, "stack")

    def test_near(self):
        self.assertEqual(_missing.listed("abcdefghij"), "a, b, c, d, e, f, g, h and 2 more")


class Docstrings(unittest.TestCase):
    """Each public name says what it is, and each that may raise says what."""

    def public(self):
        for name in enc.__all__:
            yield name, getattr(enc, name)
            if inspect.isclass(getattr(enc, name)):
                own = vars(getattr(enc, name)).items()
                yield from ((f"{name}.{own_name}", part) for own_name, part in own if own_name[0] != "_")

    def test_each_has_one(self):
        for name, part in self.public():
            if inspect.isroutine(part) or inspect.isclass(part) or isinstance(part, property):
                self.assertTrue(inspect.getdoc(part), name)

    def test_each_that_may_raise_says_what(self):
        asked = ("Module", "View", "Session")
        silent = {"close", "types", "methods", "generation", "generations", "events", "output", "state", "find_all"}
        for name, part in self.public():
            owner, _, own = name.partition(".")
            if owner in asked and inspect.isfunction(part) and own not in silent:
                self.assertRegex(inspect.getdoc(part), r"Raises\s", name)
        for one in (enc.Module, enc.View, enc.Session, enc.Row, enc.Token, enc.table):
            self.assertRegex(one.__doc__, r"raises |Raises ")
