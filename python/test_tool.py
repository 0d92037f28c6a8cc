"""Tests of the program enc-tool. Usage: python3 python/test_tool.py LIBENC.so [ENC] [WORDS OF unittest..]

Its commands are run over the examples, over deltas of edit lists, and with wrong words. `./test` runs this."""

import contextlib
import io
import json
import os
import pty
import shutil
import signal
import subprocess
import sys
import time
import unittest
import unittest.mock

sys.dont_write_bytecode = True

import backend
import testing
from testing import HERE, ROOT, Folder, told

import enc
from enc import _tool_screen
from enc.tool import COMMANDS, main

try:
    import tomllib
except ImportError:
    tomllib = None

BANK = "examples/bank/bank"
CHAIN = ("examples/bank/bank1", "examples/bank/bank2")
METHOD = {"do": "add", "table": "MethodDef", "code": {"max": 8, "code": [["ret"]]}}
FRAMES = (
    ('{"module": "bank", "token": "06000003", "generation": 2, "offset": 11}', "Account::Print", 16),
    ('{"module": "bank", "token": "06000003", "generation": 0, "offset": 11, "thread": 4}', "Account::Print", 15),
    ('{"module": "bank.dll", "token": 100663298, "generation": 1, "offset": "IL_0001"}', "Account::Deposit", 9),
    ('{"module": "/app/bank.exe", "token": "0x06000002", "offset": 15}', "Account::Deposit", 11),
)


def ran(*words):
    """What the program comes to: its status, its output, what it says on standard error."""
    out, said = io.StringIO(), io.StringIO()
    with contextlib.redirect_stdout(out), contextlib.redirect_stderr(said):
        status = main(list(words))
    return status, out.getvalue(), said.getvalue()


def program(*words):
    """The words that run the program in a process of its own."""
    return [sys.executable, "-m", "enc.tool", *words]


def around(**more):
    """The environment of such a process."""
    found = {name: value for name, value in os.environ.items() if name not in ("NO_COLOR", "TERM")}
    return {**found, "PYTHONPATH": str(HERE), "PYTHONDONTWRITEBYTECODE": "1", "TERM": "xterm", **more}


def apart(*words, given=b"", **more):
    """The program in a process of its own: its status, its output, what it says."""
    made = subprocess.run(program(*words), input=given, capture_output=True, env=around(**more), cwd=ROOT)
    return made.returncode, made.stdout.decode(), made.stderr.decode()


def on_terminal(*words, out=None, **more):
    """What the program writes on a terminal, which is its standard error, and its standard output unless that is
    another file."""
    leader, follower = pty.openpty()
    started = subprocess.Popen(program(*words), stdout=out or follower, stderr=follower, env=around(**more), cwd=ROOT)
    os.close(follower)
    found = b""
    with contextlib.suppress(OSError):
        while True:
            part = os.read(leader, 65536)
            if not part:
                break
            found += part
    os.close(leader)
    return started.wait(), found.decode()


class Tool(Folder):
    """A test of the program."""

    def right(self, *words):
        """The output of words that are right."""
        status, out, said = ran(*words)
        self.assertEqual((status, said), (0, ""), words)
        return out

    def wrong(self, status, *words):
        """The one line that wrong words come to."""
        got, out, said = ran(*words)
        self.assertEqual(got, status, said)
        self.assertRegex(said, r"\Aenc-tool: [^\n]+\n\Z")
        return said[len("enc-tool: ") : -1]

    def json(self, *words):
        """The JSON document that words print."""
        return json.loads(self.right(*words, "--json"))

    def written(self, name, edits, base="examples/k", deltas=()):
        """A delta of an edit list, saved in the folder."""
        module = testing.opened(base, deltas)
        number = f"{module.generation + 1:08x}-7777-8888-9999-aaaaaaaaaaaa"
        module.write({"encId": number, "edits": edits}).save(self.path(name))
        return self.path(name)

    def frames(self, *lines):
        """A file with lines."""
        with open(self.path("frames.jsonl"), "wb") as file:
            file.write(b"".join(line.encode() + b"\n" for line in lines))
        return self.path("frames.jsonl")


class Find(Tool):
    """Names to tokens."""

    def tokens(self, *words):
        return [one["token"] for one in self.json("find", BANK, *words)]

    def test_a_full_name(self):
        wanted = "06000002  method  Account::Deposit  public void (int)\n"
        self.assertEqual(self.right("find", BANK, "Account::Deposit"), wanted)

    def test_the_ways_to_write_one(self):
        for name in ("Account.Deposit", "Account::Deposit(int)", "06000002", "0x06000002", "Acc*::Dep*", "*[D]eposit"):
            self.assertEqual(self.tokens(name), ["06000002"], name)
        self.assertEqual(self.tokens("Account..ctor"), self.tokens("Account::.ctor"))

    def test_a_glob_after_deltas(self):
        self.assertEqual(self.tokens("*Deposit*", *CHAIN), ["06000002", "06000005"])
        self.assertEqual(self.tokens("*deposit*", *CHAIN), ["04000002"])
        self.assertEqual(self.tokens("*DEPOSIT*", "-i", *CHAIN), ["04000002", "06000002", "06000005"])

    def test_kinds_and_references(self):
        self.assertEqual(self.tokens("*", "--kind", "type"), ["02000001", "02000002", "02000003"])
        self.assertEqual(self.tokens("System.Console", "--references"), ["01000001"])
        found = self.json("find", BANK, "System.Console::WriteLine", "--kind", "memberref")
        self.assertEqual([one["signature"] for one in found], ["void (string)", "void (int)"])

    def test_json(self):
        wanted = {"token": "06000002", "kind": "method", "name": "Account::Deposit", "signature": "public void (int)"}
        self.assertEqual(self.json("find", BANK, "Account::Deposit"), [wanted])

    def test_nothing_found(self):
        said = "nothing has the name Deposit: did you mean Account::Deposit?"
        self.assertEqual(self.wrong(1, "find", BANK, "Deposit"), said)
        self.assertIn("did you mean Account::Print or", self.wrong(1, "find", BANK, "Account::Pritn"))
        self.assertIn("a name that fits *Nothing*: names are such as", self.wrong(1, "find", BANK, "*Nothing*"))
        self.assertIn("a name is such as", self.wrong(1, "find", BANK, "Qqqqqqqqq"))

    def test_a_wrong_token(self):
        said = "there is no row 06000009: MethodDef has 4 rows, 06000001 to 06000004"
        self.assertEqual(self.wrong(1, "find", BANK, "06000009"), said)
        self.assertIn("tables are 00 to 2c", self.wrong(1, "show", BANK, "77000001"))

    def test_nested_types_overloads_properties_and_events(self):
        first = self.written("t", json.loads((ROOT / "examples/edits/type.json").read_text())["edits"])
        inner = [
            {"do": "add", "table": "TypeDef", "cells": [2, "Inner", "", "01000001"]},
            {"do": "add", "table": "NestedClass", "cells": ["02000004", "02000003"]},
            *({**METHOD, "owner": "02000004", "cells": [0, 150, "Say", blob]} for blob in ("00010108", "0001010e")),
        ]
        second = self.written("u", inner, deltas=[first])
        names = [one["name"] for one in self.json("find", "examples/k", "Counter*", first, second)]
        for name in ("Counter+Inner", "Counter::Count", "Counter::Changed", "Counter+Inner::Say"):
            self.assertIn(name, names)
        kinds = {one["name"]: one["kind"] for one in self.json("find", "examples/k", "*", first, second)}
        self.assertEqual((kinds["Counter::Count"], kinds["Counter::Changed"]), ("property", "event"))
        for name in ("Counter+Inner::Say", "Counter/Inner.Say"):
            self.assertEqual(len(self.json("find", "examples/k", name, first, second)), 2)
        one = self.json("find", "examples/k", "Counter+Inner::Say(string)", first, second)
        self.assertEqual([found["signature"] for found in one], ["public static void (string)"])
        self.assertEqual(len(self.json("show", "examples/k", "Counter+Inner::Say", first, second)), 2)
        out = self.right("show", "examples/k", "15000001", first, second)
        self.assertIn("  property 17000001 Counter::Count\n", out)

    def test_nothing_steers_a_terminal(self):
        hostile = {"do": "add", "table": "TypeDef", "cells": [1, "a\x1b[31m\u202eb", "", "00000000"]}
        delta = self.written("t", [hostile])
        for words in (("find", "a*"), ("show", "02000003"), ("diff",)):
            out = self.right(words[0], "examples/k", *words[1:], delta)
            self.assertIn("\\x1b[31m\\u202eb", out, words)
            self.assertNotRegex(out, "[\x1b\u202e]")
        self.assertEqual(self.json("find", "examples/k", "a*", delta)[0]["name"], hostile["cells"][1])


class Shown(Tool):
    """Rows, methods, points and histories."""

    def test_show_a_method(self):
        out = self.right("show", BANK, "Account::Print", *CHAIN)
        begin = "06000003 method Account::Print\n  public void ()\n  from delta 2, row 2 there\n"
        self.assertTrue(out.startswith(begin), out)
        self.assertIn("    // /src/Bank.cs:16:34-16:35\n    IL_000b call String.Concat(string, string) 0a000009\n", out)
        self.assertIn("  owner 02000002 Account\n", out)
        self.assertEqual(out, self.right("show", BANK, "06000003", *CHAIN))

    def test_show_has_every_instruction(self):
        for method in enc.Module(BANK).methods():
            text = told("show", BANK, str(method.token))
            wanted = [line.split()[0] for line in text.splitlines() if line.startswith("  IL_")]
            out = self.right("show", BANK, str(method.token))
            self.assertEqual([line.split()[0] for line in out.splitlines() if line.startswith("    IL_")], wanted)

    def test_show_at_a_generation(self):
        self.assertIn('ldstr "balance:"', self.right("show", BANK, "Account::Print", *CHAIN, "--generation", "0"))
        said = self.wrong(1, "show", BANK, "Account::PrintDeposits", *CHAIN, "--generation", "1")
        self.assertIn("06000005 Account::PrintDeposits isn't there at generation 1", said)
        self.assertIn("they are 0 (the base) to 2", self.wrong(1, "show", BANK, "Bank", *CHAIN, "--generation", "3"))

    def test_show_json(self):
        found = self.json("show", BANK, "Account::Print", *CHAIN)[0]
        self.assertEqual((found["generation"], found["position"], found["columns"]["Name"]), (2, 2, "Print"))
        self.assertEqual(found["il"][2], {"label": "IL_0001", "text": 'ldstr "balance"', "token": None})
        self.assertEqual((len(found["points"]), found["points"][0]["line"]), (9, 15))

    def test_show_a_type_and_rows_without_names(self):
        self.assertIn("  method 06000001 Account::.ctor\n", self.right("show", BANK, "Account"))
        for token in ("23000001", "0a000001", "01000004", "0c000001", "11000001", "00000001", "20000001"):
            self.assertTrue(self.right("show", BANK, token).startswith(token), token)

    def test_methods(self):
        out = self.right("methods", BANK, *CHAIN).splitlines()
        self.assertEqual(out[1], "06000002  2  Account::Deposit        public void (int)")
        self.assertEqual(len(out), 5)
        found = self.json("methods", BANK, *CHAIN, "--changed")
        last = found[-1]
        self.assertEqual((last["name"], last["generation"], last["body"]), ("Account::PrintDeposits", 2, True))
        self.assertEqual(len(found), 3)

    def test_lines(self):
        out = self.right("lines", BANK, "Account::Deposit")
        wanted = "06000002 method Account::Deposit\n  IL_0000 /src/Bank.cs:8:5-8:6\n  IL_0001 /src/Bank.cs:9:9-9:13\n"
        self.assertEqual(out, wanted + "  IL_000f /src/Bank.cs:10:5-10:6\n")
        points = self.json("lines", BANK, "06000002", *CHAIN, "--generation", "1")[0]["points"]
        own = [(point.offset, point.start_line) for point in enc.Module(BANK).points("06000002")]
        self.assertEqual([(point["offset"], point["line"]) for point in points], own)
        self.assertIn("no PDB has any", self.right("lines", "examples/k", "P::Say"))

    def test_lines_of_what_is_no_method(self):
        said = "its methods are Account::.ctor, Account::Deposit, Account::Print"
        self.assertIn(said, self.wrong(1, "lines", BANK, "Account"))
        self.assertIn("02000002 is type Account, and no method", self.wrong(1, "lines", BANK, "02000002"))
        self.assertIn("did you mean Account::Print?", self.wrong(1, "lines", BANK, "Print"))

    def test_history(self):
        out = self.right("history", BANK, "Account::Print", *CHAIN)
        wanted = [f"  generation {i} updated {path}" for i, path in enumerate(CHAIN, 1)]
        self.assertEqual(out.splitlines(), ["06000003 method Account::Print", "  generation 0 base " + BANK, *wanted])
        found = self.json("history", BANK, "04000002", *CHAIN)[0]["history"]
        self.assertEqual(found, [{"generation": 2, "change": "inserted", "file": CHAIN[1]}])

    def test_diff(self):
        out = self.right("diff", BANK, *CHAIN)
        for line in (
            "generation 1: examples/bank/bank1",
            "  changed method 06000003 public void Account.Print()",
            '    - IL_0001 ldstr "balance:"',
            '    + IL_0001 ldstr "balance"',
            "    ~ IL_0010 call Console.WriteLine(string)",
            "  added field 04000002 private int Account.deposits",
            "  added method 06000005 private void Account.PrintDeposits()",
        ):
            self.assertIn(line + "\n", out)

    def test_diff_side_by_side_and_sources(self):
        out = self.right("diff", BANK, *CHAIN, "-y", "--width", "80", "--source", "examples/bank")
        self.assertTrue(all(len(line) <= 80 for line in out.splitlines() if line.startswith("    ")), out)
        self.assertRegex(out, r'IL_0001 ldstr "balance:" +\| IL_0001 ldstr "balance"\n')
        self.assertIn("deposits = deposits + 1;", out)
        self.assertIn("20 columns or more", self.wrong(2, "diff", BANK, *CHAIN, "-y", "--width", "3"))

    def test_diff_json(self):
        found = self.json("diff", BANK, *CHAIN)
        self.assertEqual((found["methodsChanged"], found["methodsAdded"], len(found["generations"])), (2, 1, 3))
        self.assertEqual(found["methods"][0]["name"], "Account.Print()")


class Existing(Tool):
    """`dump` and `report`."""

    def test_dump_is_that_of_the_package(self):
        for words in ((BANK, *CHAIN), (BANK, *CHAIN, "--generation", "2"), (BANK, "--table", "MethodDef")):
            self.assertEqual(self.right("dump", *words), testing.printed("dump", *words)[1])

    def test_dump_of_a_refused_delta(self):
        status, out, said = ran("dump", BANK, CHAIN[1], "--table", "EncLog")
        self.assertEqual((status, said.count("\n")), (1, 1))
        self.assertIn("  log 8 Field 04000002 0 Default\n", out)
        self.assertIn("refused examples/bank/bank2.meta: E2 at 00000001: its Generation isn't the next", said)
        self.assertNotIn("refused examples/bank/bank2.meta E2", out)

    def test_dump_json(self):
        found = [json.loads(line) for line in self.right("dump", BANK, *CHAIN, "--json").splitlines()]
        module = testing.opened(BANK, CHAIN)
        rows = [one["token"] for one in found if one["is"] == "row"]
        self.assertEqual(rows, [str(token) for token in module if token.table not in ("EncLog", "EncMap")])
        self.assertEqual({one["is"] for one in found}, {"generation", "row", "log", "map", "heap"})
        status, out, _ = ran("dump", BANK, CHAIN[1], "--json", "--table", "Field")
        last = [json.loads(line) for line in out.splitlines()][-2:]
        self.assertEqual((status, last[0]["token"], last[1]["code"]), (1, "04000002", "E2"))

    def test_dump_of_wrong_words(self):
        self.assertIn("did you mean MethodPtr or MethodDef", self.wrong(2, "dump", BANK, "--table", "Methd"))
        self.assertIn("there are 0 deltas", self.wrong(2, "dump", BANK, "--generation", "1"))

    def test_report(self):
        out = self.right("report", BANK, *CHAIN, "--json")
        self.assertEqual(json.loads(out)["methodsChanged"], 2)
        self.assertIn("-o FILE is missing", self.wrong(2, "report", BANK, *CHAIN))
        self.assertIn("is no folder", self.wrong(1, "report", BANK, "--json", "--source", self.path("no")))
        status, out, said = ran("report", BANK, CHAIN[1], "--json", "-o", self.path("f.json"))
        self.assertEqual((status, out), (1, f"saved {self.path('f.json')}\n"))
        self.assertIn("bank2.meta: E2", said)


class Files(Tool):
    """Files of any form, and what is wrong with them."""

    def test_exe(self):
        exe = self.copy("examples/bank/bank.dll", "app.exe")
        self.copy("examples/bank/bank.pdb", "app.pdb")
        for word in (exe, self.path("app")):
            self.assertIn("Bank.cs:9", self.right("lines", word, "Account::Deposit"))
            self.assertIn("Account.deposits", self.right("diff", word, *CHAIN))
            self.assertIn("04 Field: 1 row", self.right("dump", word, "--table", "Field"))
            self.assertEqual(json.loads(self.right("report", word, *CHAIN, "--json"))["accepted"], True)

    def test_the_names_of_hotreload_delta_gen(self):
        for number, delta in enumerate(CHAIN, 1):
            for old, new in ((".meta", ".dmeta"), (".il", ".dil"), (".pdb", ".dpdb")):
                self.copy(delta + old, f"bank.dll.{number}{new}")
        before = sorted(os.listdir(self.folder))
        wanted = self.right("show", BANK, "Account::Print", *CHAIN)
        for endings in ((".dmeta", ".dil"), ("", ".dpdb")):
            deltas = [self.path(f"bank.dll.{i + 1}{ending}") for i, ending in enumerate(endings)]
            self.assertEqual(self.right("show", BANK, "Account::Print", *deltas), wanted)
            self.assertIn("generation 2", self.right("dump", BANK, *deltas))
        self.assertEqual(sorted(os.listdir(self.folder)), before)

    def test_each_file_of_a_delta(self):
        every = [delta + ending for delta in CHAIN for ending in (".il", ".meta", ".pdb")]
        self.assertEqual(self.right("diff", BANK, *every), self.right("diff", BANK, *CHAIN))

    def test_a_delta_twice_is_refused(self):
        said = self.wrong(1, "find", BANK, "*", CHAIN[0], CHAIN[0])
        begin = "refused examples/bank/bank1.meta: E2 at 00000001: its Generation isn't the next"
        self.assertTrue(said.startswith(begin), said)
        self.assertIn("found Generation 0001; expected Generation 0002", said)

    def test_a_refused_delta_names_file_and_rule(self):
        wanted = "refused examples/bank/bank2.meta: E2 at 00000001: its Generation isn't the next; found"
        for command in (("find", "*"), ("show", "Account"), ("lines", "Account::Print"), ("history", "Account")):
            self.assertIn(wanted, self.wrong(1, command[0], BANK, command[1], CHAIN[1]))
        for command in ("methods", "diff"):
            self.assertIn("bank2.meta: E2", self.wrong(1, command, BANK, CHAIN[1]))

    def test_a_refused_pdb_names_the_pdb(self):
        self.copy("examples/bank/bank.dll", "b.dll")
        with open(self.path("b.pdb"), "wb") as file:
            file.write(b"Microsoft C/C++ MSF 7.00")
        said = self.wrong(1, "methods", self.path("b"))
        self.assertIn(f"refused {self.path('b.pdb')}: F12", said)
        self.assertIn("Windows PDBs aren't read", said)

    def test_a_refused_base(self):
        said = self.wrong(1, "find", "README.md" if (ROOT / "README.md").exists() else "test.py", "X")
        self.assertRegex(said, r"refused \S+: F3 at headers: .*Give the module \(.dll or .exe\)")

    def test_missing_files(self):
        said = "there is no examples/bank/bnak.dll and no examples/bank/bnak.exe: did you mean examples/bank/bank.dll?"
        self.assertIn(said, self.wrong(1, "methods", "examples/bank/bnak"))
        said = self.wrong(1, "methods", BANK, "examples/bank/bank3")
        wanted = "no examples/bank/bank3.meta and no examples/bank/bank3.dmeta: did you mean examples/bank/bank"
        self.assertIn(wanted, said)
        self.copy("examples/bank/bank1.meta", "half.meta")
        self.assertIn("half.il: both are needed", self.wrong(1, "methods", BANK, self.path("half")))
        self.assertIn("is a folder: name the module in it", self.wrong(1, "methods", "examples/bank"))

    def test_a_file_without_an_end(self):
        os.symlink("/dev/zero", self.path("z.meta"))
        open(self.path("z.il"), "wb").close()
        for command in ("methods", "diff", "dump"):
            self.assertIn("z.meta: L1", self.wrong(1, command, "examples/k", self.path("z")))


class Words(Tool):
    """Help, wrong words, colours, pipes, completion."""

    def test_help(self):
        out = self.right("--help")
        for command in COMMANDS:
            self.assertIn(f"  {command.name} ", out)
            said = self.right(command.name, "--help")
            self.assertIn(f"usage: enc-tool {command.name} ", said)
            self.assertIn("example:\n  ", said)
            self.assertIn("--json", said)
        self.assertEqual(self.right("help", "find"), self.right("find", "--help"))
        self.assertEqual(self.right("--version"), f"enc-tool {enc.__version__}\n")

    def test_the_examples_of_help(self):
        for command in COMMANDS[:6]:
            example = self.right(command.name, "--help").split("example:\n")[1].replace("'", "")
            program, *words = example.split()
            self.assertEqual((program, words[0]), ("enc-tool", command.name))
            self.assertTrue(self.right(*words))

    def test_without_a_library(self):
        status, out, said = apart("methods", BANK, ENC_LIBRARY=self.path("no.so"))
        self.assertEqual((status, out, said.count("\n")), (1, "", 1))
        self.assertIn("ENC_LIBRARY may name a libenc.so", said)

    def test_wrong_words(self):
        self.assertIn("no command is given", self.wrong(2))
        self.assertIn("there is no command fnd: did you mean find?", self.wrong(2, "fnd"))
        self.assertIn("arguments are required: BASE, NAME (usage: enc-tool find BASE", self.wrong(2, "find"))
        self.assertIn("arguments are required: DELTA", self.wrong(2, "history", BANK, "Account"))
        self.assertIn("--jsn: did you mean --json?", self.wrong(2, "methods", BANK, "--jsn"))
        self.assertIn("did you mean always?", self.wrong(2, "methods", BANK, "--color", "alwys"))
        self.assertIn("invalid int value: 'x'", self.wrong(2, "show", BANK, "Account", "--generation", "x"))
        self.assertIn("did you mean method?", self.wrong(2, "find", BANK, "*", "--kind", "methods"))
        self.assertIn("did you mean bash?", self.wrong(2, "completion", "bsh"))
        self.assertIn("is a delta, where a name should stand", self.wrong(2, "lines", BANK, *CHAIN))

    def test_options_stand_anywhere(self):
        wanted = self.right("find", BANK, "*Deposit*", *CHAIN, "--json")
        self.assertEqual(self.right("find", "--json", BANK, "*Deposit*", *CHAIN), wanted)
        self.assertEqual(self.right("find", BANK, "*Deposit*", CHAIN[0], "--json", CHAIN[1]), wanted)

    def test_colours(self):
        words = ("find", BANK, "Account::Deposit")
        self.assertNotIn("\x1b", self.right(*words))
        self.assertIn("\x1b[33m06000002\x1b[0m", self.right(*words, "--color", "always"))
        self.assertIn("\x1b[33m06000002\x1b[0m", on_terminal(*words)[1])
        self.assertNotIn("\x1b", on_terminal(*words, "--color", "never")[1])
        self.assertNotIn("\x1b", on_terminal(*words, NO_COLOR="1")[1])
        self.assertNotIn("\x1b", on_terminal(*words, TERM="dumb")[1])
        self.assertIn("\x1b", on_terminal(*words, "--color", "always", NO_COLOR="1")[1])

    def test_a_broken_pipe_is_silent(self):
        lines = [FRAMES[0][0]] * 50000
        for words in (("find", BANK, "*"), ("symbolicate", self.frames(*lines), "--modules", "examples/bank")):
            reader, writer = os.pipe()
            os.close(reader)
            made = subprocess.run(program(*words), stdout=writer, stderr=subprocess.PIPE, env=around(), cwd=ROOT)
            os.close(writer)
            self.assertEqual((made.returncode, made.stderr), (5, b""), words)

    @unittest.skipUnless(os.path.exists("/dev/full"), "no /dev/full here")
    def test_an_output_that_is_full(self):
        with open("/dev/full", "wb") as full:
            made = subprocess.run(program("methods", BANK), stdout=full, stderr=subprocess.PIPE, env=around(), cwd=ROOT)
        self.assertEqual(made.returncode, 5)
        self.assertRegex(made.stderr.decode(), r"\Aenc-tool: standard output: [^\n]+\n\Z")

    def test_an_output_that_is_closed(self):
        words = ["sh", "-c", '"$@" >&-', "sh", *program("methods", BANK)]
        made = subprocess.run(words, stderr=subprocess.PIPE, env=around(), cwd=ROOT)
        self.assertEqual((made.returncode, made.stderr.count(b"\n")), (5, 1), made.stderr)

    def test_a_narrow_encoding(self):
        delta = self.written("t", [{"do": "add", "table": "TypeDef", "cells": [1, "Caf\u00e9", "", "00000000"]}])
        status, out, said = apart("find", "examples/k", "Caf*", delta, PYTHONIOENCODING="ascii")
        self.assertEqual((status, said), (0, ""))
        self.assertIn("Caf\\xe9", out)

    def test_completion_scripts(self):
        for shell in ("bash", "zsh", "fish"):
            script = self.right("completion", shell)
            for command in COMMANDS:
                self.assertIn(command.name, script)
            self.assertIn("ignore-case", script)
            self.assertEqual(self.json("completion", shell)["script"], script[:-1])
            if shutil.which(shell):
                option = "--no-execute" if shell == "fish" else "-n"
                made = subprocess.run([shell, option], input=script, capture_output=True, text=True)
                self.assertEqual((made.returncode, made.stderr), (0, ""), shell)

    @unittest.skipUnless(shutil.which("bash"), "no bash here")
    def test_completion_in_bash(self):
        asked = '. "$0"; COMP_WORDS=("$@"); COMP_CWORD=$(($# - 1)); _enc_tool; printf "%s\n" "${COMPREPLY[@]}"'
        with open(self.path("s"), "w") as file:
            file.write(self.right("completion", "bash"))
        for words, wanted in (
            (("f",), ["find"]),
            (("find", "--j"), ["--json"]),
            (("find", "--color", "a"), ["auto", "always"]),
            (("completion", ""), ["bash", "zsh", "fish"]),
            (("show", "examples/bank/bank1.m"), ["examples/bank/bank1.meta"]),
        ):
            run = ["bash", "-c", asked, self.path("s"), "enc-tool", *words]
            made = subprocess.run(run, capture_output=True, text=True, cwd=ROOT)
            self.assertEqual(made.stdout.split(), wanted, made.stderr)

    def test_the_program_is_installed(self):
        self.assertEqual(backend.entry_points(), b"[console_scripts]\nenc-tool = enc.tool:main\n")
        with backend.zipfile.ZipFile(self.path(backend.build_wheel(self.folder))) as wheel:
            about = f"enc-{enc.__version__}.dist-info/entry_points.txt"
            self.assertEqual(wheel.read(about), backend.entry_points())
            self.assertIn("enc/tool.py", wheel.namelist())
        if tomllib:
            said = tomllib.loads((HERE / "pyproject.toml").read_text())["project"]["scripts"]
            self.assertEqual(said, dict(backend.SCRIPTS))


class Symbolicate(Tool):
    """Frames to names, documents and lines."""

    def answers(self, *words):
        return [json.loads(line) for line in self.right("symbolicate", *words).splitlines()]

    def test_frames(self):
        found = self.answers(self.frames(*(line for line, _, _ in FRAMES)), "--modules", "examples/bank")
        for one, (line, name, number) in zip(found, FRAMES):
            self.assertEqual(one, {**json.loads(line), "name": name, "document": "/src/Bank.cs", "line": number})
        self.assertEqual(len(found), len(FRAMES))

    def test_each_offset_of_each_body(self):
        module, lines, wanted = testing.opened(BANK, CHAIN), [], []
        for number in range(3):
            view = module.at(number)
            for method in view.methods():
                for offset in range(len(view.body(method).code)):
                    frame = {"module": "x", "token": str(method.token), "generation": number, "offset": offset}
                    points = [point for point in view.points(method) if not point.hidden and point.offset <= offset]
                    lines.append(json.dumps(frame))
                    wanted.append(points[-1].start_line if points else None)
        found = self.answers(self.frames(*lines), "--module", f"x={BANK},{','.join(CHAIN)}")
        self.assertEqual([one["line"] for one in found], wanted)
        self.assertGreater(len(set(wanted)), 10)

    def test_from_standard_input(self):
        given = "".join(line + "\n" for line, _, _ in FRAMES).encode()
        for words in ((), ("-",)):
            status, out, said = apart("symbolicate", *words, "--modules", "examples/bank", given=given)
            self.assertEqual((status, said, out.count("\n")), (0, "", len(FRAMES)))

    def test_as_text(self):
        out = self.right("symbolicate", self.frames(FRAMES[0][0]), "--modules", "examples/bank", "--text")
        self.assertEqual(out, "at Account::Print in /src/Bank.cs:line 16\n")

    def test_bad_lines_are_told_and_passed_over(self):
        good, bank = FRAMES[0][0], '{"module": "bank", "token": "06000003", '
        bad = (
            ("nonsense", "it is no JSON"), ("[1]", "is list and no object"), ('"x', "no JSON"), ("[" * 9000, "no JSON"),
            ('{"module": "bank", "offset": 1}', 'there is no "token"'), (bank + '"offset": -1}', '"offset" is -1'),
            (bank + '"offset": 1.5}', '"offset" is 1.5'), (bank + '"offset": true}', '"offset" is true'),
            (bank + '"offset": 999}', "offset 999 is past the end of Account::Print"),
            (bank + '"offset": 1, "generation": 3}', "bank has 0 (the base) to 2"),
            (bank + '"offset": 1, "generation": "1"}', '"generation" is "1"'),
            ('{"module": "bnak", "token": "06000003", "offset": 1}', "did you mean bank?"),
            ('{"module": 1, "token": "06000003", "offset": 1}', '"module" is 1'),
            ('{"module": "bank", "token": "0600003", "offset": 1}', '"token" is "0600003"'),
            ('{"module": "bank", "token": [], "offset": 1}', '"token" is []'),
            ('{"module": "bank", "token": "02000002", "offset": 1}', "02000002 is no method"),
            ('{"module": "bank", "token": "06000005", "generation": 1, "offset": 1}', "at generation 1 there is no"),
        )  # fmt: skip
        lines = [good, "", *(line for line, _ in bad), good]
        status, out, said = ran("symbolicate", self.frames(*lines), "--modules", "examples/bank")
        said = said.splitlines()
        self.assertEqual((status, out.count("\n"), len(said)), (1, 2, len(bad) + 1))
        for number, ((_, why), line) in enumerate(zip(bad, said), 3):
            self.assertIn(f"frames.jsonl, line {number}: ", line)
            self.assertIn(why, line)
        last = f"enc-tool: {len(bad)} of {len(lines)} lines are passed over: the others are printed"
        self.assertEqual(said[-1], last)

    def test_what_is_equal_in_python_is_no_number(self):
        frames = [FRAMES[1][0].replace(': 0,', f": {value},") for value in ("0", "false", "0.0", "1", "true")]
        self.assertEqual(len(set(frames)), 5)
        status, out, said = ran("symbolicate", self.frames(*frames), "--modules", "examples/bank")
        self.assertEqual((status, out.count("\n"), said.count("\n")), (1, 2, 4))

    def test_lines_of_a_pipe_are_answered_as_they_come(self):
        started = subprocess.Popen(
            program("symbolicate", "--modules", "examples/bank"), stdin=subprocess.PIPE, stdout=subprocess.PIPE,
            env=around(), cwd=ROOT,
        )  # fmt: skip
        for part in (FRAMES[0][0] + "\n" + FRAMES[1][0][:20], FRAMES[1][0][20:] + "\n" + "\n" + FRAMES[2][0]):
            started.stdin.write(part.encode())
            started.stdin.flush()
            self.assertIn(b"Account::Print", started.stdout.readline())
        out, _ = started.communicate(timeout=60)
        self.assertEqual((started.returncode, out.count(b"\n"), b"Account::Deposit" in out), (0, 1, True))

    def test_a_closed_standard_input(self):
        words = ["sh", "-c", '"$@" <&-', "sh", *program("symbolicate", "--modules", "examples/bank")]
        made = subprocess.run(words, capture_output=True, env=around(), cwd=ROOT)
        self.assertEqual((made.returncode, made.stderr.count(b"\n")), (1, 1), made.stderr)

    def test_bytes_that_are_no_text(self):
        with open(self.path("f"), "wb") as file:
            file.write(b"\xff\xfe\n" + FRAMES[0][0].encode() + b"\r\n\n  \n" + FRAMES[1][0].encode())
        status, out, said = ran("symbolicate", self.path("f"), "--modules", "examples/bank")
        self.assertEqual((status, out.count("\n"), said.count("\n")), (1, 2, 2))
        self.assertIn("line 1: it is no JSON", said)

    def test_other_keys_stay(self):
        frame = {"module": "bank", "token": "06000003", "offset": 0, "line": 5, "text": "caf\u00e9", "more": {"a": [1]}}
        for line in (json.dumps(frame), json.dumps(frame, ensure_ascii=False), " " + json.dumps(frame)[:-1] + " \t}\r"):
            found = self.answers(self.frames(line), "--modules", "examples/bank")[0]
            self.assertEqual(found, {**frame, "line": 15, "name": "Account::Print", "document": "/src/Bank.cs"})

    def test_several_processes_keep_the_order(self):
        lines = []
        for i in range(9000):
            frame = json.loads(FRAMES[i % len(FRAMES)][0])
            lines.append(json.dumps({**frame, "id": i}) if i % 1000 else f"bad {i}")
        words = ("symbolicate", self.frames(*lines), "--modules", "examples/bank")
        one, two = apart(*words), apart(*words, "--jobs", "2")
        self.assertEqual(one, two)
        self.assertEqual(one[0], 1)
        found = [json.loads(line)["id"] for line in one[1].splitlines()]
        self.assertEqual(found, [i for i in range(9000) if i % 1000])
        told_of = [int(line.split("line ")[1].split(":")[0]) for line in one[2].splitlines()[:-1]]
        self.assertEqual(told_of, list(range(1, 9000, 1000)))

    def test_a_module_is_opened_once(self):
        opened, made = [], enc.Module.__init__

        def counted(module, *given):
            opened.append(given)
            made(module, *given)

        with unittest.mock.patch.object(enc.Module, "__init__", counted):
            self.answers(self.frames(*(line for line, _, _ in FRAMES * 5)), "--modules", "examples/bank")
        self.assertEqual(len(opened), 1)

    def test_a_module_that_is_refused(self):
        frame = '{"module": "bank", "token": "06000003", "offset": 0}'
        status, out, said = ran("symbolicate", self.frames(frame, frame), "--module", f"bank={BANK},{CHAIN[1]}")
        self.assertEqual((status, out, said.count("\n")), (1, "", 3))
        self.assertIn("line 2: the module bank can't be opened: refused examples/bank/bank2.meta: E2", said)

    def test_a_folder_of_modules(self):
        self.copy("examples/bank/bank.dll", "bank.exe")
        for number, delta in enumerate(CHAIN, 1):
            for old, new in ((".meta", ".dmeta"), (".il", ".dil"), (".pdb", ".dpdb")):
                self.copy(delta + old, f"bank.exe.{number}{new}")
        self.copy("examples/k.dll", "bank2.dll")
        self.copy("examples/k1.meta", "bank21.meta")
        self.copy("examples/k1.il", "bank21.il")
        lines = [FRAMES[0][0], '{"module": "bank2", "token": "06000001", "generation": 1, "offset": 0}']
        found = self.answers(self.frames(*lines), "--modules", self.folder)
        self.assertEqual([(one["name"], one["line"]) for one in found], [("Account::Print", 16), ("P::Say", None)])

    def test_wrong_words(self):
        self.assertIn("no module is given", self.wrong(2, "symbolicate", os.devnull))
        self.assertIn("isn't of the form NAME=BASE", self.wrong(2, "symbolicate", os.devnull, "--module", "bank"))
        self.assertIn("should be 1 to", self.wrong(2, "symbolicate", "--modules", "examples", "--jobs", "0"))
        self.assertIn("name a folder", self.wrong(1, "symbolicate", os.devnull, "--modules", self.path("no")))
        self.assertIn("there is no .dll", self.wrong(1, "symbolicate", os.devnull, "--modules", self.folder))
        self.assertIn("no.jsonl: ", self.wrong(1, "symbolicate", self.path("no.jsonl"), "--modules", "examples/bank"))
        self.assertIn("one of them", self.wrong(2, "symbolicate", "--json", "--text", "--modules", "examples"))

    def test_progress_is_for_a_terminal(self):
        lines = [json.dumps({**json.loads(FRAMES[0][0]), "id": i}) for i in range(60000)]
        words = ("symbolicate", self.frames(*lines), "--modules", "examples/bank")
        with open(self.path("out"), "wb") as out:
            status, shown = on_terminal(*words, out=out)
        self.assertEqual(status, 0)
        self.assertRegex(shown, r"\r\x1b\[K\[#*\.*\] +\d+% [\d,]+ frames")
        self.assertTrue(shown.endswith("\r\x1b[K"))
        with open(self.path("out"), "rb") as out:
            self.assertEqual(out.read().count(b"\n"), 60000)
        self.assertEqual(apart(*words)[2], "")

    def test_a_bar(self):
        class Terminal(io.StringIO):
            def isatty(self):
                return True

        shown = "\r\x1b[K[###############...............]  50% 7 frames\r\x1b[K"
        for file, wanted in ((Terminal(), shown), (io.StringIO(), "")):
            bar = _tool_screen.Bar(file, 100)
            bar.at(10, 1)
            bar._next = time.monotonic()
            bar.at(50, 7)
            bar.clear()
            bar.clear()
            self.assertEqual(file.getvalue(), wanted)

    @unittest.skipUnless(hasattr(signal, "SIGINT"), "no signals here")
    def test_an_interrupt_is_silent(self):
        started = subprocess.Popen(
            program("symbolicate", "--modules", "examples/bank"), stdin=subprocess.PIPE, stdout=subprocess.PIPE,
            stderr=subprocess.PIPE, env=around(PYTHONUNBUFFERED="1"), cwd=ROOT,
            preexec_fn=lambda: signal.signal(signal.SIGINT, signal.SIG_DFL),  # a shell's background job ignores it
        )  # fmt: skip
        started.stdin.write(FRAMES[0][0].encode() + b"\n")
        started.stdin.flush()
        self.assertIn(b"Account::Print", started.stdout.readline())
        started.send_signal(signal.SIGINT)
        out, said = started.communicate(timeout=60)
        self.assertEqual((started.returncode, out, said), (130, b"", b""))


def usage(words):
    if not words:
        print(__doc__)
        return 2
    os.environ["ENC_LIBRARY"] = os.path.abspath(words[0])
    if len(words) > 1:
        testing.ENC = os.path.abspath(words[1])
    os.chdir(ROOT)
    made = unittest.main(argv=["test_tool.py", *words[2:]], exit=False, verbosity=1)
    return 0 if made.result.wasSuccessful() else 1


if __name__ == "__main__":
    sys.exit(usage(sys.argv[1:]))
