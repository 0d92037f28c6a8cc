"""Tests of the package enc over the examples. Usage: python3 python/test.py LIBENC.so [ENC] [WORDS OF unittest..]

Rows, names and files are compared with what the program ENC (dist/enc) says and saves. Docstrings run as doctests.
What the library has no call for is skipped. `./test` runs this."""

import contextlib
import copy
import doctest
import importlib
import io
import json
import os
import pickle
import random
import re
import shutil
import struct
import subprocess
import sys
import tempfile
import unittest
from pathlib import Path

sys.dont_write_bytecode = True

import make_rules
import testing
from test_installed import Archives, Installed  # noqa: F401
from test_language import Docstrings, Missing, Types  # noqa: F401
from test_language import Rows as ByNumber  # noqa: F401
from test_threads import Signals, Threads  # noqa: F401
from testing import CHAINS, HERE, ROOT, Folder, every_token, has, needs, opened, printed, program, told

import enc
from enc import _files, _library, _printed, _raw
from enc.session import Session


@unittest.skipUnless((ROOT / "crates").is_dir(), "no checkout here")
class Header(Folder):
    """The package and what it was made from agree."""

    def test_rules_are_those_of_the_pages(self):
        self.assertEqual((HERE / "enc" / "rules.py").read_text(encoding="utf-8"), make_rules.made())

    def test_version(self):
        self.assertEqual(enc.__version__, (ROOT / "VERSION").read_text().strip())

    def test_tables_are_those_of_the_schema(self):
        source = ROOT / "crates" / "enc_schema" / "src"
        names = re.sub(r"\s", "", (source / "names.rt").read_text().split("56] = [")[1].split("];")[0])
        listed = [re.findall(r'"(\w+)"', part) for part in names.split("&[")[1:]]
        schema = (source / "schema.rt").read_text().split("56] = [")[1].split("];")[0]
        kinds = [_kinds(part) for part in re.split(r"// [0-9A-F]{2}", schema)[1:]]
        self.assertEqual((len(listed), len(kinds)), (56, 56))
        for table, words, columns in zip(enc.TABLES, listed, kinds):
            self.assertEqual([table.name, *(column.name for column in table.columns)], words)
            self.assertEqual([_schema_kind(column) for column in table.columns], columns, table.name)

    def test_codings_are_those_of_the_schema(self):
        text = (ROOT / "crates" / "enc_schema" / "src" / "coding.rt").read_text()
        body = text[text.index("match kind {") : text.index("pub(crate) fn tag_bits")]
        for name, tables in _raw.CODINGS.items():
            found = re.search(rf"Coding::{name} => &\[([^]]*)\]", body)
            if found:
                said = re.findall(r"\w+", found.group(1).replace("Some", "").replace("_", ""))
                self.assertEqual(said, ["None" if table == "-" else table.upper() for table in tables])

    def test_structs_have_the_sizes_of_c(self):
        if not shutil.which("cc"):
            self.skipTest("no cc here")
        header = (ROOT / "library" / "enc.h").read_text()
        known = [name for name in _library.STRUCTS if re.search(r"}\s*%s;" % name, header)]
        self.assertIn("enc_refusal", known)
        body = "".join(f'printf("{name} %zu\\n", sizeof({name}));' for name in known)
        source = self.path("sizes.c")
        Path(source).write_text('#include <stdio.h>\n#include "enc.h"\nint main(void) { %s return 0; }\n' % body)
        subprocess.run(["cc", "-I", str(ROOT / "library"), "-o", self.path("sizes"), source], check=True)
        sizes = dict(line.split() for line in subprocess.check_output([self.path("sizes")], text=True).splitlines())
        for name in known:
            self.assertEqual(int(sizes[name]), _library.ctypes.sizeof(_library.STRUCTS[name]), name)

    def test_structs_have_the_fields_of_the_header(self):
        header = re.sub(r"/\*.*?\*/", "", (ROOT / "library" / "enc.h").read_text(), flags=re.S)
        structs = re.findall(r"typedef struct {(.*?)}\s*(\w+);", header, re.S)
        self.assertGreaterEqual(len(structs), 7)
        for body, name in structs:
            said = [(field, kind) for kind, field in re.findall(r"(u?int\d+_t) (\w+);", body)]
            named = {"before": "from", "after": "to"}
            fields = _library.STRUCTS[name]._fields_
            self.assertEqual(said, [(named.get(field, field), _INTEGERS[kind]) for field, kind in fields])

    def test_calls_take_what_the_header_says(self):
        header = re.sub(r"/\*.*?\*/", "", (ROOT / "library" / "enc.h").read_text(), flags=re.S)
        calls = re.findall(r"^(?:enc_status|uint32_t) (enc_\w+)\(([^)]*)\);", header, re.M)
        self.assertGreater(len(calls), 20)
        for name, arguments in calls:
            self.assertIn(name, _library.CALLS)
            taken = [] if arguments == "void" else arguments.split(",")
            self.assertEqual(len(taken), len(_library.CALLS[name]), name)
            for said, kind in zip(taken, _library.CALLS[name]):
                self.assertEqual(_kind_said(said), _kind_taken(kind), f"{name}:{said}")


_INTEGERS = {_library.u8: "uint8_t", _library.u32: "uint32_t", _library.i64: "int64_t"}


def _kinds(part):
    """The kinds of a table's columns in schema.rt, in the words of `_schema_kind`."""
    found = re.findall(r"(Num8|Num16|Num32|Text|Guid|Blob)|(Coded)\(Coding::(\w+)\)|(Index|Run)\((\w+)\)", part)
    return [
        (plain or coded or index).lower() + (coding or table).lower().replace("_", "")
        for plain, coded, coding, index, table in found
    ]


def _schema_kind(column):
    kind = {"body": "num32", "bytes": "num32"}.get(column.kind, column.kind)
    return kind + column.table.lower()


def _kind_said(argument):
    """Whether an argument in C is a pointer, and else its size."""
    if "*" in argument:
        return "pointer"
    return {"uint8_t": 1, "uint32_t": 4, "size_t": 8}[argument.split()[0]]


def _kind_taken(kind):
    ctypes = _library.ctypes
    is_pointer = kind in (ctypes.c_char_p, ctypes.c_void_p) or hasattr(kind, "contents")
    return "pointer" if is_pointer else ctypes.sizeof(kind)


class Rows(unittest.TestCase):
    """Rows, names and bodies are what the program says."""

    def each_chain(self):
        for base, deltas in CHAINS:
            for count in range(len(deltas) + 1):
                yield base, deltas[:count], opened(base, deltas[:count])

    def test_each_row_is_as_enc_shows_it(self):
        for base, deltas, module in self.each_chain():
            for token in every_token(module):
                self.assertEqual(module.text(token), told("show", base, str(token), *deltas))

    def test_columns_are_those_that_are_printed(self):
        for _, _, module in self.each_chain():
            for token in every_token(module):
                text = module.text(token)
                shown = enc.View._printed_row(module, token, _printed.printed(text), text)
                row = module[token]
                self.assertEqual(list(row.columns.items()), list(shown.columns.items()))
                self.assertEqual((row, row.place, row.text), (shown, shown.place, text))
                named = [name for name, _ in re.findall(r" (\w+)=(\S)", text.split("\n")[0])]
                runs = [column.name for column in enc.table(row.table).columns if column.kind == "run"]
                self.assertEqual([name for name in row if name not in runs][: len(named)], named)

    def test_a_row_stays_what_it_was(self):
        module = enc.Module("examples/bank/bank")
        before = module["06000002"]
        text = before.text
        module.apply("examples/bank/bank1")
        module.apply("examples/bank/bank2")
        self.assertEqual((before.place, module["06000002"].place), ((0, 2), (2, 1)))
        if has("enc_row_at"):
            self.assertEqual(before.text, text)

    def test_rows_by_what_is_given(self):
        module = opened(*CHAINS[0])
        row = module["06000002"]
        for which in (row, row.token, 0x06000002, "06000002"):
            self.assertEqual(module[which].Name, "Deposit")
            self.assertIn(which, module)
        self.assertEqual(row.Name, row["Name"])
        self.assertIn("Flags", dir(row))
        for wrong in ("06000009", "06000000", 0x77000001):
            self.assertNotIn(wrong, module)
            with self.assertRaises(LookupError):
                module[wrong]
        with self.assertRaises(LookupError):
            row["Nothing"]
        with self.assertRaises(AttributeError):
            row.Nothing
        with self.assertRaises(ValueError):
            module["6000002"]

    def test_what_is_no_token(self):
        module = enc.Module("examples/bank/bank")
        self.assertEqual(module["0A000001"].token, 0x0A000001)
        arabic = "".join(chr(0x660 + int(digit)) for digit in "06000002")
        texts = (arabic, "0x600002", "06_00002", " 6000002", "6000002\n", "+6000002", "-6000002", "0600000g", "", "6")
        for text in texts:
            for act in (enc.Token, module.__getitem__, module.__contains__, module.body, module.name):
                self.assertRaises(ValueError, act, text)
        for other in (1.5, 1.0, None, b"06000002", [1]):
            for act in (enc.Token, module.__getitem__, module.place, module.text, module.name):
                self.assertRaises(TypeError, act, other)
            self.assertNotIn(other, module)
        for number in (-1, 1 << 32):
            self.assertRaises(ValueError, enc.Token, number)
        self.assertRaises(TypeError, module.at, 0.5)
        self.assertRaises(TypeError, module.user_text, 1.5)
        self.assertRaises(TypeError, module.count, 1.5)

    def test_iteration_gives_the_tokens(self):
        for _, _, module in self.each_chain():
            self.assertEqual(list(module), every_token(module))
            self.assertTrue(all(token in module for token in module))
        if has("enc_row_at"):
            self.assertEqual(list(opened(*CHAINS[0]).at(0)), every_token(enc.Module(CHAINS[0][0])))

    def test_rows_in_sets(self):
        module, again = opened(*CHAINS[0]), opened(*CHAINS[0])
        rows = [module[token] for token in module]
        self.assertEqual([hash(row) for row in rows], [hash(again[token]) for token in again])
        self.assertEqual(len({*rows, *(again[token] for token in again)}), len(rows))
        older = enc.Module(CHAINS[0][0])["06000002"]
        self.assertEqual({older: 0, module["06000002"]: 1}[older], int(older == module["06000002"]))

    @needs("enc_find_type", "enc_find_member")
    def test_each_name_is_found(self):
        for _, _, module in self.each_chain():
            for table in ("TypeDef", "MethodDef", "Field", "Property", "Event"):
                for token in module.tokens(table):
                    self.assertIn(token, module.find_all(module.name(token)))
        for wrong in ("", ".", "Nothing", "Account.", "Account/Nothing", "Account..cctor", "/", "Account.Print.x"):
            with self.assertRaises(LookupError):
                module.find(wrong)

    @needs("enc_clauses")
    def test_bodies(self):
        for _, _, module in self.each_chain():
            for method in module.methods():
                if not method.RVA:
                    continue
                body = module.body(method)
                self.assertEqual(body.clauses, enc.View._clauses(module, method.token))
                local = body.locals if body.locals else enc.Token(0)
                head = f"  body stack={body.stack} init={int(body.init)} locals={local}\n"
                self.assertIn(head, module.text(method))

    def test_points(self):
        for _, _, module in self.each_chain():
            for method in module.methods():
                self.assertEqual("".join(map(_point_line, module.points(method))), _point_lines(module.text(method)))

    @needs("enc_entries", "enc_lengths")
    def test_generations_as_enc_lists_them(self):
        for base, deltas, module in self.each_chain():
            got = []
            for generation in range(module.generations):
                rows = module.entries(generation) if generation else every_token(opened(base, []))
                identity = f" {module.enc_id(generation)}" if generation else ""
                lengths = " ".join(f"{name} {length}" for name, length in module.lengths(generation)._asdict().items())
                got.append(f"generation {generation}{identity} rows {len(rows)} {lengths}")
                for entry in module.entries(generation):
                    got.append(f"{entry.token} {'insert' if entry.inserted else 'update'}")
            listed = [re.sub(r"^  (\w+ \w+) .*", r"\1", line) for line in told("list", base, *deltas).splitlines()]
            self.assertEqual(got, listed)

    @needs("enc_row_at", "enc_code_at", "enc_points_at", "enc_document_at", "enc_count_at")
    def test_earlier_generations(self):
        for base, deltas in CHAINS:
            module = opened(base, deltas)
            for generation in range(module.generations):
                view, then = module.at(generation), opened(base, deltas[:generation])
                self.assertEqual(every_token(view), every_token(then))
                for token in every_token(view):
                    self.assertEqual((view[token], view.text(token)), (then[token], then.text(token)))
                    self.assertEqual(view.name(token), then.name(token))
                for method in then.methods():
                    self.assertEqual(view.points(method), then.points(method))
                    if method.RVA:
                        self.assertEqual(view.body(method), then.body(method))
            with self.assertRaises(LookupError):
                module.at(module.generations)


def _point_line(point):
    start = f"  point IL_{point.offset:04x} "
    if point.hidden:
        return start + "hidden\n"
    lines = f"{point.start_line}:{point.start_column}-{point.end_line}:{point.end_column}"
    return f'{start}"{point.document}" {lines}\n'


def _point_lines(text):
    return "".join(line for line in text.splitlines(keepends=True) if line.startswith("  point "))


class Deltas(Folder):
    """Deltas under any names; what is refused; what isn't there."""

    def test_names_of_deltas(self):
        for ending, other in ((".meta", ".dmeta"), (".il", ".dil"), (".pdb", ".dpdb")):
            self.copy("examples/bank/bank1" + ending, "bank.dll.1" + other)
            self.copy("examples/bank/bank1" + ending, "any" + ending[1:])
        ways = [
            (self.path("bank.dll.1"),),
            (self.path("bank.dll.1.dil"),),
            (Path(self.path("bank.dll.1.dmeta")),),
            (self.path("anymeta"), self.path("anyil"), self.path("anypdb")),
            tuple(_files.read(self.path("any" + ending)) for ending in ("meta", "il", "pdb")),
            (enc.Delta(*(_files.read(self.path("any" + ending)) for ending in ("meta", "il", "pdb"))),),
        ]
        for way in ways:
            module = enc.Module("examples/bank/bank")
            self.assertEqual(module.apply(*way), 1)
            self.assertEqual(module["06000003"].place, (1, 1))
            self.assertEqual(len(module.points("06000003")), 7)

    def test_a_delta_without_a_pdb(self):
        for ending in (".meta", ".il"):
            self.copy("examples/bank/bank1" + ending, "d" + ending)
        module = enc.Module("examples/bank/bank", pdb=b"")
        module.apply(self.path("d"))
        self.assertEqual(module.points("06000003"), [])

    def test_bases(self):
        image, pdb = (_files.read("examples/bank/bank" + ending) for ending in (".dll", ".pdb"))
        for given in (("examples/bank/bank.dll",), (image, pdb), (Path("examples/bank/bank"),)):
            self.assertTrue(enc.Module(*given).points("06000002"))
        self.assertEqual(enc.Module(image).points("06000002"), [])
        other = self.copy("examples/bank/bank.dll", "bank.exe")
        self.copy("examples/bank/bank.pdb", "bank.pdb")
        self.assertTrue(enc.Module(other).points("06000002"))

    def refusal(self, act, *arguments):
        with self.assertRaises(enc.Refused) as raised:
            act(*arguments)
        return raised.exception

    def test_refusals_are_those_of_enc(self):
        Path(self.path("e.dll")).write_bytes(b"")
        shutil.copy("examples/m.dll", self.path("p.dll"))
        Path(self.path("p.pdb")).write_bytes(b"")
        for base in ("e", "p"):
            wanted = told("check", self.path(base)).split()
            refused = self.refusal(enc.Module, self.path(base))
            self.assertEqual(["refused", refused.file, refused.code, refused.place], wanted)
            self.assertTrue(refused.rule)
        for base, deltas in CHAINS:
            refused = self.refusal(opened(base, deltas).apply, deltas[0])
            line = f"refused {refused.file} {refused.code} {refused.place}\n"
            self.assertEqual(line, told("check", base, *deltas, deltas[0]))
            self.assertEqual(str(refused), "E2 00000001: its Generation isn't the next")

    def test_a_refused_delta_changes_nothing(self):
        module = opened(*CHAINS[0])
        before = [module.text(token) for token in every_token(module)]
        self.refusal(module.apply, "examples/bank/bank2")
        self.assertEqual([module.text(token) for token in every_token(module)], before)

    def test_rules_in_words(self):
        for code, place, words in (
            ("F7", "06000001.owner", "a field, method"),
            ("F7", "01000001.ResolutionScope", "an index past its table, a"),
            ("F5", "debug", "that range doesn't stand"),
            ("F12", "31000002", "an offset that isn't good; a name"),
            ("L4", "#US", "the heap of the module's"),
            ("E10", "log 21", "an entry of EncLog"),
        ):
            self.assertTrue(enc.rule_words(code, place).startswith(words), (code, place))
        self.assertTrue(enc.rule_words("L4", "#Pdb", "merge").startswith("the weight, as above"))
        self.assertEqual(enc.rule_words("J1", "json", "write"), "the text isn't JSON")

    def test_a_file_without_an_end(self):
        refused = self.refusal(enc.Module, "/dev/zero")
        self.assertEqual((refused.code, refused.place, refused.file), ("L1", "length", "/dev/zero"))

    def test_missing_files(self):
        with self.assertRaises(FileNotFoundError):
            enc.Module("examples/nothing")
        module = enc.Module("examples/k")
        with self.assertRaises(FileNotFoundError):
            module.apply("examples/nothing")
        with self.assertRaises(TypeError):
            module.apply(b"BSJB")

    def test_a_closed_module(self):
        with enc.Module("examples/k") as module:
            self.assertEqual(module.generation, 0)
        module.close()
        with self.assertRaises(ValueError):
            module.count("MethodDef")

    def test_what_owns_a_handle_is_not_copied(self):
        owners = [enc.Module("examples/k"), enc.Module("examples/k").at(0)]
        if has("enc_session_open"):
            owners.append(Session("examples/k"))
        for owner in [*owners, owners[0]._handle]:
            for act in (copy.copy, copy.deepcopy, pickle.dumps, lambda one: copy.deepcopy([one])):
                self.assertRaises(TypeError, act, owner)
        self.assertEqual((owners[0].count("MethodDef"), owners[1].count("MethodDef")), (2, 2))
        if has("enc_session_open"):
            self.assertEqual(owners[2].events(), [])

    def test_a_call_that_the_library_has_not(self):
        with self.assertRaises(AttributeError):
            _library.CALLS["enc_nothing"] = ()
            _library.library().call("enc_nothing")
        del _library.CALLS["enc_nothing"]

    @needs("enc_check")
    def test_check_adds_nothing(self):
        module = enc.Module("examples/bank/bank")
        module.check("examples/bank/bank1")
        self.assertEqual(module.generation, 0)
        self.assertEqual(self.refusal(module.check, "examples/bank/bank2").code, "E2")


class Saved(Folder):
    """What is saved is what the program saves."""

    def files(self, name, endings):
        return [_files.read(self.path(name + ending)) for ending in endings]

    @needs("enc_save")
    def test_save(self):
        for base, deltas in CHAINS:
            told("apply", base, self.path("wanted"), *deltas)
            opened(base, deltas).save(self.path("got"))
            self.assertEqual(self.files("got", (".dll", ".pdb")), self.files("wanted", (".dll", ".pdb")))

    @needs("enc_compact")
    def test_compact(self):
        for base, deltas in CHAINS:
            lines = told("compact", base, self.path("wanted"), *deltas).splitlines()[1:]
            moves = opened(base, deltas).compact(self.path("got"))
            self.assertEqual([f"moved {move.before} {move.after}" for move in moves], lines)
            self.assertEqual(self.files("got", (".dll", ".pdb")), self.files("wanted", (".dll", ".pdb")))

    @needs("enc_merge")
    def test_merge(self):
        base, deltas = CHAINS[0]
        told("merge", base, self.path("wanted"), *deltas)
        merged = opened(base, deltas).merge()
        self.assertEqual(list(merged), self.files("wanted", (".meta", ".il", ".pdb")))
        merged.save(self.path("got"))
        self.assertEqual(opened(base, [self.path("got")]).generation, 1)
        with self.assertRaises(ValueError):
            opened(base, deltas[:1]).merge()

    @needs("enc_write")
    def test_write(self):
        for name in ("body", "call", "type"):
            path = f"examples/edits/{name}.json"
            told("write", "examples/k", path, self.path("wanted"))
            module = enc.Module("examples/k")
            for edits in (_files.read(path), Path(path).read_text(), json.loads(_files.read(path))):
                self.assertEqual(list(module.write(edits)), self.files("wanted", (".meta", ".il", ".pdb")))
            self.assertEqual(module.apply(module.write(edits)), 1)

    @needs("enc_write")
    def test_refused_edits(self):
        edits = json.loads(_files.read("examples/edits/body.json"))
        module = enc.Module("examples/k")
        twice = {**edits, "edits": edits["edits"] * 2}
        wrong = (("nothing", "J1 json"), ([], "J2 0"), ({**edits, "edits": [1]}, "J2 1"), (twice, "E6 2"))
        for list_of, words in wrong:
            with self.assertRaises(enc.Refused) as raised:
                module.write(list_of)
            self.assertTrue(str(raised.exception).startswith(words + ": "), raised.exception)


class Dump(Folder):
    """`python3 -m enc dump`."""

    @needs("enc_lengths", "enc_entries")
    def test_the_whole_has_each_row(self):
        for base, deltas in CHAINS:
            status, text = printed("dump", base, *deltas)
            module = opened(base, deltas)
            self.assertEqual(status, 0)
            for token in every_token(module):
                self.assertEqual(len(re.findall(f"^  {token} @{module.place(token)} ", text, re.M)), 1)

    @needs("enc_lengths", "enc_entries")
    def test_a_generation(self):
        status, text = printed("dump", CHAINS[0][0], *CHAINS[0][1], "--generation", "1")
        self.assertEqual(status, 0)
        self.assertIn('  update MethodDef 06000003 @1.1 RVA=body ImplFlags=0000 Flags=0086 Name="Print"', text)
        self.assertIn("  log 7 MethodDef 06000003 (Account.Print) 0 Default\n", text)
        self.assertNotIn("04000002", text)

    @needs("enc_lengths", "enc_entries")
    def test_a_table(self):
        for name in ("MemberRef", "0a", "memberref"):
            status, text = printed("dump", "--table", name, CHAINS[0][0], *CHAINS[0][1])
            self.assertEqual((status, len(re.findall("^  0a", text, re.M))), (0, 11))
        status, text = printed("dump", *[CHAINS[0][0], *CHAINS[0][1]], "--table", "EncLog", "--generation", "2")
        self.assertEqual(len(re.findall("^  log ", text, re.M)), 13)

    @needs("enc_lengths", "enc_entries")
    def test_a_refused_delta(self):
        status, text = printed("dump", "examples/bank/bank", "examples/bank/bank2")
        self.assertEqual(status, 1)
        self.assertIn("  04000002 row 1 Flags=0001 Name=#Strings:", text)
        self.assertIn("  log 7 TypeDef 02000002 (Account) 2 AddField\n", text)
        last = "refused examples/bank/bank2.meta E2 00000001\n  E2: its Generation isn't the next\n"
        self.assertTrue(text.endswith(last))
        Path(self.path("z.meta")).write_bytes(b"BSJB")
        Path(self.path("z.il")).write_bytes(b"")
        status, text = printed("dump", "examples/k", self.path("z"))
        self.assertEqual(status, 1)
        self.assertIn("  it can't be read: its headers don't stand whole in it\n", text)

    @needs("enc_lengths", "enc_entries")
    def test_a_refused_delta_whose_heaps_begin_nowhere(self):
        whole = _files.read("examples/bank/bank1.meta")
        row, text = struct.pack("<HIIII", 1, 262, 2, 3, 0), b"Concat\0Print\0"
        mvid = enc.Module("examples/bank/bank")["00000001"].Mvid.bytes_le
        changed = {
            "E1": whole.replace(mvid, bytes(range(16))),
            "E2": _files.read("examples/bank/bank2.meta"),
            "E3": whole.replace(row, struct.pack("<HIIII", 1, 262, 2, 3, 3)),
            "E4": whole.replace(row, struct.pack("<HIIII", 1, 262, 2, 0, 0)),
            "E5": whole.replace(text, text[:-1] + b"x"),
            "F2": whole.replace(b"#GUID\0", b"#Blob\0"),
        }
        self.copy("examples/bank/bank2.il", "d.il")
        for code, part in changed.items():
            Path(self.path("d.meta")).write_bytes(part)
            status, shown = printed("dump", "examples/bank/bank", self.path("d"), "--generation", "1")
            self.assertEqual((status, shown.splitlines()[-2].split()[2]), (1, code))
            named = re.findall(r"=#(?:Strings|Blob):[0-9a-f]+ [\"[]\S*", shown)
            begins = re.findall(r"^#(?:Strings|US|Blob): \d+ bytes( from [0-9a-f]+)? in ", shown, re.M)
            if code == "E4":
                self.assertIn('=#Strings:106 "bank.exe"', named)
                self.assertEqual(begins, [" from 000000ea", " from 00000014", " from 00000058"])
                self.assertIn(" Mvid=#GUID:2 ea3cd342-9548-453b-b96f-3247a4b4f44c EncId=#GUID:0 ", shown)
                self.assertNotIn("isn't known", shown)
            else:
                self.assertEqual((named, set(begins)), ([], {""}), code)
                self.assertIn(f"\n  {code}: where its heaps begin isn't known: ", shown)
                self.assertIn('\n  00000001 "mscorlib"\n', shown)
            if code == "E1":
                self.assertIn("Mvid=#GUID:2 03020100-0504-0706-0809-0a0b0c0d0e0f ", shown)

    def test_statuses(self):
        self.assertEqual(printed("dump", "examples/n"), (6, "missing examples/n.dll\n"))
        self.assertEqual(printed("dump", "examples/k", "examples/n"), (6, "missing examples/n.meta\n"))
        self.assertEqual(printed("dump", "examples/k", "--generation", "1")[0], 2)
        self.assertEqual(printed()[0], 2)
        Path(self.path("e.dll")).write_bytes(b"")
        self.assertEqual(printed("dump", self.path("e"))[0], 1)

    def test_rows_of_a_file_are_those_of_the_library(self):
        for base, deltas in CHAINS:
            for count, delta in enumerate(deltas, 1):
                found, module = _raw.raw(_files.read(delta + ".meta")), opened(base, deltas[:count])
                for number, rows in found.rows.items():
                    tokens = [token for token in found.map() if token >> 24 == number]
                    for token, cells in zip(tokens, rows):
                        self.same_cells(module[token], cells)
                if has("enc_entries"):
                    self.assertEqual(found.map(), [entry.token for entry in module.entries(count)])

    @needs("enc_user_text", "enc_lengths", "enc_entries")
    def test_heaps(self):
        for base, deltas in CHAINS:
            module, text = opened(base, deltas), printed("dump", base, *deltas)[1]
            for part in re.findall(r"^#US: .*\n((?:  .*\n)*)", text, re.M):
                for offset, shown in re.findall(r"  (\w{8}) (.*)", part):
                    units = module.user_text(int(offset, 16)).encode("utf-8")
                    self.assertEqual(shown.encode("ascii"), b'"' + units + b'"')
            names = set(re.findall(r' \w*Name="([^"]+)"', text))
            self.assertLessEqual(names, set(re.findall(r'^  \w{8} "(.*)"$', text, re.M)))

    def same_cells(self, row, cells):
        for column, number in zip(enc.table(row.table).columns, cells):
            if column.kind in ("index", "coded"):
                self.assertEqual(_raw.decoded(column, number), row[column.name])
            elif column.kind.startswith("num"):
                self.assertEqual(number, row[column.name])

    @needs("enc_lengths", "enc_entries")
    def test_deltas_with_any_byte_changed(self):
        whole = _files.read("examples/bank/bank2.meta")
        for ending in (".meta", ".il"):
            self.copy("examples/bank/bank2" + ending, "d" + ending)
        chance = random.Random(1)
        for _ in range(60):
            at = chance.randrange(len(whole))
            part = whole[:at] + bytes([chance.randrange(256)]) + whole[at + 1 :]
            Path(self.path("d.meta")).write_bytes(part)
            files = ["examples/bank/bank", "examples/bank/bank1", self.path("d")]
            status, text = printed("dump", *files, "--generation", "2")
            checked = told("check", *files)
            self.assertEqual(status, int(checked != "accepted 2\n"))
            if status:
                self.assertIn(checked, text)

    def test_files_that_cannot_be_read(self):
        metadata = _files.read("examples/bank/bank2.meta")
        for end in range(len(metadata)):
            for part in (metadata[:end], metadata[:end] + b"\xff" + metadata[end + 1 :]):
                with contextlib.suppress(ValueError):
                    _raw.raw(part)


def run_script(base, path):
    """The lines that a script of spawns, steps, deltas and remaps prints, by a session."""
    session, lines = Session(base), []
    for command in json.loads(_files.read(path)):
        if command["do"] == "spawn":
            lines.append(f"task {session.spawn(command['method'])} spawned {command['method']}")
        elif command["do"] == "step":
            stepped = session.step(command["task"], command["count"])
            lines += session.output() + [f"task {command['task']} ran {stepped.ran}"]
        elif command["do"] == "apply":
            session.apply(command["delta"])
            lines.append(f"applied {command['delta']}")
        elif command["do"] == "remap":
            moved = session.remap(command["task"], command["map"])
            lines.append(f"task {command['task']} remapped {moved.method} IL_{moved.before:04x} IL_{moved.after:04x}")
        elif command["do"] == "state":
            lines += session.state().splitlines()
    return lines, session


class Sessions(unittest.TestCase):
    """A session does what `enc run` does."""

    @needs("enc_session_open")
    def test_scripts(self):
        for base, path in (
            ("examples/bank/bank", "examples/scripts/remap.json"),
            ("examples/k", "examples/scripts/say.json"),
        ):
            lines = told("run", base, path).splitlines()
            wanted = [re.sub(r" generation \d+$", "", line) for line in lines]
            self.assertEqual(run_script(base, path)[0], wanted)

    @needs("enc_session_open")
    def test_events_with_a_small_limit(self):
        kept = []
        for limit in (4, 64, 1 << 16):
            session = Session("examples/bank/bank", limit=limit)
            task = session.spawn("06000004")
            self.assertEqual(session.step(task, 36).ran, 36)
            session.apply("examples/bank/bank1")
            session.apply("examples/bank/bank2")
            self.assertEqual(session.step(task, 1000).state, "ended")
            kept.append((session.events(), session.output()))
        self.assertEqual(kept[0], kept[1])
        self.assertEqual(kept[1], kept[2])
        self.assertEqual([event.kind for event in kept[0][0][:2]], ["spawned", "entered"])
        self.assertEqual(kept[0][0][-1].kind, "ended")

    @needs("enc_session_open")
    def test_events_are_those_of_a_trace(self):
        session = Session("examples/k")
        task = session.spawn("06000002")
        session.step(task, 2)
        session.apply("examples/k1")
        session.step(task, 20)
        report = told("run", "examples/k", "examples/scripts/reload.json").split("watcher 1 report\n")[1]
        self.assertEqual([str(event) for event in session.events()], report.splitlines())
        self.assertEqual(session.events(), [])
        with self.assertRaises(enc.Refused):
            session.apply("examples/k1")
        self.assertEqual([str(event) for event in session.events()], ["refused E2"])

    @needs("enc_session_open")
    def test_frames(self):
        with Session("examples/bank/bank") as session:
            task = session.spawn("06000004")
            session.step(task, 36)
            outer, inner = session.frames(task)
            self.assertEqual((outer.method, inner.method), (0x06000004, 0x06000002))
            self.assertEqual((inner.offset, inner.line), (15, 10))
            self.assertEqual([str(value) for value in session.values(task, 1, "arguments")], ["#1", "2"])
            self.assertEqual(session.values(task, 1, "stack"), [])
            with self.assertRaises(enc.RemapRefused) as raised:
                session.remap(task, [])
            self.assertEqual(raised.exception.code, "Q4")
            for wrong in (0, 2):
                with self.assertRaises(LookupError):
                    session.step(wrong)
            with self.assertRaises(ValueError):
                session.spawn("06000002")


def load_tests(loader, tests, pattern):
    """The tests, and the docstrings."""
    bank = opened(*CHAINS[0])
    for path in sorted((HERE / "enc").glob("*.py")):
        name = "" if path.stem == "__init__" else f".{path.stem}"
        module = importlib.import_module("enc" + name)
        extra = {"bank": bank} if name else {}
        tests.addTests(doctest.DocTestSuite(module, extraglobs=extra, optionflags=doctest.ELLIPSIS))
    return tests


def main(words):
    if not words:
        print(__doc__)
        return 2
    os.environ["ENC_LIBRARY"] = os.path.abspath(words[0])
    if len(words) > 1:
        testing.ENC = os.path.abspath(words[1])
    os.chdir(ROOT)
    made = unittest.main(argv=["test.py", *words[2:]], exit=False, verbosity=1)
    return 0 if made.result.wasSuccessful() else 1


if __name__ == "__main__":
    sys.exit(main(sys.argv[1:]))
