"""Tests of `python3 -m enc report`. Usage: python3 python/test_report.py LIBENC.so ENC [--pictures DIR] [WORDS..]

Pages are made of the examples, of hostile names and of changed deltas, and read as HTML. Where Chromium is they are
opened in it: searched, folded, followed, printed, seen wide, narrow and dark. Where Mono's mscorlib is, 64 deltas over
it are shown. `./test` runs this."""

import base64
import contextlib
import doctest
import hashlib
import importlib
import io
import json
import os
import random
import re
import shutil
import struct
import subprocess
import sys
import tempfile
import unittest
import xml.etree.ElementTree
from html.parser import HTMLParser
from pathlib import Path

HERE = Path(__file__).resolve().parent
ROOT = HERE.parent
sys.path.insert(0, str(HERE))
sys.path.insert(0, str(ROOT / "examples" / "reports"))
sys.dont_write_bytecode = True

import browser  # noqa: E402
import make  # noqa: E402
import enc  # noqa: E402
from enc import _library, _report_facts, _report_pack, _sides, report  # noqa: E402
from enc.__main__ import main as program  # noqa: E402
from enc._report_names import Names, Spelled  # noqa: E402
from enc._sources import Sources  # noqa: E402

ENC = str(ROOT / "dist" / "enc")
PICTURES = ""
BANK = [str(ROOT / "examples/bank" / name) for name in ("bank", "bank1", "bank2")]
PAGES = ("worked", "bank", "refused")
EMPTY = {"max": 8, "code": [["ret"]]}
MSCORLIB = "/usr/lib/mono/4.5/mscorlib.dll"
VOID = {"meta", "br", "wbr", "link", "input", "img", "hr"}
HOSTILE = (
    "<script>alert(1)</script>",
    "\"'><img src=x onerror=alert(1)>",
    "</style></script><!--",
    "{{ 7 * 7 }}{% raw %}",
    "javascript:alert(1)",
    "a\u202eb\u2066c",
    "&lt;b&gt; &amp;",
)


class Read(HTMLParser):
    """A page that is read: its tags with their attributes, its ids, its headings, its links, what isn't closed."""

    def __init__(self, text):
        super().__init__(convert_charrefs=True)
        self.tags, self.open, self.faults, self.ids = [], [], [], []
        self.texts = {"style": "", "script": "", "data": "null"}
        self.feed(text)
        self.close()
        self.data = json.loads(self.texts["data"][4:] or "null")
        self.faults += [f"{name} isn't closed" for name in self.open]

    def handle_starttag(self, name, attributes):
        self.tags.append((name, dict(attributes)))
        self.ids += [value for key, value in attributes if key == "id"]
        if name not in VOID:
            self.open.append(name)

    def handle_startendtag(self, name, attributes):
        self.tags.append((name, dict(attributes)))
        self.ids += [value for key, value in attributes if key == "id"]

    def handle_endtag(self, name):
        if not self.open or self.open.pop() != name:
            self.faults.append(f"{name} is closed out of order at {self.getpos()}")

    def handle_data(self, text):
        if self.open and self.open[-1] in self.texts:
            is_data = self.tags[-1][1].get("type") == "application/json"
            self.texts["data" if is_data else self.open[-1]] += text

    def named(self, name):
        return [attributes for tag, attributes in self.tags if tag == name]

    def places(self):
        """What links may lead to: ids, and the changes that the script draws."""
        drawn = [f"g{change['g']}-{change['t']}" for change in self.data["changes"]] if self.data else []
        return {*self.ids, *drawn}

    def scripts(self):
        return [attributes for attributes in self.named("script") if attributes.get("type") != "application/json"]


def policy_of(read):
    """The content policy of a page."""
    return next(tag["content"] for tag in read.named("meta") if tag.get("http-equiv") == "Content-Security-Policy")


def digest(text):
    return "sha256-" + base64.b64encode(hashlib.sha256(text.encode()).digest()).decode()


def written(folder, base, lists, documents=()):
    """A chain of the deltas of edit lists over a base: the paths of its files without their endings."""
    module, paths = enc.Module(base), [base]
    for i, edits in enumerate(lists, 1):
        listed = {"encId": f"{i:08x}-2222-3333-4444-555555555555", "edits": edits, "documents": list(documents)}
        delta = module.write(listed)
        paths.append(f"{folder}/w{i}")
        delta.save(paths[-1])
        module.apply(delta)
    return paths


class Anew:
    """Edit lists over examples/k, each of which emits its references anew: a TypeSpec `List<int>.Enumerator`, members
    of it, a MethodSpec, a signature of locals, and a body of 06000001 that uses them."""

    def __init__(self):
        self.counts = {"TypeRef": 2, "TypeSpec": 0, "MemberRef": 1, "MethodSpec": 0, "StandAloneSig": 0}
        self.numbers = {"TypeRef": 1, "TypeSpec": 0x1B, "MemberRef": 0x0A, "MethodSpec": 0x2B, "StandAloneSig": 0x11}
        self.edits = []

    def add(self, table, *cells):
        """Adds a row, and tells its token."""
        self.counts[table] += 1
        self.edits.append({"do": "add", "table": table, "cells": list(cells)})
        return f"{self.numbers[table]:02x}{self.counts[table]:06x}"

    def references(self):
        """The rows of references, anew: the tokens that the body uses."""
        outer = self.add("TypeRef", "23000001", "List`1", "System.Collections.Generic")
        inner = self.add("TypeRef", outer, "Enumerator", "")
        array = self.add("TypeRef", "23000001", "Array", "System")
        coded = f"{int(inner, 16) % 0x1000000 << 2 | 1:02x}"
        spec = self.add("TypeSpec", f"1511{coded}0108")
        move = self.add("MemberRef", spec, "MoveNext", "200002")
        empty = self.add("MemberRef", array, "Empty", "1001001d1e00")
        one = self.add("MethodSpec", empty, "0a0108")
        local = self.add("StandAloneSig", f"07021511{coded}01080e")
        return move, one, local

    def list(self, begin=(), number=7, branch="br.s"):
        """The edits of a delta: its body begins with some instructions, and loads a number."""
        self.edits = []
        move, one, local = self.references()
        here = len(begin)
        code = [*begin, ["ldloca.s", 0], ["call", move], ["brtrue.s", here + 5], ["call", one], ["pop"]]
        code += [*[["nop"]] * 20, ["ldstr", "café"], ["pop"], ["ldc.i4.s", number], ["pop"]]
        code += [[branch, len(code) + 1], ["ret"]]
        body = {"max": 8, "init": True, "locals": local, "code": code}
        return [*self.edits, {"do": "body", "method": "06000001", "code": body}]


def asked(*words):
    """The status of the command, and what it prints."""
    out = io.StringIO()
    with contextlib.redirect_stdout(out), contextlib.redirect_stderr(out):
        status = program(["report", *words])
    return status, out.getvalue()


def fits(value, schema, whole):
    """Asserts that a value is as a JSON schema says, by the words of it that docs/report.md uses."""
    if "$ref" in schema:
        return fits(value, whole["$defs"][schema["$ref"].rpartition("/")[2]], whole)
    kinds = {"object": dict, "array": list, "string": str, "integer": int, "boolean": bool, "null": type(None)}
    wanted = schema.get("type", [])
    wanted = [wanted] if isinstance(wanted, str) else wanted
    assert not wanted or any(type(value) is kinds[kind] for kind in wanted), (value, schema)
    assert value in schema.get("enum", [value]), (value, schema)
    if isinstance(value, dict):
        known = schema.get("properties", {})
        assert set(schema.get("required", [])) <= set(value), (set(value), schema)
        more = schema.get("additionalProperties", True)
        assert more is not False or set(value) <= set(known), (set(value), schema)
        for key, part in value.items():
            fits(part, known.get(key, more if isinstance(more, dict) else {}), whole)
    for part in value if isinstance(value, list) else []:
        fits(part, schema.get("items", {}), whole)


class Case(unittest.TestCase):
    def setUp(self):
        self.folder = tempfile.mkdtemp()
        self.addCleanup(shutil.rmtree, self.folder)
        self.page = os.path.join(self.folder, "page.html")

    def made(self, *words, status=0):
        """A page, read."""
        ended, said = asked(*words, "-o", self.page)
        self.assertEqual(ended, status, said)
        text = Path(self.page).read_text(encoding="utf-8")
        return text, self.sound(text)

    def has(self, text, words):
        found = words in text or words in re.sub(r"\s+", " ", text)
        self.assertTrue(found, f"the page doesn't say {words}")

    def sound(self, text):
        """A page that is read, and keeps what a page has to keep."""
        read = Read(text)
        self.assertEqual(read.faults, [])
        self.assertEqual(len(read.ids), len(set(read.ids)), "an id stands twice")
        for name, attributes in read.tags:
            for key, value in attributes.items():
                self.assertFalse(key.startswith("on") or key in ("style", "src", "srcset", "action"), attributes)
                if key == "href":
                    self.assertTrue(value.startswith("#") and value[1:] in read.places(), value)
        self.assertFalse({name for name, _ in read.tags} & {"link", "img", "iframe", "object", "embed", "base", "form"})
        self.headings(read)
        self.policy(read)
        return read

    def headings(self, read):
        levels = [int(name[1]) for name, _ in read.tags if re.fullmatch("h[1-6]", name)]
        self.assertEqual(levels.count(1), 1)
        self.assertTrue(all(after <= before + 1 for before, after in zip(levels, levels[1:])), levels)
        self.assertEqual(len(read.named("table")), len(read.named("caption")))
        self.assertTrue(all(head.get("scope") in ("row", "col") for head in read.named("th")))
        self.assertEqual(read.named("html")[0]["lang"], "en")
        self.assertTrue(any(tag.get("name") == "viewport" for tag in read.named("meta")))

    def policy(self, read):
        policy = policy_of(read)
        self.assertNotIn("unsafe", policy)
        self.assertIn(f"style-src '{digest(read.texts['style'])}'", policy)
        self.assertIn(f"script-src '{digest(read.texts['script'])}'", policy)
        self.assertEqual((len(read.named("style")), len(read.scripts())), (1, 1))


class Pages(Case):
    def test_examples_are_those_that_are_made(self):
        with contextlib.redirect_stdout(io.StringIO()):
            make.make(Path(self.folder))
        for name in PAGES:
            text = Path(self.folder, name + ".html").read_text(encoding="utf-8")
            self.assertEqual(text, (ROOT / f"examples/reports/{name}.html").read_text(encoding="utf-8"), name)
            self.sound(text)

    def test_bodies_before_and_after(self):
        text, read = self.made(*BANK, "--source", str(ROOT / "examples/bank"))
        changes = {(change["g"], change["t"]): change for change in read.data["changes"]}
        self.assertEqual(changes[1, "06000003"]["c"], [1, 3, 2])
        self.assertEqual(changes[2, "06000003"]["src"]["c"], [0, 1])
        self.has(text, "+ 18         PrintDeposits();")
        self.has(text, "- IL_0001 ldstr &#34;balance:&#34;")
        self.assertEqual([row[0] for group in read.data["rows"]["2"] for row in group["rows"]][-1], "23000003")

    def test_refusals(self):
        text, _ = self.made(BANK[0], BANK[1], BANK[1], BANK[2], status=1)
        self.has(text, "its Generation isn&#39;t the next")
        self.has(text, "1 delta stands behind it")
        text, _ = self.made(BANK[0], BANK[2], status=1)
        self.has(text, "Where its heaps begin isn&#39;t known")
        self.has(text, "<code>#Strings:146</code>")
        self.has(text, "<code>ea3cd342-9548-453b-b96f-3247a4b4f44c</code>")
        text, _ = self.made(str(ROOT / "examples/k1.meta"), status=1)
        self.has(text, "Rule F6")
        text, _ = self.made(str(ROOT / "examples/k"), BANK[1], status=1)
        self.has(text, "Give the very base that the delta was made from")

    def test_statuses(self):
        self.assertEqual(asked(BANK[0], "nothing", "-o", self.page), (6, "missing nothing.meta\n"))
        self.assertEqual(asked(BANK[0], "--source", "nothing", "-o", self.page), (6, "missing nothing\n"))
        self.assertEqual(asked(BANK[0], "-o", self.folder)[0], 4)
        self.assertFalse(os.path.exists(self.page))

    def test_title(self):
        text, _ = self.made(*BANK, "--title", "Bank <of> Rome")
        self.has(text, "<h1>Bank &lt;of&gt; Rome</h1>")
        self.has(text, "<title>Bank &lt;of&gt; Rome</title>")

    def test_open(self):
        opened = []
        self.addCleanup(setattr, report.webbrowser, "open", report.webbrowser.open)
        report.webbrowser.open = lambda uri: opened.append(uri) or True
        self.made(*BANK, "--open")
        self.assertEqual(opened, [Path(self.page).resolve().as_uri()])
        self.made(*BANK)
        self.assertEqual(len(opened), 1)

    def test_json_keeps_its_schema(self):
        page = (ROOT / "docs/report.md").read_text(encoding="utf-8")
        schema = json.loads(re.search(r"```json\n(.*?)```", page, re.DOTALL).group(1))
        source = ("--source", str(ROOT / "examples/bank"))
        refused = ((BANK[0], BANK[1], BANK[1]), 1), ((str(ROOT / "examples/k1.meta"),), 1)
        for words, status in (((*BANK, *source), 0), *refused):
            ended, said = asked(*words, "--json")
            self.assertEqual(ended, status)
            fits(json.loads(said), schema, schema)
        with self.assertRaises(AssertionError):
            fits({"title": "x"}, schema, schema)

    def test_json_has_the_same_facts(self):
        self.assertEqual(asked(*BANK, "--json", "-o", self.page)[1], f"saved {self.page}\n")
        facts = json.loads(Path(self.page).read_text())
        _, read = self.made(*BANK)
        self.assertEqual((facts["methodsChanged"], facts["methodsAdded"], facts["accepted"]), (2, 1, True))
        shown = [(change["g"], change["t"], change["c"][0], change["c"][1]) for change in read.data["changes"]]
        told = [(one["generation"], one["token"], one["il"]["removed"], one["il"]["added"]) for one in facts["methods"]]
        self.assertEqual(told, shown)
        self.assertEqual(facts["methods"][0]["declaration"], "public void Account.Print()")

    def test_without_a_place(self):
        with self.assertRaises(SystemExit) as ended:
            asked(*BANK)
        self.assertEqual(ended.exception.code, 2)

    def test_no_deltas(self):
        text, _ = self.made(BANK[0])
        self.has(text, "bank and 0 deltas")
        self.has(text, "The base is valid; no deltas were given.")

    def limited(self, module, **limits):
        for name, limit in limits.items():
            self.addCleanup(setattr, module, name, getattr(module, name))
            setattr(module, name, limit)

    def test_what_is_too_long_is_left_out(self):
        self.limited(_report_facts, MOST_GENERATIONS=1)
        self.has(self.made(*BANK)[0], "Not shown: the first 1 of 2 deltas")
        self.limited(_report_facts, MOST_GENERATIONS=400, MOST_ROWS=6)
        self.limited(_report_pack, MOST_BYTES=20, MOST_ROW_BYTES=0)
        text, read = self.made(*BANK)
        listed = len(read.data["changes"])
        self.assertLess(listed, 4)
        self.has(text, f"{listed} method{'' if listed == 1 else 's'} {'is' if listed == 1 else 'are'} shown without")
        self.has(text, f"{4 - listed} more changes of methods aren&#39;t listed")
        self.assertTrue(any(group["count"] > len(group["rows"]) for group in read.data["rows"]["2"]))
        self.assertEqual(read.data["rows"]["2"][0]["rows"][0][3], [])

    def test_what_is_near_a_change_stays(self):
        with tempfile.TemporaryDirectory() as folder:
            code = [["nop"]] * 900
            body = {"max": 8, "code": [*code, ["ldstr", "a"], ["pop"], *code, ["ret"]]}
            first = [{"do": "body", "method": "06000001", "code": body}]
            other = {**body, "code": [*code, ["ldstr", "b"], *body["code"][901:]]}
            second = [{"do": "body", "method": "06000001", "code": other}]
            chain = written(folder, str(ROOT / "examples/k"), [first, second])
            self.limited(_report_pack, MOST_BYTES=5000)
            _, read = self.made(*chain)
        last = read.data["changes"][1]
        self.assertEqual(last["p"][:5], "g898:")
        self.assertEqual(last["c"][:2], [1, 1])

    def test_changed_deltas(self):
        """Deltas with a changed byte: each makes a sound page, mostly of a refusal."""
        chance, codes = random.Random(1), set()
        metadata = Path(BANK[2] + ".meta").read_bytes()
        for end in ("il", "pdb"):
            shutil.copy(f"{BANK[2]}.{end}", f"{self.folder}/changed.{end}")
        for _ in range(80):
            changed = bytearray(metadata)
            changed[chance.randrange(len(changed))] = chance.choice((0, 1, 2, 0x7F, 0xFF, chance.randrange(256)))
            Path(self.folder, "changed.meta").write_bytes(changed)
            status, said = asked(BANK[0], BANK[1], f"{self.folder}/changed", "-o", self.page)
            self.assertIn(status, (0, 1), said)
            self.sound(Path(self.page).read_text(encoding="utf-8"))
            codes.update(re.findall(r"refused \S+ (\w+)", said))
        self.assertGreater(len(codes), 8, codes)


class Hostile(Case):
    def chain(self, edits, document="/x.cs"):
        """A delta of an edit list over examples/k, its files named m and d."""
        shutil.copy(ROOT / "examples/k.dll", f"{self.folder}/m.dll")
        documents = [{"name": document, "language": "3f5162f8-07c6-11d3-9053-00c04fa302a1", "source": "x"}]
        listed = {"encId": "11111111-2222-3333-4444-555555555555", "edits": edits, "documents": documents}
        Path(self.folder, "e.json").write_text(json.dumps(listed))
        done = subprocess.run([ENC, "write", "m", "e.json", "d"], cwd=self.folder, capture_output=True, text=True)
        self.assertEqual(done.returncode, 0, done.stdout + done.stderr)
        return f"{self.folder}/m", f"{self.folder}/d"

    def edits(self, names):
        body = {"max": 8, "code": [*[["ldstr", name] for name in names], *[["pop"]] * len(names), ["ret"]]}
        point = {"at": 0, "document": 1, "from": [1, 2], "to": [3, 4]}
        found = [{"do": "body", "method": "06000001", "code": body, "points": [point]}]
        for i, name in enumerate(names):
            found.append({"do": "add", "table": "TypeRef", "cells": ["23000001", name, f"N{i}"]})
            method = {"do": "add", "table": "MethodDef", "owner": "02000002", "cells": [0, 22, name, "000001"]}
            found.append({**method, "code": body})
        return found

    def test_hostile_names(self):
        chain = self.chain(self.edits(HOSTILE), "/<i>alert(2)")
        text, read = self.made(*chain)
        self.assertEqual(len(read.scripts()), 1)
        for name in HOSTILE[:3]:
            self.assertNotIn(name, text)
        self.assertNotIn("\u202e", text)
        self.has(text, "&lt;script&gt;alert(1)&lt;/script&gt;")
        self.has(text, "\\u003cscript>alert(1)\\u003c/script>")
        self.has(text, "{{ 7 * 7 }}")
        self.has(text, "&lt;i&gt;alert(2)")

    def test_bytes_that_are_no_text(self):
        chain = self.chain(self.edits(["SURROGATE"]))
        metadata = Path(chain[1] + ".meta").read_bytes()
        Path(chain[1] + ".meta").write_bytes(metadata.replace(b"SURROGATE", b"\xed\xa0\x80\xff\x01<b>&"))
        text, _ = self.made(*chain)
        self.has(text, "\\\\udced\\\\udca0\\\\udc80\\\\udcff\\\\x01\\u003cb>\\u0026")

    def test_long_texts(self):
        edits = self.edits(["<" * 16_000_000])[1:2] + self.edits(["&" * 8_000_000])[:1]
        chain = self.chain(edits, "/" + "d" * 100_000)
        text, _ = self.made(*chain)
        self.assertLess(len(text), 90_000)
        self.has(text, "(16,000,000 characters)")

    def test_hostile_file_names(self):
        for end in ("dll", "pdb"):
            shutil.copy(f"{BANK[0]}.{end}", f"{self.folder}/<b>&\"'.{end}")
        os.chdir(self.folder)
        self.addCleanup(os.chdir, ROOT)
        text, _ = self.made("<b>&\"'")
        self.has(text, "<h1>&lt;b&gt;&amp;&#34;&#39; and 0 deltas</h1>")


class Parts(Case):
    MEANINGS = _sides.Meanings(lambda token: Spelled("name", "name", "name"), lambda token: [], {})

    def lines(self, text):
        return _sides.side_of(text, self.MEANINGS._replace(known={})).lines

    def pairs(self, before, now):
        sides = [self.lines("06000001 MethodDef\n" + text) for text in (before, now)]
        return [pair.kind for pair in _sides.pairs_of(*sides)]

    def test_lines_that_are_the_same(self):
        before = "  IL_0000 br IL_0002\n  IL_0002 call 0a000001\n  IL_0003 ret\n"
        self.assertEqual(self.pairs(before, before), ["same"] * 3)
        self.assertEqual(self.pairs(before, before.replace("0a000001", "0a000002")), ["same", "alike", "same"])
        self.assertEqual(self.pairs(before, before.replace("br IL_0002", "br IL_0003")), ["changed", "same", "same"])
        self.assertEqual(self.pairs(before, before.replace("br ", "br.s ")), ["alike", "same", "same"])
        moved = "  IL_0000 nop\n  IL_0001 br IL_0003\n  IL_0003 call 0a000001\n  IL_0004 ret\n"
        self.assertEqual(self.pairs(before, moved), ["added", "same", "same", "same"])

    def test_lines_that_are_alike_in_part(self):
        before = "  IL_0000 ldc.i4.1\n  IL_0001 pop\n  IL_0002 ret\n"
        now = "  IL_0000 ldc.i4.2\n  IL_0001 stloc.0\n  IL_0002 ret\n"
        self.assertEqual(self.pairs(before, now), ["changed", "beside", "same"])

    def test_clauses(self):
        ranges = "IL_0000-IL_0001 IL_0001-IL_0001"
        text = f"x\n  IL_0000 ret\n  catch {ranges} 01000002\n  finally {ranges}\n"
        found = [(line.word, line.token) for line in self.lines(text)]
        self.assertEqual(found, [("ret", ""), (".try", "01000002"), (".try", "")])
        self.assertEqual(self.pairs(text[2:], text[2:].replace("01000002", "01000003")), ["same", "alike", "same"])

    def test_numbers_and_texts_are_no_tokens(self):
        text = 'x\n  IL_0000 ldc.i4 12345678\n  IL_0005 ldstr "0a000001"\n  IL_000a call 0a000001\n'
        self.assertEqual([line.token for line in self.lines(text)], ["", "", "0a000001"])
        text = 'x\n  IL_0000 ldstr "caf\\xc3\\xa9 \\x22"\n  IL_0005 ldc.r8 000000000000f83f\n'
        self.assertEqual([line.text for line in self.lines(text)], ['"café ""', "1.5"])

    def test_samples(self):
        for name in ("advice", "flags", "pack", "signatures", "text"):
            tried = doctest.testmod(importlib.import_module(f"enc._report_{name}"))
            self.assertGreater(tried.attempted, 0, name)
            self.assertEqual(tried.failed, 0, name)

    def test_sources_stay_in_their_folder(self):
        inner = Path(self.folder, "in")
        inner.mkdir()
        Path(self.folder, "out.cs").write_text("secret\n")
        Path(inner, "a.cs").write_text("one\ntwo\n")
        Path(inner, "a.1.cs").write_text("first\n")
        os.symlink(Path(self.folder, "out.cs"), inner / "link.cs")
        sources = Sources([str(inner)])
        self.assertEqual(sources.line("/x/a.cs", 2, 3, True), "two")
        self.assertEqual(sources.line("C:\\x\\a.cs", 1, 1, True), "first")
        self.assertIsNone(sources.line("/x/a.cs", 2, 3, False))
        self.assertIsNone(sources.line("../out.cs", 1, 3, True))
        self.assertIsNone(sources.line("/link.cs", 1, 3, True))
        self.assertIsNone(sources.line("/a\\x00.cs", 1, 3, True))


# The least contrast of all texts that are seen, by WCAG 2.
CONTRAST = """(() => {
  const parts = (text) => text.match(/[\\d.]+/g).map(Number);
  const linear = (v) => v <= 0.03928 ? v / 12.92 : ((v + 0.055) / 1.055) ** 2.4;
  const light = (c) => [0.2126, 0.7152, 0.0722].reduce((sum, part, i) => sum + part * linear(c[i] / 255), 0);
  const ground = (at) => {
    for (; at; at = at.parentElement) {
      const c = parts(getComputedStyle(at).backgroundColor);
      if (c[3] !== 0) return c;
    }
    return [255, 255, 255];
  };
  let least = [99, ""];
  for (const at of document.body.querySelectorAll("*")) {
    const says = [...at.childNodes].some((n) => n.nodeType === 3 && n.data.trim());
    if (!says || at.closest("script, svg") || !at.checkVisibility()) continue;
    const a = light(parts(getComputedStyle(at).color)), b = light(ground(at));
    const ratio = (Math.max(a, b) + 0.05) / (Math.min(a, b) + 0.05);
    if (ratio < least[0]) least = [ratio, at.outerHTML.slice(0, 100)];
  }
  return least;
})()"""


@unittest.skipUnless(browser.program(), "no chromium here")
class Opened(Case):
    """Pages in one Chromium."""

    @classmethod
    def setUpClass(cls):
        cls.browser = browser.Browser()
        cls.addClassCleanup(cls.browser.close)

    def opened(self, name, *place, width=1280, height=900, dark=False, media=""):
        """The page of an example, or that which the test has made (no name); asks it."""
        path = ROOT / f"examples/reports/{name}.html" if name else Path(self.page)
        self.browser.screen(width, height, dark, media)
        self.browser.requests.clear()
        self.browser.complaints.clear()
        self.browser.open("about:blank")
        self.browser.open(path.as_uri() + "".join(place))
        self.assertEqual([url for url in self.browser.requests if not url.startswith(("file:", "about:"))], [])
        self.assertEqual(self.browser.complaints, [])
        return self.browser.ask

    def pressed(self, key):
        self.browser.call("Input.dispatchKeyEvent", type="keyDown", key=key, text=key)
        self.browser.call("Input.dispatchKeyEvent", type="keyUp", key=key)
        self.wait()

    def wait(self):
        """Lets the page draw."""
        self.browser.ask("new Promise((done) => setTimeout(done, 60))")


class InChromium(Opened):
    def typed(self, words):
        box = "const box = document.getElementById('query');"
        self.browser.ask("(() => { " + box + f" box.value = '{words}'; box.dispatchEvent(new Event('input')); }})()")

    def test_search(self):
        ask = self.opened("bank")
        self.typed("print")
        self.assertEqual(ask("document.getElementById('said').textContent"), "3 found")
        self.assertIn("06000003 Account.Print", ask("document.getElementById('found').textContent"))
        self.typed("0400")
        self.assertIn("04000002 Account.deposits", ask("document.getElementById('found').textContent"))
        ask("document.getElementById('query').dispatchEvent(new KeyboardEvent('keydown', {key: 'Enter'}))")
        self.assertEqual(ask("location.hash"), "#g2-04000002")
        self.typed("nothing of this name")
        self.assertEqual(ask("document.getElementById('said').textContent"), "0 found")

    def test_folds(self):
        ask = self.opened("bank")
        opened = "document.querySelectorAll('#methods ~ details[open], #methods ~ details .card[open]').length"
        every = ask("document.querySelectorAll('#methods ~ details, #methods ~ details .card').length")
        ask("document.getElementById('fold').click()")
        self.assertEqual(ask(opened), 0)
        ask("document.getElementById('open').click()")
        self.assertEqual(ask(opened), every)
        self.assertEqual(every, 6)

    def test_links_are_followed(self):
        ask = self.opened("bank")
        ask("document.getElementById('fold').click()")
        changed = "addEventListener('hashchange', () => setTimeout(done, 50));"
        ask("new Promise((done) => { " + changed + " location.hash = '#06000003'; })")
        self.assertTrue(ask("document.getElementById('g2-06000003').open"))
        self.assertFalse(ask("document.getElementById('g1-06000003').open"))
        self.assertEqual(ask("document.activeElement.id"), "g2-06000003")
        top = "const top = document.getElementById('%s').getBoundingClientRect().top;"
        seen = "(() => { " + top + " return top >= 0 && top < innerHeight; })()"
        self.assertTrue(ask(seen % "g2-06000003"))
        ask = self.opened("bank", "#g1-0a000007")
        self.assertTrue(ask(seen % "g1-0a000007"))
        ask = self.opened("bank", "#06000099")
        self.assertIn("isn't among the rows", ask("document.getElementById('said').textContent"))

    def test_pictures(self):
        folder = PICTURES or self.folder
        for name in PAGES:
            for kind, width, height in (("wide", 1280, 1000), ("narrow", 390, 844), ("dark", 1280, 1000)):
                dark = kind == "dark"
                ask = self.opened(name, width=width, height=height, dark=dark)
                ask("document.getElementById('metadata').open = true")
                path = f"{folder}/{name}-{kind}.png"
                self.browser.picture(path)
                head = Path(path).read_bytes()
                self.assertEqual(struct.unpack(">II", head[16:24]), (width, height))
                self.assertGreater(len(head), 20_000)
                paper = ask("getComputedStyle(document.body).backgroundColor")
                self.assertEqual(paper, "rgb(21, 24, 28)" if dark else "rgb(255, 255, 255)")
                least = ask(CONTRAST)
                self.assertGreaterEqual(least[0], 4.5, (name, kind, least[1]))

    def test_narrow_pages_stay_within(self):
        for name in PAGES:
            for width in (320, 390):
                ask = self.opened(name, width=width, height=600)
                ask("document.querySelectorAll('details').forEach((part) => { part.open = true; })")
                self.assertLessEqual(ask("document.documentElement.scrollWidth"), width, name)
                self.assertLessEqual(ask("document.body.scrollWidth"), width, name)

    def test_without_scripts(self):
        self.browser.call("Emulation.setScriptExecutionDisabled", value=True)
        self.addCleanup(self.browser.call, "Emulation.setScriptExecutionDisabled", value=False)
        ask = self.opened("bank")
        self.assertTrue(ask("document.getElementById('find').hidden"))
        self.assertIn("+ 18         PrintDeposits();", ask("document.getElementById('g2').innerText"))
        self.assertIn("+ IL_0021 call Account.PrintDeposits()", ask("document.getElementById('g2').innerText"))

    def test_what_a_screen_reader_gets(self):
        self.opened("bank")
        nodes = self.browser.call("Accessibility.getFullAXTree")["nodes"]
        roles = [node["role"]["value"] for node in nodes if not node.get("ignored")]
        for role in ("main", "search", "searchbox", "heading", "table", "columnheader", "rowheader", "region", "image"):
            self.assertIn(role, roles + ["image" if role == "img" else role for role in roles])
        said = [node.get("name", {}).get("value", "") for node in nodes]
        self.assertTrue(any("removed:" in words for words in said))
        self.assertTrue(any("the same by another token:" in words for words in said))
        self.assertIn("Find a token or a name", said)


class Points(Opened):
    """What a reader wants of a page, point by point."""

    def top(self, chosen):
        """How far below the window's top an element stands."""
        return self.browser.ask(f"document.querySelector({json.dumps(chosen)}).getBoundingClientRect().top")

    def texts(self, chosen):
        """The texts of elements, with single spaces."""
        found = f"[...document.querySelectorAll({json.dumps(chosen)})]"
        return self.browser.ask(found + ".map((at) => at.textContent.replace(/\\s+/g, ' ').trim())")

    # 1. The summary.

    def test_1_summary_stands_on_top(self):
        self.opened("bank")
        self.assertEqual(self.texts("#summary"), ["2 methods changed, 1 added"])
        self.assertLess(self.top("#summary"), 150)
        self.assertLess(self.top("table.summary tbody tr:last-child"), 400)
        self.assertLess(self.top("#g1-06000003"), 900)
        self.assertEqual(self.texts("table.summary:not(.others) tbody tr"), [
            "public void Account.Deposit(int) +6 −0 changed generation 2 Bank.cs:9–12",
            "public void Account.Print() +3 −1 changed generation 1 Bank.cs:13–16",
            "+2 −0 changed generation 2 Bank.cs:15–19",
            "private void Account.PrintDeposits() +7 −0 added generation 2 Bank.cs:22–25",
        ])  # fmt: skip

    def test_1_each_method_is_linked(self):
        ask = self.opened("bank")
        links = ask("[...document.querySelectorAll('table.summary tbody a')].map((at) => at.getAttribute('href'))")
        self.assertEqual(links, ["#g2-06000002", "#g1-06000003", "#g2-06000003", "#g2-06000005"])
        ask("document.querySelectorAll('table.summary tbody a')[2].click()")
        self.wait()
        self.assertEqual(ask("document.activeElement.id"), "g2-06000003")

    def test_1_other_members_and_references(self):
        ask = self.opened("bank")
        self.assertEqual(self.texts("table.others tbody tr"), ["private int Account.deposits added generation 2 field"])
        self.assertGreater(self.top("table.others"), self.top("table.summary"))
        self.assertFalse(ask("document.getElementById('metadata').open"))
        self.assertNotIn("0a000006", ask("document.getElementById('main').innerText"))
        ask("document.getElementById('metadata').open = true; document.getElementById('m1').open = true;")
        self.wait()
        self.assertIn("0a000006", ask("document.getElementById('m1').innerText"))

    def test_1_attributes_and_interfaces(self):
        maker = {"do": "add", "table": "MemberRef", "cells": ["01000003", ".ctor", "200001"]}
        kind = {"do": "add", "table": "TypeRef", "cells": ["23000001", "ObsoleteAttribute", "System"]}
        mark = {"do": "add", "table": "CustomAttribute", "cells": ["06000001", "0a000002", "01000000"]}
        ask, _ = self.chain([kind, maker, mark])
        rows = self.texts("table.others tbody tr")
        self.assertEqual(rows, ["[ObsoleteAttribute] P.Say() added generation 1 attribute"])
        self.assertEqual(self.texts("#summary"), ["No method changed"])

    # 2. No false change.

    def chain(self, *lists):
        """A page of the deltas of edit lists, opened."""
        _, read = self.made(*written(self.folder, str(ROOT / "examples/k"), lists))
        return self.opened("") if browser.program() else None, read.data["changes"]

    def test_2_tokens_emitted_anew_are_no_change(self):
        anew = Anew()
        ask, changes = self.chain(anew.list(), anew.list(), anew.list(branch="br"))
        self.assertEqual([change["s"] for change in changes], ["changed", "same", "same"])
        self.assertEqual([change["c"][:2] for change in changes[1:]], [[0, 0], [0, 0]])
        self.assertEqual(self.texts("#summary"), ["1 method changed"])
        self.assertEqual(self.texts("#g2-06000001 .counts"), [])
        self.assertEqual(ask("document.querySelectorAll('#g2-06000001 .d, #g2-06000001 .a').length"), 0)

    def test_2_other_assemblies_are_changes(self):
        rows = [("AssemblyRef", [4, 0, 0, 0, 0, "", "other", "", ""]), ("TypeRef", ["23000002", "Console", "System"])]
        rows.append(("MemberRef", ["01000003", "WriteLine", "0001010e"]))
        added = [{"do": "add", "table": table, "cells": cells} for table, cells in rows]
        code = {"max": 8, "code": [["ldstr", "old"], ["call", "0a000002"], ["ret"]]}
        _, changes = self.chain([*added, {"do": "body", "method": "06000001", "code": code}])
        self.assertEqual(changes[0]["c"], [1, 1, 0])
        self.assertEqual(self.texts("#g1-06000001 .il mark"), ["mscorlib", "other"])

    def test_2_branches_lead_to_instructions(self):
        anew = Anew()
        _, changes = self.chain(anew.list(), anew.list(begin=(["nop"], ["nop"])))
        self.assertEqual(changes[1]["c"][:2], [0, 2])

    def test_2_a_switch_shows_alike_lines(self):
        anew = Anew()
        ask, _ = self.chain(anew.list(), anew.list())
        alike = "[...document.querySelectorAll('#g2-06000001 tr.alike')].map((row) => row.textContent)"
        self.assertEqual(ask(alike), [])
        ask("document.getElementById('alike').click()")
        shown = ask(alike)
        self.assertEqual(len(shown), 3, shown)
        self.assertTrue(any("0a000002" in row and "0a000004" in row for row in shown), shown)
        self.assertIn("≈", ask("getComputedStyle(document.querySelector('tr.alike .x'), '::before').content"))
        ask("document.getElementById('alike').click()")
        self.assertEqual(ask(alike), [])

    def test_2_what_differs_within_a_line_is_marked(self):
        anew = Anew()
        self.chain(anew.list(), anew.list(number=8))
        self.assertEqual(self.texts("#g2-06000001 mark"), ["7", "8"])
        self.opened("bank")
        self.assertIn("String.Concat(", " ".join(self.texts("#g1-06000003 .source td.a mark")))

    def test_2_source_is_the_main_diff(self):
        ask = self.opened("bank")
        captions = ["C#: 1 line added, 1 removed", "IL: 3 lines added, 1 removed"]
        self.assertEqual(self.texts("#g1-06000003 table caption"), captions)
        self.assertLess(self.top("#g1-06000003 table.source"), self.top("#g1-06000003 table.il:not(.source)"))
        self.assertEqual(self.texts("#g2-06000003 .source .a"), ["18 PrintDeposits();"])
        self.assertEqual(ask("document.querySelectorAll('#g2-06000003 .source .d').length"), 0)

    # 3. The diff.

    def test_3_equal_lines_are_folded(self):
        anew = Anew()
        ask, _ = self.chain(anew.list(), anew.list(number=8))
        rows = "document.querySelectorAll('#g2-06000001 tbody tr').length"
        self.assertEqual(self.texts("#g2-06000001 .gap"), ["⋯ 28 equal lines"])
        self.assertEqual(ask(rows), 1 + 3 + 1 + 3)
        ask("document.querySelector('#g2-06000001 .gap button').click()")
        self.assertEqual((ask(rows), self.texts("#g2-06000001 .gap")), (35, []))

    def test_3_names_texts_and_flags(self):
        ask, changes = self.chain(Anew().list())
        ask("document.querySelectorAll('.gap button').forEach((at) => at.click())")
        shown = " | ".join(self.texts("#g1-06000001 td.a"))
        for words in ("call List<int>.Enumerator.MoveNext()", "call Array.Empty<int>()", 'ldstr "café"',
                      ".local 0 List<int>.Enumerator", ".local 1 string"):  # fmt: skip
            self.assertIn(words, shown)
        self.assertEqual(self.texts("table.summary th[scope=row]"), ["public static void P.Say()"])
        title = ask("[...document.querySelectorAll('.x')].find((at) => at.textContent.includes('MoveNext')).title")
        self.assertEqual(title, "System.Collections.Generic.List<int>.Enumerator.MoveNext()")

    def test_3_bytes_by_a_switch(self):
        ask = self.opened("bank")
        self.assertEqual(self.texts("#g2-06000005 .il small"), [])
        ask("document.getElementById('bytes').click()")
        self.assertIn("0a00000a · 28 0a 00 00 0a", self.texts("#g2-06000005 .il small"))
        self.assertIn("Flags 0081", self.texts("#g2-06000005 .facts div"))

    def test_3_names_of_generic_members(self):
        if not os.path.exists(MSCORLIB):
            self.skipTest("no mscorlib here")
        names = Names(enc.Module(MSCORLIB))
        found = names.of(0x2B000001).short, str(names.declared(enc.Token(0x06000007)))
        self.assertEqual(found[0], "MemoryMarshal.GetReference<byte>(Span<byte>)")
        self.assertTrue(found[1].startswith("internal static TSafeHandle Interop.CheckIo<TSafeHandle>(TSafeHandle, "))

    def test_hostile_names_stay_text(self):
        hostile = Hostile("test_hostile_names")
        hostile.folder, hostile.page = self.folder, self.page
        self.made(*hostile.chain(hostile.edits(HOSTILE), "/<i>alert(2)"), "--title", HOSTILE[0])
        ask = self.opened("")
        ask("document.getElementById('bytes').click()")
        ask("document.querySelectorAll('details').forEach((part) => { part.open = true; })")
        self.wait()
        self.assertEqual(ask("document.querySelectorAll('img, main script, main i:not(.x i)').length"), 0)
        shown = ask("document.getElementById('main').innerText")
        for name in HOSTILE[:5]:
            self.assertIn(name, shown)
        self.assertEqual((self.browser.complaints, self.texts("h1")), ([], [HOSTILE[0]]))

    # 5. What is refused.

    def test_5_expected_beside_found(self):
        self.opened("refused")
        self.assertEqual(self.texts("#expected dd"), ["Flags 0086, public"])
        self.assertEqual(self.texts("#found-there dd"), ["Flags 0096, public static"])
        self.assertIn("Undo this edit", self.texts("#todo dd")[0])
        for chosen in ("#expected", "#found-there", "#todo"):
            self.assertLess(self.top(chosen), 320)
        self.assertEqual(self.texts("tr.place"), ["▶ the rule is about this: Flags 0086, public 0096, public static"])

    def test_5_deltas_before_it_are_shown_as_usual(self):
        ask = self.opened("refused")
        self.assertEqual(self.texts("#summary"), ["1 method changed"])
        self.assertTrue(ask("document.getElementById('g1-06000003').open"))
        self.assertEqual(self.texts(".box.refused .head"), ["2: static"])

    def test_5_each_rule_has_advice(self):
        from enc._report_advice import advice
        from enc.rules import RULES

        for code in {code for code, _, _ in RULES if not code.startswith(("L4", "G"))}:
            self.assertTrue(advice(code).expected and advice(code).todo, code)

    def test_5_values_of_the_chain(self):
        self.made(BANK[0], BANK[1], BANK[1], status=1)
        self.opened("")
        self.assertEqual(self.texts("#expected dd"), ["Generation 0002, generation 2"])
        self.assertEqual(self.texts("#found-there dd"), ["Generation 0001"])
        self.made(str(ROOT / "examples/k"), BANK[1], status=1)
        self.opened("")
        self.assertRegex(self.texts("#expected dd")[0], "^Mvid [0-9a-f-]{36}$")

    def test_5_a_refused_base(self):
        self.made(str(ROOT / "examples/k1.meta"), status=1)
        self.opened("")
        self.assertEqual(self.texts("#expected dd"), ["one row of Module, and whole tables"])
        self.pressed("n")
        self.assertEqual(self.browser.complaints, [])

    def test_5_a_base_without_deltas(self):
        self.made(BANK[0])
        self.opened("")
        self.assertEqual(self.texts("header p"), ["accepted The base is valid; no deltas were given."])

    # 6. Ways.

    def test_6_the_list_at_the_side_stays(self):
        ask = self.opened("bank")
        ask("scrollTo(0, 1500)")
        self.assertEqual(ask("scrollY"), 1500)
        self.assertEqual(self.top(".side"), 0)
        self.assertIn("Account.Print()", self.texts(".side .contents li li"))
        self.assertLess(ask("document.querySelector('.side').getBoundingClientRect().right"), 320)

    def test_6_keys(self):
        ask = self.opened("bank")
        self.pressed("/")
        self.assertEqual(ask("document.activeElement.id"), "query")
        self.pressed("n")
        self.assertEqual(ask("document.getElementById('query').value + location.hash"), "n")
        ask("document.activeElement.blur()")
        for key, place in (("n", "g1-06000003"), ("n", "g2-06000002"), ("p", "g1-06000003")):
            self.pressed(key)
            self.assertEqual(ask("document.activeElement.id"), place)
        self.pressed("?")
        self.assertTrue(ask("document.getElementById('keys').open"))
        ask("document.getElementById('close').click()")
        self.assertFalse(ask("document.getElementById('keys').open"))

    def test_6_the_legend_stands_before_the_first_diff(self):
        ask = self.opened("bank")
        order = "document.getElementById('legend').compareDocumentPosition(document.querySelector('table.il')) & 4"
        self.assertEqual(ask(order), 4)
        for words in ("a line that is gone", "one that has come", "the same by another token", "equal lines"):
            self.assertIn(words, self.texts("#legend")[0])

    def test_6_headings_follow_each_other(self):
        for name in PAGES:
            ask = self.opened(name)
            ask("document.querySelectorAll('details').forEach((part) => { part.open = true; })")
            self.wait()
            found = "[...document.querySelectorAll('#main :is(h1, h2, h3, h4, h5, h6)')]"
            levels = ask(found + ".map((at) => Number(at.localName[1]))")
            self.assertEqual((levels[0], levels.count(1)), (1, 1))
            self.assertTrue(all(after <= before + 1 for before, after in zip(levels, levels[1:])), levels)
            self.assertIn(4, levels)

    # How many elements before the first card take the focus.
    STOPS = """(() => {
      const all = 'a[href], button, input, summary, [tabindex]';
      const first = document.querySelector('.card, .generation');
      return [...document.querySelectorAll(all)].filter((at) => at.tabIndex >= 0 && at.checkVisibility()
        && at.compareDocumentPosition(first) & 4).length;
    })()"""

    def test_6_few_tab_stops_before_the_first_method(self):
        self.assertLess(self.opened("bank")(self.STOPS), 30)

    def test_6_many_methods_in_the_table(self):
        added = []
        for i in range(45):
            cells = [0, 22, f"Added{i}" + "LongNameWithoutABreak" * (i % 5), "000001"]
            added.append({"do": "add", "table": "MethodDef", "owner": "02000002", "cells": cells, "code": EMPTY})
        ask, _ = self.chain(added)
        self.assertEqual(self.texts("#summary"), ["45 methods added"])
        self.assertEqual(ask("document.querySelectorAll('table.summary tbody tr').length"), 45)
        self.assertLess(ask(self.STOPS), 100)
        ask = self.opened("", width=390, height=844)
        self.assertLessEqual(ask("Math.max(document.documentElement.scrollWidth, document.body.scrollWidth)"), 390)

    def test_6_no_path_of_the_machine(self):
        for words, status in (((*BANK, "--source", str(ROOT / "examples/bank")), 0), ((BANK[0], BANK[2]), 1)):
            text, _ = self.made(*words, status=status)
            for part in (str(ROOT), self.folder, "/src/", os.path.expanduser("~") + "/"):
                self.assertNotIn(part, text)
            self.has(self.made(*words, "--paths", status=status)[0], str(ROOT / "examples/bank/bank2"))
        self.has(self.made(*BANK, "--paths")[0], "/src/Bank.cs")

    def test_6_tables_scroll_visibly_when_narrow(self):
        for name in PAGES:
            ask = self.opened(name, width=390, height=844)
            ask("document.querySelectorAll('details').forEach((part) => { part.open = true; })")
            self.wait()
            self.assertLessEqual(ask("Math.max(document.documentElement.scrollWidth, document.body.scrollWidth)"), 390)
            wide = "[...document.querySelectorAll('.scroll')].filter((at) => at.scrollWidth > at.clientWidth)"
            self.assertGreater(ask(wide + ".length"), 0)
            styles = ask(wide + ".map((at) => [getComputedStyle(at).overflowX, getComputedStyle(at).backgroundImage])")
            for overflow, image in styles:
                self.assertEqual((overflow, image.count("linear-gradient")), ("auto", 4))
            self.assertTrue(ask(wide + ".every((at) => at.tabIndex === 0)"))

    # The words of print that stand in two lines.
    BROKEN = """(() => {
      const broken = [];
      const walker = document.createTreeWalker(document.getElementById('main'), NodeFilter.SHOW_TEXT);
      for (let node = walker.nextNode(); node; node = walker.nextNode()) {
        if (!node.parentElement.checkVisibility() || node.parentElement.closest('svg, .hidden')) continue;
        for (const match of node.data.matchAll(/\\w+/g)) {
          const range = document.createRange();
          range.setStart(node, match.index);
          range.setEnd(node, match.index + match[0].length);
          const boxes = [...range.getClientRects()].filter((box) => box.width);
          if (new Set(boxes.map((box) => Math.round(box.top))).size > 1) broken.push(match[0]);
        }
      }
      return broken;
    })()"""

    def test_6_print_has_the_summary_and_what_is_open(self):
        ask = self.opened("bank", width=720, height=1000, media="print")
        ask("document.getElementById('g1-06000003').open = false")
        self.assertTrue(ask("document.querySelector('table.summary').checkVisibility()"))
        self.assertTrue(ask("document.querySelector('#g2-06000002 .il').checkVisibility()"))
        for chosen in ("#g1-06000003", "#metadata", ".side", "#switches"):
            self.assertEqual(ask(f"getComputedStyle(document.querySelector('{chosen}')).display"), "none", chosen)
        self.assertEqual(ask(self.BROKEN), [])
        self.assertLessEqual(ask("document.documentElement.scrollWidth"), 720)
        printed = self.browser.call("Page.printToPDF", preferCSSPageSize=True)["data"]
        self.assertTrue(base64.b64decode(printed).startswith(b"%PDF"))

    # 7. Pictures.

    def test_7_the_plot_of_few_deltas(self):
        ask = self.opened("bank")
        bars = "[...document.querySelectorAll('svg .bar.%s')].map((at) => Number(at.getAttribute('width')))"
        self.assertEqual((len(ask(bars % "inserted")), len(ask(bars % "updated"))), (2, 2))
        inserted, updated = ask(bars % "inserted"), ask(bars % "updated")
        self.assertAlmostEqual(inserted[0] / inserted[1], 6 / 8, 2)
        self.assertAlmostEqual(updated[0] / updated[1], 1 / 3, 2)
        self.assertIn("6 inserted, 1 updated", self.texts("svg text"))
        self.assertEqual(ask("document.querySelectorAll('svg .heap').length"), 0)
        self.assertNotIn("#Strings", " ".join(self.texts("svg text")))

    def test_7_captions_stand_below(self):
        ask = self.opened("bank")
        boxes = ask("[...document.querySelectorAll('figure')].map((at) => [at.getBoundingClientRect().bottom, "
                    "at.nextElementSibling.className, at.nextElementSibling.getBoundingClientRect().top])")  # fmt: skip
        self.assertEqual([kind for _, kind, _ in boxes], ["caption", "caption"])
        self.assertTrue(all(bottom <= top for bottom, _, top in boxes), boxes)

    def test_7_pictures_of_the_docs_are_small(self):
        page = (ROOT / "docs/report.md").read_text(encoding="utf-8")
        found = re.findall(r"!\[[^]]+\]\(([\w.-]+)\)", page)
        names = ["chain.svg", "report-dark.png", "report-narrow.png", "report-print.png", "report.png"]
        self.assertEqual(sorted(found), names)
        for name in names:
            self.assertLess((ROOT / "docs" / name).stat().st_size, 150_000)

    def test_7_the_picture_of_the_chain(self):
        self.opened("bank")
        self.assertEqual(self.texts(".box .head"), ["bank", "1: bank1", "2: bank2"])
        self.assertIn("2 methods changed", self.texts(".box text"))
        made = (ROOT / "docs/chain.svg").read_text()
        self.assertEqual(made, make.chain())
        self.assertTrue(xml.etree.ElementTree.fromstring(made).tag.endswith("svg"))


@unittest.skipUnless(os.path.exists(MSCORLIB), "no mscorlib here")
class Large(Opened):
    """64 deltas over Mono's mscorlib, each with 40 replaced bodies and 5 new methods."""

    @classmethod
    def setUpClass(cls):
        super().setUpClass()
        folder = tempfile.mkdtemp()
        cls.addClassCleanup(shutil.rmtree, folder)
        cls.large = f"{folder}/large.html"
        chance = random.Random(1)
        module = enc.Module(MSCORLIB)
        methods = [token for token in module.tokens("MethodDef")[::3] if module.has_body(token)]
        lists = [cls.edits(chance, methods, number) for number in range(1, 65)]
        status, said = asked(*written(folder, MSCORLIB, lists), "-o", cls.large)
        assert status == 0, said

    @staticmethod
    def body(chance, number):
        """A body of 10 to 78 instructions."""
        code = []
        for k in range(chance.randrange(5, 40)):
            code += [["ldstr", f"line {k} of {number}"] if k % 3 else ["ldc.i4", k], ["pop"]]
        return {"max": 8, "code": [*code, ["ret"]]}

    @classmethod
    def edits(cls, chance, methods, number):
        chosen = chance.sample(methods, 40)
        found = [{"do": "body", "method": str(token), "code": cls.body(chance, number)} for token in chosen]
        for k in range(5):
            cells = [0, 0x16, f"Added{number}_{k}", "000001"]
            method = {"do": "add", "table": "MethodDef", "owner": "02000002", "cells": cells}
            found.append({**method, "code": cls.body(chance, number)})
        return found

    def spent(self):
        """How many seconds the thread of pages has worked, however busy the machine is."""
        metrics = self.browser.call("Performance.getMetrics")["metrics"]
        return next(one["value"] for one in metrics if one["name"] == "TaskDuration")

    def timed(self):
        """What asks the page, and how many seconds of its own it takes to open."""
        self.browser.call("Performance.enable", timeDomain="threadTicks")
        self.browser.open("about:blank")
        before = self.spent()
        return self.opened(""), self.spent() - before

    def test_4_all_bodies_within_the_limits(self):
        text = Path(self.large).read_text(encoding="utf-8")
        self.assertLessEqual(len(text.encode()), 5_000_000)
        read = self.sound(text)
        self.assertEqual(len(read.data["changes"]), 2880)
        self.assertTrue(all("p" in change for change in read.data["changes"]))
        self.page = self.large
        ask, own = self.timed()
        self.assertLess(own, 1)
        if os.getloadavg()[0] < 2:
            self.assertLess(ask("performance.getEntriesByType('navigation')[0].loadEventEnd"), 1000)
        self.assertLess(ask("document.querySelectorAll('*').length"), 20_000)
        self.assertLess(ask(Points.STOPS), 100)

    def test_4_the_grid_of_methods_by_generations(self):
        self.page = self.large
        ask = self.opened("")
        heads = ask("[...document.querySelectorAll('table.grid thead th')].map((at) => at.textContent)")
        self.assertEqual(heads, ["Method", *map(str, range(1, 65))])
        self.assertEqual(ask("document.querySelectorAll('table.grid tbody tr').length"), 25)
        self.assertEqual(ask("document.querySelectorAll('#metadata[open]').length"), 0)
        rows = "[...document.querySelectorAll('table.grid tbody tr')]"
        counts = ask(rows + ".map((row) => row.querySelectorAll('a').length)")
        self.assertEqual(counts, sorted(counts, reverse=True))
        ask("document.querySelector('#grid-more button').click()")
        self.assertEqual(ask("document.querySelectorAll('table.grid tbody tr').length"), 225)
        self.assertLess(ask("document.querySelectorAll('*').length"), 20_000)

    def test_4_bodies_are_drawn_when_opened(self):
        self.page = self.large
        ask = self.opened("")
        self.assertEqual(ask("document.querySelectorAll('table.il, .card').length"), 0)
        place = ask("document.querySelector('table.grid tbody a').getAttribute('href').slice(1)")
        ask("document.querySelector('table.grid tbody a').click()")
        self.wait()
        self.assertEqual(ask("document.activeElement.id"), place)
        self.assertEqual(ask("document.querySelectorAll('.card').length"), 45)
        self.assertEqual(ask("document.querySelectorAll('table.il').length"), 1)
        self.assertGreater(ask("document.querySelectorAll('table.il tbody tr').length"), 9)

    def test_4_arrows_move_in_the_grid(self):
        self.page = self.large
        ask = self.opened("")
        marks = "[...document.querySelectorAll('table.grid tbody a')]"
        self.assertEqual(ask(marks + ".filter((at) => at.tabIndex === 0).length"), 1)
        ask("document.querySelector('table.grid tbody a').focus()")
        self.browser.call("Input.dispatchKeyEvent", type="keyDown", key="ArrowDown")
        self.assertEqual(ask("document.activeElement.closest('tr').rowIndex"), 2)

    def test_4_narrow_and_the_plot_of_many(self):
        self.page = self.large
        ask = self.opened("", width=390, height=844)
        self.assertLessEqual(ask("document.documentElement.scrollWidth"), 390)
        self.assertGreater(ask("document.querySelectorAll('svg .heap').length"), 60)


def has(call):
    """Whether the library has a call."""
    try:
        _library.library().call(call)
    except AttributeError:
        return False
    return True


def main(words):
    """Runs the tests; the words before those of unittest are the library, the program, and where pictures go."""
    global ENC, PICTURES
    if words and not words[0].startswith("-"):
        os.environ["ENC_LIBRARY"] = os.path.abspath(words.pop(0))
    if words and not words[0].startswith("-"):
        ENC = os.path.abspath(words.pop(0))
    if words[:1] == ["--pictures"]:
        PICTURES = os.path.abspath(words[1])
        os.makedirs(PICTURES, exist_ok=True)
        words = words[2:]
    if not has("enc_row_at"):
        print("skipped: the report (this library has no enc_row_at)")
        return
    os.chdir(ROOT)
    unittest.main(module=sys.modules[__name__], argv=["test_report.py", *words])


if __name__ == "__main__":
    main(sys.argv[1:])
