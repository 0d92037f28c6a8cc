"""Tests of enc.prepare: files that a compiler wrote and the library refuses. Usage: python3 python/test_prepare.py
LIBENC.so [WORDS OF unittest..]

Each file is made here of examples/bank: an embedded PDB or a ReadyToRun header behind its last section, as PE32 and as
PE32+. `./test` runs this. With the word `examples` in the place of the library it saves those of examples/prepare."""

import contextlib
import io
import os
import pickle
import random
import struct
import sys
import tracemalloc
import unittest
import zlib
from pathlib import Path

sys.dont_write_bytecode = True

from testing import ROOT, Folder, printed

import enc
from enc import _files, _raw
from enc.prepare import LARGEST, Prepared, PrepareError, prepare

BANK = (ROOT / "examples/bank/bank.dll").read_bytes()
PDB = (ROOT / "examples/bank/bank.pdb").read_bytes()
DELTAS = ["examples/bank/bank1", "examples/bank/bank2"]


def packed(part):
    """A raw deflate stream."""
    stream = zlib.compressobj(9, zlib.DEFLATED, -15)
    return stream.compress(part) + stream.flush()


def blob(pdb=PDB, magic=b"MPDB", stated=None, stream=None):
    """An embedded PDB."""
    stated = len(pdb) if stated is None else stated
    return magic + struct.pack("<I", stated) + (packed(pdb) if stream is None else stream)


def wide(data):
    """An image of PE32 as one of PE32+: its optional header is 16 bytes longer, which the headers have room for."""
    pe = struct.unpack_from("<I", data, 0x3C)[0]
    at, size, sections = pe + 24, *struct.unpack_from("<H", data, pe + 20), struct.unpack_from("<H", data, pe + 6)[0]
    old = data[at : at + size]
    (base,) = struct.unpack_from("<I", old, 28)
    sizes = struct.pack("<4Q", *struct.unpack_from("<4I", old, 72))
    new = b"\x0b\x02" + old[2:24] + struct.pack("<Q", base) + old[32:72] + sizes + old[88:]
    head = bytearray(data[:at]) + new + data[at + size : at + size + 40 * sections]
    struct.pack_into("<H", head, pe + 20, len(new))
    assert len(head) <= 512
    return bytes(head).ljust(512, b"\0") + data[512:]


class Made:
    """An image that is made of examples/bank: what is put into it stands behind its last section, which gets longer."""

    def __init__(self, is_wide=False):
        self.data = bytearray(wide(BANK) if is_wide else BANK)
        self.pe = self.u32(0x3C)
        self.directories = self.pe + 24 + (112 if is_wide else 96)
        self.section = self.pe + 24 + self.u16(self.pe + 20) + 40 * (self.u16(self.pe + 6) - 1)
        self.cli = 0x208

    def u16(self, at):
        return struct.unpack_from("<H", self.data, at)[0]

    def u32(self, at):
        return struct.unpack_from("<I", self.data, at)[0]

    def put(self, at, *numbers):
        struct.pack_into(f"<{len(numbers)}I", self.data, at, *numbers)
        return self

    def append(self, part):
        """Adds bytes to the last section, and tells their RVA and their place in the file."""
        rva, size, start = struct.unpack_from("<III", self.data, self.section + 12)
        self.data += part
        self.put(self.section + 16, size + len(part))
        return rva + size, start + size

    def debug(self, *kinds, part=None, more=b""):
        """Debug entries of these kinds; an embedded PDB is that of `part`."""
        part = blob() if part is None else part
        entries = b""
        for kind in kinds:
            own = part if kind == 17 else bytes(4)
            rva, at = self.append(own)
            entries += struct.pack("<IIHHIIII", 0, 0, 0x100, 0x100, kind, len(own), rva, at)
        self.entries_rva, self.entries = self.append(entries + more)
        return self.put(self.directories + 48, self.entries_rva, len(entries + more))

    def native(self, header=None, flags=4, size=None):
        """A ReadyToRun header, and flags of the CLI header."""
        header = struct.pack("<IHHII", 0x00525452, 9, 2, 3, 0) if header is None else header
        rva, _ = self.append(header)
        self.put(self.cli + 64, rva, len(header) if size is None else size)
        return self.put(self.cli + 16, flags)

    def method(self, row):
        """Where a row of MethodDef stands in the file, and the RVA that it says."""
        rows = list(_raw.rows_of(BANK[BANK.index(b"BSJB") :], "MethodDef"))
        rva, kind, flags, *_ = rows[0]
        return BANK.index(struct.pack("<IHH", rva, kind, flags)) + 14 * (row - 1), rows[row - 1][0]

    def bytes(self):
        return bytes(self.data)


def facts(module, deltas=()):
    """All rows and points of a module with deltas."""
    for delta in deltas:
        module.apply(delta)
    rows = [module.text(token) for token in module]
    return rows, [module.points(method.token) for method in module.methods()]


def examples():
    """The files of examples/prepare by their names."""
    return {
        "embedded.dll": Made().debug(2, 17, 16).bytes(),
        "ready.dll": Made(True).debug(2, 17, 16).native().bytes(),
        "mixed.dll": Made().put(Made().cli + 16, 0).bytes(),
    }


class Prepares(Folder):
    """What is prepared is accepted, and means what the plain files mean."""

    def accepted(self, made, is_embedded=True):
        """The module of a made file, which is refused before and accepted behind."""
        with self.assertRaises(enc.Refused):
            enc.Module(made.bytes())
        told = prepare(made.bytes())
        self.assertEqual(told.pdb, PDB if is_embedded else None)
        self.assertEqual(prepare(told.module), Prepared(told.module, None, ()))
        self.assertEqual(len(told.module), len(made.data))
        wanted = facts(enc.Module(BANK, PDB), DELTAS)
        self.assertEqual(facts(enc.Module(told.module, told.pdb or PDB), DELTAS), wanted)
        self.assertTrue(any(wanted[1]))
        return told

    def test_an_embedded_pdb_alone(self):
        made = Made().debug(17)
        told = self.accepted(made)
        self.assertEqual(struct.unpack_from("<II", told.module, made.directories + 48), (0, 0))
        said = f"The embedded PDB was unpacked: {len(packed(PDB))} bytes became 456."
        self.assertEqual(told.done, (said, "Its debug entry, 1 of 1, was taken out."))

    def test_an_embedded_pdb_among_others(self):
        for kinds in ((2, 17), (17, 2), (2, 17, 19, 16), (2, 19, 17)):
            made = Made().debug(*kinds)
            told = self.accepted(made)
            where = struct.unpack_from("<II", told.module, made.directories + 48)
            self.assertEqual(where, (made.entries_rva, 28 * len(kinds) - 28))
            left = [made.u32(made.entries + 28 * i + 12) for i in range(len(kinds))]
            kept = [struct.unpack_from("<I", told.module, made.entries + 28 * i + 12)[0] for i in range(len(kinds))]
            self.assertEqual((left, kept), (list(kinds), [kind for kind in kinds if kind != 17] + [0]))

    def test_nothing_else_is_changed(self):
        made = Made().debug(2, 17, 16).native()
        told = prepare(made.bytes())
        size = 28 * 3
        parts = [(made.cli + 16, 4), (made.cli + 64, 8), (made.directories + 48, 8), (made.entries, size)]
        changed = {i for i, (old, new) in enumerate(zip(made.data, told.module)) if old != new}
        self.assertLessEqual(changed, {at + i for at, count in parts for i in range(count)})

    def test_bytes_behind_the_last_whole_entry(self):
        made = Made().debug(2, 17, more=struct.pack("<IIIIII", 17, 17, 17, 17, 17, 17))
        told = self.accepted(made)
        self.assertEqual(struct.unpack_from("<I", told.module, made.directories + 52), (28 + 24,))

    def test_pe32_plus(self):
        self.accepted(Made(True).debug(2, 17))
        self.accepted(Made(True).native(), False)
        self.accepted(Made(True).native().debug(17, 2))

    def test_native_code(self):
        for before, behind in ((4, 1), (5, 1), (1, 1), (0, 1), (0xC, 9), (6, 3)):
            made = Made().native(flags=before)
            told = self.accepted(made, False)
            self.assertEqual(struct.unpack_from("<I", told.module, made.cli + 16)[0], behind)
            self.assertEqual(told.module[made.cli + 64 : made.cli + 72], bytes(8))
            self.assertIn("ReadyToRun 9.2 was marked as not there", told.done[0])
            self.assertIn("The IL of 4 methods is whole.", told.done[0])
            flagged = () if before == 1 else (f"The flags of the CLI header were {before:08x} and are {behind:08x}.",)
            self.assertEqual(told.done[1:], flagged)

    def test_both(self):
        told = self.accepted(Made().native().debug(2, 17))
        self.assertEqual(len(told.done), 4)

    def test_nothing_to_prepare(self):
        for data in (BANK, wide(BANK), Made().debug(2, 16).bytes(), (ROOT / "examples/k.dll").read_bytes()):
            self.assertEqual(prepare(data), Prepared(data, None, ()))
        bare = BANK[BANK.index(b"BSJB") :]
        self.assertEqual(prepare(bytearray(bare)), Prepared(bare, None, ()))

    def test_a_long_pdb(self):
        part = PDB + bytes(1 << 22)
        self.assertEqual(prepare(Made().debug(17, part=blob(part)).bytes()).pdb, part)

    def test_examples(self):
        for name, data in examples().items():
            stored = (ROOT / "examples/prepare" / name).read_bytes()
            if name == "mixed.dll":
                self.assertEqual(stored, data)
                continue
            # Another zlib may pack otherwise.
            told, wanted = prepare(stored), prepare(data)
            self.assertEqual((told.pdb, len(told.done)), (wanted.pdb, len(wanted.done)), name)
            self.assertEqual(facts(enc.Module(told.module, told.pdb)), facts(enc.Module(BANK, PDB)), name)


class Refuses(unittest.TestCase):
    """What can't be prepared is a PrepareError that says what was found, and where."""

    def says(self, words, data):
        with self.assertRaisesRegex(PrepareError, words) as raised:
            prepare(data if isinstance(data, bytes) else data.bytes())
        self.assertIsNone(raised.exception.file)
        again = pickle.loads(pickle.dumps(raised.exception))
        self.assertEqual((type(again), str(again)), (PrepareError, str(raised.exception)))
        self.assertIs(enc.PrepareError, PrepareError)

    def test_headers(self):
        self.says("the file's first bytes: 2 bytes at 0x0 pass the file's end at 0x0", b"")
        self.says("begins with 7f 45 and not with MZ", b"\x7fELF" + bytes(100))
        made = Made()
        self.says("the PE header: 4 bytes at 0xffffffff pass", made.put(0x3C, 0xFFFFFFFF))
        self.says("at 0x80: 00 00 00 00 and not PE", Made().put(0x80, 0))
        self.says("the magic 0x107 at 0x98 is neither", Made().put(0x98, 0x107))
        self.says("14 directories at 0xf4", Made().put(0xF4, 14))
        wrong = Made()
        struct.pack_into("<H", wrong.data, wrong.pe + 20, 100)
        self.says("the optional header at 0x98 has 100 bytes and no CLI entry", wrong)
        wrong = Made()
        struct.pack_into("<H", wrong.data, wrong.pe + 6, 0xFFFF)
        self.says("the headers: .* bytes at 0x0 pass the file's end at 0xe00", wrong)

    def test_cli_header(self):
        made = Made()
        self.says("no .NET module: its CLI header at RVA 00000000 has 0 bytes", made.put(made.directories + 112, 0, 0))
        wrong = Made().put(made.directories + 112, 0x9000, 72)
        self.says("the CLI header: 72 bytes at RVA 00009000 don't stand in a section", wrong)

    def test_debug_entries_outside_the_sections(self):
        made = Made().debug(17)
        wrong = made.put(made.directories + 48, 0xFFFFFFF0, 28)
        self.says("the debug entries: 28 bytes at RVA fffffff0 don't stand in a section", wrong)

    def test_wrong_magic(self):
        made = Made().debug(2, 17, part=blob(magic=b"MPDX"))
        self.says("debug entry 2 of 2 at 0x[0-9a-f]+: the embedded PDB at 0x[0-9a-f]+ begins with 4d 50 44 58", made)

    def test_not_deflate(self):
        self.says("at 0x[0-9a-f]+ isn't a deflate stream", Made().debug(17, part=blob(stream=b"\xff" * 64)))

    def test_deflate_that_is_cut_off(self):
        made = Made().debug(17, part=blob(stream=packed(PDB)[:-20]))
        self.says("states 456 bytes, and the deflate stream is cut off behind \\d+", made)

    def test_lying_sizes(self):
        self.says("states 455 bytes, and there are more", Made().debug(17, part=blob(stated=455)))
        self.says("states 457 bytes, and there are 456", Made().debug(17, part=blob(stated=457)))
        self.says("states 0 bytes, and there are more", Made().debug(17, part=blob(stated=0)))

    def test_sizes_are_judged_first(self):
        made = Made().debug(17, part=blob(stated=LARGEST + 1))
        self.says(f"states {LARGEST + 1} bytes, and {LARGEST} are the most", made)
        self.says("states 4294967295 bytes", Made().debug(17, part=blob(stated=0xFFFFFFFF)))
        self.says("states 400000000 bytes, and \\d+ can't be so many", Made().debug(17, part=blob(stated=400000000)))

    def test_no_more_is_unpacked_than_is_stated(self):
        made = Made().debug(17, part=blob(PDB + bytes(1 << 26), stated=len(PDB))).bytes()
        tracemalloc.start()
        try:
            self.says("states 456 bytes, and there are more", made)
            self.assertLess(tracemalloc.get_traced_memory()[1], 1 << 21)
        finally:
            tracemalloc.stop()

    def test_entries_that_pass_the_file(self):
        made = Made().debug(17)
        self.says("the embedded PDB, 4294967295 bytes at 0x[0-9a-f]+, passes", made.put(made.entries + 16, 0xFFFFFFFF))
        self.says("has 7 bytes, and its head alone has 8", made.put(made.entries + 16, 7))
        self.says("at 0xffffffff, passes", made.put(made.entries + 16, 100).put(made.entries + 24, 0xFFFFFFFF))

    def test_no_portable_pdb(self):
        self.says("begins with 4d 69 63 72 and is no Portable PDB", Made().debug(17, part=blob(b"Microsoft C/C++ MSF")))

    def test_two_embedded_pdbs(self):
        self.says("debug entries 1 and 3 of 3 at 0x[0-9a-f]+ are both an embedded PDB", Made().debug(17, 2, 17))

    def test_parts_that_overlap(self):
        made = Made().debug(17)
        made.put(made.cli + 8, made.entries_rva, 28)
        self.says("the metadata at 0x[0-9a-f]+ and the debug entries at 0x[0-9a-f]+ overlap", made)
        made = Made().put(Made().cli + 32, 17)
        made.put(made.directories + 48, 0x2008 + 20, 28)
        self.says("the CLI header at 0x208 and the debug entries at 0x21c overlap", made)

    def test_mixed_mode(self):
        self.says("mixed-mode module: the CLI header at 0x208 has flags 00000000 without ILONLY", Made().put(0x218, 0))
        self.says("mixed-mode module: .* flags 00000010", Made().debug(17).put(0x218, 0x10))
        self.says("mixed-mode module: .* a native entry point", Made().native(flags=0x14))
        self.says("mixed-mode module: .* 16 bytes of VTableFixups", Made().native().put(0x208 + 48, 0x2000, 16))

    def test_native_code_of_another_kind(self):
        ngen = Made().native(struct.pack("<IHHII", 0x0045474E, 1, 0, 0, 0))
        self.says("native code of another kind: ManagedNativeHeader at RVA [0-9a-f]+ begins with 4e 47 45 00", ngen)
        self.says("ManagedNativeHeader: 8 bytes at RVA [0-9a-f]+, and a Ready.* has 16", Made().native(size=8))
        outside = Made().native().put(0x208 + 64, 0x7FFFFFFF, 16)
        self.says("ManagedNativeHeader: 16 bytes at RVA 7fffffff don't stand in a section", outside)

    def test_il_that_is_not_whole(self):
        stripped = struct.pack("<IHHII", 0x00525452, 9, 2, 0x203, 0)
        self.says("its IL isn't whole: the ReadyToRun header at RVA [0-9a-f]+ says so", Made().native(stripped))
        at, rva = Made().method(2)
        self.says("its IL isn't whole: the method 06000002 has none", Made().native().put(at, 0))
        self.says("its IL isn't whole: the method 06000002 begins at RVA 77777777", Made().native().put(at, 0x77777777))
        made, place = Made().native(), 0x200 + rva - 0x2000
        made.data[place] = 0
        self.says(f"the method 06000002 has no header of a body at RVA {rva:08x}, but 00", made)
        made.data[place : place + 8] = struct.pack("<HHI", 0x3003, 8, 0x10000)
        self.says(f"the method 06000002 has 65548 bytes at RVA {rva:08x}, not all in a section", made)
        made.data[place : place + 2] = b"\x03\x20"
        self.says(f"the method 06000002 has a header of 2 words at RVA {rva:08x}", made)
        made = Made().native()
        struct.pack_into("<H", made.data, at + 4, 1)
        self.says("a mixed-mode module: the method 06000002 isn't IL, its ImplFlags are 0001", made)

    def test_metadata_that_is_not_whole(self):
        made = Made().native()
        self.says("the metadata: .* don't stand in a section", made.put(made.cli + 8, 0x77777777, 100))
        made = Made().native()
        self.says("the metadata at 0x[0-9a-f]+: its headers don't stand whole", made.put(made.cli + 12, 24))
        root = BANK.index(b"BSJB")
        self.says("the metadata at 0x[0-9a-f]+: it doesn't begin with BSJB", Made().native().put(root, 0))

    def test_cut_anywhere(self):
        data = Made().debug(2, 17).native().bytes()
        for length in range(len(data)):
            with contextlib.suppress(PrepareError):
                prepare(data[:length])

    def test_changed_anywhere(self):
        chance = random.Random(7)
        for i in range(6000):
            data = bytearray(examples()["ready.dll"] if i % 2 else Made().native().debug(17).bytes())
            for _ in range(chance.choice((1, 1, 2, 5))):
                near = chance.choice((512, 0x250, len(data)))
                data[chance.randrange(near)] = chance.choice((0, 1, 17, 0x7F, 0xFF, chance.randrange(256)))
            with contextlib.suppress(PrepareError):
                told = prepare(bytes(data))
                self.assertEqual(prepare(told.module).module, told.module)
                if told.done:
                    with contextlib.suppress(enc.Refused):
                        enc.Module(told.module, told.pdb)


class Modules(Folder):
    """`enc.Module(path, prepare=True)`."""

    def setUp(self):
        super().setUp()
        Path(self.path("m.dll")).write_bytes(Made().native().debug(2, 17).bytes())

    def test_it_is_opened_in_memory(self):
        module = enc.Module(self.path("m"), prepare=True)
        self.assertEqual(facts(module, DELTAS), facts(enc.Module(BANK, PDB), DELTAS))
        self.assertEqual(len(module.prepared), 4)
        self.assertEqual(os.listdir(self.folder), ["m.dll"])

    def test_it_is_asked_for(self):
        with self.assertRaises(enc.Refused) as raised:
            enc.Module(self.path("m"))
        self.assertEqual(raised.exception.code, "F4")
        self.assertEqual(enc.Module("examples/bank/bank", prepare=True).prepared, ())

    def test_which_pdb_is_taken(self):
        Path(self.path("m.pdb")).write_bytes(b"none")
        self.assertTrue(enc.Module(self.path("m"), prepare=True).points("06000004"))
        self.assertEqual(enc.Module(self.path("m"), b"", prepare=True).points("06000004"), [])
        with self.assertRaises(enc.Refused) as raised:
            enc.Module(self.path("m"), self.path("m.pdb"), prepare=True)
        self.assertEqual((raised.exception.code, raised.exception.file), ("F12", self.path("m.pdb")))
        Path(self.path("n.dll")).write_bytes(Made().native().bytes())
        Path(self.path("n.pdb")).write_bytes(PDB)
        self.assertTrue(enc.Module(self.path("n"), prepare=True).points("06000004"))

    def test_bytes(self):
        module = enc.Module(Made().debug(17).bytes(), prepare=True)
        self.assertTrue(module.points("06000004"))

    def test_an_embedded_pdb_that_is_refused(self):
        Path(self.path("m.dll")).write_bytes(Made().debug(17, part=blob(PDB[:100])).bytes())
        with self.assertRaises(enc.Refused) as raised:
            enc.Module(self.path("m"), prepare=True)
        self.assertEqual((raised.exception.code, raised.exception.file), ("F12", self.path("m.dll")))

    def test_an_error_names_the_file(self):
        Path(self.path("m.dll")).write_bytes(BANK[:100])
        with self.assertRaises(PrepareError) as raised:
            enc.Module(self.path("m"), prepare=True)
        self.assertEqual(raised.exception.file, self.path("m.dll"))


class Command(Folder):
    """`python3 -m enc prepare FILE OUT`."""

    def test_what_is_saved_and_printed(self):
        Path(self.path("m.dll")).write_bytes(Made().debug(17).bytes())
        status, told = printed("prepare", self.path("m"), self.path("out"))
        made = prepare(Made().debug(17).bytes())
        saved = f"saved {self.path('out.dll')} {self.path('out.pdb')}\n"
        self.assertEqual((status, told), (0, "\n".join(made.done) + "\n" + saved))
        self.assertEqual(_files.read(self.path("out.dll")), made.module)
        self.assertEqual(_files.read(self.path("out.pdb")), PDB)
        self.assertEqual(enc.Module(self.path("out")).points("06000004"), enc.Module(BANK, PDB).points("06000004"))

    def test_an_ending(self):
        Path(self.path("m.exe")).write_bytes(Made().native().bytes())
        self.assertEqual(printed("prepare", self.path("m.exe"), self.path("out.exe"))[0], 0)
        self.assertEqual(sorted(os.listdir(self.folder)), ["m.exe", "out.exe"])

    def test_nothing_to_prepare(self):
        told = printed("prepare", "examples/bank/bank", self.path("out"))
        self.assertEqual(told, (0, f"nothing to prepare\nsaved {self.path('out.dll')}\n"))
        self.assertEqual(_files.read(self.path("out.dll")), BANK)

    def test_what_cannot_be_prepared(self):
        status, told = printed("prepare", "examples/prepare/mixed", self.path("out"))
        words = "not prepared examples/prepare/mixed.dll: a mixed-mode module: "
        self.assertEqual((status, told.startswith(words), told.count("\n")), (1, True, 1))
        self.assertEqual(os.listdir(self.folder), [])
        absent = printed("prepare", self.path("none"), self.path("out"))
        self.assertEqual(absent, (6, f"missing {self.path('none.dll')}\n"))
        with contextlib.redirect_stderr(io.StringIO()), self.assertRaises(SystemExit) as raised:
            printed("prepare", "examples/k")
        self.assertEqual(raised.exception.code, 2)


def main(words):
    if not words:
        print(__doc__)
        return 2
    if words == ["examples"]:
        for name, data in examples().items():
            _files.write(str(ROOT / "examples/prepare" / name), data)
        return 0
    os.environ["ENC_LIBRARY"] = os.path.abspath(words[0])
    os.chdir(ROOT)
    made = unittest.main(argv=["test_prepare.py", *words[1:]], exit=False, verbosity=1)
    return 0 if made.result.wasSuccessful() else 1


if __name__ == "__main__":
    sys.exit(main(sys.argv[1:]))
