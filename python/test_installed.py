"""Tests of the wheel, the archive of sources, and what they say to a registry. test.py runs them."""

import contextlib
import email
import io
import os
import re
import shutil
import subprocess
import sys
import tarfile
import unittest
import unittest.mock

import backend
from testing import HERE, ROOT, Folder, program

import enc
from enc import _files, _library

try:
    import tomllib
except ImportError:
    tomllib = None


class Installed(Folder):
    """The wheel, and an install without a network."""

    def test_without_jinja_a_local_path_is_named(self):
        given, said = self.path("page.html"), io.StringIO()
        with unittest.mock.patch("importlib.util.find_spec", return_value=None), contextlib.redirect_stderr(said):
            self.assertEqual(program(["report", "examples/k", "-o", given]), 4)
        self.assertIn("pip install './python[report]'", said.getvalue())
        self.assertNotIn("enc[report]", said.getvalue())
        self.assertFalse(os.path.exists(given))

    def test_the_wheel(self):
        name = backend.build_wheel(self.folder)
        self.assertEqual(name, f"enc-{enc.__version__}-{backend.tag()}.whl")
        with backend.zipfile.ZipFile(self.path(name)) as wheel:
            names = wheel.namelist()
            self.assertEqual(wheel.read("enc/libenc.so"), _files.read(_library.library_path()))
            self.assertEqual(wheel.read("enc/py.typed"), b"")
        modules = {f"enc/{path.name}" for path in (HERE / "enc").glob("*.py")}
        self.assertLessEqual(modules, set(names))

    def test_pip(self):
        if subprocess.run([sys.executable, "-m", "pip", "--version"], capture_output=True).returncode:
            self.skipTest("no pip here")
        words = ["--no-build-isolation", "--no-index", "--no-compile", "--quiet", "--target", self.path("to")]
        pip = [sys.executable, "-m", "pip", "--disable-pip-version-check", "--no-input", "install", *words, str(HERE)]
        made = subprocess.run(pip, capture_output=True, text=True)
        self.assertEqual(made.returncode, 0, made.stderr)
        around = {name: value for name, value in os.environ.items() if name != "ENC_LIBRARY"}
        around["PYTHONPATH"] = self.path("to")
        asked = "import enc, sys; module = enc.Module(sys.argv[1]); print(enc.__file__, module.apply(sys.argv[2]))"
        words = [sys.executable, "-c", asked, str(ROOT / "examples/k"), str(ROOT / "examples/k1")]
        got = subprocess.run(words, env=around, cwd=self.folder, capture_output=True, text=True)
        self.assertEqual(got.stdout.split(), [self.path("to/enc/__init__.py"), "1"], got.stderr)
        words = [sys.executable, self.path("to/bin/enc-tool"), "find", str(ROOT / "examples/k"), "P::Say"]
        got = subprocess.run(words, env=around, cwd=self.folder, capture_output=True, text=True)
        self.assertEqual(got.stdout, "06000001  method  P::Say  public static void ()\n", got.stderr)


class Archives(Folder):
    """A registry may take the wheel and the archive of sources."""

    def metadata(self):
        return email.message_from_bytes(backend.metadata())

    @unittest.skipUnless(shutil.which("readelf"), "no readelf here")
    def test_the_tag_is_what_the_library_asks_for(self):
        words = ["readelf", "--dynamic", "--version-info", "--file-header", "--wide", _library.library_path()]
        told = subprocess.run(words, capture_output=True, text=True, check=True).stdout
        self.assertRegex(told, r"Class: +ELF64\n(.*\n)*.*Machine: +Advanced Micro Devices X86-64\n")
        self.assertEqual(re.findall(r"\(NEEDED\).*\[(.*)\]", told), ["libc.so.6"])
        self.assertNotRegex(told, r"\((RPATH|RUNPATH|TEXTREL)\)")
        asked = set(re.findall(r"Name: (\S+) +Flags", told))
        self.assertTrue(asked and all(re.fullmatch(r"GLIBC_[0-9.]+", version) for version in asked), asked)
        newest = max(tuple(map(int, version[6:].split("."))) for version in asked)
        old = newest <= (2, 17)
        self.assertEqual(backend.tag(), f"py3-none-{'manylinux2014' if old else 'linux'}_x86_64")

    def test_a_library_that_asks_for_more(self):
        with open(self.path("libenc.so"), "wb") as file:
            file.write(_files.read(_library.library_path()) + b"\0GLIBC_2.18\0")
        with unittest.mock.patch.dict(os.environ, ENC_LIBRARY=self.path("libenc.so")):
            self.assertEqual(backend.tag(), "py3-none-linux_x86_64")

    @unittest.skipUnless(tomllib, "no tomllib here")
    def test_metadata_is_that_of_pyproject(self):
        said, told = tomllib.loads((HERE / "pyproject.toml").read_text())["project"], self.metadata()
        self.assertEqual((told["Name"], told["Summary"], told["License"]), ("enc", said["description"], "MIT"))
        authors = [{"name": told["Author"], "email": told["Author-email"]}]
        self.assertEqual((said["authors"], told["Requires-Python"]), (authors, said["requires-python"]))
        self.assertEqual(said["classifiers"], told.get_all("Classifier"))
        self.assertEqual(said["keywords"], told["Keywords"].split(","))
        self.assertEqual(dict(line.split(", ") for line in told.get_all("Project-URL")), said["urls"])
        self.assertEqual(told.get_payload().strip(), (HERE / said["readme"]).read_text(encoding="utf-8").strip())

    def test_the_readme_is_tried(self):
        page = (HERE / "README.md").read_text(encoding="utf-8")
        _, code, _, shown, _ = page.split("```")
        words = [sys.executable, "-c", code[len("python\n") :]]
        around = {"PYTHONPATH": str(HERE), "ENC_LIBRARY": _library.library_path()}
        self.assertEqual(subprocess.run(words, env=around, cwd=ROOT, capture_output=True, text=True).stdout, shown[1:])

    def test_classifiers(self):
        asked = "import sys, trove_classifiers as t; sys.exit(any(c not in t.classifiers for c in sys.argv[1:]))"
        interpreter = "/usr/bin/python3"
        if subprocess.run([interpreter, "-c", "import trove_classifiers"], capture_output=True).returncode:
            self.skipTest("no trove_classifiers here")
        words = [interpreter, "-c", asked, *backend.CLASSIFIERS]
        self.assertEqual(subprocess.run(words).returncode, 0)

    def test_twine(self):
        if not shutil.which("twine"):
            self.skipTest("no twine here")
        files = [self.path(backend.build_wheel(self.folder)), self.path(backend.build_sdist(self.folder))]
        made = subprocess.run(["twine", "check", "--strict", *files], capture_output=True, text=True)
        self.assertEqual((made.returncode, made.stdout.count("PASSED")), (0, 2), made.stdout)

    def test_the_archive_of_sources_has_tests_that_run(self):
        name = backend.build_sdist(self.folder)
        with open(self.path(name), "rb") as first:
            before = first.read()
        self.assertEqual(_files.read(self.path(backend.build_sdist(self.folder))), before)
        with tarfile.open(self.path(name)) as archive:
            archive.extractall(self.folder)
        top = self.path(name[: -len(".tar.gz")])
        self.assertEqual(_files.read(top + "/LICENSE"), _files.read(str(backend.above("LICENSE"))))
        self.assertTrue(_files.read(top + "/PKG-INFO").startswith(b"Metadata-Version: 2.1\nName: enc\n"))
        if str(HERE) == str(ROOT):
            return
        words = [sys.executable, "test.py", "enc/libenc.so", "none", "Header", "Rows", "Deltas", "ByNumber", "Missing"]
        made = subprocess.run(words, cwd=top, capture_output=True, text=True)
        self.assertEqual(made.returncode, 0, made.stderr)
        self.assertRegex(made.stderr, r"Ran \d{2,} tests in .*\n\nOK \(skipped=")
