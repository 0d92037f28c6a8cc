"""What the tests of the package share: the examples, what the program enc says of them, a folder for each test."""

import contextlib
import io
import os
import shutil
import subprocess
import sys
import tempfile
import unittest
from pathlib import Path

HERE = Path(__file__).resolve().parent
# The top of a checkout; of an archive of sources the folder of the tests, which has the examples too.
ROOT = HERE.parent if (HERE.parent / "examples").is_dir() else HERE
sys.path.insert(0, str(HERE))
sys.dont_write_bytecode = True

import enc  # noqa: E402
from enc import _library  # noqa: E402
from enc.__main__ import main as program  # noqa: E402

# The program enc.
ENC = str(ROOT / "dist" / "enc")
CHAINS = (
    ("examples/bank/bank", ["examples/bank/bank1", "examples/bank/bank2"]),
    ("examples/k", ["examples/k1"]),
    ("examples/m", ["examples/d1"]),
)


def has(*calls):
    """Whether the library has these calls."""
    try:
        for call in calls:
            _library.library().call(call)
    except AttributeError:
        return False
    return True


def needs(*calls):
    """A test of calls that an older library doesn't have."""

    def guard(test):
        def guarded(self, *arguments):
            missing = [call for call in calls if not has(call)]
            if missing:
                self.skipTest(f"no {' '.join(missing)} in this library")
            test(self, *arguments)

        guarded.__name__ = test.__name__
        return guarded

    return guard


def opened(base, deltas):
    """A module with its deltas."""
    module = enc.Module(base)
    for delta in deltas:
        module.apply(delta)
    return module


def told(*words):
    """What the program enc prints; without it the test is skipped."""
    if not os.path.isfile(ENC):
        raise unittest.SkipTest("no program enc here")
    return subprocess.run([ENC, *words], capture_output=True, text=True).stdout


def printed(*words):
    """What `python3 -m enc` prints, and its status."""
    out = io.StringIO()
    with contextlib.redirect_stdout(out):
        status = program(list(words))
    return status, out.getvalue()


def every_token(module):
    """The tokens of all rows."""
    return [token for table in enc.TABLES for token in module.tokens(table.number)]


class Folder(unittest.TestCase):
    """A test with a folder of its own."""

    def setUp(self):
        self.folder = tempfile.mkdtemp()
        self.addCleanup(shutil.rmtree, self.folder)

    def path(self, name):
        return os.path.join(self.folder, name)

    def copy(self, source, name):
        shutil.copy(source, self.path(name))
        return self.path(name)
