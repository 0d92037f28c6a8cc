#!/usr/bin/env python3
"""Makes the three pages of this folder again. Usage: make.py [FOLDER]; without one the pages here are written anew, and
docs/chain.svg."""

import os
import shutil
import sys
import tempfile
from pathlib import Path

HERE = Path(__file__).resolve().parent
ROOT = HERE.parent.parent
sys.path.insert(0, str(ROOT / "python"))

from enc import Module  # noqa: E402
from enc.__main__ import main  # noqa: E402
from enc.report import chain_picture  # noqa: E402

# Where the flags of `Deposit` stand in bank2.meta.
FLAGS = 242


def static_deposit(folder):
    """The delta bank2 with one bit changed: the old method `Deposit` becomes static, which no delta may do."""
    for end in ("il", "pdb"):
        shutil.copy(ROOT / f"examples/bank/bank2.{end}", f"{folder}/static.{end}")
    metadata = bytearray((ROOT / "examples/bank/bank2.meta").read_bytes())
    metadata[FLAGS] |= 0x10
    Path(folder, "static.meta").write_bytes(metadata)


def make(folder):
    """Writes the pages into a folder."""
    os.chdir(ROOT / "examples")
    main(["report", "k", "k1", "-o", f"{folder}/worked.html"])
    main(["report", "bank/bank", "bank/bank1", "bank/bank2", "--source", "bank", "-o", f"{folder}/bank.html"])
    with tempfile.TemporaryDirectory() as work:
        static_deposit(work)
        shutil.copytree(ROOT / "examples/bank", f"{work}/bank")
        os.chdir(work)
        main(["report", "bank/bank", "bank/bank1", "static", "--source", "bank", "-o", f"{folder}/refused.html"])
        os.chdir(ROOT)


def chain():
    """The picture of the chain of `examples/bank`."""
    paths = [str(ROOT / f"examples/bank/{name}") for name in ("bank", "bank1", "bank2")]
    with Module(paths[0]) as module:
        for path in paths[1:]:
            module.apply(path)
        return chain_picture(module, paths)


if __name__ == "__main__":
    make(Path(sys.argv[1]).resolve() if len(sys.argv) > 1 else HERE)
    if len(sys.argv) == 1:
        (ROOT / "docs/chain.svg").write_text(chain())
