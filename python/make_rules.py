"""Writes enc/rules.py from the tables of docs/rules.md, docs/edits.md and docs/scripts.md.

Usage: python3 python/make_rules.py [--check]. With --check nothing is written, and the status is 1 where it isn't up
to date."""

import re
import sys
import textwrap
from pathlib import Path

HERE = Path(__file__).resolve().parent
DOCS = HERE.parent / "docs"
CODE = re.compile(r"[FELGJQX][0-9]+")


def plain(cell):
    """A cell without the marks of a page."""
    cell = re.sub(r"\[([^]]*)\]\([^)]*\)", r"\1", cell)
    return cell.strip().replace("`", "") if not CODE.fullmatch(cell.strip()) else cell.strip()


def rows(name):
    """The cells of each row of a page's tables."""
    for line in (DOCS / name).read_text(encoding="utf-8").splitlines():
        if line.startswith("| ") and line.endswith(" |"):
            yield [cell.strip() for cell in re.split(r" \|(?: |$)", line[2:])][:-1]


def of_files():
    """Code, places and words of each rule of files."""
    return [(row[0], row[1], plain(row[2])) for row in rows("rules.md") if CODE.fullmatch(row[0])]


def of_edits():
    """Those of edit lists: the form, and the rules of an edit."""
    for row in rows("edits.md"):
        words = row[0].split()
        if CODE.fullmatch(words[0]) and len(words) == 2:
            said = plain(row[1]).replace("otherwise: n is ", "")
            yield (words[0], "`%s`" % words[1] if words[1] != "n" else "edit", said)
        elif CODE.fullmatch(row[0]) and len(row) == 3:
            yield (row[0], "`0`" if row[1] == "0" else "edit", plain(row[2]))


def numbered(letter):
    """The rules of remaps and the traps: number and words; a line may name several."""
    for row in rows("scripts.md"):
        codes = row[0].split(", ")
        if not all(CODE.fullmatch(code) and code[0] == letter for code in codes):
            continue
        parts = re.split(r"; ", plain(row[1])) if len(codes) > 1 else [plain(row[1])]
        assert len(parts) == len(codes), row
        yield from zip(codes, parts)


def literal(text):
    """A text as it stands in a Python file."""
    return '"%s"' % text.replace("\\", "\\\\").replace('"', '\\"')


def tuple_of(cells):
    """The lines of a tuple of texts, the last of them cut into lines."""
    *heads, words = cells
    parts = textwrap.wrap(words, 100, break_long_words=False)
    parts = [part + " " for part in parts[:-1]] + parts[-1:]
    lines = ["    (%s," % ", ".join(literal(head) for head in heads)]
    lines += ["     %s" % literal(part) for part in parts]
    return lines[:-1] + [lines[-1] + "),"]


def pair_of(code, words):
    """The lines of a code and its words in a dictionary."""
    lines = tuple_of((code, words))
    return [lines[0].replace("(", "", 1)[:-1] + ": ("] + lines[1:]


def made():
    """The whole of enc/rules.py."""
    lines = [
        '"""The rules in words. Written by python/make_rules.py from docs/rules.md, edits.md and scripts.md."""',
        "",
        "from typing import Dict, List, Tuple",
        "",
        "# Code, places, words, in the order of docs/rules.md.",
        "RULES: List[Tuple[str, str, str]] = [",
    ]
    for rule in of_files():
        lines += tuple_of(rule)
    lines += ["]", "", "# Code, place, words of an edit list; the place is an edit, or the list as a whole: 0."]
    lines += ["EDITS: List[Tuple[str, str, str]] = ["]
    for rule in of_edits():
        lines += tuple_of(rule)
    numbers = (("REMAPS", "Q", "When a frame isn't remapped."), ("TRAPS", "X", "Why a step isn't made."))
    for name, letter, about in numbers:
        lines += ["]" if name == "REMAPS" else "}", "", f"# {about}", f"{name}: Dict[str, str] = {{"]
        for code, words in numbered(letter):
            lines += pair_of(code, words)
    return "\n".join(lines + ["}", ""])


def main(words):
    file = HERE / "enc" / "rules.py"
    if words == ["--check"]:
        return 0 if file.read_text(encoding="utf-8") == made() else 1
    file.write_text(made(), encoding="utf-8")
    return 0


if __name__ == "__main__":
    sys.exit(main(sys.argv[1:]))
