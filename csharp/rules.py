"""csharp/rules.py [check]: writes the words of the rules into Enc.cs, between its two marks, from docs/rules.md,
docs/edits.md and docs/scripts.md. With `check` nothing is written, and the status is 1 where the words in Enc.cs
aren't those of the docs."""
import os
import re
import sys
import textwrap

ROOT = os.path.join(os.path.dirname(os.path.abspath(__file__)), "..")
FILE = os.path.join(ROOT, "csharp", "Enc.cs")
BEGIN, END = "            // begin: from the docs, by csharp/rules.py\n", "            // end\n"


def rows(page):
    """The rows of a page's tables, each with the heading that it stands below."""
    heading = ""
    with open(os.path.join(ROOT, "docs", page), encoding="utf-8") as file:
        for line in file:
            if line.startswith("#"):
                heading = line.strip("# \n")
            elif line.startswith("|"):
                yield heading, [cell.strip() for cell in line.strip().strip("|").split(" | ")]


def plain(text):
    """Words without the marks of a page."""
    return re.sub(r"\[([^]]*)\]\([^)]*\)", r"\1", text).replace("`", "")


def place(cell):
    """The word of Enc.cs for the kind of a place, or the place itself."""
    if cell.startswith("TOKEN.owner"):
        return "owner"
    named = re.match("`([^`]*)`$", cell)
    return named.group(1) if named else "row"


def of_files():
    """The rules of files: a code alone for its first place, and with the place for those behind it."""
    words = {}
    for heading, cells in rows("rules.md"):
        if len(cells) < 3 or not re.match("[FEGL][0-9]+$", cells[0]) or cells[0] in ("L1", "L2"):
            continue
        again = cells[0] in words
        merged = "merge " if again and cells[0] + " " + place(cells[1]) in words else ""
        words[merged + cells[0] + (" " + place(cells[1]) if again else "")] = plain(cells[2])
    return words


def of_edits():
    """The rules of edit lists; those of the list as a whole have the edit 0."""
    words = {}
    for heading, cells in rows("edits.md"):
        form = re.match("(J[12]) (json|0|n)$", cells[0])
        if form:
            said = plain(cells[1]).removeprefix("otherwise: n is ")
            words[form.group(1) + (" 0" if form.group(2) == "0" else "")] = said
        elif re.match("E[0-9]+$", cells[0]):
            words["edit " + cells[0] + (" 0" if cells[1] == "0" else "")] = plain(cells[2])
    return words


def of_scripts():
    """The rules of remaps, and the traps: a row of several says one after the other."""
    words = {}
    for heading, cells in rows("scripts.md"):
        if heading not in ("Remaps", "Traps") or not re.match("[QX][0-9]", cells[0]):
            continue
        names = cells[0].split(", ")
        parts = plain(cells[1]).split("; ") if len(names) > 1 else [plain(cells[1])]
        words.update(zip(names, parts, strict=True))
    return words


def entry(key, text):
    """A line of the table, or more where it is long."""
    text = text.replace("\\", "\\\\").replace('"', '\\"')
    lines = textwrap.wrap(text, 94, break_long_words=False, break_on_hyphens=False)
    said = [f'"{line} "' for line in lines[:-1]] + [f'"{lines[-1]}"']
    joined = " +\n                ".join(said)
    return f'            {{ "{key}",\n                {joined} }},\n'


def main(*words):
    table = {**of_files(), **of_edits(), **of_scripts()}
    with open(FILE, encoding="utf-8") as file:
        front, rest = file.read().split(BEGIN)
    made = front + BEGIN + "".join(entry(*item) for item in table.items()) + END + rest.split(END)[1]
    if words == ("check",):
        return 0 if made == front + BEGIN + rest else 1
    with open(FILE, "w", encoding="utf-8") as file:
        file.write(made)
    return 0


if __name__ == "__main__":
    sys.exit(main(*sys.argv[1:]))
