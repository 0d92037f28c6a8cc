"""A method's printed body as lines, and two such bodies side by side.

The instructions are those that the library prints; nothing here decodes bytes of code. What a token means is asked of
`Meanings`, and two lines are the same where they mean the same."""

from __future__ import annotations

import re
import struct
from difflib import SequenceMatcher
from typing import Any, Callable, Dict, Iterator, List, NamedTuple, Sequence, Set, Tuple

from ._report_names import Spelled
from ._report_text import cut, unescaped

# How many lines of a body are shown, up to how many that differ are compared line by line, and how many of a block
# are paired by likeness.
MOST_LINES = 2000
MOST_COMPARED = 1000
MOST_PAIRED = 40
MOST_OPERAND = 200

_LABEL = re.compile(r"IL_[0-9a-f]{4,8}")
_IL = re.compile(r"  (IL_[0-9a-f]{4,8}) (\S+)(?: (.*))?$")
_POINT = re.compile(r'  point (IL_[0-9a-f]{4,8}) (?:hidden|"([^"]*)" (\d+):(\d+)-(\d+):(\d+))$')
_BODY = re.compile(r"  body stack=(\d+) init=(\d) locals=([0-9a-f]{8})$")
_CLAUSE = re.compile(r"  (catch|filter|finally|fault) (\S+)-(\S+) (\S+)-(\S+)(?: (\S+))?$")
_TOKEN = re.compile(r"\b[0-9a-f]{8}$")
_FLOATS = {"ldc.r4": ("<f", 4), "ldc.r8": ("<d", 8)}


class Meanings(NamedTuple):
    """What the tokens of a body mean, the types of the local variables of a StandAloneSig, and instructions that were
    made before (those whose meaning doesn't depend on their method), by their words."""

    of: Callable[[int], Spelled]
    locals: Callable[[int], List[Spelled]]
    known: Dict[Tuple[str, str], "Line"]


class Point(NamedTuple):
    """A sequence point: its document as it is printed and its lines; a hidden one has none."""

    document: str
    start: Tuple[int, int]
    end: Tuple[int, int]


class Line(NamedTuple):
    """A line: the label of an instruction, or the number of a line of source; a word; what follows it, in short and
    with namespaces; its token; the labels that it names. Lines of equal keys mean the same, but for where a label
    leads."""

    label: str
    word: str
    text: str
    full: str
    token: str
    targets: Sequence[str]
    key: Any
    points: List[Point]


class Side(NamedTuple):
    """A body: its lines, and how many of its printed lines were left out."""

    lines: List[Line]
    cut: int

    def points(self) -> Iterator[Point]:
        """The sequence points that aren't hidden."""
        return (point for line in self.lines for point in line.points if point.start[0])


class Pair(NamedTuple):
    """A line of the page: `same`, `alike` (the same by another token or a longer branch), `changed` (two lines that are
    alike in part), `beside` (two that have nothing to do with each other), `removed`, `added`."""

    kind: str
    before: Any
    now: Any


class Counts(NamedTuple):
    """How many lines are removed, added, alike by another token, and the same."""

    removed: int
    added: int
    alike: int
    same: int


def _float(word: str, digits: str) -> str:
    form, size = _FLOATS[word]
    return repr(struct.unpack(form, bytes.fromhex(digits))[0]) if len(digits) == 2 * size else digits


def _quoted(printed: str) -> str:
    """A text that `ldstr` loads, not too long."""
    text = unescaped(printed if len(printed) <= MOST_OPERAND else printed[: MOST_OPERAND * 4])
    if len(printed) <= MOST_OPERAND:
        return f'"{cut(text, MOST_OPERAND)}"'
    length = len(unescaped(printed))
    more = f"… ({length:,} characters)" if length > MOST_OPERAND else ""
    return f'"{cut(text[:MOST_OPERAND], MOST_OPERAND)}"{more}'


def _instruction(label: str, word: str, rest: str, of: Callable[[int], Spelled]) -> Line:
    """An instruction without its points. Numbers (`ldc.i4 12345678`) and texts aren't tokens."""
    if rest.startswith('"'):
        return Line(label, word, _quoted(rest[1:-1]), "", "", (), (word, rest), [])
    if word in _FLOATS:
        return Line(label, word, _float(word, rest), "", "", (), (word, rest), [])
    found = None if word.startswith("ldc.") else _TOKEN.search(rest)
    if found:
        said = of(int(found.group(), 16))
        text = said.short or found.group()
        return Line(label, word, text, said.full, found.group(), (), (word, said.exact or found.group()), [])
    targets = _LABEL.findall(rest)
    if targets:
        bare = (word[:-2] if word.endswith(".s") else word, len(targets))
        shown = ", ".join(targets[:40]) + (f" … ({len(targets):,} targets)" if len(targets) > 40 else "")
        return Line(label, word, shown, "", "", targets, bare, [])
    return Line(label, word, rest, "", "", (), (word, rest), [])


def _known_instruction(label: str, word: str, rest: str, meanings: Meanings) -> Line:
    """An instruction, made once for all methods where it means the same in each."""
    known = meanings.known.get((word, rest))
    if known is None:
        known = _instruction(label, word, rest, meanings.of)
        if "!" not in str(known.key[1]) or rest.startswith('"'):
            meanings.known[word, rest] = known
        return known
    return Line(label, *known[1:7], [])


def _head(match: "re.Match[str]", meanings: Meanings) -> List[Line]:
    """What stands before the code: how high the stack gets, and the local variables."""
    stack, init, token = match.groups()
    lines = [Line("", ".maxstack", stack, "", "", (), (".maxstack", stack), [])]
    if int(token, 16):
        word = "init" if init == "1" else "not init"
        lines.append(Line("", ".locals", word, "", token, (), (".locals", word), []))
        for i, one in enumerate(meanings.locals(int(token, 16))[:MOST_OPERAND]):
            lines.append(Line("", f".local {i}", one.short, one.full, "", (), (i, one.exact), []))
    return lines


def _clause(match: "re.Match[str]", of: Callable[[int], Spelled]) -> Line:
    """An exception clause."""
    kind, begin, end, handler, handler_end, extra = match.groups("")
    targets = [begin, end, handler, handler_end]
    token = extra if kind == "catch" else ""
    said = of(int(token, 16)) if token else Spelled("", "", "")
    what = said.short or token
    if kind == "filter":
        targets.append(extra)
        what = extra
    text = f"{begin} to {end} {kind}{' ' + what if what else ''} {handler} to {handler_end}"
    return Line("", ".try", text, said.full, token, targets, (kind, said.exact or token), [])


def _point(match: "re.Match[str]") -> Point:
    numbers = [int(part or 0) for part in match.groups()[2:]]
    return Point(match.group(2) or "", (numbers[0], numbers[1]), (numbers[2], numbers[3]))


def _made(line: str, meanings: Meanings) -> List[Line]:
    """The lines of a printed one."""
    il = _IL.match(line)
    if il:
        label, word, rest = il.groups("")
        return [_known_instruction(label, word, rest, meanings)]
    body = _BODY.match(line)
    if body:
        return _head(body, meanings)
    clause = _CLAUSE.match(line)
    return [_clause(clause, meanings.of)] if clause else []


def side_of(text: str, meanings: Meanings) -> Side:
    """The body in a printed row."""
    printed = text.rstrip("\n").split("\n", MOST_LINES * 2)[1:]
    lines: List[Line] = []
    known: Dict[str, Line] = {}
    left_out = 0
    for line in printed:
        point = _POINT.match(line) if line.startswith("  point") else None
        if point:
            if point.group(1) in known:
                known[point.group(1)].points.append(_point(point))
            continue
        if len(lines) >= MOST_LINES:
            left_out += 1
            continue
        for made in _made(line, meanings):
            lines.append(made)
            if made.label:
                known[made.label] = made
    return Side(lines, left_out + max(0, text.count("\n") - len(printed) - 1))


def _middle(a: List[Any], b: List[Any]) -> List[Tuple[int, int]]:
    """Which of these lines are equal, in order."""
    if max(len(a), len(b)) > MOST_COMPARED:
        return []
    blocks = SequenceMatcher(None, a, b, autojunk=len(a) + len(b) > 600).get_matching_blocks()
    return [(i + k, j + k) for i, j, size in blocks for k in range(size)]


def _equal(before: List[Line], now: List[Line]) -> List[Tuple[int, int]]:
    """The lines of equal keys, in order: those that both begin with, those that both end with, and of the others those
    that are found."""
    a, b = [line.key for line in before], [line.key for line in now]
    head = 0
    while head < min(len(a), len(b)) and a[head] == b[head]:
        head += 1
    tail = 0
    while tail < min(len(a), len(b)) - head and a[-1 - tail] == b[-1 - tail]:
        tail += 1
    found = [(i, i) for i in range(head)]
    found += [(head + i, head + j) for i, j in _middle(a[head : len(a) - tail], b[head : len(b) - tail])]
    return found + [(len(a) - tail + i, len(b) - tail + i) for i in range(tail)]


def _leads(lines: List[Line]) -> Dict[str, int]:
    """The lines of labels."""
    return {line.label: i for i, line in enumerate(lines) if line.label}


class _Labels(NamedTuple):
    """Where labels lead in two bodies, and which of their lines are equal. A label of no line is the code's end, -1."""

    before: Dict[str, int]
    now: Dict[str, int]
    equal: Dict[int, int]

    def kind(self, before: Line, now: Line) -> str:
        """What a pair of lines of equal keys is: a label that leads elsewhere is a change."""
        for old, new in zip(before.targets, now.targets):
            if self.equal.get(self.before.get(old, -1)) != self.now.get(new, -1):
                return "changed"
        return "same" if before.token == now.token and before.word == now.word else "alike"


def _family(line: Line) -> str:
    """What a line is like: an instruction by its first word."""
    return line.word.partition(".")[0] if line.label else line.word


def _likeness(line: Line) -> Any:
    """What is compared of a line: the family of an instruction, or the words of a line of source."""
    return _family(line) if line.word else frozenset(re.findall(r"\w+", line.text))


def is_similar(before: Any, now: Any) -> bool:
    """Whether two lines that differ are shown as one that has changed: instructions of a family, lines of source with
    words in common, at least half of those of the shorter one."""
    if isinstance(before, str) or isinstance(now, str):
        return bool(before == now)
    return 2 * len(before & now) >= max(2, min(len(before), len(now)))


def _matched(before: List[Line], now: List[Line]) -> List[Tuple[int, int]]:
    """The most pairs of similar lines, in order."""
    rows, columns = len(before), len(now)
    if not rows or not columns or max(rows, columns) > MOST_PAIRED:
        return []
    olds, news = [_likeness(line) for line in before], [_likeness(line) for line in now]
    likes = [[is_similar(old, new) for new in news] for old in olds]
    best = [[0] * (columns + 1) for _ in range(rows + 1)]
    for i in range(rows - 1, -1, -1):
        for j in range(columns - 1, -1, -1):
            diagonal = best[i + 1][j + 1] + 1 if likes[i][j] else 0
            best[i][j] = max(best[i + 1][j], best[i][j + 1], diagonal)
    found, i, j = [], 0, 0
    while i < rows and j < columns:
        if likes[i][j] and best[i][j] == best[i + 1][j + 1] + 1:
            found.append((i, j))
            i, j = i + 1, j + 1
        elif best[i + 1][j] >= best[i][j + 1]:
            i += 1
        else:
            j += 1
    return found


def _told_apart(before: Line, now: Line) -> Tuple[Line, Line]:
    """Two lines that differ; where they would read alike with namespaces too, with what they exactly mean."""
    if (before.text, before.full) != (now.text, now.full) or before.key == now.key or not before.token:
        return before, now
    exact = [cut(str(line.key[1]), MOST_OPERAND) for line in (before, now)]
    return before._replace(full=exact[0]), now._replace(full=exact[1])


def _block(before: List[Line], now: List[Line]) -> Iterator[Pair]:
    """Lines between equal ones: those that are similar beside each other, and the others."""
    i = j = 0
    for k, m in [*_matched(before, now), (len(before), len(now))]:
        both = min(k - i, m - j)
        yield from (Pair("beside", before[i + n], now[j + n]) for n in range(both))
        yield from (Pair("removed", line, None) for line in before[i + both : k])
        yield from (Pair("added", None, line) for line in now[j + both : m])
        if k < len(before):
            yield Pair("changed", *_told_apart(before[k], now[m]))
        i, j = k + 1, m + 1


def pairs_of(before: List[Line], now: List[Line]) -> List[Pair]:
    """Two bodies side by side, or two texts."""
    equal = _equal(before, now)
    labels = _Labels(_leads(before), _leads(now), {-1: -1, **dict(equal)})
    found: List[Pair] = []
    i = j = 0
    for k, m in [*equal, (len(before), len(now))]:
        found += _block(before[i:k], now[j:m])
        if k < len(before):
            found.append(Pair(labels.kind(before[k], now[m]), before[k], now[m]))
        i, j = k + 1, m + 1
    return found


def counts_of(pairs: List[Pair]) -> Counts:
    """How many lines are removed, added, alike and the same; `.maxstack` and `.locals` don't count."""
    pairs = [pair for pair in pairs if (pair.now or pair.before).word not in (".maxstack", ".locals")]
    differ = [pair for pair in pairs if pair.kind not in ("same", "alike")]
    removed = sum(1 for pair in differ if pair.before)
    added = sum(1 for pair in differ if pair.now)
    alike = sum(1 for pair in pairs if pair.kind == "alike")
    return Counts(removed, added, alike, len(pairs) - len(differ) - alike)


def near(pairs: List[Pair], around: int = 3) -> List[Any]:
    """The pairs that differ and those around them; between them how many equal ones stand there."""
    kept: Set[int] = set()
    for i, pair in enumerate(pairs):
        if pair.kind not in ("same", "alike"):
            kept.update(range(i - around, i + around + 1))
    found: List[Any] = []
    for i, pair in enumerate(pairs):
        if i in kept:
            found.append(pair)
        elif found and isinstance(found[-1], int):
            found[-1] += 1
        else:
            found.append(1)
    return found


def texts(pairs: List[Pair]) -> Iterator[str]:
    """The pairs as the lines of a plain diff, those that are far from a change as a number."""
    for pair in near(pairs):
        if isinstance(pair, int):
            yield f"  ... {pair:,} equal lines"
        elif pair.kind in ("same", "alike"):
            yield ("~ " if pair.kind == "alike" else "  ") + text_of(pair.now)
        else:
            if pair.before:
                yield "- " + text_of(pair.before)
            if pair.now:
                yield "+ " + text_of(pair.now)


def text_of(line: Line) -> str:
    """A line as one text."""
    return " ".join(part for part in (line.label, line.word, line.text) if part)
