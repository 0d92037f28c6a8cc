"""What may stand behind `enc-tool`: parsers whose errors are one line, and what all commands share."""

from __future__ import annotations

import argparse
import re
from typing import Any, Callable, Iterable, List, NamedTuple, NoReturn, Optional, Sequence

from ._missing import near

BASE = "the module before its deltas, with .dll or .exe or without"
DELTA = "what the names of a delta's files begin with, or one of them (.meta .il .pdb, or .dmeta .dil .dpdb)"
NAME = "a full name (Bank.Account::Deposit, Outer+Inner), a glob ('*Deposit*') or a token (06000002)"
COLORS = ("auto", "always", "never")


class Problem(Exception):
    """What ends a command with one line on standard error, and its status: 1, or 2 where the words are wrong."""

    def __init__(self, words: str, status: int = 1) -> None:
        super().__init__(words, status)
        self.words = words
        self.status = status


def listed_near(words: str, word: str, known: Iterable[str]) -> str:
    """Words, and what comes near one.

    >>> listed_near("there is no command fnd", "fnd", ["find", "show"])
    'there is no command fnd: did you mean find?'
    >>> listed_near("there is no command x", "x", ["find", "show"])
    'there is no command x'
    """
    found = near(word, known)
    return f"{words}: did you mean {' or '.join(found)}?" if found else words


class Parser(argparse.ArgumentParser):
    """A parser of one command. Its errors are a `Problem` of status 2."""

    def __init__(self, command: str, operands: str, about: str, example: str) -> None:
        usage = f"enc-tool {command} {operands} [OPTION ..]".replace("  ", " ")
        super().__init__(
            f"enc-tool {command}",
            usage=usage,
            description=about,
            epilog="example:\n" + example.rstrip("\n"),
            formatter_class=argparse.RawDescriptionHelpFormatter,
            allow_abbrev=False,
        )
        self.operands = f"{command} {operands}"

    def options(self) -> List[argparse.Action]:
        """The options that may stand."""
        return [action for action in self._actions if action.option_strings]

    def _near(self, message: str) -> str:
        """What is wrong, with an option or a value of one that comes near."""
        unknown = re.match(r"unrecognized arguments: (-[^\s=]+)", message)
        if unknown:
            known = [name for action in self.options() for name in action.option_strings]
            return listed_near(message, unknown.group(1), known)
        choice = re.match(r"argument (\S+?): invalid choice: '([^']*)'", message)
        found = [one for action in self._actions for one in action.choices or ()] if choice else []
        return listed_near(message, choice.group(2), map(str, found)) if choice else message

    def error(self, message: str) -> NoReturn:
        """Raises the `Problem`."""
        if message.startswith("the following arguments are required: "):
            for action in self._actions:
                if action.nargs == "*":
                    message = message.replace(f", {action.metavar}", "")
        raise Problem(f"{self.operands.split()[0]}: {self._near(message)} (usage: enc-tool {self.operands})", 2)


class Command(NamedTuple):
    """A command: its name, what it is for in a few words, its parser, what does it."""

    name: str
    about: str
    parser: Callable[[], Parser]
    run: Callable[[argparse.Namespace, Any], int]


def finished(made: Parser, json: str = "print one JSON document") -> Parser:
    """A parser with the options of all commands."""
    made.add_argument("--json", action="store_true", help=json)
    about = "colours: auto (a terminal, and no NO_COLOR), always or never"
    made.add_argument("--color", choices=COLORS, default="auto", metavar="WHEN", help=about)
    return made


def with_chain(made: Parser, name: Optional[str] = None, deltas: str = "*") -> Parser:
    """A parser with a base, perhaps a name, and deltas."""
    made.add_argument("base", metavar="BASE", help=BASE)
    if name:
        made.add_argument("name", metavar=name, help=NAME)
    made.add_argument("deltas", metavar="DELTA", nargs=deltas, help=DELTA)
    return made


def with_generation(made: Parser, about: str) -> Parser:
    """A parser with `--generation`."""
    made.add_argument("--generation", type=int, metavar="G", help=about)
    return made


def safe(text: str) -> str:
    """A text in which nothing steers a terminal: controls, marks of direction and lone surrogates are escapes.

    >>> safe("a\\x1b[31mb\\n"), safe("café")
    ('a\\\\x1b[31mb\\\\n', 'café')
    """
    if text.isascii() and text.isprintable():
        return text
    return "".join(one if one.isprintable() else one.encode("unicode_escape").decode() for one in text)


def joined(words: Sequence[str], most: int = 8) -> str:
    """Words with commas between, and how many more there are."""
    more = f" and {len(words) - most:,} more" if len(words) > most else ""
    return ", ".join(words[:most]) + more
