"""Full names of a module's rows (`Bank.Account::Deposit`, `Outer+Inner`), and the rows that a name or a glob means."""

from __future__ import annotations

import re
from fnmatch import fnmatchcase
from typing import Dict, Iterator, List, NamedTuple, Optional, Sequence, Tuple

from . import _report_signatures as signatures
from ._missing import NoRow, near
from ._report_names import SHORT, Names
from ._tool_words import Problem, joined
from .module import Module
from .rows import Token

KINDS = {
    "TypeDef": "type", "Field": "field", "MethodDef": "method", "Property": "property", "Event": "event",
    "TypeRef": "typeref", "MemberRef": "memberref",
}  # fmt: skip
OWN = ("TypeDef", "Field", "MethodDef", "Property", "Event")
REFERENCES = ("TypeRef", "MemberRef")
_TYPES = ("TypeDef", "TypeRef")
_MAPS = {"Property": "PropertyMap", "Event": "EventMap"}
_TOKEN = re.compile(r"(?:0[xX])?([0-9A-Fa-f]{8})")
_MOST_DEPTH = 100


class Named(NamedTuple):
    """A row with its full name and its parameters, if it has any."""

    token: Token
    name: str
    parameters: str = ""


def kind_of(token: Token) -> str:
    """What a row is, in a word.

    >>> kind_of(Token("06000001")), kind_of(Token("1b000001"))
    ('method', 'typespec')
    """
    return KINDS.get(token.table, token.table.lower())


def is_glob(word: str) -> bool:
    """Whether a name is a glob."""
    return any(sign in word for sign in "*?[")


class FullNames(Names):
    """Full names of the rows of a module, each looked up once."""

    def __init__(self, module: Module) -> None:
        super().__init__(module)
        self._full: Dict[Token, str] = {}

    def full(self, token: Token, depth: int = 0) -> str:
        """The full name of a row; nothing where it has none.

        >>> names = FullNames(bank)
        >>> names.full(Token("06000003")), names.full(Token("0a00000b"))
        ('Account::Print', 'System.Console::WriteLine')
        """
        if token not in self._full:
            self._full[token] = self._full_of(token, depth) if depth < _MOST_DEPTH else str(token)
        return self._full[token]

    def _full_of(self, token: Token, depth: int) -> str:
        """The full name of a row that isn't known yet."""
        if not self.has(token):
            return ""
        if token.table in _TYPES:
            return self._full_type(token, depth)
        if token.table in KINDS:
            above = self._above(token)
            own = self._module._own_name(token)
            outer = self.full(above, depth + 1) if above.row else ""
            return f"{outer}::{own}" if outer else own
        text = self.of(token).full
        return "" if text == str(token) else text

    def _full_type(self, token: Token, depth: int) -> str:
        """The full name of a type."""
        space, own = (self._module._own_name(token, column) for column in ("TypeNamespace", "TypeName"))
        name = f"{space}.{own}" if space else own
        if token.table == "TypeDef":
            outer = self._module._nesting().get(token)
        else:
            scope = self.row(token).ResolutionScope
            outer = scope if scope.table == "TypeRef" and scope.row else None
        return f"{self.full(outer, depth + 1)}+{name}" if outer else name

    def _above(self, token: Token) -> Token:
        """The type of a member."""
        if token.table == "MemberRef":
            found: Token = self.row(token).Class
            return found
        owner = self._module._owner(token) or Token(0)
        if token.table in _MAPS and owner.table == _MAPS[token.table]:
            parent: Token = self.row(owner).Parent
            return parent
        return owner

    def signature_text(self, token: Token) -> str:
        """The signature of a member as C# spells it, without its name; of a type what it derives from.

        >>> FullNames(bank).signature_text(Token("06000002")), FullNames(bank).signature_text(Token("04000001"))
        ('public void (int)', 'private int')
        """
        try:
            if token.table == "MemberRef":
                return self._reference_text(token)
            declared = self.declared(token)
            if token.table == "MethodDef" and not str(self.row(token).Name).startswith((".ctor", ".cctor")):
                return f"{declared.words} {self.parameters(token)}"
            if token.table == "MethodDef":
                return f"{declared.words} void {self.parameters(token)}".strip()
            return declared.words
        except ValueError:
            return f"[{self._blob(token).hex()}]"

    def _reference_text(self, token: Token) -> str:
        """The signature of a member of another assembly."""
        blob, scope = self._blob(token), self._scope_of(self.row(token))
        if signatures.is_field(blob):
            return self._type_text(signatures.field(blob), scope, SHORT)
        found = signatures.signature(blob)
        return f"{self._type_text(found.returns, scope, SHORT)} {self._parameters(found, scope, SHORT)}"

    def parameters(self, token: Token) -> str:
        """The parameters of a method, such as `(int)`; nothing of another row."""
        if token.table not in ("MethodDef", "MemberRef"):
            return ""
        blob = self._blob(token)
        if not blob or signatures.is_field(blob):
            return ""
        return self._parameters(signatures.signature(blob), self._scope_of(self.row(token)), SHORT)

    def every(self, tables: Sequence[str] = OWN) -> Iterator[Named]:
        """All rows of some tables."""
        for table in tables:
            for token in self._module.tokens(table):
                yield Named(token, self.full(token))


def token_in(word: str) -> Optional[Token]:
    """The token that a word is, with `0x` or without.

    >>> token_in("0x06000003"), token_in("Print")
    (Token('06000003'), None)
    """
    match = _TOKEN.fullmatch(word)
    return Token(match.group(1)) if match else None


def _spellings(names: FullNames, one: Named, with_parameters: bool) -> List[str]:
    """The ways in which a name may be written: with `::` or with `.` before a member."""
    found = [one.name, one.name.replace("::", ".")]
    if with_parameters:
        text = names.parameters(one.token)
        found = [name + text for name in found]
    return found


def _plain(name: str, ignore_case: bool) -> str:
    """A name as it is compared."""
    name = name.replace("/", "+")
    return name.lower() if ignore_case else name


def matches(names: FullNames, word: str, tables: Sequence[str] = OWN, ignore_case: bool = False) -> List[Named]:
    """The rows that a name or a glob means.

    >>> [str(one.token) for one in matches(FullNames(bank), "*Print*")]
    ['06000003', '06000005']
    >>> [str(one.token) for one in matches(FullNames(bank), "Account::Deposit(int)")]
    ['06000002']
    """
    wanted, glob, exact = _plain(word, ignore_case), is_glob(word), word.rstrip().endswith(")")
    found = []
    for one in names.every(tables):
        spelled = [_plain(name, ignore_case) for name in _spellings(names, one, exact)]
        if any(fnmatchcase(name, wanted) for name in spelled) if glob else wanted in spelled:
            found.append(one)
    if not found and glob:
        return matches_of_brackets(names, wanted, tables, ignore_case)
    return found


def matches_of_brackets(names: FullNames, wanted: str, tables: Sequence[str], ignore_case: bool) -> List[Named]:
    """The rows of a name with brackets that stand for themselves, such as `P::M(int[])`."""
    return [
        one
        for one in names.every(tables)
        if wanted in [_plain(name, ignore_case) for name in _spellings(names, one, wanted.endswith(")"))]
    ]


def _last(name: str) -> str:
    """The last part of a name."""
    return re.split(r"::|[.+/]", name.partition("(")[0].rstrip(".:+/"))[-1].lower()


def near_names(names: FullNames, word: str, tables: Sequence[str] = OWN) -> List[str]:
    """The names that come near one: those with the same last part, whatever the case of letters, else those that are
    spelled alike."""
    known = [one.name for one in names.every(tables) if one.name]
    last = _last(word)
    return [name for name in known if last and _last(name) == last][:3] or near(word, known)


def nothing_found(names: FullNames, word: str, what: str = "nothing has", tables: Sequence[str] = OWN) -> Problem:
    """What says that no row has a name."""
    if is_glob(word):
        some = [one.name for one in names.every(tables) if one.name and one.name != "<Module>"]
        return Problem(f"{what} a name that fits {word}: names are such as {joined(some, 3)}")
    found = near_names(names, word, tables)
    said = f"{what} the name {word}"
    if found:
        return Problem(f"{said}: did you mean {' or '.join(found)}?")
    return Problem(f"{said}: a name is such as Bank.Account::Deposit, '*Deposit*' finds a part of one")


def _row(names: FullNames, module: Module, token: Token, tables: Sequence[str]) -> Named:
    """The row of a token; a `Problem` where there is none, or it is of another table."""
    if token not in module:
        try:
            module.text(token)
        except NoRow as missing:
            raise Problem(str(missing)) from None
    if tables == ("MethodDef",) and token.table != "MethodDef":
        about = f"{token} is {kind_of(token)} {names.full(token)}"
        raise Problem(f"{about}, and no method: the tokens of methods begin with 06")
    return Named(token, names.full(token))


def meant(names: FullNames, module: Module, word: str, tables: Sequence[str] = OWN) -> List[Named]:
    """The rows that a name, a glob or a token means; a `Problem` where there is none."""
    token = token_in(word)
    if token is not None:
        return [_row(names, module, token, tables)]
    found = matches(names, word, tables)
    if found:
        return found
    own = matches(names, word) if tables == ("MethodDef",) else []
    if own:
        one = own[0]
        raise Problem(f"{word} is {kind_of(one.token)} {one.token}, and no method: {_methods_of(names, one)}")
    raise nothing_found(names, word, "no method has" if tables == ("MethodDef",) else "nothing has", tables)


def _methods_of(names: FullNames, one: Named) -> str:
    """Which methods a type has."""
    begin = one.name + "::"
    found = [other.name for other in names.every(("MethodDef",)) if other.name.startswith(begin)]
    return f"its methods are {joined(found, 5)}" if found else "'*' finds all methods"


def pair_of(named: Named, names: FullNames) -> Tuple[str, str]:
    """The kind and the signature of a row."""
    return kind_of(named.token), names.signature_text(named.token)
