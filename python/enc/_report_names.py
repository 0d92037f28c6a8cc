"""What tokens mean, in words: names with their types and signatures as C# spells them, decoded from rows.

Rows of references never change in a chain, so the names are those of the newest module. `Names.of` is what a later
call of the library (the full name of a token) may replace."""

from __future__ import annotations

import hashlib
import re
from typing import Any, Dict, List, NamedTuple, Optional, Sequence, Tuple

from . import _report_signatures as signatures
from ._report_flags import field_words, method_words, type_words
from ._report_signatures import Node, Signature
from ._report_text import cut, shown_blob
from .module import Module
from .rows import Row, Token
from .tables import TABLES

# How deep names may lie in one another, and how long one may be.
_MOST_DEPTH = 100
_MOST_LENGTH = 600

_REFERENCES = ("TypeDef", "TypeRef", "ExportedType")
_ABOVE = ("Class", "Method", "Parent", "Field", "Owner", "Association")


class Spelled(NamedTuple):
    """What a token means, in three ways: without namespaces, with them, and so that two are equal only where they
    mean the same (with assemblies, what is returned, and tokens of this module's own rows)."""

    short: str
    full: str
    exact: str


class Declared(NamedTuple):
    """A row as C# would declare it: the words before its name, and its full name (with its parameters)."""

    words: str
    name: str

    def __str__(self) -> str:
        return f"{self.words} {self.name}".strip()


class _Scope(NamedTuple):
    """What type parameters are called: those of the type and of the method, in the three ways."""

    types: Sequence[Spelled] = ()
    methods: Sequence[Spelled] = ()


SHORT, FULL, EXACT = range(3)
_NOTHING = Spelled("", "", "")
_UNKNOWN = {"var": "!", "mvar": "!!"}
_VERSION = ("MajorVersion", "MinorVersion", "BuildNumber", "RevisionNumber")
_PARAMETER = re.compile(r"(!!?)(\d+)")


def _bounded(way: Sequence[str]) -> Spelled:
    """Three spellings that aren't too long; an exact one that is keeps its meaning by a hash."""
    short, full, exact = way
    if len(exact) > _MOST_LENGTH:
        exact = f"{exact[:_MOST_LENGTH]}… {hashlib.sha256(exact.encode('utf-8', 'backslashreplace')).hexdigest()}"
    return Spelled(cut(short, _MOST_LENGTH), cut(full, _MOST_LENGTH), exact)


def _shown(name: str, way: int) -> str:
    """A name as it is shown; an exact one is never shortened."""
    return name if way == EXACT else cut(name)


def _number(value: Any) -> int:
    """A number in a column; 0 where the row has no such."""
    return value if isinstance(value, int) else 0


def _arity(name: str) -> Tuple[str, int]:
    """The name of a generic type without what its compiler wrote behind it, and how many parameters it says."""
    bare, tick, digits = name.rpartition("`")
    return (bare, int(digits)) if tick and digits.isdigit() and len(digits) < 3 else (name, 0)


class Names:
    """Names and signatures of tokens, looked up once."""

    def __init__(self, module: Module) -> None:
        self._module = module
        self._known: Dict[int, Spelled] = {}
        self._rows: Dict[int, Row] = {}
        self._generic: Optional[Dict[Token, List[str]]] = None
        self._nested: Optional[Dict[Token, Token]] = None
        self._counts: Dict[str, int] = {}
        self._chains: Dict[Token, Tuple[str, List[Tuple[str, int]]]] = {}
        self._depth = 0

    # What is asked.

    def of(self, which: int) -> Spelled:
        """What a token means; empty texts where there is no such row, or it says nothing."""
        token = Token(which)
        if token not in self._known:
            if self._depth > _MOST_DEPTH or not self.has(token):
                return _NOTHING if self._depth <= _MOST_DEPTH else Spelled("…", "…", str(token))
            self._known[token] = Spelled("…", "…", str(token))
            self._depth += 1
            try:
                self._known[token] = _bounded(self._asked(token))
            finally:
                self._depth -= 1
        return self._known[token]

    def locals(self, token: int) -> List[Spelled]:
        """The types of the local variables of a StandAloneSig; none where it is another signature."""
        blob = self._blob(Token(token))
        if blob[:1] != b"\x07":
            return []
        return [self._three(node, _Scope()) for node in signatures.several(blob)]

    def declared(self, token: Token, cells: Optional[Dict[str, str]] = None) -> Declared:
        """A row as C# would declare it; `cells` are its columns as they are printed at a generation."""
        row = self.row(token)
        flags = int(cells["Flags"], 16) if cells and "Flags" in cells else _number(row.columns.get("Flags"))
        makers = {
            "MethodDef": self._method, "Field": self._field, "Property": self._property, "TypeDef": self._type,
            "CustomAttribute": self._attribute, "InterfaceImpl": self._interface,
        }  # fmt: skip
        maker = makers.get(token.table)
        if maker is None:
            words = {"Event": "event"}.get(token.table, "")
            return Declared(words, self.of(token).full)
        return maker(row, flags)

    def has(self, token: Token) -> bool:
        """Whether there is a row of a token."""
        if token.table not in self._counts:
            self._counts[token.table] = self._module.count(token.table) if token >> 24 < len(TABLES) else 0
        return 0 < token.row <= self._counts[token.table]

    def row(self, token: Token) -> Row:
        """A row, asked for once."""
        if token not in self._rows:
            self._rows[token] = self._module[token]
        return self._rows[token]

    def within(self, method: Token, spelled: Spelled) -> Spelled:
        """What a token of a method's body means, with the type parameters by their names."""
        if "!" not in spelled.short:
            return spelled
        row = self.row(method)
        names = {"!": self._parameters_of(row.owner), "!!": self._parameters_of(method)}

        def named(match: "re.Match[str]") -> str:
            known, number = names[match.group(1)], int(match.group(2))
            return known[number] if number < len(known) else match.group()

        return spelled._replace(short=_PARAMETER.sub(named, spelled.short), full=_PARAMETER.sub(named, spelled.full))

    # Declarations.

    def _method(self, row: Row, flags: int) -> Declared:
        found = signatures.signature(row.Signature)
        scope = self._scope_of(row)
        full = self._method_name(row, FULL)
        name = str(row.Name)
        if name in (".ctor", ".cctor"):
            outer = self.of(row.owner).full if row.owner else ""
            own = cut(self._chain(row.owner)[1][-1][0]) if row.owner else name
            words = "static" if name == ".cctor" else method_words(flags)
            return Declared(words, f"{outer}.{own}{self._parameters(found, scope, SHORT)}")
        words = f"{method_words(flags)} {self._type_text(found.returns, scope, SHORT)}"
        return Declared(words.strip(), full + self._parameters(found, scope, SHORT))

    def _field(self, row: Row, flags: int) -> Declared:
        of = self._type_text(signatures.field(row.Signature), self._scope_of(row), SHORT)
        return Declared(f"{field_words(flags)} {of}".strip(), self.of(row.token).full)

    def _property(self, row: Row, flags: int) -> Declared:
        found = signatures.signature(row.Type)
        return Declared(self._type_text(found.returns, self._scope_of(row), SHORT), self.of(row.token).full)

    def _type(self, row: Row, flags: int) -> Declared:
        base = self.of(row.Extends).full if row.Extends.row else ""
        return Declared(type_words(flags, base), self.of(row.token).full)

    def _attribute(self, row: Row, flags: int) -> Declared:
        """An attribute by the class of its constructor, and what it is about."""
        maker = self.row(row.Type) if self.has(row.Type) else row
        outer = maker.owner or maker.columns.get("Class")
        name = self.of(outer).short if isinstance(outer, Token) else "?"
        return Declared(f"[{name}]", self.of(row.Parent).full)

    def _interface(self, row: Row, flags: int) -> Declared:
        return Declared("", f"{self.of(row.Class).full} : {self.of(row.Interface).full}")

    # Tokens.

    def _blob(self, token: Token) -> bytes:
        if not self.has(token):
            return b""
        columns = self.row(token).columns
        found = columns.get("Signature", columns.get("Type", columns.get("Instantiation", b"")))
        return found if isinstance(found, bytes) else b""

    def _asked(self, token: Token) -> Sequence[str]:
        row = self.row(token)
        if token.table in _REFERENCES:
            return [self._open_type(token, way) for way in range(3)]
        if token.table == "TypeSpec":
            return self._three(signatures.type_spec(row.Signature), _Scope())
        if token.table in ("MethodDef", "MemberRef", "MethodSpec"):
            return [self._member(row, way) for way in range(3)]
        if token.table == "StandAloneSig":
            return self._stand_alone(row.Signature)
        if token.table in ("AssemblyRef", "Assembly"):
            return self._assembly(row)
        return self._plain(row)

    def _assembly(self, row: Row) -> Sequence[str]:
        version = ".".join(str(row[part]) for part in _VERSION)
        key = row.columns.get("PublicKeyOrToken", row.columns.get("PublicKey", b""))
        exact = f"{row.Name} {version} {row.Culture} {key.hex() if isinstance(key, bytes) else ''}"
        return cut(row.Name), f"{cut(row.Name)} {version}", exact

    def _stand_alone(self, blob: bytes) -> Sequence[str]:
        if blob[:1] == b"\x07":
            found = [self._three(node, _Scope()) for node in signatures.several(blob)]
            return ["(" + ", ".join(one[way] for one in found) + ")" for way in range(3)]
        if signatures.is_field(blob):
            return self._three(signatures.field(blob), _Scope())
        return self._three(Node("function", signatures.signature(blob)), _Scope())

    def _plain(self, row: Row) -> Sequence[str]:
        """A row by its name behind that of what it is about."""
        columns = row.columns
        named: List[Any] = [columns[name] for name in _ABOVE if name in columns]
        above = row.owner or (named[0] if named else None)
        if row.owner and row.table in ("Property", "Event"):
            above = self.row(row.owner).Parent
        outer = self.of(above) if isinstance(above, Token) else _NOTHING
        own = cut(str(columns.get("Name", "")))
        blob = self._blob(row.token)
        if not own and outer is _NOTHING:
            own = shown_blob(blob.hex()) if blob else ""
        return [*(".".join(part for part in (outer[way], own) if part) for way in (SHORT, FULL)), str(row.token)]

    # Types.

    def _chain(self, token: Token) -> Tuple[str, List[Tuple[str, int]]]:
        """The namespace of a type, and the names and parameter counts of those that it is nested in, and its own."""
        if token not in self._chains:
            self._chains[token] = self._chain_of(token)
        return self._chains[token]

    def _chain_of(self, token: Token) -> Tuple[str, List[Tuple[str, int]]]:
        names: List[Tuple[str, int]] = []
        space = ""
        while self.has(token) and len(names) < 50:
            row = self.row(token)
            space = str(row.TypeNamespace)
            names.append(_arity(str(row.TypeName)))
            outer = self._outer(row)
            if outer is None:
                break
            token = outer
        return space, names[::-1] or [("", 0)]

    def _outer(self, row: Row) -> Optional[Token]:
        """The type that a type is nested in."""
        if row.table == "TypeDef":
            if self._nested is None:
                self._nested = {one.NestedClass: one.EnclosingClass for one in self._module.rows("NestedClass")}
            return self._nested.get(row.token)
        scope: Token = row.ResolutionScope if row.table == "TypeRef" else row.Implementation
        return scope if scope.table == row.table and scope.row else None

    def _open_type(self, token: Token, way: int) -> str:
        parameters = [Spelled(name, name, name) for name in self._parameters_of(token)]
        if way == EXACT and token.table == "TypeDef":
            return f"{self._type_name(token, parameters, FULL)} {token}"
        return self._type_name(token, parameters, way)

    def _type_name(self, token: Token, arguments: Sequence[Spelled], way: int) -> str:
        """A type with its arguments, as many of each type that it is nested in as that one's name says."""
        space, names = self._chain(token)
        given, total = [one[way] for one in arguments], sum(count for _, count in names)
        parts = []
        for name, count in names:
            own, given = (given[:count], given[count:]) if total == len(arguments) else ([], given)
            shown = own or ([""] * count if total != len(arguments) else [])
            inner = f"<{', '.join(own)}>" if own else f"<{',' * (count - 1)}>" if shown else ""
            parts.append(_shown(name, way) + inner)
        text = ".".join(parts) + (f"<{', '.join(given)}>" if given else "")
        text = f"{_shown(space, way)}.{text}" if space and way != SHORT else text
        return f"[{self._scope_name(token)}]{text}" if way == EXACT else text

    def _scope_name(self, token: Token) -> str:
        """Where a type comes from: the token of an own one, else its assembly or module."""
        if token.table == "TypeDef":
            return str(token)
        for _ in range(50):
            row = self.row(token)
            scope = row.columns.get("ResolutionScope", row.columns.get("Implementation"))
            if not isinstance(scope, Token) or not self.has(scope):
                return "this module"
            if scope.table != token.table:
                return self.of(scope).exact
            token = scope
        return str(token)

    def _three(self, node: Node, scope: _Scope) -> Spelled:
        return Spelled(*(self._type_text(node, scope, way) for way in range(3)))

    def _type_text(self, node: Node, scope: _Scope, way: int) -> str:
        """A type in one of the three ways."""
        if node.kind == "simple":
            return str(node.value)
        if node.kind == "token":
            return self.of(node.value)[way]
        if node.kind in ("var", "mvar"):
            known, number = scope.types if node.kind == "var" else scope.methods, int(node.value)
            return known[number][way] if number < len(known) else f"{_UNKNOWN[node.kind]}{number}"
        if node.kind == "function":
            return self._function_text(node.value, scope, way)
        return self._around(node, scope, way)

    def _around(self, node: Node, scope: _Scope, way: int) -> str:
        """A type that is made of others."""
        if node.kind == "of":
            arguments = [self._three(part, scope) for part in node.parts[1:]]
            return self._type_name(node.parts[0].value, arguments, way)
        inner = self._type_text(node.parts[0], scope, way)
        if node.kind == "modified":
            required, token = node.value
            said = f"{inner} {'must' if required else 'may'} be known as {self.of(token).exact}"
            return said if way == EXACT else inner
        if node.kind == "array":
            rank, bounds = node.value
            return f"{inner}[{',' * (rank - 1)}{bounds if way == EXACT and any(bounds) else ''}]"
        return {"pointer": "{}*", "byref": "ref {}", "vector": "{}[]", "pinned": "pinned {}"}[node.kind].format(inner)

    def _function_text(self, found: Signature, scope: _Scope, way: int) -> str:
        parts = [*found.parameters, found.returns]
        inner = "<" + ", ".join(self._type_text(part, scope, way) for part in parts) + ">"
        return f"delegate* {found.convention:02x}{inner}" if way == EXACT else "delegate*" + inner

    # Members.

    def _parameters_of(self, token: Optional[Token]) -> List[str]:
        """What the type parameters of a type or a method are called."""
        if self._generic is None:
            found: Dict[Token, List[Tuple[int, str]]] = {}
            for row in self._module.rows("GenericParam"):
                found.setdefault(row.Owner, []).append((row.Number, cut(str(row.Name))))
            self._generic = {owner: [name for _, name in sorted(names)] for owner, names in found.items()}
        return self._generic.get(token, []) if token else []

    def _scope_of(self, row: Row) -> _Scope:
        """The type parameters that the signature of a member speaks of."""
        if row.table == "MemberRef":
            above = row.Class
            if above.table == "TypeSpec" and self.has(above):
                node = signatures.type_spec(self._blob(above))
                if node.kind == "of":
                    return _Scope([self._three(part, _Scope()) for part in node.parts[1:]])
            return _Scope()
        owner = row.owner
        if owner and row.table in ("Property", "Event"):
            owner = self.row(owner).columns.get("Parent")  # type: ignore[assignment]
        names = [self._parameters_of(owner), self._parameters_of(row.token)]
        return _Scope(*([Spelled(name, name, name) for name in part] for part in names))

    def _parameters(self, found: Signature, scope: _Scope, way: int) -> str:
        return "(" + ", ".join(self._type_text(node, scope, way) for node in found.parameters) + ")"

    def _method_name(self, row: Row, way: int) -> str:
        """The name of a method or a MemberRef, behind that of its type."""
        above = row.owner if row.table == "MethodDef" else row.Class
        outer = self.of(above)[way] if above else ""
        own = _shown(str(row.Name), way)
        generic = self._parameters_of(row.token) if row.table == "MethodDef" else []
        own += f"<{', '.join(generic)}>" if generic else ""
        return f"{outer}.{own}" if outer and outer != "<Module>" else own

    def _member(self, row: Row, way: int) -> str:
        """A method, a MemberRef or a MethodSpec with its parameters; the exact one tells what it returns too."""
        if row.table == "MethodSpec":
            return self._specialised(row, way)
        name, blob = self._method_name(row, way), self._blob(row.token)
        if way == EXACT and row.table == "MethodDef":
            return f"{self._method_name(row, FULL)} {row.token}"
        scope = _Scope() if way == EXACT else self._scope_of(row)
        if signatures.is_field(blob):
            return f"{self._type_text(signatures.field(blob), scope, way)} {name}" if way == EXACT else name
        found = signatures.signature(blob)
        text = name + self._parameters(found, scope, way)
        if way != EXACT:
            return text
        return f"{found.convention:02x} {found.generics} {self._type_text(found.returns, scope, way)} {text}"

    def _specialised(self, row: Row, way: int) -> str:
        """A generic method with its arguments."""
        arguments = [self._three(node, _Scope()) for node in signatures.several(self._blob(row.token))]
        inner = "<" + ", ".join(one[way] for one in arguments) + ">"
        if way == EXACT or not self.has(row.Method):
            return self.of(row.Method).exact + inner
        method = self.row(row.Method)
        found = signatures.signature(self._blob(method.token))
        scope = self._scope_of(method)._replace(methods=arguments)
        name = self._method_name(method, way)
        generic = self._parameters_of(method.token)
        bare = name[: -len(f"<{', '.join(generic)}>")] if generic else name
        return bare + inner + self._parameters(found, scope, way)

