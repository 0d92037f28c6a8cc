"""The tables of a module and their columns, by the names of ECMA-335 II.22, with what each column holds."""

from __future__ import annotations

from typing import Dict, List, NamedTuple, Tuple

from ._missing import NotFound, missing


class Column(NamedTuple):
    """A column: its name, what it holds, and for an index or a run the table that it is about.

    `kind` is one of `num8 num16 num32 text guid blob`, `index` (a row of a table), `coded` (a row of one of several
    tables), `run` (the rows of a table that belong to the row), `body` (whether a method has a body) and `bytes`
    (what a field begins as)."""

    name: str
    kind: str
    table: str = ""


class Table(NamedTuple):
    """A table: its number, its name, its columns in order."""

    number: int
    name: str
    columns: Tuple[Column, ...]


# For each table its number, its name and its columns as NAME:KIND; a line that begins with a space goes on.
_TABLES = """
00 Module Generation:num16 Name:text Mvid:guid EncId:guid EncBaseId:guid
01 TypeRef ResolutionScope:coded/ResolutionScope TypeName:text TypeNamespace:text
02 TypeDef Flags:num32 TypeName:text TypeNamespace:text Extends:coded/TypeDefOrRef FieldList:run/Field
   MethodList:run/MethodDef
03 FieldPtr Field:index/Field
04 Field Flags:num16 Name:text Signature:blob
05 MethodPtr Method:index/MethodDef
06 MethodDef RVA:body ImplFlags:num16 Flags:num16 Name:text Signature:blob ParamList:run/Param
07 ParamPtr Param:index/Param
08 Param Flags:num16 Sequence:num16 Name:text
09 InterfaceImpl Class:index/TypeDef Interface:coded/TypeDefOrRef
0a MemberRef Class:coded/MemberRefParent Name:text Signature:blob
0b Constant Type:num8 Parent:coded/HasConstant Value:blob
0c CustomAttribute Parent:coded/HasCustomAttribute Type:coded/CustomAttributeType Value:blob
0d FieldMarshal Parent:coded/HasFieldMarshal NativeType:blob
0e DeclSecurity Action:num16 Parent:coded/HasDeclSecurity PermissionSet:blob
0f ClassLayout PackingSize:num16 ClassSize:num32 Parent:index/TypeDef
10 FieldLayout Offset:num32 Field:index/Field
11 StandAloneSig Signature:blob
12 EventMap Parent:index/TypeDef EventList:run/Event
13 EventPtr Event:index/Event
14 Event EventFlags:num16 Name:text EventType:coded/TypeDefOrRef
15 PropertyMap Parent:index/TypeDef PropertyList:run/Property
16 PropertyPtr Property:index/Property
17 Property Flags:num16 Name:text Type:blob
18 MethodSemantics Semantics:num16 Method:index/MethodDef Association:coded/HasSemantics
19 MethodImpl Class:index/TypeDef MethodBody:coded/MethodDefOrRef MethodDeclaration:coded/MethodDefOrRef
1a ModuleRef Name:text
1b TypeSpec Signature:blob
1c ImplMap MappingFlags:num16 MemberForwarded:coded/MemberForwarded ImportName:text
   ImportScope:index/ModuleRef
1d FieldRVA RVA:bytes Field:index/Field
1e EncLog Token:num32 FuncCode:num32
1f EncMap Token:num32
20 Assembly HashAlgId:num32 MajorVersion:num16 MinorVersion:num16 BuildNumber:num16 RevisionNumber:num16
   Flags:num32 PublicKey:blob Name:text Culture:text
21 AssemblyProcessor Processor:num32
22 AssemblyOS OSPlatformId:num32 OSMajorVersion:num32 OSMinorVersion:num32
23 AssemblyRef MajorVersion:num16 MinorVersion:num16 BuildNumber:num16 RevisionNumber:num16 Flags:num32
   PublicKeyOrToken:blob Name:text Culture:text HashValue:blob
24 AssemblyRefProcessor Processor:num32 AssemblyRef:index/AssemblyRef
25 AssemblyRefOS OSPlatformId:num32 OSMajorVersion:num32 OSMinorVersion:num32 AssemblyRef:index/AssemblyRef
26 File Flags:num32 Name:text HashValue:blob
27 ExportedType Flags:num32 TypeDefId:num32 TypeName:text TypeNamespace:text
   Implementation:coded/Implementation
28 ManifestResource Offset:num32 Flags:num32 Name:text Implementation:coded/Implementation
29 NestedClass NestedClass:index/TypeDef EnclosingClass:index/TypeDef
2a GenericParam Number:num16 Flags:num16 Owner:coded/TypeOrMethodDef Name:text
2b MethodSpec Method:coded/MethodDefOrRef Instantiation:blob
2c GenericParamConstraint Owner:index/GenericParam Constraint:coded/TypeDefOrRef
"""


def _column(words: str) -> Column:
    name, _, kind = words.partition(":")
    kind, _, table = kind.partition("/")
    return Column(name, kind, table)


def _table(line: str) -> Table:
    number, name, *columns = line.split()
    return Table(int(number, 16), name, tuple(_column(words) for words in columns))


TABLES: List[Table] = [_table(line) for line in _TABLES.replace("\n ", " ").strip().splitlines()]
_BY_NAME: Dict[str, Table] = {table.name.lower(): table for table in TABLES}


def table(which: "int | str") -> Table:
    """The table of a number (`6`), of two hexadecimal digits (`"06"`) or of a name (`"MethodDef"`, of either case).

    >>> table("MethodDef").number
    6
    >>> [column.name for column in table(0x1e).columns]
    ['Token', 'FuncCode']
    >>> table("Method")
    Traceback (most recent call last):
    enc.NotFound: there is no table Method: did you mean MethodPtr or MethodDef or MethodSpec?
    >>> table(0x2d)
    Traceback (most recent call last):
    enc.NotFound: there is no table 2d: they are 00 to 2c

    Raises `NotFound` of another number or name, TypeError of another type.
    """
    if isinstance(which, int):
        if 0 <= which < len(TABLES):
            return TABLES[which]
        raise NotFound(f"there is no table {which:02x}: they are 00 to {len(TABLES) - 1:02x}")
    if not isinstance(which, str):
        raise TypeError(f"a table is a number or a name: {which!r}")
    if which.lower() in _BY_NAME:
        return _BY_NAME[which.lower()]
    if len(which) == 2 and all(digit in "0123456789abcdefABCDEF" for digit in which):
        return table(int(which, 16))
    raise NotFound(*missing(f"there is no table {which}", which, [one.name for one in TABLES], "they are"))
