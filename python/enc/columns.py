"""The rows of each table, with the types of their columns. Written by python/make_columns.py."""

from __future__ import annotations

import uuid
from typing import List, Tuple, Type

from .rows import Row, Token


class Module(Row):
    """A row of Module (00)."""

    Generation: int
    Name: str
    Mvid: uuid.UUID
    EncId: uuid.UUID
    EncBaseId: uuid.UUID


class TypeRef(Row):
    """A row of TypeRef (01)."""

    ResolutionScope: Token
    TypeName: str
    TypeNamespace: str


class TypeDef(Row):
    """A row of TypeDef (02)."""

    Flags: int
    TypeName: str
    TypeNamespace: str
    Extends: Token
    FieldList: Tuple[Token, ...]
    MethodList: Tuple[Token, ...]


class FieldPtr(Row):
    """A row of FieldPtr (03)."""

    Field: Token


class Field(Row):
    """A row of Field (04)."""

    Flags: int
    Name: str
    Signature: bytes


class MethodPtr(Row):
    """A row of MethodPtr (05)."""

    Method: Token


class MethodDef(Row):
    """A row of MethodDef (06)."""

    RVA: bool
    ImplFlags: int
    Flags: int
    Name: str
    Signature: bytes
    ParamList: Tuple[Token, ...]


class ParamPtr(Row):
    """A row of ParamPtr (07)."""

    Param: Token


class Param(Row):
    """A row of Param (08)."""

    Flags: int
    Sequence: int
    Name: str


class InterfaceImpl(Row):
    """A row of InterfaceImpl (09)."""

    Class: Token
    Interface: Token


class MemberRef(Row):
    """A row of MemberRef (0a)."""

    Class: Token
    Name: str
    Signature: bytes


class Constant(Row):
    """A row of Constant (0b)."""

    Type: int
    Parent: Token
    Value: bytes


class CustomAttribute(Row):
    """A row of CustomAttribute (0c)."""

    Parent: Token
    Type: Token
    Value: bytes


class FieldMarshal(Row):
    """A row of FieldMarshal (0d)."""

    Parent: Token
    NativeType: bytes


class DeclSecurity(Row):
    """A row of DeclSecurity (0e)."""

    Action: int
    Parent: Token
    PermissionSet: bytes


class ClassLayout(Row):
    """A row of ClassLayout (0f)."""

    PackingSize: int
    ClassSize: int
    Parent: Token


class FieldLayout(Row):
    """A row of FieldLayout (10)."""

    Offset: int
    Field: Token


class StandAloneSig(Row):
    """A row of StandAloneSig (11)."""

    Signature: bytes


class EventMap(Row):
    """A row of EventMap (12)."""

    Parent: Token
    EventList: Tuple[Token, ...]


class EventPtr(Row):
    """A row of EventPtr (13)."""

    Event: Token


class Event(Row):
    """A row of Event (14)."""

    EventFlags: int
    Name: str
    EventType: Token


class PropertyMap(Row):
    """A row of PropertyMap (15)."""

    Parent: Token
    PropertyList: Tuple[Token, ...]


class PropertyPtr(Row):
    """A row of PropertyPtr (16)."""

    Property: Token


class Property(Row):
    """A row of Property (17)."""

    Flags: int
    Name: str
    Type: bytes


class MethodSemantics(Row):
    """A row of MethodSemantics (18)."""

    Semantics: int
    Method: Token
    Association: Token


class MethodImpl(Row):
    """A row of MethodImpl (19)."""

    Class: Token
    MethodBody: Token
    MethodDeclaration: Token


class ModuleRef(Row):
    """A row of ModuleRef (1a)."""

    Name: str


class TypeSpec(Row):
    """A row of TypeSpec (1b)."""

    Signature: bytes


class ImplMap(Row):
    """A row of ImplMap (1c)."""

    MappingFlags: int
    MemberForwarded: Token
    ImportName: str
    ImportScope: Token


class FieldRVA(Row):
    """A row of FieldRVA (1d)."""

    RVA: bytes
    Field: Token


class EncLog(Row):
    """A row of EncLog (1e)."""

    Token: int
    FuncCode: int


class EncMap(Row):
    """A row of EncMap (1f)."""

    Token: int


class Assembly(Row):
    """A row of Assembly (20)."""

    HashAlgId: int
    MajorVersion: int
    MinorVersion: int
    BuildNumber: int
    RevisionNumber: int
    Flags: int
    PublicKey: bytes
    Name: str
    Culture: str


class AssemblyProcessor(Row):
    """A row of AssemblyProcessor (21)."""

    Processor: int


class AssemblyOS(Row):
    """A row of AssemblyOS (22)."""

    OSPlatformId: int
    OSMajorVersion: int
    OSMinorVersion: int


class AssemblyRef(Row):
    """A row of AssemblyRef (23)."""

    MajorVersion: int
    MinorVersion: int
    BuildNumber: int
    RevisionNumber: int
    Flags: int
    PublicKeyOrToken: bytes
    Name: str
    Culture: str
    HashValue: bytes


class AssemblyRefProcessor(Row):
    """A row of AssemblyRefProcessor (24)."""

    Processor: int
    AssemblyRef: Token


class AssemblyRefOS(Row):
    """A row of AssemblyRefOS (25)."""

    OSPlatformId: int
    OSMajorVersion: int
    OSMinorVersion: int
    AssemblyRef: Token


class File(Row):
    """A row of File (26)."""

    Flags: int
    Name: str
    HashValue: bytes


class ExportedType(Row):
    """A row of ExportedType (27)."""

    Flags: int
    TypeDefId: int
    TypeName: str
    TypeNamespace: str
    Implementation: Token


class ManifestResource(Row):
    """A row of ManifestResource (28)."""

    Offset: int
    Flags: int
    Name: str
    Implementation: Token


class NestedClass(Row):
    """A row of NestedClass (29)."""

    NestedClass: Token
    EnclosingClass: Token


class GenericParam(Row):
    """A row of GenericParam (2a)."""

    Number: int
    Flags: int
    Owner: Token
    Name: str


class MethodSpec(Row):
    """A row of MethodSpec (2b)."""

    Method: Token
    Instantiation: bytes


class GenericParamConstraint(Row):
    """A row of GenericParamConstraint (2c)."""

    Owner: Token
    Constraint: Token


# By the numbers of their tables.
ROWS: List[Type[Row]] = [
    Module,
    TypeRef,
    TypeDef,
    FieldPtr,
    Field,
    MethodPtr,
    MethodDef,
    ParamPtr,
    Param,
    InterfaceImpl,
    MemberRef,
    Constant,
    CustomAttribute,
    FieldMarshal,
    DeclSecurity,
    ClassLayout,
    FieldLayout,
    StandAloneSig,
    EventMap,
    EventPtr,
    Event,
    PropertyMap,
    PropertyPtr,
    Property,
    MethodSemantics,
    MethodImpl,
    ModuleRef,
    TypeSpec,
    ImplMap,
    FieldRVA,
    EncLog,
    EncMap,
    Assembly,
    AssemblyProcessor,
    AssemblyOS,
    AssemblyRef,
    AssemblyRefProcessor,
    AssemblyRefOS,
    File,
    ExportedType,
    ManifestResource,
    NestedClass,
    GenericParam,
    MethodSpec,
    GenericParamConstraint,
]
