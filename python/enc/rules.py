"""The rules in words. Written by python/make_rules.py from docs/rules.md, edits.md and scripts.md."""

from typing import Dict, List, Tuple

# Code, places, words, in the order of docs/rules.md.
RULES: List[Tuple[str, str, str]] = [
    ("L1", "`length`",
     "the file has more than 67,108,864 bytes"),
    ("L2", "`total`",
     "with the files loaded before it there are more than 536,870,912 bytes"),
    ("F3", "`headers`",
     "MZ, PE\\0\\0 or the magic of PE32 or PE32+ isn't there, the optional header has fewer than 15 "
     "directories, or headers don't stand whole in the file"),
    ("F4", "`cli`",
     "no 72 bytes of a CLI header stand in a section, flag 1 (ILONLY) isn't set, or ManagedNativeHeader "
     "isn't zero"),
    ("F5", "`metadata`, `resources`, `debug`, in this order",
     "that range doesn't stand whole in a section; resources and debug entries of size 0 are none"),
    ("F9", "`debug`",
     "a debug entry of type 17, an embedded PDB"),
    ("F1", "`root`",
     "the root hasn't its magic, a zero and a version length that is a multiple of 4, or its streams' "
     "headers don't stand whole in it"),
    ("F2", "the stream, in the order of the headers; then `#~`",
     "a known stream stands a second time or outside the root; then, there isn't exactly one of #~ and #-"),
    ("F6", "`tables`",
     "the table stream doesn't hold its counts and rows, a count passes 2^24 - 1, there is a table past "
     "2C, there isn't exactly one row of Module, or, in a base, there are rows of EncLog or EncMap"),
    ("F7", "TOKEN.Column",
     "an index past its table, a tag of no table, or a run that begins outside 1 to the count plus 1 or "
     "before the run of the row before"),
    ("F7", "TOKEN.owner, behind its row's columns",
     "a field, method, parameter, property or event that the runs don't name exactly once"),
    ("F8", "TOKEN.Column",
     "an offset that isn't good in its heap"),
    ("F11", "TOKEN.Column",
     "a blob that isn't a signature of its kind: outside the grammar, with a token of a row that isn't "
     "there, or with more than a hundred types one in the other"),
    ("F10", "method",
     "a place for a body and no good body there, or a method that isn't IL"),
    ("F5", "row of FieldRVA",
     "an RVA, and no bytes of the field's size in a section there, or no known size"),
    ("E1", "`00000001`",
     "its Mvid isn't the base's"),
    ("E2", "`00000001`",
     "its Generation isn't the next"),
    ("E3", "`00000001`",
     "its EncBaseId isn't the EncId of the last delta, nil for the first"),
    ("E4", "`00000001`",
     "its EncId is nil or was used"),
    ("E5", "`#Strings`, `#US`, `#Blob`, `#GUID`, in this order",
     "a joined heap passes its limit (2^24 bytes of #US, 2^29 of each other); the last byte of #Strings "
     "that counts isn't 0; #GUID has fewer entries than before"),
    ("E6", "token, the least",
     "one before it in EncMap isn't less: EncMap doesn't rise"),
    ("E7", "table",
     "its rows and its tokens in EncMap differ in number; Module, EncLog and EncMap have no rows that "
     "tokens stand for"),
    ("E8", "token, in the order of EncMap",
     "a new row isn't the next of its table"),
    ("E9", "token, the least",
     "it stands in EncMap alone, or alone among EncLog's entries with code 0"),
    ("E10", "`log K`, K from 1 in the whole log",
     "an entry of EncLog with a code past 5, or an Add entry (1 to 5) without its parent after, or without "
     "the next new child in the entry behind it"),
    ("E11", "token, by Field, MethodDef, Param, Event, Property",
     "a new row of these tables hasn't exactly one Add entry"),
    ("E12", "table",
     "it has rows, and a delta may not change it"),
    ("E13", "TOKEN.Column",
     "an index past its table after, or a tag of no table"),
    ("E14", "TOKEN.Column",
     "an offset that isn't good in the joined heaps"),
    ("E15", "TOKEN.Column, in the order of EncMap",
     "an updated row says something else than it did; bodies, a parameter's flags and name and custom "
     "attributes may change, tokens and signatures may be alike ones"),
    ("E16", "method",
     "a place for a body and no good body in the delta's code, by the rows after, or a method that isn't "
     "IL"),
    ("E17", "method",
     "a method that had a body has no place for one"),
    ("E18", "field, the least",
     "a new field without flag Static, in a type that was there and has a layout of its own (either bit of "
     "18), or extends System.ValueType or System.Enum"),
    ("E19", "method, the least",
     "a new virtual method in an interface that was there, or a new virtual and abstract one in any type "
     "that was there"),
    ("E20", "member, the least",
     "a new field, method, property or event with a sibling of equal name and, but for events, alike "
     "signature; fields and methods that only the compiler knows (access 0) don't count"),
    ("E21", "TOKEN.Column, in the order of EncMap",
     "a blob that isn't a signature of its kind, as F11, by the rows after"),
    ("E23", "method, in the order of EncMap",
     "its body's local signature isn't nil and doesn't begin as one of locals"),
    ("E24", "`00000001`",
     "more than 65,535 deltas, or more than 2^24 - 1 rows of a table after"),
    ("F12", "`pdb`",
     "its root or its table stream isn't good, as F1, F2 and F6; #Pdb doesn't hold its 32 bytes and its "
     "counts whole; of a base, MethodDebugInformation has rows and not one for each method; of a delta, it "
     "hasn't as many rows as EncMap has tokens of it"),
    ("F12", "row of Document, then of MethodDebugInformation, by its position",
     "an offset that isn't good; a name that isn't a separator and parts; a blob that isn't one of "
     "sequence points, or whose point has no document"),
    ("E22", "token of MethodDebugInformation, the least of those that are out of place",
     "of a delta, the token isn't behind those before it, its method isn't one of the delta's EncMap, or a "
     "point's offset isn't below the size of the method's code there, 0 where it has no body"),
    ("L4", "`#Strings`, `#US`, `#Blob`, `#GUID`, in this order",
     "the heap of the module's distinct values would have more than 2^29 bytes, #US more than 2^24"),
    ("L4", "`image`",
     "the module's weight is 2^31 or more: 65,536; for each row 4 for an index, a run or a heap and the "
     "width with its padding for a number; 4 for each row of Field, MethodDef, Param, Event and Property; "
     "the lengths of the four heaps; for each body 32, its code and 24 for each clause; for each row of "
     "FieldRVA 8 and its bytes; 8 and the resources"),
    ("L4", "`#Pdb`",
     "the plain PDB's weight is more than 2^29: 65,536; 64 for each method; 32 for each point; for each "
     "distinct document 96, its name and its hash"),
    ("L4", "`#Pdb`",
     "the weight, as above, of what is known after both of the methods that one of the last two deltas "
     "lists is more than 2^29; 64 counts for each of these methods"),
    ("G1", "token of the first TypeRef, and else of the first TypeSpec, that lies too deep",
     "after all deltas its depth is 100 or more: a TypeRef's is one more than that of its ResolutionScope, "
     "a TypeSpec's one more than that of the deepest TypeRef or TypeSpec in its signature, and all else "
     "has depth 0; of rows that lead back into themselves it is 100"),
]

# Code, place, words of an edit list; the place is an edit, or the list as a whole: 0.
EDITS: List[Tuple[str, str, str]] = [
    ("J1", "`json`",
     "the text isn't JSON"),
    ("J2", "`0`",
     "the list isn't as above: the object itself, encId, documents, or edits isn't an array"),
    ("J2", "edit",
     "the first edit, counted from 1, that isn't as above"),
    ("E4", "`0`",
     "the EncId is nil, or was used before"),
    ("E5", "`0`",
     "a heap of the chain is at its limit, #GUID with the new EncId"),
    ("E24", "`0`",
     "more than 65,535 deltas; 2^24 rows of a table after the list; 2^24 - 1 entries of EncLog"),
    ("E5", "edit",
     "with what this edit brings #Strings or #Blob passes 2^29 bytes, or #US 2^24"),
    ("E6", "edit",
     "an edit before it is about the same row"),
    ("E10", "edit",
     "the owner isn't a row of the table of owners"),
    ("E12", "edit",
     "a row of a table to which no row may be added"),
    ("E13", "edit",
     "a token names no row of a table that its column can name, or the method whose body is replaced "
     "doesn't exist"),
    ("E16", "edit",
     "a body of a method that isn't IL; a body that isn't good; a branch that doesn't reach its target: "
     "one of one byte past 127, or one of four past 2^31; code of 2^32 bytes or more"),
    ("E18", "edit",
     "a field that can't be added to its type, an old one"),
    ("E19", "edit",
     "a virtual method that can't be added to its type, an old one"),
    ("E20", "edit",
     "a member with a sibling of equal name and, but for an event, alike signature"),
    ("E21", "edit",
     "the signature of a row isn't one of its kind"),
    ("E23", "edit",
     "the local signature of a body isn't one of locals"),
    ("E22", "edit",
     "sequence points that can't be spelled, a document that isn't of the list, or a PDB of more than 2^29 "
     "bytes"),
]

# When a frame isn't remapped.
REMAPS: Dict[str, str] = {
    "Q1": (
     "no task has the number, or it has ended or trapped, or an object is on its way to a handler in it"),
    "Q2": (
     "something is on the frame's stack"),
    "Q3": (
     "the frame stands at no sequence point of its own body, or at a hidden one"),
    "Q4": (
     "no pair leads from its offset"),
    "Q5": (
     "the pair leads to no instruction of the newest body, or to one without a sequence point, or with a "
     "hidden one"),
    "Q6": (
     "the interpreter doesn't run the newest body, or the kinds of the old local variables aren't the "
     "first of the new ones"),
    "Q7": (
     "a handler is running in the frame, or the pair leads into a handler"),
}

# Why a step isn't made.
TRAPS: Dict[str, str] = {
    "X1": (
     "there is no instruction at the offset"),
    "X2": (
     "an instruction, a member's type or signature, that the interpreter doesn't know; a callvirt of a "
     "virtual method whose signature has no this; an argument or local variable that doesn't exist"),
    "X3": (
     "too few values on the stack"),
    "X4": (
     "a value of another kind"),
    "X5": (
     "null"),
    "X6": (
     "division by zero"),
    "X7": (
     "overflow, or an array of a negative length"),
    "X8": (
     "an index outside of the array or text"),
    "X9": (
     "a cast to a class that the object isn't of"),
    "X10": (
     "the method that is reached has no body that the interpreter runs"),
    "X11": (
     "more than 1,024 frames"),
    "X12": (
     "more than 1,000,000 objects or 16,000,000 elements and units"),
    "X13": (
     "more values on a stack than its method says"),
    "X14": (
     "a thrown object that no clause takes"),
}
