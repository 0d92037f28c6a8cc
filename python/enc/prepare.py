"""What a compiler wrote and the library refuses, made into what it accepts: `prepare`.

An embedded PDB is unpacked and its debug entry taken out, and the native code of a ReadyToRun image is marked as not
there. Nothing of this is proved: the library judges what comes out as it does any other file. What can't be prepared
is a `PrepareError`."""

from __future__ import annotations

import struct
import zlib
from typing import List, NamedTuple, Optional, Tuple

from . import _raw

# The most bytes that an embedded PDB may say that it has.
LARGEST = 512 << 20
# The most bytes that one byte of deflate stands for: two bits for 258.
_MOST = 1032
# The most sections that a loader takes.
_SECTIONS = 96

_EMBEDDED = 17
_IL_ONLY, _IL_LIBRARY, _NATIVE_ENTRY = 1, 4, 0x10
_READY_TO_RUN = 0x00525452
_STRIPPED = 0x200


class PrepareError(ValueError):
    """A file can't be prepared: what was found, and where. `file` is its path where it has one.

    >>> Module(b"MZ", prepare=True)
    Traceback (most recent call last):
    enc.PrepareError: where the PE header begins: 4 bytes at 0x3c pass the file's end at 0x2
    """

    __module__ = "enc"

    def __init__(self, words: str, file: Optional[str] = None) -> None:
        super().__init__(words, file)
        self.file = file

    def __str__(self) -> str:
        words: str = self.args[0]
        return words


class Prepared(NamedTuple):
    """A module that was prepared, the PDB that was in it, and in sentences what was done: none where nothing had to
    be."""

    module: bytes
    pdb: Optional[bytes]
    done: Tuple[str, ...]


class _Range(NamedTuple):
    """Bytes of the file, and what they are."""

    what: str
    start: int
    size: int

    def meets(self, other: _Range) -> bool:
        return self.start < other.start + other.size and other.start < self.start + self.size


class _Section(NamedTuple):
    """The RVA of a section, and what of its raw part stands in the file."""

    rva: int
    start: int
    size: int


class _Image:
    """An image: its headers, as rule F3 of docs/rules.md asks for them, and what they lead to."""

    def __init__(self, data: bytes) -> None:
        self.data = data
        if self.number("<H", 0, "the file's first bytes") != 0x5A4D:
            raise PrepareError(f"the file begins with {data[:2].hex(' ')} and not with MZ (4d 5a)")
        pe = self.number("<I", 0x3C, "where the PE header begins")
        if self.number("<I", pe, "the PE header") != 0x4550:
            raise PrepareError(f"at {pe:#x}: {data[pe : pe + 4].hex(' ')} and not PE (50 45 00 00)")
        count = self.number("<H", pe + 6, "the number of sections")
        size = self.number("<H", pe + 20, "the size of the optional header")
        optional = self._whole("the optional header", pe + 24, size)
        self.directories = self._directories(optional)
        self.headers = self._whole("the headers", 0, optional.start + size + 40 * count)
        self.sections = [self._section(optional.start + size + 40 * i) for i in range(count)]
        self.cli = self._cli()

    def number(self, form: str, at: int, what: str) -> int:
        """The number of this form at a place."""
        self._whole(what, at, struct.calcsize(form))
        value: int = struct.unpack_from(form, self.data, at)[0]
        return value

    def _whole(self, what: str, at: int, size: int) -> _Range:
        """A range that stands whole in the file."""
        if at + size > len(self.data):
            raise PrepareError(f"{what}: {size} bytes at {at:#x} pass the file's end at {len(self.data):#x}")
        return _Range(what, at, size)

    def _directories(self, optional: _Range) -> int:
        """Where the data directories begin."""
        if optional.size < 2:
            raise PrepareError(f"the optional header at {optional.start:#x} has {optional.size} bytes")
        magic = self.number("<H", optional.start, "the optional header's magic")
        if magic not in (0x10B, 0x20B):
            raise PrepareError(f"the magic {magic:#x} at {optional.start:#x} is neither PE32 (0x10b) nor PE32+ (0x20b)")
        first = 96 if magic == 0x10B else 112
        if optional.size < first + 15 * 8:
            raise PrepareError(f"the optional header at {optional.start:#x} has {optional.size} bytes and no CLI entry")
        count = self.number("<I", optional.start + first - 4, "the number of directories")
        if count < 15:
            raise PrepareError(f"{count} directories at {optional.start + first - 4:#x}, and a .NET module has 15")
        return optional.start + first

    def _section(self, at: int) -> _Section:
        rva, size, start = struct.unpack_from("<III", self.data, at + 12)
        start = min(start, len(self.data))
        return _Section(rva, start, min(size, len(self.data) - start))

    def directory(self, number: int) -> Tuple[int, int]:
        """The RVA and the size of a data directory."""
        return self.pair(self.directories + 8 * number)

    def pair(self, at: int) -> Tuple[int, int]:
        """An RVA and a size."""
        rva, size = struct.unpack_from("<II", self.data, at)
        return rva, size

    def place(self, rva: int, size: int) -> Optional[Tuple[int, int]]:
        """Where a range of RVAs stands in the file, and how many bytes its section has from there on; None where no
        section holds it. It is the first section that does."""
        for section in self.sections:
            before = rva - section.rva
            if before >= 0 and before + size <= section.size:
                return section.start + before, section.size - before
        return None

    def range(self, what: str, rva: int, size: int) -> _Range:
        """The bytes at a range of RVAs."""
        found = self.place(rva, size)
        if found is None:
            raise PrepareError(f"{what}: {size} bytes at RVA {rva:08x} don't stand in a section")
        return _Range(what, found[0], size)

    def _cli(self) -> _Range:
        rva, size = self.directory(14)
        if size < 72:
            raise PrepareError(f"no .NET module: its CLI header at RVA {rva:08x} has {size} bytes and not 72")
        return self.range("the CLI header", rva, 72)

    def flags(self) -> int:
        """The flags of the CLI header."""
        return self.number("<I", self.cli.start + 16, "the flags of the CLI header")

    def native(self) -> Tuple[int, int]:
        """ManagedNativeHeader."""
        return self.pair(self.cli.start + 64)

    def metadata(self) -> _Range:
        """The metadata."""
        return self.range("the metadata", *self.pair(self.cli.start + 8))

    def debug(self) -> Optional[_Range]:
        """The debug entries; None where there are none."""
        rva, size = self.directory(6)
        return self.range("the debug entries", rva, size) if size else None


def prepare(data: bytes) -> Prepared:
    """What a compiler wrote as the library accepts it: without an embedded PDB, which comes beside it, and without the
    native code of ReadyToRun. Where nothing has to be done it is the same bytes.

    >>> with open("examples/bank/bank.dll", "rb") as file:
    ...     data = file.read()
    >>> prepare(data) == Prepared(data, None, ())
    True

    Raises `PrepareError`, which says what was found and where."""
    data = bytes(data)
    if data.startswith(b"BSJB"):
        return Prepared(data, None, ())
    image = _Image(data)
    native, found = _native(image), _embedded(image)
    if not native and found is None:
        return Prepared(data, None, ())
    _apart(image)
    made, done = bytearray(data), list(native)
    if native:
        struct.pack_into("<I", made, image.cli.start + 16, image.flags() & ~_IL_LIBRARY | _IL_ONLY)
        struct.pack_into("<II", made, image.cli.start + 64, 0, 0)
    if found is not None:
        pdb, told = _unpacked(image, found)
        _taken_out(image, found, made)
        done += told
    return Prepared(bytes(made), None if found is None else pdb, tuple(done))


def _apart(image: _Image) -> None:
    """Judges that what is changed is nothing else too."""
    parts = [image.headers, image.cli, image.metadata()]
    debug = image.debug()
    parts += [debug] if debug else []
    for i, one in enumerate(parts):
        for other in parts[:i]:
            if one.meets(other):
                raise PrepareError(f"{other.what} at {other.start:#x} and {one.what} at {one.start:#x} overlap")


# An embedded PDB.


class _Entry(NamedTuple):
    """A debug entry: its number from 0, how many there are, and where the first stands."""

    number: int
    all: int
    first: int

    def __str__(self) -> str:
        return f"debug entry {self.number + 1} of {self.all} at {self.at:#x}"

    @property
    def at(self) -> int:
        """Where it stands."""
        return self.first + 28 * self.number


def _embedded(image: _Image) -> Optional[_Entry]:
    """The debug entry of an embedded PDB. What is left behind the last whole entry is ignored."""
    debug = image.debug()
    if debug is None:
        return None
    count = debug.size // 28
    kinds = [image.number("<I", debug.start + 28 * i + 12, "a debug entry") for i in range(count)]
    found = [i for i in range(count) if kinds[i] == _EMBEDDED]
    if len(found) > 1:
        said = " and ".join(str(i + 1) for i in found[:2])
        raise PrepareError(f"debug entries {said} of {count} at {debug.start:#x} are both an embedded PDB")
    return _Entry(found[0], count, debug.start) if found else None


def _unpacked(image: _Image, entry: _Entry) -> Tuple[bytes, List[str]]:
    """The PDB of an entry, and what is said of it."""
    size, _, start = struct.unpack_from("<III", image.data, entry.at + 16)
    if size < 8:
        raise PrepareError(f"{entry}: the embedded PDB has {size} bytes, and its head alone has 8")
    if start + size > len(image.data):
        raise PrepareError(
            f"{entry}: the embedded PDB, {size} bytes at {start:#x}, passes the file's end at {len(image.data):#x}"
        )
    head = image.data[start : start + 4]
    if head != b"MPDB":
        raise PrepareError(f"{entry}: the embedded PDB at {start:#x} begins with {head.hex(' ')} and not with MPDB")
    stated = image.number("<I", start + 4, "the size of the embedded PDB")
    if stated > LARGEST:
        raise PrepareError(f"{entry}: the embedded PDB at {start:#x} states {stated} bytes, and {LARGEST} are the most")
    if stated > _MOST * (size - 8):
        raise PrepareError(
            f"{entry}: the embedded PDB at {start:#x} states {stated} bytes, and {size - 8} can't be so many unpacked"
        )
    pdb = _inflated(image.data[start + 8 : start + size], stated, f"{entry}: the embedded PDB at {start:#x}")
    if pdb[:4] != b"BSJB":
        raise PrepareError(
            f"{entry}: what was unpacked from {start:#x} begins with {pdb[:4].hex(' ')} and is no Portable PDB (BSJB)"
        )
    return pdb, [
        f"The embedded PDB was unpacked: {size - 8} bytes became {stated}.",
        f"Its debug entry, {entry.number + 1} of {entry.all}, was taken out.",
    ]


def _inflated(packed: bytes, stated: int, what: str) -> bytes:
    """What a deflate stream of a stated length stands for. No more memory is taken than for that and one byte."""
    stream = zlib.decompressobj(-15)
    try:
        part = stream.decompress(packed, stated + 1)
    except zlib.error as error:
        raise PrepareError(f"{what} isn't a deflate stream: {error}") from None
    if len(part) > stated:
        raise PrepareError(f"{what} states {stated} bytes, and there are more")
    if len(part) < stated or not stream.eof:
        end = "and there are" if stream.eof else "and the deflate stream is cut off behind"
        raise PrepareError(f"{what} states {stated} bytes, {end} {len(part)}")
    return part


def _taken_out(image: _Image, entry: _Entry, made: bytearray) -> None:
    """Takes an entry out: those behind it move up, and the debug directory has one less."""
    end = entry.first + 28 * entry.all
    made[entry.at : end] = made[entry.at + 28 : end] + bytes(28)
    rva, size = image.directory(6)
    left = size - 28 if entry.all > 1 else 0
    struct.pack_into("<II", made, image.directories + 8 * 6, rva if left else 0, left)


# Native code.


def _native(image: _Image) -> List[str]:
    """Judges the native code of an image, and tells what is said of its being left out; nothing where there is
    none."""
    flags, (rva, size) = image.flags(), image.native()
    where = f"the CLI header at {image.cli.start:#x}"
    if not rva and not size:
        if flags & _IL_ONLY:
            return []
        raise PrepareError(
            f"a mixed-mode module: {where} has flags {flags:08x} without ILONLY (1), and no ReadyToRun header"
        )
    fixups = image.pair(image.cli.start + 48)
    if flags & _NATIVE_ENTRY or fixups[1]:
        found = f"{fixups[1]} bytes of VTableFixups" if fixups[1] else "a native entry point"
        raise PrepareError(f"a mixed-mode module: {where} has flags {flags:08x}, and {found}")
    version = _ready_to_run(image, rva, size)
    count = _whole_il(image)
    made = flags & ~_IL_LIBRARY | _IL_ONLY
    flagged = [] if made == flags else [f"The flags of the CLI header were {flags:08x} and are {made:08x}."]
    return [
        f"The native code of ReadyToRun {version} was marked as not there: ManagedNativeHeader, "
        f"{size} bytes at RVA {rva:08x}, is zero. The IL of {count} methods is whole.",
        *flagged,
    ]


def _ready_to_run(image: _Image, rva: int, size: int) -> str:
    """Judges that ManagedNativeHeader is one of ReadyToRun, and tells its version."""
    what = "ManagedNativeHeader"
    if size < 16:
        raise PrepareError(f"{what}: {size} bytes at RVA {rva:08x}, and a ReadyToRun header has 16")
    start = image.range(what, rva, 16).start
    signature, major, minor, flags = struct.unpack_from("<IHHI", image.data, start)
    if signature != _READY_TO_RUN:
        raise PrepareError(
            f"native code of another kind: {what} at RVA {rva:08x} begins with "
            f"{image.data[start : start + 4].hex(' ')} and not with RTR (52 54 52 00)"
        )
    if flags & _STRIPPED:
        raise PrepareError(f"its IL isn't whole: the ReadyToRun header at RVA {rva:08x} says so by flag {_STRIPPED:#x}")
    return f"{major}.{minor}"


def _whole_il(image: _Image) -> int:
    """Judges that each method that should have IL has it whole, and tells how many have."""
    if len(image.sections) > _SECTIONS:
        raise PrepareError(f"{len(image.sections)} sections, and a loader takes {_SECTIONS} at most")
    metadata = image.metadata()
    count = 0
    try:
        methods = _raw.rows_of(image.data[metadata.start : metadata.start + metadata.size], "MethodDef")
        for i, (rva, kind, flags, *_) in enumerate(methods, 1):
            count += _has_il(image, f"the method 06{i:06x}", rva, kind, flags)
    except PrepareError:
        raise
    except ValueError as error:
        raise PrepareError(f"the metadata at {metadata.start:#x}: {error}") from None
    return count


def _has_il(image: _Image, what: str, rva: int, kind: int, flags: int) -> bool:
    """Whether a method has IL, which stands whole; False of one that needs none."""
    if kind & 7 and rva:
        raise PrepareError(f"a mixed-mode module: {what} isn't IL, its ImplFlags are {kind:04x}")
    if rva:
        size = _body(image, what, rva)
        if image.place(rva, size) is None:
            raise PrepareError(f"its IL isn't whole: {what} has {size} bytes at RVA {rva:08x}, not all in a section")
        return True
    # Without IL are abstract ones, those of the system (PInvoke, InternalCall, ForwardRef, Runtime), and static ones
    # such as an UnsafeAccessor.
    if not flags & (0x400 | 0x2000 | 0x10) and not kind & (0x1000 | 0x10 | 7):
        raise PrepareError(f"its IL isn't whole: {what} has none, and its flags {flags:04x} don't say why")
    return False


def _body(image: _Image, what: str, rva: int) -> int:
    """How many bytes the header of a body and its code have (ECMA-335 II.25.4)."""
    found = image.place(rva, 1)
    if found is None:
        raise PrepareError(f"its IL isn't whole: {what} begins at RVA {rva:08x}, in no section")
    start, left = found
    first = image.data[start]
    if first & 3 == 2:
        return 1 + (first >> 2)
    if first & 3 != 3 or left < 12:
        raise PrepareError(f"its IL isn't whole: {what} has no header of a body at RVA {rva:08x}, but {first:02x}")
    words: int = image.data[start + 1] >> 4
    if words != 3:
        raise PrepareError(f"its IL isn't whole: {what} has a header of {words} words at RVA {rva:08x}, and not 3")
    return 12 + image.number("<I", start + 4, what)
