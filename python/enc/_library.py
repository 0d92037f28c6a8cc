"""The calls of `libenc.so` by ctypes: its structs, its statuses, one table of all calls.

Trusted: that what stands here agrees with `library/enc.h`. A call that the library doesn't have is an AttributeError
where it is used, and not before.
"""

from __future__ import annotations

import ctypes
import operator
import os
import threading
from pathlib import Path
from typing import Any, Dict, Iterable, List, NoReturn, Optional, Sequence, Tuple, Type

from ._missing import NotFound

u8, u32, i64, size_t = ctypes.c_uint8, ctypes.c_uint32, ctypes.c_int64, ctypes.c_size_t

DONE, REFUSED, MEMORY, CLOSED, OPEN, SHORT, ABSENT, UNLIKE, LATER, LIMIT, FEW = 0, 1, 3, 7, 8, 9, 10, 11, 12, 13, 14


def _numbers(*names: str) -> List[Tuple[str, Any]]:
    return [(name, u32) for name in names]


class RefusalNumbers(ctypes.Structure):
    """`enc_refusal`."""

    _fields_ = [(name, u8) for name in ("letter", "rule", "place", "stream", "table", "column")]
    _fields_ += _numbers("row", "entry")


class PlaceNumbers(ctypes.Structure):
    """`enc_place`."""

    _fields_ = _numbers("generation", "position")


class CodeHead(ctypes.Structure):
    """`enc_code_head`."""

    _fields_ = _numbers("stack", "locals", "init")


class PointNumbers(ctypes.Structure):
    """`enc_point`."""

    _fields_ = _numbers("offset", "document", "hidden", "start_line", "start_column", "end_line", "end_column")


class ClauseNumbers(ctypes.Structure):
    """`enc_clause`."""

    _fields_ = _numbers("kind", "try_begin", "try_end", "handler_begin", "handler_end", "extra")


class EntryNumbers(ctypes.Structure):
    """`enc_entry`."""

    _fields_ = _numbers("token", "inserted")


class HeapLengths(ctypes.Structure):
    """`enc_heap_lengths`."""

    _fields_ = _numbers("strings", "users", "blobs", "guids")


class MoveNumbers(ctypes.Structure):
    """`enc_move`."""

    _fields_ = [("before", u32), ("after", u32)]


class PairNumbers(ctypes.Structure):
    """`enc_pair`."""

    _fields_ = [("before", u32), ("after", u32)]


class SteppedNumbers(ctypes.Structure):
    """`enc_stepped`."""

    _fields_ = _numbers("ran", "state", "trap")


class RemappedNumbers(ctypes.Structure):
    """`enc_remapped`."""

    _fields_ = _numbers("rule", "method", "before", "after")


class FrameNumbers(ctypes.Structure):
    """`enc_frame`."""

    _fields_ = _numbers("method", "generation", "offset", "line", "arguments", "locals", "stack")


class ValueNumbers(ctypes.Structure):
    """`enc_value`."""

    _fields_ = [("kind", u32), ("object", u32), ("number", i64)]


class EventNumbers(ctypes.Structure):
    """`enc_event`."""

    _fields_ = _numbers("kind", "task", "method", "detail")


# The structs by their names in enc.h.
STRUCTS: Dict[str, Type[ctypes.Structure]] = {
    "enc_refusal": RefusalNumbers,
    "enc_place": PlaceNumbers,
    "enc_code_head": CodeHead,
    "enc_point": PointNumbers,
    "enc_clause": ClauseNumbers,
    "enc_entry": EntryNumbers,
    "enc_heap_lengths": HeapLengths,
    "enc_move": MoveNumbers,
    "enc_pair": PairNumbers,
    "enc_stepped": SteppedNumbers,
    "enc_remapped": RemappedNumbers,
    "enc_frame": FrameNumbers,
    "enc_value": ValueNumbers,
    "enc_event": EventNumbers,
}

_handle = ctypes.POINTER(ctypes.c_void_p)
_refusal = ctypes.POINTER(RefusalNumbers)
_count = ctypes.POINTER(u32)
_given = (ctypes.c_char_p, size_t)
_copied = (ctypes.c_void_p, size_t, ctypes.POINTER(size_t))
_delta = _given * 3 + (_refusal,)

# What each call takes; all return a status.
CALLS: Dict[str, Tuple[Any, ...]] = {
    "enc_open": (_handle, *_given, *_given, _refusal),
    "enc_apply": (_handle, *_delta),
    "enc_check": (_handle, *_delta),
    "enc_close": (_handle,),
    "enc_generations": (_handle, _count),
    "enc_count": (_handle, u8, _count),
    "enc_count_at": (_handle, u32, u8, _count),
    "enc_locate": (_handle, u32, ctypes.POINTER(PlaceNumbers)),
    "enc_locate_heap": (_handle, u32, u32, ctypes.POINTER(PlaceNumbers)),
    "enc_number": (_handle, u32, u8, _count),
    "enc_token": (_handle, u32, u8, _count),
    "enc_owner": (_handle, u32, _count),
    "enc_lengths": (_handle, u32, ctypes.POINTER(HeapLengths)),
    "enc_find_type": (_handle, u32, *_given, *_given, _count),
    "enc_find_member": (_handle, u32, u8, *_given, *_copied),
    "enc_kids": (_handle, u32, u8, *_copied),
    "enc_id": (_handle, u32, *_copied),
    "enc_text": (_handle, u32, u8, *_copied),
    "enc_blob": (_handle, u32, u8, *_copied),
    "enc_guid": (_handle, u32, u8, *_copied),
    "enc_row": (_handle, u32, *_copied),
    "enc_row_at": (_handle, u32, u32, *_copied),
    "enc_code": (_handle, u32, *_copied, ctypes.POINTER(CodeHead)),
    "enc_code_at": (_handle, u32, u32, *_copied, ctypes.POINTER(CodeHead)),
    "enc_clauses": (_handle, u32, *_copied),
    "enc_user_text": (_handle, u32, *_copied),
    "enc_entries": (_handle, u32, *_copied),
    "enc_points": (_handle, u32, *_copied),
    "enc_points_at": (_handle, u32, u32, *_copied),
    "enc_document": (_handle, u32, u32, *_copied),
    "enc_document_at": (_handle, u32, u32, u32, *_copied),
    "enc_may_remap": (_handle, u32, u32, u32, ctypes.c_void_p, size_t, _count),
    "enc_version": (),
    "enc_words": (_refusal, *_copied),
    "enc_save": (_handle, *_copied, *_copied, _refusal),
    "enc_compact": (_handle, *_copied, *_copied, *_copied, _refusal),
    "enc_merge": (_handle, *_copied, *_copied, *_copied, _refusal),
    "enc_write": (_handle, *_given, *_copied, *_copied, *_copied, _refusal),
    "enc_session_open": (_handle, *_given, *_given, u32, _refusal),
    "enc_session_close": (_handle,),
    "enc_session_apply": (_handle, *_delta),
    "enc_spawn": (_handle, u32, _count),
    "enc_step": (_handle, u32, u32, ctypes.POINTER(SteppedNumbers)),
    "enc_remap": (_handle, u32, ctypes.c_void_p, size_t, ctypes.POINTER(RemappedNumbers)),
    "enc_state": (_handle, *_copied),
    "enc_task": (_handle, u32, ctypes.POINTER(SteppedNumbers)),
    "enc_frames": (_handle, u32, *_copied),
    "enc_values": (_handle, u32, u32, u32, *_copied),
    "enc_events": (_handle, *_copied),
    "enc_output": (_handle, *_copied),
}


class Library:
    """`libenc.so`, loaded. Its calls are looked up where they are used."""

    def __init__(self, path: str) -> None:
        self.path = path
        self._loaded = ctypes.CDLL(path)
        self._calls: Dict[str, Any] = {}

    def call(self, name: str) -> Any:
        """The call of this name; an AttributeError where the library has none."""
        if name not in self._calls:
            self._calls[name] = self._found(name)
        return self._calls[name]

    def _found(self, name: str) -> Any:
        try:
            call = getattr(self._loaded, name)
        except AttributeError:
            raise AttributeError(f"{self.path} has no call {name}: it is older than this package") from None
        call.argtypes = CALLS[name]
        call.restype = u32
        return call


def library_path() -> str:
    """`ENC_LIBRARY`, else the library in the package, else `dist/libenc.so` of a checkout, else the system's."""
    named = os.environ.get("ENC_LIBRARY")
    if named:
        return named
    package = Path(__file__).resolve().parent
    for path in (package / "libenc.so", package.parent.parent / "dist" / "libenc.so"):
        if path.is_file():
            return str(path)
    return INSTALLED


# The library of a system, by the name that its loader knows: that of Debian's package libenc0.
INSTALLED = "libenc.so.0"

_libraries: Dict[str, Library] = {}


def library() -> Library:
    """The library that is in use, loaded once."""
    path = library_path()
    if path not in _libraries:
        try:
            _libraries[path] = Library(path)
        except OSError as error:
            raise OSError(f"{error}: ENC_LIBRARY may name a libenc.so") from None
    return _libraries[path]


def number(value: int) -> int:
    """A number of 32 bits; a ValueError of another one, which ctypes would cut, and a TypeError of what is none."""
    value = operator.index(value)
    if not 0 <= value < 1 << 32:
        raise ValueError(f"{value} isn't a number of 32 bits")
    return value


class Limit(Exception):
    """A task, a session or what would be read passes a stated limit."""


def fail(status: int, about: str) -> NoReturn:
    """Raises what a status means; `about` says what was asked for."""
    if status == MEMORY:
        raise MemoryError(about)
    if status == CLOSED:
        raise ValueError(f"{about}: it is closed")
    if status in (ABSENT, LATER):
        raise NotFound(f"{about}: there is none")
    if status == UNLIKE:
        raise ValueError(f"{about}: it isn't of that kind")
    if status == LIMIT:
        raise Limit(f"{about}: it passes a limit")
    if status == FEW:
        raise ValueError(f"{about}: there are fewer than two deltas")
    raise RuntimeError(f"{about}: status {status}")


class Buffer:
    """A buffer that a call fills, and how many items it would take; 0 until a call tells it."""

    def __init__(self, item: Any, length: int) -> None:
        self.item = item
        self.size = size_t()
        self._make(length)

    @classmethod
    def of(cls, item: Any) -> "Buffer":
        """A small one: for bytes where the item is c_char."""
        return cls(item, 256 if item is ctypes.c_char else 16)

    def _make(self, length: int) -> None:
        self.length = length
        self.items = (self.item * length)()

    def grow(self) -> None:
        """Makes room for what the last call would take. Until the next one nothing is taken."""
        length, self.size.value = self.size.value, 0
        self._make(length)

    def arguments(self) -> Tuple[Any, ...]:
        return (self.items, size_t(self.length), ctypes.byref(self.size))

    def is_short(self) -> bool:
        return self.size.value > self.length

    def taken(self) -> Any:
        """The items that a call wrote: bytes, or a list of numbers or structs."""
        return self.items[: 0 if self.is_short() else self.size.value]


class Uncopied:
    """What owns a handle, or leads to one: a TypeError where it is copied or pickled, since the copy would close the
    handle of both."""

    def __reduce_ex__(self, protocol: Any) -> NoReturn:
        raise TypeError(f"{self!r} can't be copied or pickled: it owns a handle of the library")


class Handle(Uncopied):
    """An open handle, for any thread: each call holds `lock`, so that threads take turns, as the library asks.

    `with handle.lock:` holds it for several calls, which then tell one state. The thread that holds it may take it
    again, so a signal's handler, which Python runs between two calls, may ask too."""

    def __init__(self, library: Library, closing: str, about: str) -> None:
        self.library = library
        self.about = about
        self.lock = threading.RLock()
        self._closing = library.call(closing)
        self._pointer = ctypes.c_void_p()

    def call(self, name: str, *arguments: Any) -> int:
        """The status of a call."""
        call = self.library.call(name)
        with self.lock:
            status: int = call(ctypes.byref(self._pointer), *arguments)
        return status

    def fill(self, name: str, before: Sequence[Any], buffers: Sequence[Buffer], after: Sequence[Any] = ()) -> int:
        """The status of a call that copies into buffers, which are made longer where they are too short."""
        while True:
            copied = [argument for buffer in buffers for argument in buffer.arguments()]
            status = self.call(name, *before, *copied, *after)
            if status != SHORT:
                return status
            if not any(buffer.is_short() for buffer in buffers):
                return status
            for buffer in buffers:
                if buffer.is_short():
                    buffer.grow()

    def one(self, about: str, name: str, *arguments: Any) -> int:
        """The number that a call tells."""
        number = u32()
        status = self.call(name, *arguments, ctypes.byref(number))
        if status != DONE:
            fail(status, about)
        return number.value

    def told(self, about: str, name: str, struct: Type[Any], *arguments: Any) -> Any:
        """The struct that a call tells."""
        numbers = struct()
        status = self.call(name, *arguments, ctypes.byref(numbers))
        if status != DONE:
            fail(status, about)
        return numbers

    def copied(self, about: str, name: str, item: Any, *arguments: Any) -> Any:
        """What a call copies: bytes for an item c_char, else a list."""
        buffer = Buffer.of(item)
        status = self.fill(name, arguments, [buffer])
        if status != DONE:
            fail(status, about)
        return buffer.taken()

    def close(self) -> None:
        """Closes it, behind a call that is under way; a closed one stays closed."""
        with self.lock:
            self._closing(ctypes.byref(self._pointer))


def given(parts: Iterable[Optional[bytes]]) -> List[Any]:
    """Bytes and their lengths as a call takes them."""
    arguments: List[Any] = []
    for part in parts:
        part = part or b""
        arguments += [part, size_t(len(part))]
    return arguments


def words_of(library: Library, refusal: RefusalNumbers) -> str:
    """The words of a refusal, without the end of the line; of one that the library can't say, its numbers."""
    buffer = Buffer(ctypes.c_char, 256)
    status = library.call("enc_words")(ctypes.byref(refusal), *buffer.arguments())
    if status == MEMORY:
        raise MemoryError("the words of a refusal")
    if status != DONE:
        return f"{chr(refusal.letter)}{refusal.rule} {refusal.entry}"
    text: bytes = buffer.taken()
    return text.decode("ascii").rstrip("\n")
