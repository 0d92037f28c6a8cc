"""A session: tasks that run a module step by step, while deltas are applied between their steps."""

from __future__ import annotations

import ctypes
from types import TracebackType
from typing import Any, Iterable, List, NamedTuple, Optional, Tuple, Type

from . import _files, _library
from ._files import Delta, Source
from ._library import ABSENT, DONE, LIMIT, REFUSED, SHORT, UNLIKE, Buffer, Handle, Limit, number, u32
from ._missing import NotFound
from ._refused import RemapRefused
from .module import Which, pairs_of, refused_of, text_of
from .rows import Token, token_of
from .rules import REMAPS, TRAPS

STATES = ("running", "ended", "trapped")
# By their numbers, from 1.
EVENTS = ("", "spawned", "entered", "left", "line", "applied", "refused", "trapped", "ended")
PARTS = ("arguments", "locals", "stack")
_KINDS = ("int32", "int64", "null", "object")

# A step adds at most four events.
_STEP_EVENTS = 4


class Stepped(NamedTuple):
    """How it stands with a task: how many steps ran, its state (`running`, `ended`, `trapped`), and where it trapped
    the trap (`X5`) and its words."""

    ran: int
    state: str
    trap: Optional[str]
    words: str


class Frame(NamedTuple):
    """A frame of a task: its method, the generation of its body, the offset of its next instruction, the line of that
    (0 where none is known), and how many arguments, local variables and values on the stack it has."""

    method: Token
    generation: int
    offset: int
    line: int
    arguments: int
    locals: int
    stack: int


class Slot(NamedTuple):
    """A value of a frame: `int32` or `int64` and the number, `null`, or `object` and its number in `state()`.

    >>> print(Slot("int32", 5), Slot("int64", 5), Slot("null", 0), Slot("object", 3))
    5 5L null #3
    """

    kind: str
    number: int

    def __str__(self) -> str:
        forms = {"int32": "{}", "int64": "{}L", "null": "null", "object": "#{}"}
        return forms[self.kind].format(self.number)


class Event(NamedTuple):
    """What happened: `spawned`, `entered`, `left` (task and method), `line` (and its number as detail), `applied` (the
    generation as detail), `refused` (`rule`), `trapped` (task and `rule`), `ended` (task). It prints as a trace prints
    it in a script."""

    kind: str
    task: int
    method: Optional[Token]
    detail: int

    @property
    def rule(self) -> str:
        """The rule by which a delta was refused (`E2`), or the trap (`X5`); else nothing.

        >>> print(Event("refused", 0, None, 0x4502), Event("line", 1, Token("06000003"), 16), sep=", ")
        refused E2, line 1 06000003 16
        """
        if self.kind == "refused":
            return f"{chr(self.detail >> 8)}{self.detail & 0xFF}"
        return f"X{self.detail}" if self.kind == "trapped" else ""

    def __str__(self) -> str:
        task = str(self.task) if self.task else ""
        detail = str(self.detail) if self.kind in ("line", "applied") else self.rule
        method = str(self.method) if self.method is not None else ""
        return " ".join(part for part in (self.kind, task, method, detail) if part)


class Remapped(NamedTuple):
    """A frame that goes on in the newest body of its method: from one offset at another."""

    method: Token
    before: int
    after: int


class Session(_library.Uncopied):
    """Tasks over a base and the deltas that are applied on the way.

    The base is given as to `Module`. `limit` is how many events the library keeps at a time, 4 at least; none is
    lost, since this class takes them out whenever there are many. Any thread may use a session, as a `Module`.

    Raises `Refused` where the base breaks a rule, OSError where a file can't be read, ValueError of a limit that is
    too small. What a session is asked raises ValueError where it is closed, and MemoryError where memory runs out.

    >>> session = Session("examples/bank/bank")
    >>> task = session.spawn("06000004")
    >>> session.step(task, 1000).state, session.output()[:2]
    ('ended', ['task 1 writes "balance:\\\\x0a"', 'task 1 writes "40\\\\x0a"'])
    >>> session.step(2)
    Traceback (most recent call last):
    enc.NotFound: there is no task 2: there is 1
    """

    def __init__(self, base: Source, pdb: Optional[Source] = None, limit: int = 1 << 16) -> None:
        if not _STEP_EVENTS <= limit < 1 << 32:
            raise ValueError(f"a limit of {limit} events: it is {_STEP_EVENTS} at least")
        files = _files.base_files(base, pdb)
        self._limit = limit
        # What was taken out of the library. A buffer stands here before its call, so that what that takes is kept
        # though a signal ends what Python does behind it.
        self._events: List[Buffer] = []
        self._lines: List[Buffer] = []
        self._handle = Handle(_library.library(), "enc_session_close", f"the session {files.names[0] or 'of bytes'}")
        refusal = _library.RefusalNumbers()
        arguments = _library.given((files.first, files.pdb))
        status = self._handle.call("enc_session_open", *arguments, u32(limit), ctypes.byref(refusal))
        self._judged(status, refusal, "opening it", files)

    def _judged(self, status: int, refusal: Any, about: str, files: _files.Files) -> None:
        if status == REFUSED:
            raise refused_of(self._handle, refusal, "", files)
        if status != DONE:
            _library.fail(status, about)

    def __enter__(self) -> "Session":
        return self

    def __exit__(
        self, kind: Optional[Type[BaseException]], error: Optional[BaseException], trace: Optional[TracebackType]
    ) -> None:
        self.close()

    def __del__(self) -> None:
        if "_handle" in self.__dict__:
            self._handle.close()

    def __repr__(self) -> str:
        return f"<{self._handle.about}>"

    def close(self) -> None:
        """Frees what the session holds; a closed one may be closed again."""
        self._handle.close()

    def _call(self, name: str, *arguments: Any) -> int:
        """The status of a call that adds events: where there is no room for them, they are taken out first."""
        with self._handle.lock:
            status = self._handle.call(name, *arguments)
            if status == SHORT:
                self._take(self._events, "enc_events", _library.EventNumbers)
                status = self._handle.call(name, *arguments)
            return status

    def _take(self, buffers: List[Buffer], name: str, item: Any) -> None:
        """Takes what a call takes out of the library for good, behind what was taken before."""
        buffers.append(Buffer.of(item))
        status = self._handle.fill(name, (), buffers[-1:])
        if status != DONE:
            _library.fail(status, f"what {name} takes")

    # What changes it.

    def spawn(self, method: Which) -> int:
        """Starts a task with a static method without parameters, and tells its number, from 1. Raises `Limit` where
        there are 64, ValueError where a task can't begin with the method, `NotFound` where there is no such row."""
        token, task = token_of(method), u32()
        status = self._call("enc_spawn", u32(token), ctypes.byref(task))
        if status == LIMIT:
            raise Limit("there are 64 tasks")
        if status == UNLIKE:
            raise ValueError(f"a task can't begin with {token}")
        if status != DONE:
            _library.fail(status, f"a task of {token}")
        return task.value

    def step(self, task: int, count: int = 1) -> Stepped:
        """Makes so many steps of a task, or fewer where it ends or traps. Raises `NotFound` where no task has the
        number, ValueError of a number below 0."""
        if count < 0:
            raise ValueError(f"{count} steps")
        ran = 0
        while True:
            part = min(count - ran, self._limit // _STEP_EVENTS)
            stepped = self._step(task, part)
            ran += stepped.ran
            if stepped.state != "running" or stepped.ran < part or ran >= count:
                return stepped._replace(ran=ran)

    def _step(self, task: int, count: int) -> Stepped:
        numbers = _library.SteppedNumbers()
        status = self._call("enc_step", u32(number(task)), u32(count), ctypes.byref(numbers))
        if status == ABSENT:
            raise self._no_task(task)
        if status != DONE:
            _library.fail(status, f"the task {task}")
        return _stepped(numbers)

    def apply(self, meta: "Source | Delta", il: Optional[Source] = None, pdb: Optional[Source] = None) -> None:
        """Applies a delta, given as to `Module.apply`. Raises what that does; a refused one changes nothing."""
        files = _files.delta_files(meta, il, pdb)
        refusal = _library.RefusalNumbers()
        status = self._call("enc_session_apply", *_library.given(files[:3]), ctypes.byref(refusal))
        self._judged(status, refusal, "applying a delta", files)

    def remap(self, task: int, map: Iterable[Tuple[int, int]]) -> Remapped:
        """Lets the innermost frame of a task go on in the newest body of its method, at the offset to which the map
        leads. Raises `RemapRefused` where it may not, with the rule (Q1 to Q7), and then nothing changes."""
        pairs, numbers = pairs_of(map), _library.RemappedNumbers()
        status = self._call("enc_remap", u32(number(task)), pairs, len(pairs), ctypes.byref(numbers))
        if status != DONE:
            _library.fail(status, f"a remap of the task {task}")
        if numbers.rule:
            code = f"Q{numbers.rule}"
            raise RemapRefused(code, f"task {task}", REMAPS.get(code, ""))
        return Remapped(Token(numbers.method), numbers.before, numbers.after)

    # What it tells.

    def task(self, task: int) -> Stepped:
        """How it stands with a task; `ran` is 0. Raises `NotFound` where no task has the number."""
        try:
            found = self._handle.told(f"the task {task}", "enc_task", _library.SteppedNumbers, u32(number(task)))
        except NotFound:
            raise self._no_task(task) from None
        return _stepped(found)._replace(ran=0)

    def _no_task(self, task: int) -> NotFound:
        """What says that no task has a number."""
        there, numbers = 0, _library.SteppedNumbers()
        while self._handle.call("enc_task", u32(there + 1), ctypes.byref(numbers)) == DONE:
            there += 1
        has = {0: "there is none", 1: "there is 1"}.get(there, f"there are {there}, from 1")
        return NotFound(f"there is no task {task}: {has}")

    def frames(self, task: int) -> List[Frame]:
        """The frames of a task, from the outermost. Raises `NotFound` where no task has the number."""
        try:
            found = self._handle.copied(f"the task {task}", "enc_frames", _library.FrameNumbers, u32(number(task)))
        except NotFound:
            raise self._no_task(task) from None
        return [
            Frame(Token(f.method), f.generation, f.offset, f.line, f.arguments, f.locals, f.stack) for f in found
        ]

    def values(self, task: int, frame: int, which: str) -> List[Slot]:
        """The `arguments`, the `locals` or the `stack` (from the bottom) of a frame, counted from 0, the outermost.

        Raises `NotFound` where there is no such task or frame, ValueError of another word."""
        if which not in PARTS:
            raise ValueError(f"a frame has {', '.join(PARTS)}, and no {which}")
        about = f"the frame {frame} of the task {task}"
        arguments = (u32(number(task)), u32(number(frame)), u32(PARTS.index(which)))
        with self._handle.lock:
            try:
                found = self._handle.copied(about, "enc_values", _library.ValueNumbers, *arguments)
            except NotFound:
                there = len(self.frames(task))
                raise NotFound(f"the task {task} has no frame {frame}: it has {there}, from 0") from None
        return [_slot(value) for value in found]

    def state(self) -> str:
        """The state of all tasks, objects and static fields, as `{"do": "state"}` of a script prints it."""
        return text_of(self._handle.copied("the state", "enc_state", ctypes.c_char))

    def events(self) -> List[Event]:
        """What happened since this was asked last."""
        with self._handle.lock:
            self._take(self._events, "enc_events", _library.EventNumbers)
            events = [_event(event) for buffer in self._events for event in buffer.taken()]
            self._events.clear()
            return events

    def output(self) -> List[str]:
        """The lines that tasks wrote since this was asked last, such as `task 1 writes "old\\x0a"`, `task 1 ended`."""
        with self._handle.lock:
            self._take(self._lines, "enc_output", ctypes.c_char)
            text = text_of(b"".join(buffer.taken() for buffer in self._lines))
            self._lines.clear()
            return text.splitlines()


def _stepped(numbers: Any) -> Stepped:
    trap = f"X{numbers.trap}" if numbers.state == STATES.index("trapped") else None
    return Stepped(numbers.ran, STATES[numbers.state], trap, TRAPS.get(trap, "") if trap else "")


def _slot(value: Any) -> Slot:
    kind = _KINDS[value.kind]
    return Slot(kind, value.object if kind == "object" else value.number)


def _event(event: Any) -> Event:
    return Event(EVENTS[event.kind], event.task, Token(event.method) if event.method else None, event.detail)
