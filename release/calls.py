"""release/calls.py LIBENC.so: calls of the C library as C makes them, over the example bases and deltas: what each answers. `./test`
runs it. The last line is how many were asked; the status is 1 where one answered something else, which is told."""
import ctypes
import json
import os
import re
import sys

EXAMPLES = os.path.join(os.path.dirname(os.path.abspath(__file__)), "..", "examples")
u8, u32, size_t = ctypes.c_uint8, ctypes.c_uint32, ctypes.c_size_t
STRING = 0x01000002


class Refusal(ctypes.Structure):
    _fields_ = [(n, u8) for n in ("letter", "rule", "place", "stream", "table", "column")] + [("row", u32), ("entry", u32)]


class Move(ctypes.Structure):
    _fields_ = [("before", u32), ("after", u32)]


class Place(ctypes.Structure):
    _fields_ = [("generation", u32), ("position", u32)]


class Stepped(ctypes.Structure):
    _fields_ = [(n, u32) for n in ("ran", "state", "trap")]


class Pair(ctypes.Structure):
    _fields_ = [("start", u32), ("to", u32)]


class Remapped(ctypes.Structure):
    _fields_ = [(n, u32) for n in ("rule", "method", "start", "to")]


class Frame(ctypes.Structure):
    _fields_ = [(n, u32) for n in ("method", "generation", "offset", "line", "arguments", "locals", "stack")]


class Value(ctypes.Structure):
    _fields_ = [("kind", u32), ("object", u32), ("number", ctypes.c_int64)]


class Event(ctypes.Structure):
    _fields_ = [(n, u32) for n in ("kind", "task", "method", "detail")]


def read(name):
    with open(os.path.join(EXAMPLES, name), "rb") as file:
        return file.read()


def ask_session(enc, is_so):
    """What examples/scripts/remap.json does, and the calls that fail on the way."""
    session, refusal, stepped, remapped = ctypes.c_void_p(), Refusal(), Stepped(), Remapped()
    at, why, told, size, task = (ctypes.byref(x) for x in (session, refusal, stepped, size_t(), u32()))
    bytes_of = lambda name: (lambda b: (b, size_t(len(b))))(read("bank/" + name))
    opened = lambda limit: enc.enc_session_open(at, *bytes_of("bank.dll"), *bytes_of("bank.pdb"), u32(limit), why)
    applied = lambda n: enc.enc_session_apply(at, *bytes_of(f"bank{n}.meta"), *bytes_of(f"bank{n}.il"), *bytes_of(f"bank{n}.pdb"), why)
    step = lambda number, count: (enc.enc_step(at, u32(number), u32(count), told), stepped.ran, stepped.state)
    is_so("a step of a closed session", step(1, 1)[0], 7)
    is_so("a session without room for a step", opened(3), 14)
    is_so("a session", opened(200), 0)
    is_so("the session once more", opened(200), 8)
    is_so("a task with a constructor", enc.enc_spawn(at, u32(0x06000001), task), 11)
    is_so("a task", (enc.enc_spawn(at, u32(0x06000004), task), task._obj.value), (0, 1))
    is_so("a step of no task", step(2, 1)[0], 10)
    is_so("more steps than there is room for", step(1, 50)[0], 9)
    is_so("more steps than there will be room for", step(1, 51)[0], 13)
    is_so("36 steps", step(1, 36), (0, 36, 0))
    is_so("the second delta first", (applied(2), refusal.letter, refusal.rule), (1, ord("E"), 2))
    is_so("both deltas", (applied(1), applied(2)), (0, 0))
    frames, values = (Frame * 2)(), (Value * 2)()
    dated = lambda: (enc.enc_frames(at, u32(1), frames, size_t(2), size), *((f.method, f.generation, f.offset, f.line) for f in frames))
    is_so("two frames", dated(), (0, (0x06000004, 0, 28, 27), (0x06000002, 0, 15, 10)))
    is_so("arguments", (enc.enc_values(at, u32(1), u32(1), u32(0), values, size_t(2), size), values[0].kind, values[1].number), (0, 3, 2))
    pairs = (Pair * 2)((1, 1), (15, 15))
    is_so("a remap", (enc.enc_remap(at, u32(1), pairs, size_t(2), ctypes.byref(remapped)), remapped.rule, remapped.start, remapped.to), (0, 0, 15, 15))
    is_so("the frame behind it", dated(), (0, (0x06000004, 0, 28, 27), (0x06000002, 2, 15, 11)))
    events = (Event * 30)()
    is_so("a short buffer of events", (enc.enc_events(at, events, size_t(29), size), size._obj.value), (9, 30))
    is_so("all events", (enc.enc_events(at, events, size_t(30), size), events[0].kind, events[29].kind, events[29].detail), (0, 1, 5, 2))
    is_so("no event more", (enc.enc_events(at, events, size_t(30), size), size._obj.value), (0, 0))
    is_so("the rest of the steps", step(1, 49), (0, 28, 1))
    is_so("a step of a task that has ended", step(1, 1), (0, 0, 1))
    text = ctypes.create_string_buffer(200)
    is_so("the lines", (enc.enc_output(at, text, size_t(200), size), text.value.split(b"\n")[1:4:2], text.value.split(b"\n")[-2]),
          (0, [b'task 1 writes "40\\x0a"', b'task 1 writes "42\\x0a"'], b"task 1 ended"))
    is_so("no line more", (enc.enc_output(at, text, size_t(200), size), size._obj.value), (0, 0))
    is_so("closing a session", (enc.enc_session_close(at), enc.enc_session_close(at)), (0, 7))


def listed():
    """The calls that docs/library.md says to answer 10, and those that it says to answer 11."""
    with open(os.path.join(EXAMPLES, "..", "docs", "library.md"), encoding="utf-8") as file:
        table = file.read().partition("## Which call answers 10 and 11\n")[2].partition("\n\n## ")[0]
    rows = [line.split("|")[1:4] for line in table.splitlines() if line.startswith("| `")]
    said = lambda i: (call for row in rows if row[i].strip() for call in re.findall("enc_[a-z_]+", row[0]))
    return [sorted(said(1)), sorted(said(2))]


ABSTRACT = b"""{"encId": "11111111-2222-3333-4444-555555555555", "edits": [
    {"do": "add", "table": "TypeDef", "cells": [129, "Bare", "", "01000001"]},
    {"do": "add", "table": "MethodDef", "owner": "02000003", "cells": [0, 1478, "Bare", "200001"]}]}"""


def ask_statuses(enc, is_so):
    """The statuses 10 and 11 of each call, as docs/library.md lists them, of a module with a method without a body."""
    handle, session, refusal = ctypes.c_void_p(), ctypes.c_void_p(), Refusal()
    stepped, place, head = Stepped(), Place(), (u32 * 3)()
    at, of_session, why, count, size = (ctypes.byref(x) for x in (handle, session, refusal, u32(), size_t()))
    base, pair = read("k.dll"), (Pair * 1)((0, 0))
    buffers = [(u8 * 4096)() for _ in range(3)]
    part = lambda b: (b, size_t(4096 // 64), size)
    files = [p for b in buffers for p in (b, size_t(4096), ctypes.byref(size_t()))]
    is_so("k opened", enc.enc_open(at, base, size_t(len(base)), None, size_t(0), why), 0)
    is_so("a type with a method without a body", enc.enc_write(at, ABSTRACT, size_t(len(ABSTRACT)), *files, why), 0)
    given = [p for b, s in zip(buffers, files[2::3]) for p in (b, s._obj)]
    is_so("it applied", enc.enc_apply(at, *given, why), 0)
    opened = enc.enc_session_open(of_session, base, size_t(len(base)), None, size_t(0), u32(99), why)
    is_so("k as a session", opened, 0)
    is_so("its task", enc.enc_spawn(of_session, u32(0x06000002), count), 0)
    field, method, bare, none = (u32(x) for x in (0x02000002, 0x06000001, 0x06000003, 0x06000063))
    cells, zero = ("number", "token", "text", "blob", "guid"), (u32(0), u8(0))
    ways = {
        **{f"enc_{name}": [(none, u8(0)), (method, u8(9))] for name in cells},
        "enc_locate": [(none,)],
        "enc_row": [(none,)],
        "enc_locate_heap": [(u32(0), u32(1 << 30)), (u32(5), u32(0)), (u32(8), u32(0))],
        "enc_owner": [(none,), (u32(1),)],
        "enc_kids": [(none, u8(8)), (field, u8(8)), (method, u8(6))],
        "enc_code": [(none,), (bare,), (field,)],
        "enc_clauses": [(none,), (bare,), (field,)],
        "enc_points": [(none,), (field,)],
        "enc_document": [(none, u32(1)), (method, u32(1)), (field, u32(1))],
        "enc_user_text": [(u32(1 << 20),)],
        "enc_find_type": [(field, b"", size_t(0), b"Nothing", size_t(7))],
        "enc_find_member": [(none, u8(8), b"", size_t(0)), (method, u8(6), b"", size_t(0))],
        "enc_may_remap": [(token, u32(1), u32(0), pair, size_t(1)) for token in (none, bare, field)],
        "enc_spawn": [(none,), (field,)],
        "enc_step": [(u32(2), u32(1))],
        "enc_task": [(u32(2),)],
        "enc_frames": [(u32(2),)],
        "enc_values": [(u32(2), u32(0), u32(0)), (u32(1), u32(9), u32(0)), (u32(2), u32(0), u32(3))],
    }
    told = {"enc_locate": place, "enc_locate_heap": place, "enc_step": stepped, "enc_task": stepped}
    numbers = {"enc_number", "enc_token", "enc_owner", "enc_find_type", "enc_may_remap", "enc_spawn"}
    statuses = {10: {}, 11: {"enc_words": 1}}
    for name, asked in ways.items():
        first = of_session if name in ("enc_spawn", "enc_step", "enc_task", "enc_frames", "enc_values") else at
        end = (ctypes.byref(told[name]),) if name in told else (count,) if name in numbers else part(buffers[0])
        for words in asked:
            status = getattr(enc, name)(first, *words, *end, *((ctypes.byref(head),) if name == "enc_code" else ()))
            statuses.setdefault(status, {})[name] = 1
    answered = [sorted(statuses.pop(status)) for status in (10, 11)]
    is_so("the calls that answer 10 and 11, as docs/library.md lists them", answered, listed())
    is_so("other statuses", statuses, {})
    points = enc.enc_points(at, bare, *part(buffers[0]))
    is_so("the points of a method without a body", (points, size._obj.value), (0, 0))
    for table in (0x30, 0x70, 0xC8):
        count._obj.value = 1
        is_so(f"rows of no table, {table:02x}", (enc.enc_count(at, u8(table), count), count._obj.value), (0, 0))
    for outer in (0, 0x01000000, 0x06000000, 0xFF000000):
        found = enc.enc_find_type(at, u32(outer), b"", size_t(0), b"Bare", size_t(4), count)
        is_so(f"a type in none, {outer:08x}", (found, count._obj.value), (0, 0x02000003))
    size._obj.value = 0
    short = enc.enc_code(at, method, None, size_t(0), size, ctypes.byref(head))
    is_so("the head where the code has no room", (short, size._obj.value > 0, head[0]), (9, True, 8))
    is_so("closing both", (enc.enc_close(at), enc.enc_session_close(of_session)), (0, 0))


def body_of(number, code, clauses):
    """An edit list that replaces the body of k's first method, with a point at each instruction, a line for each."""
    points = [{"at": i, "document": 1, "from": [i + 1, 1], "to": [i + 1, 2]} for i in range(len(code))]
    document = {"name": "/k.cs", "language": "3f5162f8-07c6-11d3-9053-00c04fa302a1", "source": ""}
    edit = {"do": "body", "method": "06000001", "code": {"max": 1, "code": code, "clauses": clauses}, "points": points}
    encid = f"11111111-2222-3333-4444-55555555555{number}"
    return json.dumps({"encId": encid, "documents": [document], "edits": [edit]}).encode()


def ask_handlers(enc, is_so):
    """Rule 7 of enc_may_remap: where a map leads lies in a handler, at its beginning or behind that."""
    handle, refusal, rule = ctypes.c_void_p(), Refusal(), u32()
    at, why = ctypes.byref(handle), ctypes.byref(refusal)
    base, buffers, sizes = read("k.dll"), [(u8 * 4096)() for _ in range(3)], [size_t() for _ in range(3)]
    files = [part for b, s in zip(buffers, sizes) for part in (b, size_t(4096), ctypes.byref(s))]
    is_so("k opened", enc.enc_open(at, base, size_t(len(base)), None, size_t(0), why), 0)
    guarded = [["nop"], ["leave.s", 5], ["nop"], ["nop"], ["endfinally"], ["ret"]]
    finally_ = {"kind": "finally", "try": [0, 2], "handler": [2, 5]}
    for text in (body_of(1, [["nop"], ["ret"]], []), body_of(2, guarded, [finally_])):
        is_so("a body written", enc.enc_write(at, text, size_t(len(text)), *files, why), 0)
        given = [part for b, s in zip(buffers, sizes) for part in (b, s)]
        is_so("it applied", enc.enc_apply(at, *given, why), 0)
    for to, wanted in ((0, 0), (1, 0), (2, 5), (3, 7), (4, 7), (5, 7), (6, 0)):
        pair = (Pair * 1)((0, to))
        status = enc.enc_may_remap(at, u32(0x06000001), u32(1), u32(0), pair, size_t(1), ctypes.byref(rule))
        is_so(f"a frame moved to offset {to} of a body with a handler from 3 to 6", (status, rule.value), (0, wanted))
    is_so("closing", enc.enc_close(at), 0)


def main(library):
    enc = ctypes.CDLL(library)
    handle, refusal, count, size = ctypes.c_void_p(), Refusal(), u32(), size_t()
    at, why = ctypes.byref(handle), ctypes.byref(refusal)
    base, delta, il = read("m.dll"), read("d1.meta"), read("d1.il")
    asked, wrong = 0, 0

    def is_so(what, got, wanted):
        nonlocal asked, wrong
        asked += 1
        if got != wanted:
            wrong += 1
            print(f"{what}: {got}, not {wanted}")

    opened = lambda b: enc.enc_open(at, b, size_t(len(b)), b"", size_t(0), why)
    applied = lambda m, i: enc.enc_apply(at, m, size_t(len(m)), i, size_t(len(i)), b"", size_t(0), why)
    is_so("the count of a closed handle", enc.enc_count(at, u8(1), ctypes.byref(count)), 7)
    is_so("a delta as a base", opened(delta), 1)
    is_so("the base", opened(base), 0)
    is_so("the base once more", opened(base), 8)
    is_so("the base as a delta", applied(base, bytes(4)), 1)
    is_so("generations before the delta", (enc.enc_generations(at, ctypes.byref(count)), count.value), (0, 1))
    checked = lambda m, i: enc.enc_check(at, m, size_t(len(m)), i, size_t(len(i)), b"", size_t(0), why)
    is_so("the delta checked", checked(delta, il), 0)
    is_so("nothing added", (enc.enc_generations(at, ctypes.byref(count)), count.value), (0, 1))
    is_so("the delta", applied(delta, il), 0)
    is_so("the delta checked once more", (checked(delta, il), chr(refusal.letter), refusal.rule), (1, "E", 2))
    is_so("the delta once more", (applied(delta, il), chr(refusal.letter), refusal.rule), (1, "E", 2))
    is_so("generations behind it", (enc.enc_generations(at, ctypes.byref(count)), count.value), (0, 2))
    is_so("rows of TypeRef", (enc.enc_count(at, u8(1), ctypes.byref(count)), count.value), (0, 2))
    place, number = Place(), u32()
    is_so("the place of the new row", (enc.enc_locate(at, u32(STRING), ctypes.byref(place)), place.generation, place.position), (0, 1, 1))
    is_so("its scope", (enc.enc_token(at, u32(STRING), u8(0), ctypes.byref(number)), number.value), (0, 0x23000001))
    is_so("a text asked for as a token", enc.enc_token(at, u32(STRING), u8(1), ctypes.byref(number)), 11)
    is_so("a row that isn't there", enc.enc_token(at, u32(STRING + 1), u8(0), ctypes.byref(number)), 10)
    short, name, row = ctypes.create_string_buffer(5), ctypes.create_string_buffer(6), ctypes.create_string_buffer(88)
    is_so("a short buffer", (enc.enc_text(at, u32(STRING), u8(1), short, size_t(5), ctypes.byref(size)), size.value, short.raw), (9, 6, bytes(5)))
    is_so("its name", (enc.enc_text(at, u32(STRING), u8(1), name, size_t(6), ctypes.byref(size)), name.raw), (0, b"String"))
    is_so("its row as it is printed", (enc.enc_row(at, u32(STRING), row, size_t(88), ctypes.byref(size)), size.value, row.raw[:16]), (0, 88, b"01000002 TypeRef"))
    sizes = [size_t() for _ in range(3)]

    def written(call, *given, count, lengths=(0, 0, 0), kinds=(u8, u8, u8)):
        """What a call answers that writes files, and what the buffers have."""
        buffers = [(kind * length)() for kind, length in zip(kinds, lengths)][:count]
        parts = [p for b, length, s in zip(buffers, lengths, sizes) for p in (b, size_t(length), ctypes.byref(s))]
        status = call(at, *given, *parts, why)
        return status, [bytes(b) for b in buffers]

    def whole(what, call, *given, count, kinds=(u8, u8, u8)):
        """The files of a call, which is asked for their sizes, with one buffer too short, and with room for all."""
        is_so(f"the sizes of {what}", written(call, *given, count=count, kinds=kinds)[0], 9)
        lengths = [s.value for s in sizes]
        lengths[0] -= 1
        is_so(f"a short buffer for {what}", (lambda s, files: (s, any(any(f) for f in files)))(*written(call, *given, count=count, lengths=lengths, kinds=kinds)), (9, False))
        lengths[0] += 1
        status, files = written(call, *given, count=count, lengths=lengths, kinds=kinds)
        is_so(what, status, 0)
        return files

    image, pdb = whole("the saved module", enc.enc_save, count=2)
    second = ctypes.c_void_p()
    is_so("it opened", enc.enc_open(ctypes.byref(second), image, size_t(len(image)), pdb, size_t(len(pdb)), why), 0)
    is_so("its rows of TypeRef", (enc.enc_count(ctypes.byref(second), u8(1), ctypes.byref(count)), count.value), (0, 2))
    is_so("it closed", enc.enc_close(ctypes.byref(second)), 0)
    image, pdb, moves = whole("the compacted module", enc.enc_compact, count=3, kinds=(u8, u8, Move))
    is_so("it opened", enc.enc_open(ctypes.byref(second), image, size_t(len(image)), pdb, size_t(len(pdb)), why), 0)
    is_so("it closed", enc.enc_close(ctypes.byref(second)), 0)
    is_so("a merge of one delta", written(enc.enc_merge, count=3)[0], 14)
    bad, good = b"{", b'{"encId":"11111111-2222-3333-4444-555555555555","edits":[]}'
    line = ctypes.create_string_buffer(8)
    is_so("a list that is no JSON", written(enc.enc_write, bad, size_t(len(bad)), count=3)[0], 1)
    is_so("its words", (enc.enc_words(why, line, size_t(8), ctypes.byref(size)), line.raw), (0, b"J1 json\n"))
    meta, code, pdb = whole("the delta of a list", enc.enc_write, good, size_t(len(good)), count=3)
    is_so("it applied", enc.enc_apply(at, meta, size_t(len(meta)), code, size_t(len(code)), pdb, size_t(len(pdb)), why), 0)
    meta, code, pdb = whole("the last two merged", enc.enc_merge, count=3)
    is_so("closing", enc.enc_close(at), 0)
    is_so("closing once more", (enc.enc_close(at), handle.value), (7, None))
    refusal, words = Refusal(letter=ord("E"), rule=16, place=10, table=6, row=1), ctypes.create_string_buffer(17)
    is_so("the words of a refusal", (enc.enc_words(ctypes.byref(refusal), words, size_t(17), ctypes.byref(size)), words.raw), (0, b"E16 06000001.RVA\n"))
    major, minor, patch = (int(n) for n in open(os.path.join(os.path.dirname(os.path.abspath(__file__)), "..", "VERSION")).read().split("."))
    is_so("the release", enc.enc_version(), (major << 16) + (minor << 8) + patch)
    is_so("the words of none", enc.enc_words(ctypes.byref(Refusal()), words, size_t(17), ctypes.byref(size)), 11)
    said = lambda letter, rule, place, table=0, column=0: enc.enc_words(ctypes.byref(Refusal(letter=ord(letter), rule=rule, place=place, table=table,
                                                                                             column=column, row=1)), words, size_t(17), ctypes.byref(size))
    is_so("the words of rules that there aren't", (said("F", 200, 0), said("F", 0, 0), said("E", 77, 9, 6), said("E", 7, 14)), (11, 11, 11, 11))
    is_so("the words of places that there aren't", (said("E", 16, 9, 0x77), said("F", 7, 10, 1, 3), said("F", 7, 11, 1), said("G", 1, 9, 6)), (11, 11, 11, 11))
    is_so("the words of a token of no table in EncMap", (said("E", 6, 9, 0x77), words.raw[:12]), (0, b"E6 77000001\n"))
    ask_session(enc, is_so)
    ask_statuses(enc, is_so)
    ask_handlers(enc, is_so)
    print(f"{asked} calls asked, {wrong} of them answered something else")
    return 1 if wrong else 0


if __name__ == "__main__":
    sys.exit(main(*sys.argv[1:]))
