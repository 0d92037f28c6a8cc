"""Tests of modules and sessions on several threads, and of signals in the middle of their calls. test.py runs them."""

import asyncio
import contextlib
import gc
import re
import shutil
import signal
import subprocess
import sys
import threading
import time
import unittest
import unittest.mock
from concurrent.futures import ThreadPoolExecutor

from testing import CHAINS, ROOT, every_token, has, needs, opened

import enc
from enc import _library

BANK, DELTAS = CHAINS[0]
NESTED = {
    "encId": "66666666-7777-8888-9999-aaaaaaaaaaaa",
    "edits": [
        {"do": "add", "table": "TypeDef", "cells": [1048578, "Inner", "", "01000001"]},
        {"do": "add", "table": "NestedClass", "cells": ["02000003", "02000002"]},
    ],
}


def texts(module):
    """What a module says: all rows, and the names of its methods and types."""
    names = [module.name(token) for table in ("TypeDef", "MethodDef") for token in module.tokens(table)]
    return [module.text(token) for token in module], names


def resident():
    """The bytes of memory that this process has."""
    with open("/proc/self/statm", encoding="ascii") as file:
        return int(file.read().split()[1]) * 4096


def on_a_thread(act):
    """Does something on a thread that ends, and gives what that was."""
    with ThreadPoolExecutor(1) as pool:
        return pool.submit(act).result(30)


@contextlib.contextmanager
def switching():
    """Threads that are switched as often as may be."""
    before = sys.getswitchinterval()
    sys.setswitchinterval(1e-6)
    try:
        yield
    finally:
        sys.setswitchinterval(before)


@contextlib.contextmanager
def behind_call(handle, count, act):
    """Does something behind so many calls of a handle, while what asked for them goes on."""
    call, left = handle.call, [count]

    def calling(name, *arguments):
        status = call(name, *arguments)
        left[0] -= 1
        if left[0] == 0:
            handle.call = call
            act()
        return status

    handle.call = calling
    try:
        yield
    finally:
        handle.call = call


class Threads(unittest.TestCase):
    """A module, a session, views and rows are usable from any thread."""

    @unittest.skipUnless(shutil.which("readelf"), "no readelf here")
    def test_the_library_has_nothing_that_is_of_a_thread_or_of_all_handles(self):
        words = ["readelf", "--segments", "--sections", "--wide", _library.library_path()]
        told = subprocess.run(words, capture_output=True, text=True, check=True).stdout
        self.assertNotIn("TLS", told.split("Key to Flags:")[0] + told.split("Program Headers:")[1])
        sizes = {name: int(size, 16) for name, size in re.findall(r"\] (\.\w+) +\w+BITS +\w+ \w+ (\w+) ", told)}
        # the one byte is where pointers to nothing point; it isn't written
        self.assertEqual((sizes.get(".data", 0), sizes.get(".bss", 0)), (0, 1))

    def test_a_pool_asks_one_module(self):
        module = opened(BANK, DELTAS)
        wanted = [(module[token], module.text(token), module.name(token)) for token in module]
        with ThreadPoolExecutor(8) as pool, switching():
            got = pool.map(lambda token: (module[token], module.text(token), module.name(token)), list(module))
            self.assertEqual(list(got), wanted)

    def test_a_pool_opens_modules_of_its_own(self):
        wanted = texts(opened(BANK, DELTAS))
        with ThreadPoolExecutor(8) as pool, switching():
            for got in pool.map(lambda _: texts(opened(BANK, DELTAS)), range(24)):
                self.assertEqual(got, wanted)

    @unittest.skipIf(sys.version_info < (3, 9), "no asyncio.to_thread here")
    def test_asyncio(self):
        async def ask():
            module = await asyncio.to_thread(enc.Module, BANK)
            for delta in DELTAS:
                await asyncio.to_thread(module.apply, delta)
            rows = await asyncio.gather(*(asyncio.to_thread(module.text, token) for token in module))
            await asyncio.to_thread(module.close)
            return rows

        self.assertEqual(asyncio.run(ask()), texts(opened(BANK, DELTAS))[0])

    def test_opened_on_a_thread_that_ended(self):
        module = on_a_thread(lambda: opened(BANK, DELTAS[:1]))
        self.assertEqual(module.apply(DELTAS[1]), 2)
        self.assertEqual(texts(module), texts(opened(BANK, DELTAS)))
        self.assertEqual(on_a_thread(lambda: module.at(1).name("06000003")), "Account.Print")

    def test_closed_on_another_thread(self):
        module = opened(BANK, DELTAS)
        view = module.at(1)
        on_a_thread(module.close)
        for act in (module.methods, view.methods, lambda: module.name("06000001"), lambda: view["06000001"]):
            with self.assertRaisesRegex(ValueError, "closed"):
                act()
        on_a_thread(module.close)

    def test_one_closes_while_others_ask(self):
        for _ in range(5):
            module = opened(BANK, DELTAS)
            wanted, wrong, ended = texts(module), [], []

            def ask(module=module, wanted=wanted, wrong=wrong, ended=ended):
                try:
                    while True:
                        wrong.extend([1] * (texts(module) != wanted))
                except ValueError:
                    ended.append(1)

            threads = [threading.Thread(target=ask) for _ in range(4)]
            with switching():
                for thread in threads:
                    thread.start()
                time.sleep(0.02)
                module.close()
                for thread in threads:
                    thread.join(30)
            self.assertEqual((wrong, len(ended)), ([], 4))

    def test_an_answer_is_of_one_generation(self):
        asked = ("06000002", "06000003", "02000002")
        known = {str(told(opened(BANK, DELTAS[:count]), asked)) for count in range(3)}
        seen = set()
        for _ in range(10):
            module, going = enc.Module(BANK), threading.Event()

            def ask(module=module, going=going):
                while not going.is_set():
                    seen.update(str(part) for part in told_one_by_one(module, asked))

            threads = [threading.Thread(target=ask) for _ in range(2)]
            with switching():
                for thread in threads:
                    thread.start()
                for delta in DELTAS:
                    module.apply(delta)
                going.set()
                for thread in threads:
                    thread.join(30)
        parts = {part for count in range(3) for part in map(str, told(opened(BANK, DELTAS[:count]), asked))}
        self.assertLessEqual(seen, parts)
        self.assertEqual(len(known), 3)

    def test_a_delta_that_comes_between_two_calls_waits(self):
        def told(module, token):
            row = module[token]
            return row.place, row.columns, row.children, row.text, [module.name(one) for one in row.children]

        for token in ("06000002", "06000003", "02000002"):
            known = [told(opened(BANK, DELTAS[:count]), token) for count in (1, 2)]
            for count in (1, 2, 3, 5, 8, 13):
                module = opened(BANK, DELTAS[:1])
                thread = threading.Thread(target=module.apply, args=(DELTAS[1],))
                with behind_call(module._handle, count, lambda thread=thread: (thread.start(), thread.join(0.02))):
                    row = module[token]
                    got = row.place, row.columns, row.children, row.text
                if thread.ident is not None:
                    thread.join(30)
                self.assertIn(got, [one[:4] for one in known])
                self.assertEqual(told(module, token), known[module.generation - 1])

    def test_nothing_is_leaked_when_threads_end(self):
        def leave():
            modules = [opened(BANK, DELTAS) for _ in range(20)]
            views = [module.at(1) for module in modules]
            return len(views)

        on_a_thread(leave)
        begun = resident()
        for _ in range(40):
            on_a_thread(leave)
        self.assertLess(resident() - begun, 12 << 20)

    def test_a_view_and_a_row_keep_their_module(self):
        module = opened(BANK, DELTAS)
        row, view, wanted = module["06000002"], module.at(0), module.text("06000002")
        del module
        gc.collect()
        self.assertEqual((row.text, view.count("MethodDef")), (wanted, 4))
        held = on_a_thread(lambda: [opened(BANK, DELTAS)["06000002"]])
        self.assertEqual(held[0].text, wanted)

    def test_a_program_that_ends_with_modules_open(self):
        lines = (
            "import enc, threading, time",
            f"kept = [enc.Module({BANK!r}) for _ in range(3)]; kept.append(kept)",
            "def ask():\n    while True: kept[0].methods()",
            "threading.Thread(target=ask, daemon=True).start()",
            "time.sleep(0.1)",
        )
        words = [sys.executable, "-c", "\n".join(lines)]
        around = {"PYTHONPATH": str(ROOT / "python"), "ENC_LIBRARY": _library.library_path()}
        made = subprocess.run(words, env=around, capture_output=True, text=True, timeout=60)
        self.assertEqual((made.returncode, made.stderr), (0, ""))

    @needs("enc_session_open")
    def test_a_session_on_several_threads(self):
        for limit in (4, 1 << 16):
            session = enc.Session(BANK, limit=limit)
            task, going, events, lines = session.spawn("06000004"), threading.Event(), [], []

            def listen(session=session, going=going, events=events, lines=lines):
                while not going.is_set():
                    events.extend(session.events())
                    lines.extend(session.output())

            thread = threading.Thread(target=listen)
            with switching():
                thread.start()
                while session.step(task, 3).state == "running":
                    pass
                going.set()
                thread.join(30)
            one = enc.Session(BANK)
            one.step(one.spawn("06000004"), 1000)
            self.assertEqual((events + session.events(), lines + session.output()), (one.events(), one.output()))


def told_one_by_one(module, tokens):
    """What a module says of tokens, each by itself."""
    for token in tokens:
        row = module[token]
        yield row.token, row.place, row.columns, row.children, row.owner
        yield token, module.points(token) if token[:2] == "06" else []
        yield token, module.body(token).code if token[:2] == "06" else b""


def told(module, tokens):
    return list(told_one_by_one(module, tokens))


class Stopped(Exception):
    """What a signal's handler raises, as KeyboardInterrupt."""


class Signals(unittest.TestCase):
    """A signal in the middle of a call leaves the module whole."""

    def stopped_after(self, handle, count, act):
        """Does something, which ends behind a call of the library, as a signal ends it that came during that."""

        def stop():
            raise Stopped

        try:
            with behind_call(handle, count, stop):
                act()
        except Stopped:
            return True
        return False

    def is_whole(self, module, base, deltas):
        """Whether a module says what one says that has so many deltas, and its lock is free."""
        generation = on_a_thread(lambda: module.generation)
        return texts(module) == texts(opened(base, deltas[:generation]))

    def test_behind_each_call_of_apply(self):
        for count in range(1, 5):
            module = enc.Module(BANK)
            texts(module)
            self.stopped_after(module._handle, count, lambda module=module: module.apply(DELTAS[0]))
            self.assertEqual(module.generation, 1)
            self.assertTrue(self.is_whole(module, BANK, DELTAS))
            self.assertEqual(module.apply(DELTAS[1]), 2)
            self.assertTrue(self.is_whole(module, BANK, DELTAS))

    @needs("enc_write")
    def test_names_behind_a_delta_whose_apply_was_stopped(self):
        module = enc.Module("examples/k")
        delta = module.write(NESTED)
        self.assertEqual(module.name("02000002"), "P")
        self.assertTrue(self.stopped_after(module._handle, 1, lambda: module.apply(delta)))
        self.assertEqual(module.name("02000003"), "P/Inner")

    def test_behind_each_call_of_questions(self):
        acts = (texts, lambda module: module.body("06000002"), lambda module: module.points("06000002"))
        for act in (*acts, lambda module: module["02000002"], lambda module: module.find("Account.Print")):
            module = opened(BANK, DELTAS)
            for count in (1, 2, 3, 5, 8, 13):
                self.stopped_after(module._handle, count, lambda act=act, module=module: act(module))
                self.assertTrue(self.is_whole(module, BANK, DELTAS))

    def test_a_module_whose_opening_was_stopped_is_closed(self):
        closed = []

        class Watched(_library.Handle):
            def call(self, name, *arguments):
                super().call(name, *arguments)
                raise Stopped

            def close(self):
                closed.append(self._pointer.value is not None)
                super().close()

        with unittest.mock.patch("enc.module.Handle", Watched):
            self.assertRaises(Stopped, enc.Module, BANK)
            gc.collect()
        self.assertEqual(closed, [True])

    @needs("enc_session_open")
    def test_no_event_is_lost(self):
        one = enc.Session(BANK)
        one.step(one.spawn("06000004"), 1000)
        wanted = (one.events(), one.output())
        for count in (1, 2, 3, 5, 8, 13, 21):
            session, events, lines = enc.Session(BANK, limit=8), [], []
            task = session.spawn("06000004")
            while session.task(task).state == "running":
                self.stopped_after(session._handle, count, lambda s=session, t=task: s.step(t, 1000))
                session.step(task, 1)
            for last in (1, 2):
                self.stopped_after(session._handle, last, lambda s=session, to=events: to.extend(s.events()))
                self.stopped_after(session._handle, last, lambda s=session, to=lines: to.extend(s.output()))
            self.assertEqual((events + session.events(), lines + session.output()), wanted)

    @unittest.skipUnless(hasattr(signal, "setitimer"), "no timers here")
    def test_signals_at_any_moment(self):
        armed = False

        def stop(number, frame):
            # one that comes behind the calls is none of theirs
            if armed:
                raise Stopped

        before = signal.signal(signal.SIGALRM, stop)
        self.addCleanup(signal.signal, signal.SIGALRM, before)
        module, stops = enc.Module(BANK), 0
        for microseconds in range(20, 4000, 40):
            try:
                armed = True
                signal.setitimer(signal.ITIMER_REAL, microseconds / 1e6)
                texts(module)
                module.compacted() if has("enc_compact") else texts(module.at(0))
                if microseconds in (1020, 2020):
                    module.apply(DELTAS[module.generation])
                armed = False
            except Stopped:
                stops += 1
            finally:
                armed = False
                signal.setitimer(signal.ITIMER_REAL, 0)
            if microseconds % 400 == 20:
                self.assertTrue(self.is_whole(module, BANK, DELTAS))
        self.assertGreater(stops, 10)

    def test_a_handler_that_asks(self):
        module, told = opened(BANK, DELTAS), []

        def ask(number, frame):
            told.append(module.name("06000003"))

        before = signal.signal(signal.SIGUSR1, ask)
        self.addCleanup(signal.signal, signal.SIGUSR1, before)
        with module._handle.lock:
            signal.raise_signal(signal.SIGUSR1)
        self.assertEqual(told, ["Account.Print"])
        self.assertEqual(every_token(module), list(module))
