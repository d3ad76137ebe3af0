# SPDX-License-Identifier: Apache-2.0
"""Handlers of signals that come 3,000 times a second: those that raise, those that trace, and calls within calls."""

import gc
import signal
import subprocess
import sys
import textwrap
import threading
import time
import unittest

from otel_proved import Busy, Sender

from .support import PACKAGE_FOLDER, SHORT, Collector, PipelineTest, attributes_of

EACH_SECOND = 3000
SECONDS = 1.0
PATIENCE = 60


class Interruption(Exception):
    """What a handler raises."""


def is_in_package(frame):
    """Whether code of the package, or what it called, was interrupted."""
    while frame is not None:
        if "otel_proved" in frame.f_code.co_filename:
            return True
        frame = frame.f_back
    return False


class SignalTest(PipelineTest):
    """A test with signals."""

    def with_handler(self, handler, work):
        """Does some work over and over while signals come."""
        before = signal.signal(signal.SIGALRM, handler)
        signal.setitimer(signal.ITIMER_REAL, 1 / EACH_SECOND, 1 / EACH_SECOND)
        try:
            end, number = time.monotonic() + SECONDS, 0
            while time.monotonic() < end:
                work(number)
                number += 1
        finally:
            signal.setitimer(signal.ITIMER_REAL, 0)
            signal.signal(signal.SIGALRM, before)
        return number


class Handlers(SignalTest):
    settings = {"OTEL_SPAN_PROCESSOR": "batch", "OTEL_BSP_MAX_QUEUE_SIZE": "1000000"}

    def test_what_a_handler_raises_leaves_nothing_to_the_next_span(self):
        raised = []

        def handler(_number, frame):
            if is_in_package(frame):
                raised.append(1)
                raise Interruption

        def work(number):
            mine = {"first": number, "second": str(number), "third": [number]}
            try:
                span = self.pipeline.start_span(str(number), attributes=mine)
                span.set_attributes({"fourth": number})
                span.add_event("row", {"fifth": number})
                span.end()
            except Interruption:
                pass

        self.with_handler(handler, work)
        gc.collect()
        self.assertGreater(len(raised), 100)
        self.assertEqual(self.pipeline.counts().open_spans, 0)
        for name, span in self.exported().items():
            number = int(name)
            found = attributes_of(span)
            self.assertEqual(found.pop("fourth", number), number)
            self.assertEqual(found, {"first": number, "second": name, "third": [number]})
            for event in span["events"]:
                self.assertEqual(attributes_of(event), {"fifth": number})

    def test_other_threads_go_on(self):
        is_over, counts = threading.Event(), []

        def handler(_number, frame):
            if is_in_package(frame):
                raise Interruption

        def trace():
            count = 0
            while not is_over.is_set():
                self.pipeline.start_span("of a thread", attributes={"a": 1}).end()
                count += 1
            counts.append(count)

        def work(_number):
            try:
                self.pipeline.start_span("of the main thread", attributes={"a": 1}).end()
            except Interruption:
                pass

        threads = [threading.Thread(target=trace, daemon=True) for _ in range(2)]
        for thread in threads:
            thread.start()
        self.with_handler(handler, work)
        is_over.set()
        for thread in threads:
            thread.join(PATIENCE)
        self.assertEqual(len(counts), 2)
        self.assertEqual(self.pipeline.failed_calls, 0)


class Sending(SignalTest):
    settings = {"OTEL_BSP_SCHEDULE_DELAY": "1"}

    def test_what_a_handler_raises_stops_no_sender(self):
        collector = Collector()
        self.addCleanup(collector.stop)
        sender = Sender(self.pipeline, collector.url, SHORT)
        self.addCleanup(sender.close, 0)

        def handler(_number, frame):
            if is_in_package(frame):
                raise Interruption

        def work(number):
            try:
                self.pipeline.start_span(str(number)).end()
                sender.flush(0.001)
            except Interruption:
                pass

        self.with_handler(handler, work)
        self.pipeline.start_span("last").end()
        self.assertTrue(sender.flush(PATIENCE))
        self.assertIn("last", collector.spans)


PROGRAM = f"""
    import signal, threading, time
    from otel_proved import Pipeline

    pipeline = Pipeline({{"OTEL_SPAN_PROCESSOR": "batch", "OTEL_BSP_MAX_QUEUE_SIZE": "1000000"}}, 7)
    handled, is_over, traced, depth = [], threading.Event(), [], []

    def trace(name):
        with pipeline.span(name, attributes={{"a": 1, "b": name}}) as span:
            span.add_event("row", {{"a": 1}})

    def handler(*_):
        # Handlers within handlers, but not without end where the machine is slow.
        if len(depth) < 3:
            depth.append(1)
            trace("of a handler")
            handled.append(1)
            depth.pop()

    def work():
        while not is_over.is_set():
            trace("of a thread")
            traced.append(1)

    thread = threading.Thread(target=work)
    thread.start()
    signal.signal(signal.SIGALRM, handler)
    signal.setitimer(signal.ITIMER_REAL, 1 / {EACH_SECOND}, 1 / {EACH_SECOND})
    end = time.monotonic() + {SECONDS}
    while time.monotonic() < end:
        trace("of the main thread")
        traced.append(1)
    signal.setitimer(signal.ITIMER_REAL, 0)
    is_over.set()
    thread.join()
    counts = pipeline.counts()
    print(counts.open_spans, pipeline.failed_calls, counts.waiting_spans - len(handled) - len(traced), len(handled) > 9)
    pipeline.close()
"""


class Tracing(unittest.TestCase):
    def test_a_handler_that_traces_never_hangs(self):
        words = [sys.executable, "-B", "-c", textwrap.dedent(PROGRAM)]
        ran = subprocess.run(words, cwd=PACKAGE_FOLDER, timeout=PATIENCE, capture_output=True, text=True)
        self.assertEqual((ran.stdout, ran.stderr), ("0 0 0 True\n", ""))


class Within(PipelineTest):
    """A call within a call: as the garbage collector of some versions of Python makes one."""

    def within(self, name, call):
        """Has a call made in the middle of the next one of this name."""
        functions = self.pipeline._handle._functions
        real = functions[name]
        calls = [call]

        def interrupted(*arguments):
            if calls:
                calls.pop()()
            return real(*arguments)

        functions[name] = interrupted
        self.addCleanup(functions.__setitem__, name, real)

    def test_an_end_is_carried_out_by_whoever_leaves(self):
        ended, abandoned = self.pipeline.start_span("ended"), self.pipeline.start_span("abandoned")
        self.within("otel_start_with", lambda: (ended.end(5), abandoned.abandon()))
        with self.pipeline.span("whole", attributes={"a": 1, "b": 2}):
            self.assertEqual(self.pipeline.counts().open_spans, 1)
        found = self.exported()
        self.assertEqual((set(found), found["ended"]["endTimeUnixNano"]), ({"ended", "whole"}, "5"))
        self.assertEqual(attributes_of(found["whole"]), {"a": 1, "b": 2})
        self.assertEqual((self.pipeline.failed_calls, self.pipeline.counts().open_spans), (0, 0))

    def test_a_start_is_refused_and_counted(self):
        self.within("otel_start_with", lambda: self.pipeline.start_span("interrupts").end())
        with self.pipeline.span("whole", attributes={"a": 1, "b": 2}):
            pass
        self.assertEqual(attributes_of(self.exported()["whole"]), {"a": 1, "b": 2})
        self.assertEqual(self.pipeline.failed_calls, 1)
        self.assertIsInstance(self.pipeline.last_failure, Busy)

    def test_what_a_call_was_given_is_forgotten_where_it_raises(self):
        def fail():
            raise MemoryError

        self.within("otel_start_with", fail)
        self.assertRaises(MemoryError, self.pipeline.start_span, "fails", attributes={"stray": 1})
        with self.pipeline.span("next", attributes={"a": 1}) as span:
            span.add_event("row")
        self.assertEqual(attributes_of(self.exported()["next"]), {"a": 1})
