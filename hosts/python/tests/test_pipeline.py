# SPDX-License-Identifier: Apache-2.0
"""Pipelines: settings, threads, forks, and how they are closed."""

import contextlib
import ctypes
import gc
import json
import os
import sys
import threading
import traceback
import unittest
from unittest import mock

import otel_proved
from otel_proved import ROOT, BadSetting, Closed, Failed, OtherProcess, OutOfMemory, Pipeline, Remote, _fork

from .support import OUT_OF_MEMORY, SHORT, Collector, PipelineTest, attributes_of, spans_in


def in_child(work):
    """Runs work in a forked child, and answers its status: 0 where it raised nothing."""
    child = os.fork()
    if child == 0:
        status = 1
        try:
            work()
            status = 0
        except BaseException:
            traceback.print_exc()
            sys.stderr.flush()
        finally:
            os._exit(status)
    return os.waitstatus_to_exitcode(os.waitpid(child, 0)[1])


class Settings(unittest.TestCase):
    def test_unknown_ones_are_ignored_and_named(self):
        with Pipeline({"OTEL_SERVICE_NAME": "shop", "OTEL_BOGUS": "1"}) as pipeline:
            self.assertEqual(pipeline.ignored_settings, ["OTEL_BOGUS"])

    def test_a_queue_without_bounds_is_named_and_stops_nothing(self):
        with Pipeline({"OTEL_BSP_MAX_QUEUE_SIZE": "1000000000", "OTEL_SPAN_PROCESSOR": "batch"}) as pipeline:
            self.assertEqual(pipeline.ignored_settings, ["OTEL_BSP_MAX_QUEUE_SIZE"])
            for _ in range(3000):
                pipeline.start_span("a").end()
            # The default stands in its place.
            counts = pipeline.counts()
            self.assertEqual((counts.waiting_spans, counts.dropped_spans), (2048, 952))
            pipeline.flush()
            pipeline.drain()

    def test_a_long_list_of_ignored_ones_is_whole(self):
        names = [f"OTEL_BOGUS_{number}" for number in range(100)]
        with Pipeline(dict.fromkeys(names, "1")) as pipeline:
            self.assertEqual(sorted(pipeline.ignored_settings), sorted(names))

    def test_those_of_the_environment_but_the_sender_s(self):
        variables = {"OTEL_BOGUS": "1", "OTEL_EXPORTER_BOGUS": "1", "OTEL_LINES": "a\nb", "OTEL_BYTES": "\udcff"}
        variables["OTEL_C_DIR"] = "/nowhere"
        with mock.patch.dict(os.environ, variables), Pipeline() as pipeline:
            self.assertEqual(pipeline.ignored_settings, ["OTEL_BYTES", "OTEL_LINES", "OTEL_BOGUS"])

    def test_the_resource_says_what_the_sdk_is(self):
        def said(pipeline):
            pipeline.start_span("a").end()
            resource = json.loads(pipeline.close()[0])["resourceSpans"][0]["resource"]
            found = attributes_of(resource)
            return [found[f"telemetry.sdk.{it}"] for it in ("name", "version", "language")], found

        wanted = ["otel_proved", otel_proved.__version__, "python"]
        self.assertEqual(said(Pipeline({}))[0], wanted)
        for settings in ({"OTEL_RESOURCE_ATTRIBUTES": "a=b,telemetry.sdk.language=mine"},):
            about, found = said(Pipeline(settings))
            self.assertEqual((about, found["a"]), ([*wanted[:2], "mine"], "b"))
            with mock.patch.dict(os.environ, settings):
                self.assertEqual(said(Pipeline())[0], about)

    def test_what_cannot_be_a_line_is_an_error(self):
        for name, value in (("", "1"), ("OTEL=", "1"), ("OTEL\n", "1"), ("OTEL_A", "1\nOTEL_B=2")):
            self.assertRaises(BadSetting, Pipeline, {name: value})
        self.assertRaises(TypeError, Pipeline, {"OTEL_A": 1})

    def test_seeds(self):
        for seed in (0, 2**64 - 1):
            ids = []
            for _ in range(2):
                with Pipeline({}, seed) as pipeline:
                    ids.append(pipeline.start_span("same").context)
            self.assertEqual(*ids)
        self.assertRaises(ValueError, Pipeline, {}, -1)
        self.assertRaises(ValueError, Pipeline, {}, 2**64)
        self.assertRaises(TypeError, Pipeline, {}, "1")
        with Pipeline({}) as one, Pipeline({}) as other:
            self.assertNotEqual(one.start_span("a").context, other.start_span("a").context)


class Closing(PipelineTest):
    def test_the_lines_that_nobody_drained_come_back(self):
        self.pipeline.start_span("kept").end()
        self.pipeline.start_span("open")
        self.assertEqual(list(spans_in(self.pipeline.close())), ["kept"])
        self.assertEqual(self.pipeline.close(), [])

    def test_a_closed_pipeline_takes_calls_on_spans(self):
        span = self.pipeline.start_span("open")
        self.pipeline.close()
        span.set_attribute("key", 1)
        span.end()
        with self.pipeline.span("late"):
            pass
        self.assertEqual(self.pipeline.failed_calls, 3)
        self.assertIsInstance(self.pipeline.last_failure, Closed)
        for call in (self.pipeline.flush, self.pipeline.run, self.pipeline.drain, self.pipeline.counts):
            self.assertRaises(Closed, call)

    def test_after_a_shutdown_nothing_is_exported(self):
        self.pipeline.start_span("before").end()
        self.pipeline.shutdown()
        with self.pipeline.span("after") as span:
            span.set_attribute("key", 1)
        self.assertRaises(Failed, self.pipeline.shutdown)
        self.assertEqual(list(spans_in(self.pipeline.drain())), ["before"])
        self.assertEqual(self.pipeline.counts().open_spans, 0)

    def test_after_a_shutdown_a_parent_is_passed_on(self):
        remote = Remote("00-0af7651916cd43dd8448eb211c80319c-00f067aa0ba902b7-01", "a=1", "user=ada")
        parent = self.pipeline.start_span("before")
        self.pipeline.shutdown()
        for given, wanted in ((remote, remote), (parent, parent.as_remote()), (ROOT, Remote())):
            span = self.pipeline.start_span("after", parent=given)
            child = self.pipeline.start_span("child", parent=span)
            self.assertEqual((span.headers(), child.headers()), (wanted, wanted))
            self.assertFalse(span.is_recording or child.is_recording)
        parent.end()
        self.assertEqual((self.pipeline.counts().open_spans, self.pipeline.failed_calls), (0, 0))

    def test_a_pipeline_that_is_forgotten_is_closed(self):
        pipeline = Pipeline({})
        functions = pipeline._handle._functions
        closed = []
        real = functions["otel_close"]
        with mock.patch.dict(functions, {"otel_close": lambda at: closed.append(real(at))}):
            span = pipeline.start_span("open")
            del pipeline, span
            gc.collect()
        self.assertEqual(closed, [0])


class Undrained(PipelineTest):
    settings = {"OTEL_SPAN_PROCESSOR": "simple", "OTEL_C_MAX_UNDRAINED_SPANS": "3"}

    def test_what_nobody_drains_has_a_bound(self):
        self.assertEqual(self.pipeline.ignored_settings, [])
        for _ in range(5):
            self.pipeline.start_span("a").end()
        counts = self.pipeline.counts()
        self.assertEqual((counts.undrained_spans, counts.lost_batches, counts.lost_spans), (3, 2, 2))
        with self.assertLogs("otel_proved", "WARNING") as logged, contextlib.suppress(Failed):
            self.pipeline.run()
        self.assertIn("2 spans are lost: the queue was full, too many were not drained", logged.output[0])
        self.assertEqual(len(self.pipeline.drain()), 3)
        self.assertEqual(self.pipeline.counts()[-2:], (0, 0))

    def test_it_is_a_setting_of_the_environment(self):
        with mock.patch.dict(os.environ, {"OTEL_C_MAX_UNDRAINED_SPANS": "1", "OTEL_SPAN_PROCESSOR": "simple"}):
            with Pipeline() as pipeline:
                for _ in range(2):
                    pipeline.start_span("a").end()
                self.assertEqual((pipeline.ignored_settings, len(pipeline.drain())), ([], 1))


class Draining(PipelineTest):
    settings = {"OTEL_SPAN_PROCESSOR": "simple"}

    def end_all(self):
        """Lines that are longer than there is room for at first, among short ones."""
        for number in range(9):
            text = "x" * 500_000 if number % 3 == 1 else "short"
            self.pipeline.start_span(str(number), attributes={"text": text}).end()
        return [str(number) for number in range(9)]

    def test_long_lines_come_whole_and_in_order(self):
        wanted = self.end_all()
        lines = self.pipeline.drain()
        self.assertEqual([name for line in lines for name in spans_in([line])], wanted)
        self.assertEqual(self.pipeline.drain(), [])

    def test_what_came_before_an_error_is_not_lost(self):
        wanted = self.end_all()
        functions = self.pipeline._handle._functions
        real, answers = functions["otel_drain_some"], [None, OUT_OF_MEMORY] * 9

        def now_and_then(*arguments):
            return answers.pop() or real(*arguments)

        with mock.patch.dict(functions, {"otel_drain_some": now_and_then}):
            answers.append(None)
            first = self.pipeline.drain()
            self.assertRaises(OutOfMemory, self.pipeline.drain)
        self.assertTrue(first)
        lines = first + self.pipeline.drain()
        self.assertEqual([name for line in lines for name in spans_in([line])], wanted)


class Threads(PipelineTest):
    settings = {"OTEL_BSP_MAX_QUEUE_SIZE": "100000"}
    COUNT, EACH = 8, 200

    def work(self, number):
        for index in range(self.EACH):
            with self.pipeline.span(f"{number}-{index}", attributes={"number": number, "index": index}):
                with self.pipeline.span(f"in {number}-{index}", attributes={"number": number}) as span:
                    span.add_event("row", {"index": index})

    def test_spans_of_threads_do_not_mix(self):
        drained, is_over = [], threading.Event()

        def drain():
            while not is_over.wait(0.001):
                self.pipeline.flush()
                drained.extend(self.pipeline.drain())

        threads = [threading.Thread(target=self.work, args=(it,)) for it in range(self.COUNT)]
        draining = threading.Thread(target=drain)
        for thread in [draining, *threads]:
            thread.start()
        for thread in threads:
            thread.join()
        is_over.set()
        draining.join()
        self.pipeline.flush()
        found = spans_in(drained + self.pipeline.drain())
        self.assertEqual((len(found), self.pipeline.failed_calls), (2 * self.COUNT * self.EACH, 0))
        for number in range(self.COUNT):
            for index in range(self.EACH):
                outer, inner = found[f"{number}-{index}"], found[f"in {number}-{index}"]
                wanted = [{"key": "number", "value": {"intValue": str(number)}}]
                self.assertEqual((inner["parentSpanId"], inner["attributes"]), (outer["spanId"], wanted))
                self.assertEqual([it["value"]["intValue"] for it in outer["attributes"]], [str(number), str(index)])


class Forks(PipelineTest):
    def test_a_fork_that_only_the_child_hears_of(self):
        """As a server that is no Python program makes one."""
        self.pipeline.start_span("before")
        drawn_next = self.drawn_next()
        child = ctypes.PyDLL(None).fork()
        if child == 0:
            # What PyOS_AfterFork_Child calls; the whole of it ends a process of Python 3.13 that heard of no fork.
            _fork._after_in_child()
            parents = self.pipeline._handle
            started = self.pipeline.start_span("in the child").context
            # A call may have been under way, so the parent's handle is left as it is.
            is_anew = self.pipeline._handle._memory is not parents._memory
            os._exit(0 if is_anew and started.trace_id != drawn_next and not self.pipeline.failed_calls else 1)
        self.assertEqual(os.waitstatus_to_exitcode(os.waitpid(child, 0)[1]), 0)

    def drawn_next(self):
        """The trace id that the parent draws next by its seed."""
        with Pipeline(self.settings, seed=7) as same:
            same.start_span("before")
            return same.start_span("next").context.trace_id

    def test_the_child_has_a_pipeline_of_its_own(self):
        self.pipeline.start_span("of the parent").end()
        with self.pipeline.span("before") as before:

            def work():
                with self.pipeline.span("in the child") as span:
                    self.assertEqual(span.context.trace_id, before.context.trace_id)
                found = self.exported()
                self.assertEqual(list(found), ["in the child"])
                self.assertEqual(found["in the child"]["parentSpanId"], before.context.span_id)
                self.assertEqual(self.pipeline.failed_calls, 0)
                before.end()
                self.assertIsInstance(self.pipeline.last_failure, OtherProcess)

            self.assertEqual(in_child(work), 0)
        self.assertEqual(set(self.exported()), {"of the parent", "before"})

    def test_it_goes_on_with_the_handle_of_the_parent(self):
        tracer = self.pipeline.tracer("shop")
        tracer.start_span("waits").end()
        opened = tracer.start_span("open")
        parents = self.pipeline._handle
        drawn_next = self.drawn_next()

        def work():
            with tracer.span("in the child") as span:
                self.assertNotEqual(span.context.trace_id, drawn_next)
            self.assertIs(self.pipeline._handle._memory, parents._memory)
            self.assertEqual({name: it["scope"] for name, it in self.exported().items()}, {"in the child": "shop"})
            self.assertEqual((self.pipeline.failed_calls, self.pipeline.counts().open_spans), (0, 0))
            self.assertEqual(in_child(again), 0)
            self.assertEqual(self.pipeline.close(), [])

        def again():
            with tracer.span("in its child"):
                pass
            self.assertEqual([*spans_in(self.pipeline.close())], ["in its child"])

        self.assertEqual(in_child(work), 0)
        self.assertEqual(in_child(lambda: self.assertEqual(in_child(work), 0)), 0)
        self.assertEqual((*self.exported(), self.pipeline.counts().open_spans), ("waits", 1))
        opened.end()

    def test_one_goes_on_where_two_ask(self):
        """As two threads of the child may, or the handler of a signal in the middle of the other."""
        parents = self.pipeline._handle

        def work():
            made = [type(parents)(b"", 7, self.pipeline._failures, lambda: None, parents) for _ in range(2)]
            self.assertEqual([it._memory is parents._memory for it in made], [True, False])
            self.assertEqual(list(spans_in(self.child_lines())), ["child"])

        self.assertEqual(in_child(work), 0)

    def child_lines(self):
        self.pipeline.start_span("child").end()
        self.pipeline.flush()
        return self.pipeline.drain()

    def test_ids_differ_from_the_parent_s(self):
        with mock.patch("secrets.randbits", return_value=99) as randbits:

            def work():
                self.pipeline.start_span("first").end()
                randbits.assert_called_once_with(64)

            self.assertEqual(in_child(work), 0)
            randbits.assert_not_called()

    def test_what_was_closed_or_shut_down_stays_so(self):
        shut = Pipeline({})
        shut.shutdown()
        self.pipeline.close()

        def work():
            self.assertRaises(Closed, self.pipeline.flush)
            shut.start_span("late").end()
            self.assertRaises(Failed, shut.shutdown)
            self.assertEqual(shut.drain(), [])

        self.assertEqual(in_child(work), 0)
        shut.close()

    def test_forks_in_the_middle_of_calls(self):
        is_over = threading.Event()

        def trace():
            while not is_over.is_set():
                with self.pipeline.span("busy", attributes={"key": "value"}):
                    pass

        threads = [threading.Thread(target=trace) for _ in range(3)]
        for thread in threads:
            thread.start()
        try:
            for _ in range(20):
                self.assertEqual(in_child(lambda: self.assertIn("child", self.child_spans())), 0)
        finally:
            is_over.set()
            for thread in threads:
                thread.join()
        self.assertEqual(self.pipeline.failed_calls, 0)

    def child_spans(self):
        with self.pipeline.span("child", attributes={"key": 1}):
            pass
        return self.exported()

    def test_the_child_s_sender_goes_on(self):
        from otel_proved import Sender

        collector = Collector()
        self.addCleanup(collector.stop)
        sender = Sender(self.pipeline, collector.url, interval=SHORT)
        self.pipeline.start_span("of the parent").end()

        def work():
            self.assertEqual((sender.sent_lines, sender.waiting_lines), (0, 0))
            self.pipeline.start_span("of the child").end()
            self.assertTrue(sender.flush(10))
            self.assertEqual(sender.sent_spans, 1)

        self.assertEqual(in_child(work), 0)
        self.assertEqual(in_child(lambda: self.assertTrue(sender.close())), 0)
        self.assertTrue(sender.flush(10))
        self.assertEqual((set(collector.spans), sender.sent_spans), ({"of the parent", "of the child"}, 1))
