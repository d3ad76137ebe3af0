# SPDX-License-Identifier: Apache-2.0
"""Spans: what they keep, whose children they are, and how they end."""

import asyncio
import contextvars
import gc
import math
import sys
import threading
import unittest
from decimal import Decimal

from otel_proved import ROOT, BadArgument, Kind, NoSuchSpan, OutOfMemory, Remote, StatusCode, current_span, use_span

from .support import PipelineTest, attributes_of

ALL_KINDS_OF_VALUES = {
    "text": "é 😀 \0",
    "empty": "",
    "low": -(2**63),
    "high": 2**63 - 1,
    "tenth": 0.1,
    "whole": 1.0,
    "zero": -0.0,
    "huge": 1e300,
    "least": 5e-324,
    "nan": math.nan,
    "infinite": math.inf,
    "yes": True,
    "no": False,
    "texts": ["a", "", "ü"],
    "integers": (1, -2),
    "floats": [0.5, -2.0, math.nan, -math.inf],
    "truths": [True, False],
    "nothing": [],
}


class Keeps(PipelineTest):
    def test_a_span_has_what_it_was_given(self):
        self.pipeline.start_span("GET", Kind.CLIENT, {"size": 3}, moment=1000).end(2000)
        span = self.exported()["GET"]
        times = span["startTimeUnixNano"], span["endTimeUnixNano"]
        self.assertEqual((span["kind"], times, span["parentSpanId"]), (Kind.CLIENT, ("1000", "2000"), ""))
        self.assertEqual(attributes_of(span), {"size": 3})

    def test_each_kind_of_value_at_each_place(self):
        wanted = {key: list(it) if isinstance(it, tuple) else it for key, it in ALL_KINDS_OF_VALUES.items()}
        with self.pipeline.span("at start", attributes=ALL_KINDS_OF_VALUES) as first:
            first.add_event("row", ALL_KINDS_OF_VALUES, 5)
            with self.pipeline.span("set") as second:
                second.set_attributes(ALL_KINDS_OF_VALUES)
                second.add_link(first, ALL_KINDS_OF_VALUES)
            with self.pipeline.span("one by one") as third:
                for key, value in ALL_KINDS_OF_VALUES.items():
                    third.set_attribute(key, value)
        found = self.exported()
        event, link = found["at start"]["events"][0], found["set"]["links"][0]
        for thing in (*found.values(), event, link):
            # As texts, in which 1 is not True or 1.0, and NaN is like itself.
            self.assertEqual(repr(attributes_of(thing)), repr(wanted))
        self.assertEqual((event["name"], event["timeUnixNano"]), ("row", "5"))
        self.assertEqual(link["spanId"], first.context.span_id)

    def test_status_and_name(self):
        with self.pipeline.span("before") as span:
            span.update_name("after")
            span.set_status(StatusCode.ERROR, "late")
        self.assertEqual(self.exported()["after"]["status"], {"message": "late", "code": StatusCode.ERROR})

    def test_a_link_to_another_process(self):
        with self.pipeline.span("links") as span:
            span.add_link(Remote("00-0af7651916cd43dd8448eb211c80319c-00f067aa0ba902b7-01"))
            span.add_link(Remote("no header"))
        link, = self.exported()["links"]["links"]
        self.assertEqual(link["spanId"], "00f067aa0ba902b7")
        self.assertEqual(self.pipeline.failed_calls, 1)

    def test_the_scope_is_the_tracer_s(self):
        for _ in range(2):
            with self.pipeline.tracer("shop", "1.0", "https://schema").span("scoped"):
                pass
        self.assertEqual(self.exported()["scoped"]["scope"], "shop")


class Odd(str):
    def __str__(self):
        raise RuntimeError


class Leaves(PipelineTest):
    """What is wrong with an argument is counted, and raises nothing."""

    LISTS = [2**63], [[1]], [1, "a"], [True, 1], [1, 1.5], (None,)
    WRONG = (None, 1j, Decimal(1), 2**63, -(2**63) - 1, b"x", {}, object(), *LISTS)

    def test_attributes_of_other_types_are_left_out_and_the_others_stay(self):
        with self.pipeline.span("whole", attributes={"a": 1}) as span:
            for value in self.WRONG:
                span.set_attribute("key", value)
                span.set_attributes({"good": 1, "key": value})
                span.add_event("row", {"good": 1, "key": value})
                span.add_link(span, {"good": 1, "key": value})
                self.pipeline.start_span("started", attributes={"good": 1, "key": value}).end()
            span.set_attribute(5, "value")
        found = self.exported()
        self.assertEqual(attributes_of(found["whole"]), {"a": 1, "good": 1})
        self.assertEqual(attributes_of(found["started"]), {"good": 1})
        for thing in found["whole"]["events"] + found["whole"]["links"]:
            self.assertEqual(attributes_of(thing), {"good": 1})
        self.assertEqual(self.pipeline.left_out_attributes, 5 * len(self.WRONG) + 1)
        self.assertEqual((self.pipeline.failed_calls, self.pipeline.counts().open_spans), (0, 0))

    def test_each_key_is_said_once(self):
        with self.assertLogs("otel_proved") as log:
            for _ in range(3):
                self.pipeline.start_span("a", attributes={"cart": b"x", "user": None}).end()
        wanted = ["'cart' is left out, since it is of the type bytes, not", "'user' is"]
        self.assertEqual([it for it, said in zip(wanted, log.output) if it in said], wanted)
        self.assertEqual((len(log.output), self.pipeline.left_out_attributes), (2, 6))

    def test_texts_with_lone_surrogates_are_replaced(self):
        texts = {"key": "a\udc80b", "k\udfff": "x", "list": ["\ud800", "y"], "pair": "\ud83d\ude00"}
        with self.pipeline.tracer("t\udc80", "v\udc80").span("n\udc80", attributes=texts) as span:
            span.add_event("e\udc80")
            span.set_status(StatusCode.ERROR, "s\udc80")
        span = self.exported()["n\ufffd"]
        wanted = {"key": "a\ufffdb", "k\ufffd": "x", "list": ["\ufffd", "y"], "pair": "\U0001f600"}
        self.assertEqual(attributes_of(span), wanted)
        names = span["scope"], span["events"][0]["name"], span["status"]["message"]
        self.assertEqual(names, ("t\ufffd", "e\ufffd", "s\ufffd"))
        self.assertEqual((self.pipeline.failed_calls, self.pipeline.left_out_attributes), (0, 0))

    def test_other_arguments(self):
        start = self.pipeline.start_span
        wrong = [
            dict(attributes=["key"]), dict(attributes=5), dict(parent="00-"), dict(moment=1.5), dict(moment=-1),
            dict(moment=2**64), dict(kind=6), dict(kind=[]), dict(kind=None),
        ]
        for how in wrong:
            start("started", **how).end()
        self.assertEqual(self.pipeline.failed_calls, len(wrong))
        self.assertIsInstance(self.pipeline.last_failure, BadArgument)
        with self.pipeline.span(5) as span:
            for call in (
                lambda: span.set_status(3), lambda: span.set_status([]), lambda: span.add_link("00-"),
                lambda: span.record_exception("text"), lambda: span.record_error(None),
                lambda: span.set_attributes([1]), lambda: span.add_event("row", moment="now"), lambda: span.end("now"),
            ):
                before = self.pipeline.failed_calls
                call()
                self.assertEqual(self.pipeline.failed_calls, before + 1)
        for name in (None, Odd("a"), b"bytes"):
            start(name).end()
        self.assertEqual(self.pipeline.counts().open_spans, 0)
        self.assertEqual({"started", "5", "None", "b'bytes'"} - set(self.exported()), set())

    def test_calls_without_a_pipeline(self):
        span = current_span()
        span.set_attribute("key", object())
        span.set_attributes(5)
        span.add_event(5, 5, 5)
        span.add_link(5)
        span.set_status(5)
        span.record_error(5)
        span.end("now")
        with use_span(None), self.pipeline.span("root"):
            pass
        self.assertEqual(self.exported()["root"]["parentSpanId"], "")


class Family(PipelineTest):
    def parents(self):
        return {name: span["parentSpanId"] for name, span in self.exported().items()}

    def test_a_span_in_a_span_is_its_child(self):
        with self.pipeline.span("outer") as outer:
            with self.pipeline.span("inner") as inner:
                self.assertIs(current_span(), inner)
            self.assertIs(current_span(), outer)
            self.pipeline.start_span("root", parent=ROOT).end()
        self.assertFalse(current_span().context.is_valid)
        self.assertEqual(inner.context.trace_id, outer.context.trace_id)
        self.assertEqual(self.parents(), {"outer": "", "inner": outer.context.span_id, "root": ""})

    def test_a_child_of_a_span_that_has_ended(self):
        remote = Remote("00-0af7651916cd43dd8448eb211c80319c-00f067aa0ba902b7-01", "a=1", "user=ada")
        parent = self.pipeline.start_span("parent", parent=remote)
        parent.end()
        child = self.pipeline.start_span("child", parent=parent)
        self.assertEqual(child.headers(), Remote(child.context.traceparent, "a=1", "user=ada"))
        child.end()
        self.assertEqual(self.parents(), {"parent": "00f067aa0ba902b7", "child": parent.context.span_id})
        self.assertEqual(self.pipeline.failed_calls, 0)

    def test_a_state_goes_along_with_its_trace_alone(self):
        with self.pipeline.span("root", parent=Remote("no header", "a=1", "user=ada")) as span:
            headers = span.headers()
        self.assertEqual((headers.tracestate, span.as_remote()), ("", Remote(span.context.traceparent, "", "user=ada")))

    def test_threads_begin_without_a_current_span(self):
        found = []
        with self.pipeline.span("outer"):
            threads = [
                threading.Thread(target=lambda: found.append(current_span())),
                threading.Thread(target=contextvars.copy_context().run, args=(lambda: found.append(current_span()),)),
            ]
            for thread in threads:
                thread.start()
                thread.join()
        self.assertEqual([it.context.is_valid for it in found], [False, True])

    def test_tasks_have_a_current_span_each(self):
        async def work(name):
            with self.pipeline.span(name):
                await asyncio.sleep(0)
                with self.pipeline.span(f"in {name}"):
                    await asyncio.sleep(0)

        async def both():
            await asyncio.gather(work("a"), work("b"))

        asyncio.run(both())
        found = self.exported()
        for name in "ab":
            self.assertEqual(found[f"in {name}"]["parentSpanId"], found[name]["spanId"])

    def test_use_span_leaves_it_open(self):
        span = self.pipeline.start_span("open")
        with use_span(span):
            self.assertIs(current_span(), span)
        self.assertTrue(span.is_recording)
        span.end()


class Ends(PipelineTest):
    def test_an_exception_is_recorded_and_goes_on(self):
        with self.assertRaises(KeyError):
            with self.pipeline.span("fails"):
                raise KeyError("cart")
        span = self.exported()["fails"]
        said = attributes_of(span["events"][0])
        self.assertEqual((span["events"][0]["name"], span["status"]["code"]), ("exception", StatusCode.ERROR))
        self.assertEqual((said["exception.type"], said["exception.message"]), ("KeyError", "'cart'"))
        self.assertIn("test_spans.py", said["exception.stacktrace"])

    def test_an_exception_whose_text_cannot_be_made_or_encoded(self):
        class Mute(Exception):
            def __str__(self):
                raise RuntimeError

        for name, error in (("mute", Mute()), ("surrogate", OSError("\udcff"))):
            with self.assertRaises(type(error)):
                with self.pipeline.span(name):
                    raise error
        found = self.exported()
        self.assertIn("cannot be made", found["mute"]["status"]["message"])
        self.assertEqual(found["surrogate"]["status"]["message"], "\ufffd")

    def test_a_generator_that_is_closed_is_no_error(self):
        def rows():
            with self.pipeline.span("rows"):
                yield 1
                yield 2

        generator = rows()
        contextvars.copy_context().run(next, generator)
        contextvars.copy_context().run(generator.close)
        span = self.exported()["rows"]
        self.assertEqual((span["status"]["code"], span["events"]), (StatusCode.UNSET, []))

    def test_a_program_that_ends_well_and_a_cancelled_task_are_no_errors(self):
        async def cancelled():
            with self.pipeline.span("cancelled"):
                asyncio.current_task().cancel()
                await asyncio.sleep(1)

        with self.assertRaises(asyncio.CancelledError):
            asyncio.run(cancelled())
        for code in (0, None):
            with self.assertRaises(SystemExit), self.pipeline.span(f"exit {code}"):
                sys.exit(code)
        with self.assertRaises(SystemExit), self.pipeline.span("exit 1"):
            sys.exit(1)
        found = self.exported()
        codes = {name: (span["status"]["code"], len(span["events"])) for name, span in found.items()}
        well = (StatusCode.UNSET, 0)
        wanted = {"cancelled": well, "exit 0": well, "exit None": well, "exit 1": (StatusCode.ERROR, 1)}
        self.assertEqual(codes, wanted)

    def test_a_block_may_be_entered_again(self):
        block = self.pipeline.span("again")
        for _ in range(2):
            with block as outer, block as inner:
                self.assertIs(current_span(), inner)
            self.assertFalse(outer.is_recording or inner.is_recording or current_span().is_recording)
        self.assertEqual((self.pipeline.counts().open_spans, self.pipeline.failed_calls), (0, 0))
        self.pipeline.flush()
        self.assertEqual(b"".join(self.pipeline.drain()).count(b'"again"'), 4)

    def test_only_the_first_end_counts(self):
        with self.pipeline.span("once") as span:
            span.end(2**63)
            self.assertFalse(span.is_recording)
        self.assertEqual(self.exported()["once"]["endTimeUnixNano"], str(2**63))
        self.assertEqual(self.pipeline.failed_calls, 0)

    def test_a_change_after_the_end_is_counted(self):
        span = self.pipeline.start_span("over")
        span.end()
        span.set_attribute("late", 1)
        self.assertIsInstance(self.pipeline.last_failure, NoSuchSpan)
        self.assertEqual((self.pipeline.failed_calls, self.exported()["over"]["attributes"]), (1, []))

    def test_abandoned_and_forgotten_spans_are_not_exported(self):
        self.pipeline.start_span("abandoned").abandon()
        self.pipeline.start_span("forgotten")
        gc.collect()
        self.assertEqual((self.exported(), self.pipeline.forgotten_spans), ({}, 1))
        self.assertEqual(self.pipeline.counts().open_spans, 0)

    def test_a_span_that_garbage_ends_is_not_forgotten(self):
        class Holder:
            def __init__(self, span):
                self.me, self.span = self, span

            def __del__(self):
                self.span.end()

        for number in range(5):
            Holder(self.pipeline.start_span(str(number)))
        gc.collect()
        self.assertEqual((set(self.exported()), self.pipeline.forgotten_spans), (set("01234"), 0))

    def test_a_dropped_span_takes_calls(self):
        self.pipeline.close()
        self.settings = {"OTEL_TRACES_SAMPLER": "always_off"}
        self.setUp()
        with self.pipeline.span("dropped") as span:
            span.set_attribute("key", 1)
            span.set_attribute("key", [1, 1.5])
            self.assertFalse(span.is_recording or span.context.is_sampled)
        self.assertEqual((self.exported(), self.pipeline.failed_calls), ({}, 0))


class WithoutMemory(PipelineTest):
    def test_a_start_gives_a_span_that_records_nothing(self):
        for name in ("otel_start_with", "otel_identity"):
            with self.no_memory(name):
                with self.pipeline.span("lost", attributes={"kept": 1, "key": "value"}) as span:
                    span.set_attribute("key", [1])
                    span.add_event("row")
                    span.add_link(span)
                    span.record_exception(ValueError())
                    self.assertFalse(span.is_recording)
        self.assertIsInstance(self.pipeline.last_failure, OutOfMemory)
        with self.pipeline.span("next"):
            pass
        self.assertEqual((self.exported()["next"]["attributes"], self.pipeline.failed_calls), ([], 2))
        self.assertEqual(self.pipeline.counts().open_spans, 0)

    def test_children_of_a_span_that_did_not_start_are_its_parent_s(self):
        with self.pipeline.span("outer") as outer:
            with self.no_memory("otel_start_with"):
                lost = self.pipeline.start_span("lost")
            self.assertEqual((lost.context, lost.headers()), (outer.context, outer.as_remote()))
            with use_span(lost), self.pipeline.span("inner"):
                pass
        self.assertEqual(self.exported()["inner"]["parentSpanId"], outer.context.span_id)

    def test_an_edit_is_counted(self):
        edits = "otel_set_text", "otel_set_float", "otel_set_attributes_with"
        with self.pipeline.span("edited") as span, self.no_memory(*edits):
            span.set_attribute("key", "value")
            span.set_attribute("key", 0.5)
            span.set_attributes({"key": "value", "list": [0.5]})
        self.assertEqual((self.exported()["edited"]["attributes"], self.pipeline.failed_calls), ([], 3))

    def test_an_end_is_counted_as_lost(self):
        with self.no_memory("otel_end"):
            with self.pipeline.span("lost"):
                pass
        self.assertEqual((self.exported(), self.pipeline.lost_spans, self.pipeline.failed_calls), ({}, 1, 1))
        self.assertEqual(self.pipeline.counts().open_spans, 0)


if __name__ == "__main__":
    unittest.main()
