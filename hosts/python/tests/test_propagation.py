# SPDX-License-Identifier: Apache-2.0
"""Headers: what is written, and what is read."""

import email.message
import os
import unittest
from unittest import mock

from otel_proved import Pipeline, Remote, baggage, extract, inject, use_baggage

from .support import PipelineTest, attributes_of

TRACE_ID, SPAN_ID = "0af7651916cd43dd8448eb211c80319c", "00f067aa0ba902b7"
TRACEPARENT = f"00-{TRACE_ID}-{SPAN_ID}-01"


class Extract(unittest.TestCase):
    def test_names_in_whatever_case_from_a_mapping_and_from_pairs(self):
        wanted = Remote(TRACEPARENT, "a=1", "user=ada")
        headers = {"TraceParent": TRACEPARENT, "TRACESTATE": "a=1", "baggage": "user=ada", "Host": 5}
        self.assertEqual(extract(headers), wanted)
        self.assertEqual(extract(list(headers.items())), wanted)
        self.assertEqual(extract([(b"traceparent", TRACEPARENT.encode()), (b"tracestate", b"a=1")]).tracestate, "a=1")

    def test_several_fields_are_joined(self):
        message = email.message.Message()
        for value in ("a=1", "", "b=2"):
            message["tracestate"] = value
        message["traceparent"] = TRACEPARENT
        self.assertEqual(extract(message), Remote(TRACEPARENT, "a=1,b=2"))

    def test_two_traceparents_say_nothing(self):
        headers = [("traceparent", TRACEPARENT), ("Traceparent", TRACEPARENT), ("baggage", "user=ada")]
        self.assertEqual(extract(headers), Remote("", "", "user=ada"))

    def test_texts_that_say_nothing(self):
        for value in ("a=\udc80", "a=\r\nEvil: 1", "a=\xff", b"a=\xff", "a=\0"):
            self.assertEqual(extract({"baggage": value}), Remote())

    def test_latin_1_is_read_as_utf_8(self):
        encoded = "user=é".encode()
        for value in (encoded, encoded.decode("latin-1")):
            self.assertEqual(extract({"baggage": value}).baggage, "user=é")
        self.assertEqual(extract({"baggage": "user=😀"}).baggage, "user=😀")

    def test_other_values_say_nothing(self):
        for headers in ({"traceparent": 5}, {"traceparent": None, 5: 5}, None, 5, [1], ["traceparent"]):
            self.assertEqual(extract(headers), Remote())


class Baggage(PipelineTest):
    parent = Remote(TRACEPARENT, "", "user=ad%20a;p=1,shop=x")

    def test_what_came_along_is_read(self):
        self.assertEqual(baggage(), {})
        with self.pipeline.span("here", parent=self.parent):
            self.assertEqual(baggage(), {"user": "ad a", "shop": "x"})
            with self.pipeline.span("inner"):
                self.assertEqual(baggage(), {"user": "ad a", "shop": "x"})

    def test_what_is_set_goes_on_for_a_block(self):
        with self.pipeline.span("here", parent=self.parent):
            with use_baggage({"cart": "é,;=%", "shop": None}), use_baggage({"more": ""}):
                headers = {}
                inject(headers)
                self.assertEqual(baggage(), {"user": "ad a", "cart": "é,;=%", "more": ""})
            self.assertEqual(headers["baggage"], "user=ad%20a;p=1,cart=%C3%A9%2C%3B=%25,more=")
            self.assertEqual(baggage(), {"user": "ad a", "shop": "x"})
        with self.pipeline.span("there", parent=extract(headers)):
            self.assertEqual(baggage(), {"user": "ad a", "cart": "é,;=%", "more": ""})

    def test_without_a_span_baggage_goes_on_alone(self):
        headers = {}
        with use_baggage({"user": "ada"}):
            inject(headers)
        self.assertEqual(headers, {"baggage": "user=ada"})

    def test_what_is_no_baggage_is_left_out_and_counted(self):
        entries = {"a b": "1", "": "2", 5: "3", "x": 4, "long": "v" * 9000, "y": "1"}
        with self.pipeline.span("here"), use_baggage(entries):
            headers = {}
            inject(headers)
        self.assertEqual((headers["baggage"], self.pipeline.left_out_attributes), ("y=1", 5))
        with use_baggage(5):
            self.assertEqual(baggage(), {})


class Propagators(PipelineTest):
    all = {"traceparent": TRACEPARENT, "tracestate": "a=1", "baggage": "user=ada"}

    def with_setting(self, value):
        """The names of the headers that are written and read, and whether the setting is named as ignored."""
        with mock.patch.dict(os.environ, {"OTEL_PROPAGATORS": value}), Pipeline(None) as pipeline:
            written = {}
            with pipeline.span("here", parent=Remote(**self.all)):
                inject(written)
            read = extract(self.all)
            self.assertEqual(set(written), {it for it in self.all if getattr(read, it)})
            return set(written), pipeline.ignored_settings

    def test_the_environment_says_which(self):
        trace = {"traceparent", "tracestate"}
        for value in ("", "tracecontext,baggage", " baggage , tracecontext "):
            self.assertEqual(self.with_setting(value), ({*trace, "baggage"}, []))
        self.assertEqual(self.with_setting("tracecontext"), (trace, []))
        self.assertEqual(self.with_setting("baggage"), ({"baggage"}, []))
        self.assertEqual(self.with_setting("none"), (set(), []))
        self.assertEqual(self.with_setting("b3,tracecontext"), (trace, ["OTEL_PROPAGATORS"]))


class Through(PipelineTest):
    def test_a_trace_goes_on(self):
        headers = {}
        with self.pipeline.span("here", parent=Remote(TRACEPARENT, "a=1", "user=ada")) as span:
            inject(headers)
        self.assertEqual(headers, {"traceparent": span.context.traceparent, "tracestate": "a=1", "baggage": "user=ada"})
        with self.pipeline.span("there", parent=extract(headers)):
            pass
        found = self.exported()
        self.assertEqual({it["traceId"] for it in found.values()}, {TRACE_ID})
        self.assertEqual(found["there"]["parentSpanId"], found["here"]["spanId"])
        self.assertEqual(found["here"]["parentSpanId"], SPAN_ID)

    def test_headers_that_do_not_read_make_a_root(self):
        for value in ("", "00-", f"ff-{TRACE_ID}-{SPAN_ID}-01", f"{TRACEPARENT},{TRACEPARENT}", "é\0", "\udc80"):
            self.pipeline.start_span("root", parent=Remote(value, "a=1", "user=ada")).end()
            self.assertEqual(self.exported()["root"]["parentSpanId"], "")
        self.assertEqual(self.pipeline.failed_calls, 0)

    def test_what_stood_there_is_replaced(self):
        message = email.message.Message()
        headers = {"TraceParent": "old", "tracestate": "old", "Host": "here"}
        for name, value in headers.items():
            message[name] = value
        with self.pipeline.span("here") as span:
            inject(headers)
            inject(message, span)
        self.assertEqual(headers, {"traceparent": span.context.traceparent, "Host": "here"})
        self.assertEqual(message.items(), [("Host", "here"), ("traceparent", span.context.traceparent)])

    def test_what_takes_no_headers_is_counted(self):
        with self.pipeline.span("here"):
            for headers in (None, 5, [], (), "text"):
                inject(headers)
        self.assertEqual(self.pipeline.failed_calls, 5)

    def test_without_a_span_headers_stay(self):
        headers = {"traceparent": TRACEPARENT}
        inject(headers)
        self.assertEqual(headers, {"traceparent": TRACEPARENT})

    def test_without_memory_the_trace_goes_on(self):
        with self.pipeline.span("here", parent=Remote(TRACEPARENT, "a=1")) as span, self.no_memory("otel_inject"):
            headers = {}
            inject(headers)
        self.assertEqual(headers, {"traceparent": span.context.traceparent, "tracestate": "a=1"})
        self.assertEqual(self.pipeline.failed_calls, 1)

    def test_baggage_goes_on_by_its_grammar_alone(self):
        parent = Remote(TRACEPARENT, "", "user=é😀,a=%C3%A9;p=%0D%0Ax")
        with self.pipeline.span("here", parent=parent):
            headers = {}
            inject(headers)
        self.assertEqual(headers["baggage"], "a=%C3%A9;p=%0D%0Ax")
        with self.pipeline.span("there", parent=extract(headers)) as child:
            self.assertEqual(child.headers().baggage, headers["baggage"])

    def test_long_headers_come_back(self):
        baggage = ",".join(f"key{number}={'v' * 100}" for number in range(40))
        with self.pipeline.span("long", parent=Remote(TRACEPARENT, "", baggage), attributes={"k": 1}) as span:
            self.assertEqual(span.headers().baggage, baggage)
        self.assertEqual(attributes_of(self.exported()["long"]), {"k": 1})

    def test_a_stranger_s_baggage_adds_no_header(self):
        for evil in ("%0D%0AX-Evil:%201", "%0D%0Atracestate:%20evil=1", "%0D%0A%0D%0Abody", "%0A", "%0D", "%00"):
            with self.pipeline.span("here", parent=Remote(TRACEPARENT, "", f"a=1;p={evil}")) as span:
                headers = {}
                inject(headers)
            self.assertEqual({"baggage", "traceparent"} | set(headers), {"baggage", "traceparent"})
            self.assertEqual(headers["traceparent"], span.context.traceparent)
            self.assertFalse([it for it in headers.values() if set("\r\n\0") & set(it)])
