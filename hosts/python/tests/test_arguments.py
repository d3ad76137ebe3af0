# SPDX-License-Identifier: Apache-2.0
"""Strange values as each argument of each call that traces: none raises, and no span stays open."""

import asyncio
import collections
import logging
import types

from otel_proved import ROOT, Kind, Remote, StatusCode, baggage, extract, inject, traced, use_baggage, use_span
from otel_proved.asgi import TracedApplication as AsgiApplication
from otel_proved.logs import TraceIds
from otel_proved.wsgi import TracedApplication as WsgiApplication

from .support import PipelineTest


def fails(*_, **__):
    """Code of the service's own that fails."""
    raise ValueError("the service's own fault")


def failing(kind, *names):
    """A subclass of a type whose methods of these names fail."""
    return type(f"Failing{kind.__name__.title()}", (kind,), {name: fails for name in names})


Text = failing(str, "__str__", "__repr__", "__eq__", "__len__", "encode", "lower", "isascii")
Text.__hash__ = str.__hash__
Integer = failing(int, "__int__", "__index__", "__le__", "__ge__", "__lt__", "__gt__", "__eq__", "__str__", "__repr__")
Integer.__hash__ = int.__hash__
Float = failing(float, "__float__", "__eq__", "__repr__")
List = failing(list, "__len__", "__iter__", "__repr__")
Mapping = failing(dict, "items", "keys", "__iter__", "__getitem__", "__setitem__", "__delitem__", "__len__", "__repr__")
Frozen = failing(dict, "__setitem__", "__delitem__")
Thing = failing(object, "__getattr__", "__str__", "__repr__", "__bool__", "__eq__", "__hash__")
Mute = failing(Exception, "__str__", "__repr__")
Noted = type("Noted", (Exception,), {"__notes__": property(fails)})
Caused = type("Caused", (Exception,), {"__cause__": property(fails)})


def bad_syntax():
    """An error whose facts have other types than Python gives them."""
    error = SyntaxError("odd")
    error.filename, error.lineno, error.offset, error.text = 7, "many", [], 5
    return error


PLAIN = [
    None, True, 0, -1, 2**64, 2**200, 1.5, float("nan"), 1j, "", "a", "\ud800", "a\0b", b"x", bytearray(b"x"), [], [1],
    [1, "a"], [[]], [("a", 1)], (), {}, {1: 2}, {"a": object()}, {"a": [1, 2.0]}, {"\ud800": "\udfff"}, set(), object(),
    range(3), ..., Kind.SERVER, StatusCode.ERROR, ROOT, KeyError, KeyError("x"), len,
    collections.UserDict(a=1), types.MappingProxyType({"a": 1}), Remote(5, None, []), Remote("\ud800", "\n", b"x"),
]
ODD = [
    Text("a"), Integer(3), Float(1.5), List([1]), Mapping(a=1), Frozen(a=1, traceparent="x"), Thing(), Mute("x"),
    Noted("x"), Caused("x"), bad_syntax(), {"a": Text("x")}, {Text("a"): 1}, {"a": Integer(3)}, {"a": Float(2)},
    {"a": [Integer(3)]}, {"a": List([1])}, {"traceparent": Text("x")}, [(Text("traceparent"), Text("x"))],
    Remote(Text("x")),
]
VALUES = [*PLAIN, *ODD]


class Arguments(PipelineTest):
    """Each call with each value as one of its arguments."""

    def setUp(self):
        super().setUp()
        self.addCleanup(logging.disable, logging.root.manager.disable)
        logging.disable(logging.CRITICAL)

    def hold(self, calls):
        """Makes calls with each value, and looks whether they left spans open."""
        for value in VALUES:
            for number, call in enumerate(calls):
                with self.subTest(type=type(value).__name__, call=number):
                    call(value)
        self.assertEqual(self.pipeline.counts().open_spans, 0)

    def test_starts(self):
        def start(**how):
            for starter in (self.pipeline, self.pipeline.tracer("shop")):
                starter.start_span(**{"name": "a", **how}).end()
                with starter.span(**{"name": "a", **how}) as span:
                    span.headers()

        self.hold([
            lambda it: start(name=it), lambda it: start(kind=it), lambda it: start(attributes=it),
            lambda it: start(parent=it), lambda it: start(moment=it),
            lambda it: self.pipeline.tracer(it, it, it).start_span("a").end(),
        ])

    def test_calls_of_a_span(self):
        with self.pipeline.span("a") as span:
            calls = [
                lambda it: span.set_attribute(it, 1), lambda it: span.set_attribute("a", it), span.set_attributes,
                span.add_event, lambda it: span.add_event("a", it), lambda it: span.add_event("a", moment=it),
                span.add_link, lambda it: span.add_link(span, it), span.set_status,
                lambda it: span.set_status(StatusCode.ERROR, it), span.update_name, span.record_exception,
                lambda it: span.record_exception(KeyError(), it), span.record_error,
                lambda it: self.pipeline.start_span("b").end(it),
            ]
            for value in VALUES:
                for number, call in enumerate(calls):
                    with self.subTest(type=type(value).__name__, call=number):
                        call(value)

    def test_blocks(self):
        def use(value):
            with use_span(value):
                self.pipeline.start_span("a").end()

        def carry(value):
            with use_baggage(value):
                inject({})
                baggage()

        self.hold([use, carry, lambda it: carry({"a": it}), lambda it: carry([(it, "a")])])

    def test_headers(self):
        span = self.pipeline.start_span("a")
        self.hold_headers(span)
        span.end()

    def hold_headers(self, span):
        """Each value as headers, and as the span that is to be handed on."""
        for value in VALUES:
            with self.subTest(type=type(value).__name__):
                inject(value, span)
                inject({}, value)
                self.pipeline.start_span("b", parent=extract(value)).end()

    def test_functions(self):
        def call(name="a", **how):
            return traced(name, **{"starter": self.pipeline, **how})(lambda: 1)()

        self.hold([
            lambda it: None if callable(it) else call(it), lambda it: call(kind=it), lambda it: call(attributes=it),
            lambda it: call(starter=it),
        ])

    def test_errors_leave_as_they_are(self):
        for error in (it for it in VALUES if isinstance(it, BaseException)):
            left = None
            try:
                with self.pipeline.span("a"):
                    raise error
            except BaseException as it:
                left = it
            self.assertTrue(left is error, type(left))
        self.assertEqual(self.pipeline.counts().open_spans, 0)

    def test_servers(self):
        def ask_wsgi(value, status="200 OK"):
            def application(_, start):
                start(status, [])
                return [b"a"]

            environment = dict.fromkeys(["REQUEST_METHOD", "PATH_INFO", "SCRIPT_NAME", "HTTP_TRACEPARENT"], value)
            response = WsgiApplication(application, self.pipeline)(environment, lambda *_: None)
            self.assertEqual(list(response), [b"a"])
            response.close()

        def ask_asgi(value):
            async def application(_scope, _receive, send):
                await send({"type": "http.response.start", "status": value})
                await send({"type": value, "status": 200})

            async def send(_):
                pass

            scope = {"type": "http", "method": value, "path": value, "headers": value}
            asyncio.run(AsgiApplication(application, self.pipeline)(scope, None, send))

        self.hold([ask_wsgi, lambda it: ask_wsgi("", it), ask_asgi])

    def test_records(self):
        with self.pipeline.span("a"):
            for value in VALUES:
                self.assertTrue(TraceIds().filter(logging.LogRecord("a", logging.INFO, "a", 1, value, (), None)))

    def test_what_is_wrong_is_counted(self):
        span = self.pipeline.start_span("a")
        wrong = [
            lambda: inject(Frozen(traceparent="x"), span), lambda: inject({}, 5) or inject({}, 5),
            lambda: traced("a", starter=5)(lambda: 1)(),
        ]
        with use_span(span):
            for call in wrong:
                before = self.pipeline.failed_calls
                call()
                self.assertGreater(self.pipeline.failed_calls, before)
        span.end()

    def test_the_last_failure_keeps_no_frame(self):
        span = self.pipeline.start_span("a")
        span.end()
        try:
            raise KeyError
        except KeyError:
            span.set_attribute("a", 1)
        failure = self.pipeline.last_failure
        self.assertEqual((failure.__context__, failure.__traceback__), (None, None))
