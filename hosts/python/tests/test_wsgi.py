# SPDX-License-Identifier: Apache-2.0
"""Requests of WSGI applications."""

import wsgiref.validate
from wsgiref.util import setup_testing_defaults

from otel_proved import Kind, StatusCode, current_span
from otel_proved.wsgi import TracedApplication

from .support import PipelineTest, attributes_of

TRACE_ID, SPAN_ID = "0af7651916cd43dd8448eb211c80319c", "00f067aa0ba902b7"


def answering(status, parts):
    """An application that answers all by the same."""

    def application(_environment, start_response):
        start_response(status, [("Content-Type", "text/plain")])
        return parts

    return application


class Requests(PipelineTest):
    def ask(self, application, **variables):
        """The status and the body of a request, whose server is looked at too."""
        environment = {"QUERY_STRING": "", **variables}
        setup_testing_defaults(environment)
        statuses = []

        def start(status, _headers, _error=None):
            statuses.append(status)
            return statuses.append

        traced = wsgiref.validate.validator(TracedApplication(application, self.pipeline))
        parts = traced(environment, start)
        try:
            return statuses, b"".join(parts)
        finally:
            parts.close()

    def span(self):
        span, = self.exported().values()
        return span

    def test_a_request_has_a_span(self):
        headers = {"HTTP_TRACEPARENT": f"00-{TRACE_ID}-{SPAN_ID}-01", "HTTP_TRACESTATE": "a=1"}
        self.ask(answering("200 OK", [b"ok"]), SCRIPT_NAME="/shop", PATH_INFO="/cart/Ã¼", **headers)
        span = self.span()
        self.assertEqual((span["name"], span["kind"], span["status"]["code"]), ("GET", Kind.SERVER, StatusCode.UNSET))
        self.assertEqual((span["traceId"], span["parentSpanId"], span["traceState"]), (TRACE_ID, SPAN_ID, "a=1"))
        wanted = {"url.path": "/shop/cart/ü", "http.request.method": "GET", "http.response.status_code": 200}
        self.assertEqual(attributes_of(span), wanted)

    def test_an_error_of_the_server_is_one(self):
        codes = {"404 Not Found": StatusCode.UNSET, "500 Oh": StatusCode.ERROR, "503": StatusCode.ERROR}
        for status, code in codes.items():
            traced = TracedApplication(answering(status, [b""]), self.pipeline)
            traced({"REQUEST_METHOD": "GET"}, lambda *_: None).close()
            self.assertEqual(self.span()["status"]["code"], code)

    def test_an_unknown_method_makes_no_new_name(self):
        traced = TracedApplication(answering("200 OK", [b""]), self.pipeline)
        traced({"REQUEST_METHOD": "BREW"}, lambda *_: None).close()
        span = self.span()
        found = attributes_of(span)
        methods = found["http.request.method"], found["http.request.method_original"]
        self.assertEqual((span["name"], *methods), ("HTTP", "_OTHER", "BREW"))

    def test_the_span_is_the_current_one_until_it_is_closed(self):
        seen = []

        def application(_environment, start_response):
            try:
                start_response("200 OK", [("Content-Type", "text/plain")])
                for _ in range(2):
                    seen.append(current_span())
                    yield b"part"
            finally:
                seen.append(current_span())

        parts = TracedApplication(application, self.pipeline)({"REQUEST_METHOD": "GET"}, lambda *_: None)
        next(parts)
        self.assertFalse(current_span().context.is_valid)
        self.assertEqual(self.exported(), {})
        parts.close()
        parts.close()
        self.assertEqual(attributes_of(self.span())["http.response.status_code"], 200)
        self.assertEqual([it.context for it in seen], [parts._span.context] * 2)
        self.assertEqual(self.pipeline.failed_calls, 1)

    def test_an_application_that_raises(self):
        def at_once(_environment, _start_response):
            raise KeyError("cart")

        def later(_environment, start_response):
            start_response("200 OK", [("Content-Type", "text/plain")])
            yield b"part"
            raise KeyError("cart")

        for application in (at_once, later):
            self.assertRaises(KeyError, self.ask, application)
            span = self.span()
            self.assertEqual((span["status"]["code"], [it["name"] for it in span["events"]]), (2, ["exception"]))

    def test_the_number_of_parts_is_known_where_it_was(self):
        for parts, wanted in (([b"a"], True), ((b"a" for _ in range(1)), False)):
            traced = TracedApplication(answering("200 OK", parts), self.pipeline)
            answer = traced({"REQUEST_METHOD": "GET"}, lambda *_: None)
            self.assertEqual(hasattr(answer, "__len__"), wanted)
            self.assertEqual(list(answer), [b"a"])
            answer.close()

    def test_an_empty_environment_and_strange_texts(self):
        for environment in ({}, {"PATH_INFO": "/\xff\u1234", "HTTP_BAGGAGE": "\udc80", "REQUEST_METHOD": "é"}):
            TracedApplication(answering("odd", []), self.pipeline)(environment, lambda *_: None).close()
            self.assertNotIn("http.response.status_code", attributes_of(self.span()))
        self.assertEqual(self.pipeline.failed_calls, 0)
