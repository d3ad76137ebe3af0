# SPDX-License-Identifier: Apache-2.0
"""Requests of ASGI applications."""

import asyncio

from otel_proved import Kind, StatusCode, current_span
from otel_proved.asgi import TracedApplication

from .support import PipelineTest, attributes_of

TRACE_ID, SPAN_ID = "0af7651916cd43dd8448eb211c80319c", "00f067aa0ba902b7"


def answering(status):
    """An application that answers all by the same, and a part of the body in a span."""

    async def application(_scope, _receive, send):
        await send({"type": "http.response.start", "status": status, "headers": []})
        await asyncio.sleep(0)
        await send({"type": "http.response.body", "body": b"ok"})

    return application


class Requests(PipelineTest):
    def ask(self, application, **scope):
        """The messages of the response to a request."""
        sent = []

        async def receive():
            return {"type": "http.request", "body": b""}

        async def send(message):
            sent.append((message, current_span().context.is_valid))

        scope = {"type": "http", "method": "GET", "path": "/cart", "headers": [], **scope}
        asyncio.run(TracedApplication(application, self.pipeline)(scope, receive, send))
        return sent

    def span(self):
        span, = self.exported().values()
        return span

    def test_a_request_has_a_span(self):
        traceparent = (b"traceparent", f"00-{TRACE_ID}-{SPAN_ID}-01".encode())
        sent = self.ask(answering(200), path="/cart/ü", headers=[traceparent, (b"tracestate", b"a=1")])
        self.assertEqual([it["type"] for it, _ in sent], ["http.response.start", "http.response.body"])
        self.assertEqual([is_in for _, is_in in sent], [True, True])
        span = self.span()
        self.assertEqual((span["name"], span["kind"], span["status"]["code"]), ("GET", Kind.SERVER, StatusCode.UNSET))
        self.assertEqual((span["traceId"], span["parentSpanId"], span["traceState"]), (TRACE_ID, SPAN_ID, "a=1"))
        wanted = {"url.path": "/cart/ü", "http.request.method": "GET", "http.response.status_code": 200}
        self.assertEqual(attributes_of(span), wanted)

    def test_an_error_of_the_server_is_one(self):
        for status, code in ((404, StatusCode.UNSET), (503, StatusCode.ERROR)):
            self.ask(answering(status))
            self.assertEqual(self.span()["status"]["code"], code)

    def test_an_application_that_raises_and_one_that_is_cancelled(self):
        async def fails(*_):
            raise KeyError("cart")

        async def cancelled(*_):
            asyncio.current_task().cancel()
            await asyncio.sleep(1)

        self.assertRaises(KeyError, self.ask, fails)
        self.assertEqual(self.span()["status"]["code"], StatusCode.ERROR)
        self.assertRaises(asyncio.CancelledError, self.ask, cancelled)
        self.assertEqual(self.span()["status"]["code"], StatusCode.UNSET)

    def test_a_websocket_has_one_and_the_life_of_the_server_none(self):
        async def application(scope, _receive, send):
            if scope["type"] == "websocket":
                await send({"type": "websocket.accept"})

        self.ask(application, type="websocket")
        self.assertEqual(self.span()["name"], "GET")
        self.ask(application, type="lifespan")
        self.assertEqual(self.exported(), {})

    def test_a_strange_scope(self):
        async def application(*_):
            pass

        self.ask(application, method="BREW", path=None, headers=None)
        self.assertEqual(attributes_of(self.span())["http.request.method"], "_OTHER")
        self.assertEqual(self.pipeline.failed_calls, 0)
