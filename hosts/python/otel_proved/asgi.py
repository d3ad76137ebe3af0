# SPDX-License-Identifier: Apache-2.0
"""Traces the requests of an ASGI application, each by a span of the kind SERVER."""

from __future__ import annotations

from typing import Any, Awaitable, Callable, List, MutableMapping

from ._requests import end_request, plain, start_request
from .current import use_span
from .pipeline import Starter

Scope = MutableMapping[str, Any]
Message = MutableMapping[str, Any]
Receive = Callable[[], Awaitable[Message]]
Send = Callable[[Message], Awaitable[None]]
Application = Callable[[Scope, Receive, Send], Awaitable[None]]

_TRACED = ("http", "websocket")
# The messages that have a response's status.
_STARTS = ("http.response.start", "websocket.http.response.start")


class TracedApplication:
    """An application whose requests over HTTP and by WebSocket are traced, by spans of a pipeline or of a tracer.

    A span is a child of the one that the request's headers name, is the current one while the application works, and
    ends when that returns. It is an error from the status 500 on, and where the application raises.
    """

    def __init__(self, application: Application, starter: Starter) -> None:
        self._application = application
        self._starter = starter

    async def __call__(self, scope: Scope, receive: Receive, send: Send) -> None:
        """Answers a request."""
        if scope.get("type") not in _TRACED:
            return await self._application(scope, receive, send)
        method, codes = scope.get("method", "GET"), []  # type: ignore[var-annotated]
        span = start_request(self._starter, plain(method), plain(scope.get("path")), scope.get("headers", ()))
        try:
            with use_span(span):
                await self._application(scope, receive, _noting(send, codes))
        except BaseException as error:
            span.record_way_out(error)
            raise
        finally:
            end_request(span, codes[-1] if codes else None)


def _noting(send: Send, codes: List[int]) -> Send:
    """Sends, and notes the statuses of responses."""

    async def noting(message: Message) -> None:
        status = message.get("status")
        if plain(message.get("type")) in _STARTS and isinstance(status, int):
            codes.append(int.__int__(status))
        await send(message)

    return noting
