# SPDX-License-Identifier: Apache-2.0
"""Traces the requests of a WSGI application, each by a span of the kind SERVER."""

from __future__ import annotations

from typing import Any, Callable, Dict, Iterable, Iterator, List, Optional

from ._requests import end_request, plain, start_request
from .current import use_span
from .pipeline import Starter
from .remote import FIELDS
from .span import Span

Environment = Dict[str, Any]
Application = Callable[[Environment, Callable[..., Any]], Iterable[bytes]]


class TracedApplication:
    """An application whose requests are traced. The spans are started by a pipeline or one of its tracers.

    A span is a child of the one that the request's headers name, is the current one while the application works, and
    ends when the server closes the response. It is an error from the status 500 on, and where the application raises.
    """

    def __init__(self, application: Application, starter: Starter) -> None:
        self._application = application
        self._starter = starter

    def __call__(self, environment: Environment, start_response: Callable[..., Any]) -> Iterable[bytes]:
        span = _start(self._starter, environment)
        statuses: List[str] = []

        def start(status: str, *rest: Any) -> Any:
            statuses.append(status if isinstance(status, str) else "")
            return start_response(status, *rest)

        try:
            with use_span(span):
                parts = self._application(environment, start)
        except BaseException as error:
            span.record_way_out(error)
            _end(span, statuses)
            raise
        kind = _SizedResponse if hasattr(parts, "__len__") else _Response
        return kind(parts, span, statuses)


def _start(starter: Starter, environment: Environment) -> Span:
    path = plain(environment.get("SCRIPT_NAME")) + plain(environment.get("PATH_INFO"))
    # WSGI hands bytes on as Latin-1.
    path = path.encode("latin-1", "replace").decode("utf-8", "replace")
    headers = {name: environment.get(f"HTTP_{name.upper()}", "") for name in FIELDS}
    return start_request(starter, plain(environment.get("REQUEST_METHOD")), path, headers)


def _end(span: Span, statuses: List[str]) -> None:
    """Ends the span by the last of the response's statuses."""
    end_request(span, _code_of(statuses[-1]) if statuses else None)


def _code_of(status: str) -> Optional[int]:
    code = status[:3]
    return int(code) if code.isascii() and code.isdecimal() else None


class _Response:
    """The parts of a response, made with their span as the current one, which ends when they are closed."""

    def __init__(self, parts: Iterable[bytes], span: Span, statuses: List[str]) -> None:
        self._parts = parts
        self._remaining: Optional[Iterator[bytes]] = None
        self._span = span
        self._statuses = statuses

    def __iter__(self) -> Iterator[bytes]:
        return self

    def __next__(self) -> bytes:
        try:
            with use_span(self._span):
                if self._remaining is None:
                    self._remaining = iter(self._parts)
                return next(self._remaining)
        except StopIteration:
            raise
        except BaseException as error:
            self._span.record_way_out(error)
            raise

    def close(self) -> None:
        """Closes the parts, and ends the span whatever comes of that."""
        close = getattr(self._parts, "close", None)
        try:
            if close is not None:
                with use_span(self._span):
                    close()
        except BaseException as error:
            self._span.record_way_out(error)
            raise
        finally:
            _end(self._span, self._statuses)


class _SizedResponse(_Response):
    """The same where the number of parts is known, by which servers find the length of a response of one part."""

    def __len__(self) -> int:
        return len(self._parts)  # type: ignore[arg-type]
