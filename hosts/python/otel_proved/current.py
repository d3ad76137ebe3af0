# SPDX-License-Identifier: Apache-2.0
"""The current span of a thread or a coroutine, and blocks in which a span is the current one."""

from __future__ import annotations

import contextlib
import contextvars
from types import TracebackType
from typing import Callable, Dict, Iterator, Optional, Type

from ._failures import Failures
from .span import Span, UnstartedSpan

_Token = contextvars.Token  # type: ignore[type-arg]

#: What the current span is where there is none: it takes all calls, and its children are roots.
NO_SPAN: Span = UnstartedSpan(None, Failures())
_current: "contextvars.ContextVar[Span]" = contextvars.ContextVar("otel_proved_current_span", default=NO_SPAN)


def current_span() -> Span:
    """The span whose block this is, or else one that records nothing and is not valid. A new thread begins so."""
    return _current.get()


def _leave(token: _Token) -> None:
    try:
        _current.reset(token)
    except ValueError:
        # A generator was closed in another context, whose current span is not this one.
        pass


@contextlib.contextmanager
def use_span(span: Span) -> Iterator[Span]:
    """Makes a span the current one for a block, and leaves it open after it."""
    token = _current.set(span if isinstance(span, Span) else NO_SPAN)
    try:
        yield span
    finally:
        _leave(token)


class SpanBlock:
    """A block of a `with` in a span of its own, which starts with the block and ends with it.

    It may be entered again, also before it is left, and has a new span each time.
    """

    def __init__(self, start: Callable[[], Span]) -> None:
        self._start = start
        self._entered: Dict[Span, _Token] = {}

    def __enter__(self) -> Span:
        before, span = _current.get(), self._start()
        try:
            self._entered[span] = _current.set(span)
            return span
        except BaseException:
            # The handler of a signal raised: the block does not begin.
            _current.set(before)
            raise

    def __exit__(
        self,
        kind: Optional[Type[BaseException]],
        error: Optional[BaseException],
        trace: Optional[TracebackType],
    ) -> None:
        span, token = self._left()
        try:
            _leave(token)
            span.record_way_out(error)
        finally:
            span.end()

    def _left(self) -> "tuple[Span, _Token]":
        """The current span, where it was entered here; in the context of another, the last one that was."""
        span = _current.get()
        if span in self._entered:
            return span, self._entered.pop(span)
        return self._entered.popitem()
