# SPDX-License-Identifier: Apache-2.0
"""Functions, coroutines and generators whose calls are traced, each by a span of its own."""

from __future__ import annotations

import contextlib
import functools
import inspect
from typing import Any, AsyncGenerator, Callable, Generator, Iterator, Optional, TypeVar, Union, cast

from ._values import Attributes
from .current import NO_SPAN, use_span
from .pipeline import Starter, latest_pipeline
from .span import Kind, Span

_Function = TypeVar("_Function", bound=Callable[..., Any])


def traced(
    name: Union[str, Callable[..., Any]] = "",
    kind: Kind = Kind.INTERNAL,
    attributes: Optional[Attributes] = None,
    starter: Optional[Starter] = None,
) -> Any:
    """A decorator: each call is a span, by the function's name where none is given, as also `@traced` alone has it.

    The span is the current one while the function's own code runs: that of a generator begins with its first step, and
    is not the current one between two. An exception that leaves is recorded. The span is started by the starter, a
    pipeline or a tracer, or else by the pipeline that was opened last; without one nothing is traced.
    """
    if callable(name):
        return traced()(name)

    def decorate(function: _Function) -> _Function:
        own_name = getattr(function, "__qualname__", type(function).__name__)
        named = own_name if isinstance(name, str) and not str.__str__(name) else name

        def start() -> Span:
            by = starter if isinstance(starter, Starter) else latest_pipeline()
            if by is None:
                return NO_SPAN
            if starter is not None and by is not starter:
                by.refuse(f"spans are started by a Pipeline or a Tracer, not by {type(starter).__name__}")
            return by.start_span(named, kind, attributes)

        return cast(_Function, functools.wraps(function)(_wrapper(function, start)))

    return decorate


def _wrapper(function: Callable[..., Any], start: Callable[[], Span]) -> Callable[..., Any]:
    if inspect.isasyncgenfunction(function):
        return _of_asynchronous_generator(function, start)
    if inspect.isgeneratorfunction(function):
        return _of_generator(function, start)
    if inspect.iscoroutinefunction(function):

        async def later(*words: Any, **named: Any) -> Any:
            with _ending(start()) as span, use_span(span):
                return await function(*words, **named)

        return later

    def now(*words: Any, **named: Any) -> Any:
        with _ending(start()) as span, use_span(span):
            return function(*words, **named)

    return now


@contextlib.contextmanager
def _ending(span: Span) -> Iterator[Span]:
    """Ends a span with a block, which need not run with it as the current one."""
    try:
        yield span
    except BaseException as error:
        span.record_way_out(error)
        raise
    finally:
        span.end()


def _of_generator(function: Callable[..., Any], start: Callable[[], Span]) -> Callable[..., Any]:
    def traced_steps(*words: Any, **named: Any) -> Generator[Any, Any, Any]:
        with _ending(start()) as span:
            steps = function(*words, **named)
            step, given = steps.send, None
            while True:
                try:
                    with use_span(span):
                        made = step(given)
                except StopIteration as last:
                    return last.value
                try:
                    step, given = steps.send, (yield made)
                except GeneratorExit:
                    with use_span(span):
                        steps.close()
                    raise
                except BaseException as error:
                    step, given = steps.throw, error

    return traced_steps


def _of_asynchronous_generator(function: Callable[..., Any], start: Callable[[], Span]) -> Callable[..., Any]:
    async def traced_steps(*words: Any, **named: Any) -> AsyncGenerator[Any, Any]:
        with _ending(start()) as span:
            steps = function(*words, **named)
            step, given = steps.asend, None
            while True:
                try:
                    with use_span(span):
                        made = await step(given)
                except StopAsyncIteration:
                    return
                try:
                    step, given = steps.asend, (yield made)
                except GeneratorExit:
                    with use_span(span):
                        await steps.aclose()
                    raise
                except BaseException as error:
                    step, given = steps.athrow, error

    return traced_steps
