# SPDX-License-Identifier: Apache-2.0
"""Executors whose threads have the current span and the baggage of whoever hands them work."""

from __future__ import annotations

import contextvars
from concurrent.futures import Executor, Future
from functools import partial
from typing import Any, Callable, TypeVar

_Result = TypeVar("_Result")


def in_context(work: Callable[..., _Result]) -> Callable[..., _Result]:
    """The same work, done in a copy of the context of now: for a thread, a timer, or `loop.run_in_executor`.

    It may be done several times, also at once, each time in a copy of its own.
    """
    context = contextvars.copy_context()
    return lambda *words, **named: context.copy().run(partial(work, *words, **named))


class TracedExecutor(Executor):
    """An executor of threads, whose work is done in a copy of the context in which it was handed over."""

    def __init__(self, executor: Executor) -> None:
        self._executor = executor

    def submit(self, work: Callable[..., Any], /, *words: Any, **named: Any) -> "Future[Any]":
        """Hands work over, as that of the executor does."""
        return self._executor.submit(in_context(work), *words, **named)

    def shutdown(self, *words: Any, **named: Any) -> None:
        """Shuts the executor down, as that does."""
        self._executor.shutdown(*words, **named)
