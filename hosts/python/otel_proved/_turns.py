# SPDX-License-Identifier: Apache-2.0
"""Turns: some calls of the library in a row, that neither another thread nor the handler of a signal comes between.

Python runs the handler of a signal between two steps of Python code, and what it raises goes on from there: after a
lock is taken and before it is known to be, for one. So a turn has no step of Python code: C code takes the lock, makes
the calls and lets go of it. What can come between is what the garbage collector of Python 3.11 and earlier runs.
"""

from __future__ import annotations

import operator
import threading
from functools import partial
from typing import Any, Callable, Iterable

from .errors import Busy

Call = Callable[[], Any]

_make = operator.methodcaller("__call__")


class Turns:
    """The turns of a handle, one at a time."""

    def __init__(self) -> None:
        self._lock: Any = threading.RLock()
        #: Whether the code that asks runs in the middle of a turn of its own thread.
        self.is_mine: Callable[[], bool] = self._lock._is_owned

    def take(self, calls: Iterable[Call]) -> int:
        """Makes calls until one answers another status than 0, and answers that; 0 where none does. Busy in the middle
        of a turn."""
        return self.take_one(partial(next, filter(None, map(_make, calls)), 0))

    def take_one(self, call: Call) -> int:
        """Makes a call, and answers its status. Busy in the middle of a turn."""
        if self.is_mine():
            raise Busy("a call came in the middle of another one by the same thread")
        try:
            return tuple(map(_make, (self._lock.acquire, call, self._lock.release)))[1]  # type: ignore[no-any-return]
        except BaseException:
            # A signal that came while the lock was waited for, or else no memory for the steps.
            if self.is_mine():
                self._lock.release()
            raise

    def hold(self) -> None:
        """Waits until no turn is under way, and lets none begin: for a fork."""
        self._lock.acquire()

    def let_go(self) -> None:
        """Lets turns begin again, where they were held."""
        if self.is_mine():
            self._lock.release()
