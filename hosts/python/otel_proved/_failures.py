# SPDX-License-Identifier: Apache-2.0
"""Counts of calls that failed and of attributes that were left out, without an exception: tracing never stands in the
way of the work."""

from __future__ import annotations

from typing import Optional, Set

from . import _fork
from ._counting import Count
from ._notices import Notices, warn
from .errors import BadArgument, OtelError

# A stranger's keys are not to fill the memory.
_MOST_KEYS = 1000


class Failures(_fork.Renewed):
    """How many calls failed, the last of their errors, and how many attributes were left out."""

    def __init__(self) -> None:
        self._notices = Notices()
        self._keys: Set[str] = set()
        self.after_fork_in_child()
        _fork.register(self)

    @property
    def count(self) -> int:
        """How many calls failed."""
        return self._count.number

    def note(self, error: OtelError) -> None:
        """Counts a failure."""
        self._count.add()
        # Tracebacks would keep what their frames hold, also that of an error of the service.
        error.__context__ = None
        self.last = error.with_traceback(None)

    def refuse(self, why: str) -> None:
        """Counts a call whose argument is wrong, and warns of it, once a minute."""
        self.note(BadArgument(why))
        self._notices.warn("argument", "a call of tracing was given a wrong argument: %s", why)

    @property
    def left_out_attributes(self) -> int:
        """How many attributes were left out."""
        return self._left_out.number

    def leave_out(self, key: str, why: str) -> None:
        """Counts an attribute that is left out, and warns of it, once a key."""
        self._left_out.add()
        if key not in self._keys and len(self._keys) < _MOST_KEYS:
            self._keys.add(key)
            warn("%s is left out, since it %s", key, why)

    def after_fork_in_child(self) -> None:
        """The child counts its own."""
        self._count = Count()
        self._left_out = Count()
        self.last: Optional[OtelError] = None
