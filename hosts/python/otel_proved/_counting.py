# SPDX-License-Identifier: Apache-2.0
"""A count that needs no lock."""

from __future__ import annotations

import operator

_ROOM = 2**62


class Count:
    """How often something came about. Threads and handlers of signals raise it, and neither can leave a lock held."""

    def __init__(self) -> None:
        # A step of it is made by C code alone.
        self._left = iter(range(_ROOM))

    def add(self) -> None:
        """Counts one more."""
        next(self._left)

    @property
    def number(self) -> int:
        """How many were counted."""
        return _ROOM - operator.length_hint(self._left)
