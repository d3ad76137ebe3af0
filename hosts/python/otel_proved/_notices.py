# SPDX-License-Identifier: Apache-2.0
"""A word when it matters, by Python's `logging` under the name `otel_proved`: not often, and never in the way."""

from __future__ import annotations

import logging
import time
from typing import Dict

_log = logging.getLogger("otel_proved")
_PAUSE = 60.0


def warn(said: str, *arguments: object) -> None:
    """Logs a warning; what a handler of the log raises goes no further."""
    try:
        _log.warning(said, *arguments)
    except Exception:
        pass


class Notices:
    """Warnings of several kinds, of each at most one a minute."""

    def __init__(self) -> None:
        self._next: Dict[str, float] = {}

    def warn(self, kind: str, said: str, *arguments: object) -> None:
        """Logs a warning where the last one of its kind was a minute ago."""
        now = time.monotonic()
        if now >= self._next.get(kind, now):
            self._next[kind] = now + _PAUSE
            warn(said, *arguments)
