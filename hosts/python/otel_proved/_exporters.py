# SPDX-License-Identifier: Apache-2.0
"""Where lines go, by the environment's OTEL_TRACES_EXPORTER: to a collector, to standard output, to neither or both."""

from __future__ import annotations

import os
import sys
from typing import List, NamedTuple, Optional

from ._delivery import Post
from ._destination import Destination
from ._posting import Answer, Outcome, Poster

_VARIABLE = "OTEL_TRACES_EXPORTER"
_KNOWN = ("otlp", "console", "none")


class Exporter(NamedTuple):
    """What posts lines, what that is called, and the variables that were ignored."""

    poster: Post
    goal: str
    ignored_settings: List[str]


def exporter_of(destination: Destination, agent: str, is_given: bool) -> Exporter:
    """The exporter that the environment names; to a collector where an endpoint is given, or none is named."""
    ignored = list(destination.ignored_settings)
    listed = "" if is_given else os.environ.get(_VARIABLE, "")
    names = [it.strip() for it in listed.split(",") if it.strip()]
    if any(it not in _KNOWN for it in names):
        ignored.append(_VARIABLE)
    known = [it for it in names if it in _KNOWN] or ["otlp"]
    if "otlp" in known:
        poster = Poster(destination, agent)
        return Exporter(Both(poster) if "console" in known else poster, destination.url, ignored)
    if "console" in known:
        return Exporter(Console(), "console", ignored)
    return Exporter(Nowhere(), "none", ignored)


class Console:
    """Writes lines to standard output."""

    def post(self, line: bytes) -> Answer:
        """Writes a line; one that cannot be written is lost."""
        try:
            sys.stdout.write(line.decode() + "\n")
            sys.stdout.flush()
        except (OSError, ValueError, AttributeError) as error:
            return Answer(Outcome.REFUSED, str(error))
        return Answer(Outcome.TAKEN)


class Nowhere:
    """Lets lines go, whose spans are counted as lost."""

    def post(self, line: bytes) -> Answer:
        """Lets a line go."""
        return Answer(Outcome.REFUSED)


class Both:
    """Posts lines to a collector, and writes each to standard output before it is posted first."""

    def __init__(self, poster: Post) -> None:
        self._poster = poster
        self._written: Optional[bytes] = None

    def post(self, line: bytes) -> Answer:
        """Writes a line and posts it; the answer is the collector's."""
        if line is not self._written:
            self._written = line
            Console().post(line)
        return self._poster.post(line)
