# SPDX-License-Identifier: Apache-2.0
"""The span of another process, by the headers that name it."""

from __future__ import annotations

import re
from dataclasses import dataclass
from typing import Dict, Iterator, Tuple

from ._handle import Headers

FIELDS = ("traceparent", "tracestate", "baggage")

# The control characters of ASCII but the tab, which no header may have.
CONTROL = re.compile("[\x00-\x08\x0a-\x1f\x7f]")


@dataclass(frozen=True)
class Remote:
    """Headers that name a span of another process; without a valid traceparent they name none."""

    traceparent: str = ""
    tracestate: str = ""
    baggage: str = ""

    def __post_init__(self) -> None:
        """What is no text says nothing."""
        for name in FIELDS:
            value = getattr(self, name)
            if type(value) is not str:
                object.__setattr__(self, name, str.__str__(value) if isinstance(value, str) else "")

    @staticmethod
    def of_lines(lines: bytes) -> "Remote":
        """The headers in lines of a name, a colon, a space and a value, in the order of FIELDS.

        The library decodes a stranger's baggage, so that this may have line breaks. It comes last: a line after it is
        no header.
        """
        found: Dict[str, str] = {}
        for line in lines.split(b"\r\n"):
            name, _, value = line.decode("utf-8", "replace").partition(": ")
            if name in FIELDS:
                found[name] = value
            if name == FIELDS[-1]:
                break
        return Remote(**found)

    def encoded(self) -> Headers:
        """The headers as the library takes them."""
        return Headers(*(getattr(self, name).encode("utf-8", "replace") for name in FIELDS))

    def fields(self) -> Iterator[Tuple[str, str]]:
        """The name and the value of each header that says something, for a library that writes Latin-1."""
        for name, value in zip(FIELDS, self.encoded()):
            text = value.decode("latin-1")
            if text and not CONTROL.search(text):
                yield name, text
