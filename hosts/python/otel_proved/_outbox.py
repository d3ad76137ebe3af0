# SPDX-License-Identifier: Apache-2.0
"""The lines that wait to be sent, and a count of what became of those before."""

from __future__ import annotations

import collections
from typing import Deque, List, NamedTuple, Optional

# A member that each span of a line has, and that no text in it can look like: there the quotes are escaped.
_OF_A_SPAN = b'"parentSpanId":'


def spans_in(line: bytes) -> int:
    """How many spans a line has."""
    return line.count(_OF_A_SPAN)


class Line(NamedTuple):
    """A line that waits."""

    text: bytes
    spans: int


class Outbox:
    """Lines of at most so many spans, or one line. When there are more the oldest lines are given up. One thread uses
    it at a time."""

    def __init__(self, most_spans: int) -> None:
        self._most_spans = most_spans
        self.waiting_spans = 0
        self._lines: Deque[Line] = collections.deque()
        self.sent_lines = 0
        self.sent_spans = 0
        self.lost_lines = 0
        self.lost_spans = 0

    def __len__(self) -> int:
        return len(self._lines)

    def put(self, lines: List[bytes]) -> None:
        """Takes lines in."""
        for text in lines:
            line = Line(text, spans_in(text))
            self._lines.append(line)
            self.waiting_spans += line.spans
        while self.waiting_spans > self._most_spans and len(self._lines) > 1:
            self.lose()

    def first(self) -> Optional[Line]:
        """The oldest line."""
        return self._lines[0] if self._lines else None

    def holds(self, line: Line) -> bool:
        """Whether this is still the oldest line, which nobody gave up meanwhile."""
        return bool(self._lines) and self._lines[0] is line

    def sent(self, rejected_spans: int) -> None:
        """The oldest line was taken, but for some of its spans."""
        spans = self._take_first()
        rejected = min(rejected_spans, spans)
        self.sent_lines += 1
        self.sent_spans += spans - rejected
        self.lost_spans += rejected

    def lose(self) -> None:
        """Gives the oldest line up."""
        self.lost_lines += 1
        self.lost_spans += self._take_first()

    def _take_first(self) -> int:
        spans = self._lines.popleft().spans
        self.waiting_spans -= spans
        return spans
