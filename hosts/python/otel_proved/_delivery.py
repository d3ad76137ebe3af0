# SPDX-License-Identifier: Apache-2.0
"""Delivers lines to a collector from a thread of its own, so that others are taken in while one is posted."""

from __future__ import annotations

import queue
import random
import threading
import time
from typing import List, Optional, Protocol

from ._notices import Notices
from ._outbox import Line, Outbox
from ._posting import Answer, Outcome

_FIRST_WAIT, _LONGEST_WAIT = 1.0, 60.0
# A collector may ask for no wait at all, and be asked too often then.
_SHORTEST_WAIT = 0.1

class Post(Protocol):
    """What posts a line, once."""

    def post(self, line: bytes) -> Answer:
        """Posts a line, and says what came of it."""


class Delivery:
    """The lines that wait, and the thread that posts them until it is closed. Threads of a sender alone use it."""

    def __init__(self, poster: Post, most_spans: int, goal: str, notices: Notices) -> None:
        self._poster = poster
        self._goal = goal
        self._notices = notices
        self._changed = threading.Condition()
        self._replies: List["queue.SimpleQueue[bool]"] = []
        self._is_started = False
        self._is_closed = False
        self._next_try = 0.0
        self.outbox = Outbox(most_spans)
        #: How many seconds pass before the next try, where the collector does not say it.
        self.wait = _FIRST_WAIT
        #: What went wrong last.
        self.last_failure = ""

    def start(self) -> None:
        """Starts the thread, where it has not started. RuntimeError where the system gives none."""
        if not self._is_started:
            threading.Thread(target=self._work, name="otel_proved.Sender (posts)", daemon=True).start()
            self._is_started = True

    def put(self, lines: List[bytes]) -> None:
        """Takes lines in. Where there are too many, the oldest are given up."""
        with self._changed:
            before = self.outbox.lost_spans
            self.outbox.put(lines)
            lost = self.outbox.lost_spans - before
            self._changed.notify_all()
        if lost:
            said = "more spans wait for %s than may, and the oldest are lost: %d"
            self._notices.warn("full", said, self._goal, lost)

    def reply_when_empty(self, reply: "queue.SimpleQueue[bool]") -> None:
        """Puts an answer when no line waits."""
        with self._changed:
            self._replies.append(reply)
            self._reply()

    def _reply(self) -> None:
        while self._replies and not self.outbox:
            self._replies.pop().put(True)

    def close(self) -> None:
        """Gives up what waits, and ends the thread; the line that is being posted may still be taken."""
        with self._changed:
            before = self.outbox.lost_spans
            while self.outbox:
                self.outbox.lose()
            self._is_closed = True
            self._changed.notify_all()
            lost = self.outbox.lost_spans - before
        if lost:
            said = "spans that were not sent to %s before the end, and are lost: %d"
            self._notices.warn("end", said, self._goal, lost)

    def _work(self) -> None:
        while True:
            with self._changed:
                line = self._next_line()
            if line is None:
                return
            answer = self._posted(line)
            with self._changed:
                if self.outbox.holds(line):
                    self._settle(answer)
                    self._reply()
            self._warn(answer, line)

    def _next_line(self) -> Optional[Line]:
        """Waits until a line may be posted; None is the end."""
        while not self._is_closed:
            left = self._next_try - time.monotonic()
            if self.outbox and left <= 0:
                return self.outbox.first()
            self._changed.wait(left if self.outbox else None)
        return None

    def _posted(self, line: Line) -> Answer:
        try:
            return self._poster.post(line.text)
        except Exception as error:
            # The thread goes on, whatever it is.
            return Answer(Outcome.LATER, repr(error))

    def _settle(self, answer: Answer) -> None:
        self.last_failure = answer.why or self.last_failure
        if answer.outcome is Outcome.LATER:
            # Services that failed together are not to try again together.
            wait = self.wait * random.uniform(0.5, 1.0) if answer.wait is None else max(answer.wait, _SHORTEST_WAIT)
            self._next_try = time.monotonic() + wait
            self.wait = min(self.wait * 2, _LONGEST_WAIT)
            return
        self.wait = _FIRST_WAIT
        if answer.outcome is Outcome.TAKEN:
            self.outbox.sent(answer.rejected_spans)
        else:
            self.outbox.lose()

    def _warn(self, answer: Answer, line: Line) -> None:
        if answer.outcome is Outcome.LATER:
            said = "spans that were not sent to %s, which is tried again: %d (%s)"
            self._notices.warn("later", said, self._goal, line.spans, answer.why)
        elif answer.rejected_spans or (answer.outcome is Outcome.REFUSED and answer.why):
            said = "spans that %s did not take, and that are lost: %d (%s)"
            lost = line.spans if answer.outcome is Outcome.REFUSED else answer.rejected_spans
            self._notices.warn("refused", said, self._goal, lost, answer.why)
