# SPDX-License-Identifier: Apache-2.0
"""Sends what a pipeline exports to a collector, from threads in the background."""

from __future__ import annotations

import atexit
import queue
import ssl
import threading
from typing import List, Mapping, Optional, Union

from . import _fork
from ._delivery import Delivery
from ._destination import destination_of
from ._exporters import exporter_of
from ._notices import Notices
from .errors import OtelError
from .pipeline import Pipeline

_AGENT = "otel_proved (Python)"
_GREATEST = 1_000_000
# How many seconds a thread may take to say that it has ended.
_TO_END = 1.0


class _Flush:
    """Has all exported and sent; the reply comes when no line waits."""

    def __init__(self) -> None:
        self.reply: "queue.SimpleQueue[bool]" = queue.SimpleQueue()


class _Close(_Flush):
    """Has the threads end; the reply comes when what waited was given up."""


class _Turn:
    """Has what is due taken now."""


_Order = Union[_Flush, _Turn]


class Sender(_fork.Renewed):
    """Sends a pipeline's lines until it is closed, at the latest when the program ends.

    Without an endpoint OTEL_TRACES_EXPORTER says where they go: `otlp`, which is meant below, `console`, which is
    standard output, both, or `none`.

    At an interval, in seconds, it exports what is due and posts the lines. The endpoint is a URL, to which /v1/traces
    is added where it has no path; without one the environment's OTEL_EXPORTER_OTLP_* variables say it. A line is tried
    again, after growing waits, where there is no answer and at the statuses 429, 502, 503 and 504. Lines that another
    status refuses, and the oldest where more than `max_spans` wait in them, are given up and counted. Lines are taken
    in while one is posted too, and whenever some hundred spans have ended, so that few wait elsewhere.
    """

    def __init__(
        self,
        pipeline: Pipeline,
        endpoint: Optional[str] = None,
        interval: float = 1.0,
        *,
        headers: Optional[Mapping[str, str]] = None,
        timeout: Optional[float] = None,
        max_spans: int = 50_000,
        exit_timeout: float = 5.0,
        ssl_context: Optional[ssl.SSLContext] = None,
    ) -> None:
        destination = destination_of(endpoint, headers, timeout, ssl_context)
        self._check(interval=interval, timeout=destination.timeout, max_spans=max_spans)
        self._poster, self.endpoint, ignored = exporter_of(destination, _AGENT, endpoint is not None)
        #: The environment's OTEL_EXPORTER_OTLP_* variables, and OTEL_TRACES_EXPORTER, where they were ignored.
        self.ignored_settings: List[str] = ignored
        self._pipeline = pipeline
        self._interval = interval
        self._most_spans = max_spans
        self._exit_timeout = exit_timeout
        self._is_closing = False
        self._renew()
        self._start()
        pipeline.follow(self)
        _fork.register(self)
        atexit.register(self.close)

    @staticmethod
    def _check(**numbers: float) -> None:
        for name, number in numbers.items():
            if not 0 < number <= _GREATEST:
                raise ValueError(f"{name} must be more than 0 and at most {_GREATEST}, not {number!r}")

    def _renew(self) -> None:
        """What each process has of its own. Orders come to the thread by a queue, which needs no lock to be let go."""
        self._orders: "queue.SimpleQueue[_Order]" = queue.SimpleQueue()
        self._flushes: List[_Flush] = []
        self._thread: Optional[threading.Thread] = None
        # The first to ask may: a step of C code, which needs no lock either.
        self._may_start = iter((True,))
        self._delivery = Delivery(self._poster, self._most_spans, self.endpoint, Notices())

    @property
    def last_failure(self) -> str:
        """What went wrong last."""
        return self._delivery.last_failure

    @property
    def waiting_lines(self) -> int:
        """How many lines wait to be sent."""
        return len(self._delivery.outbox)

    @property
    def waiting_spans(self) -> int:
        """How many spans wait in them."""
        return self._delivery.outbox.waiting_spans

    @property
    def sent_lines(self) -> int:
        """How many lines the collector took."""
        return self._delivery.outbox.sent_lines

    @property
    def sent_spans(self) -> int:
        """How many spans it took with them."""
        return self._delivery.outbox.sent_spans

    @property
    def lost_lines(self) -> int:
        """How many lines were given up."""
        return self._delivery.outbox.lost_lines

    @property
    def lost_spans(self) -> int:
        """How many spans were given up with them, or not taken by the collector."""
        return self._delivery.outbox.lost_spans

    def flush(self, timeout: float = 10.0) -> bool:
        """Exports and sends all that has ended, and answers whether no line was left after so many seconds.

        A wait before the next try is kept to here too.
        """
        if self._is_closing:
            return False
        self._start()
        return self._answered(_Flush(), timeout)

    def _answered(self, order: _Flush, timeout: float) -> bool:
        self._orders.put(order)
        try:
            return order.reply.get(timeout=max(timeout, 0.0))
        except queue.Empty:
            return False

    def close(self, timeout: Optional[float] = None) -> bool:
        """Flushes, ends the threads, gives up what is left, and answers whether nothing was."""
        atexit.unregister(self.close)
        if self._thread is None or self._is_closing:
            self._is_closing = True
            return self.waiting_lines == 0
        is_sent = self.flush(self._exit_timeout if timeout is None else timeout)
        self._is_closing = True
        self._answered(_Close(), _TO_END)
        return is_sent

    def resume(self) -> None:
        """Goes on in a child process, whose threads are not there."""
        try:
            self._start()
        except RuntimeError as error:
            self._note(f"no thread: {error}")

    def wake(self) -> None:
        """Takes what the pipeline has, soon and not after the interval alone."""
        if not self._is_closing:
            self._orders.put(_Turn())

    def _start(self) -> None:
        if self._is_closing or not next(self._may_start, False):
            return
        try:
            words = {"args": (self._orders,), "name": "otel_proved.Sender", "daemon": True}
            self._delivery.start()
            self._thread = threading.Thread(target=self._work, **words)  # type: ignore[arg-type]
            self._thread.start()
        except BaseException:
            self._may_start = iter((True,))
            raise

    def after_fork_in_child(self) -> None:
        """The lines and the threads are the parent's. The child's start with its first span or flush."""
        self._renew()

    def _note(self, why: str) -> None:
        self._delivery.last_failure = why

    def _work(self, orders: "queue.SimpleQueue[_Order]") -> None:
        while True:
            order = self._next_order(orders)
            if isinstance(order, _Flush):
                self._flushes.append(order)
            try:
                self._take_turn()
            except Exception as error:
                # The thread goes on, whatever it is: what is not sent waits for the next turn.
                self._note(repr(error))
            if isinstance(order, _Close):
                self._delivery.close()
                return order.reply.put(True)

    def _next_order(self, orders: "queue.SimpleQueue[_Order]") -> _Order:
        """The next order; a turn where none comes for the interval. One turn does for several."""
        try:
            order = orders.get(timeout=self._interval)
            while isinstance(order, _Turn):
                order = orders.get_nowait()
            return order
        except queue.Empty:
            return _Turn()

    def _take_turn(self) -> None:
        """Takes what the pipeline has; a flush for which that failed is tried again at each turn."""
        if self._gather(is_flush=bool(self._flushes)):
            while self._flushes:
                self._delivery.reply_when_empty(self._flushes.pop().reply)

    def _gather(self, is_flush: bool) -> bool:
        """Has the pipeline export, all or what is due, and takes the lines. Answers whether it could take them."""
        try:
            if is_flush:
                self._pipeline.flush()
            else:
                self._pipeline.run()
        except OtelError as error:
            # What was exported until then is sent all the same.
            self._note(str(error))
        try:
            for lines in self._pipeline.drain_some():
                self._delivery.put(lines)
        except OtelError as error:
            self._note(str(error))
            return False
        return True
