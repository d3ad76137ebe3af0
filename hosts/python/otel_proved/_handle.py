# SPDX-License-Identifier: Apache-2.0
"""A handle of the library, used by one call at a time: during long calls ctypes lets other threads run."""

from __future__ import annotations

import collections
import ctypes
import sys
import weakref
from functools import partial
from typing import Any, Callable, Deque, Dict, Iterator, List, NamedTuple, Optional, Sequence, Set, TypeVar, Union

from . import _declarations, _fork, _native
from ._attributes import listed
from ._counting import Count
from ._failures import Failures
from ._native import Counts
from ._outbox import spans_in
from ._turns import Call, Turns
from ._values import Encoded, text
from .errors import OtelError, OtherProcess

NO_SPAN = 0
# What most answers fit into, in bytes, and what some lines do: the most room that is made without need.
_ROOM, _ROOM_OF_LINES = 512, 2**18
_ENDS_TO_WAKE = 256

#: How many spans were lost with each handle that nobody knew any more; the end of the program says so. A log may have
#: been in the middle of something.
left_behind: List[int] = []


class Scope(NamedTuple):
    """Whose spans they are: a library's name, version and schema URL. An empty text is none."""

    name: bytes
    version: bytes
    schema_url: bytes


NO_SCOPE = Scope(b"", b"", b"")


class Headers(NamedTuple):
    """The headers that name the span of another process; empty ones say nothing."""

    traceparent: bytes
    tracestate: bytes
    baggage: bytes


class Beginning(NamedTuple):
    """What a span begins with."""

    scope: Scope
    kind: int
    name: bytes
    attributes: Sequence[Encoded]
    moment: int


class Identity(NamedTuple):
    """Who a span is, in numbers."""

    trace_id: int
    span_id: int
    trace_flags: int
    is_recording: bool


NOBODY = Identity(0, 0, 0, False)


class Started:
    """A span that the library has started, or is about to. One that nobody can name any more is forgotten."""

    def __init__(self, handle: "Handle") -> None:
        self.handle = handle
        self.is_over = False
        # Of the library's answers. A key of 0 is none.
        self.key_cell = ctypes.c_uint64()
        self.found = _declarations.Identity()
        self._watch: Optional[Watch] = handle.watch(self)

    @property
    def key(self) -> int:
        """The span's key."""
        return self.key_cell.value

    @property
    def identity(self) -> Identity:
        """Who the span is."""
        found = self.found
        trace_id = found.trace_id_high << 64 | found.trace_id_low
        return Identity(trace_id, found.span_id, found.trace_flags, found.is_recording != 0)

    def finish(self, how: str, *moment: int) -> None:
        """Has the span end by otel_end, at a moment, or by otel_abandon. What an exception stops the next call does."""
        finish = Finish(self.key, how, moment)
        self.handle.queue(finish)
        self.is_over = True
        self.handle.unwatch(self._watch)
        # It would be heard of also where only the span itself has it.
        self._watch = None
        self.handle.carry_out_ends()


class Watch(weakref.ref):  # type: ignore[type-arg]
    """Says that a span can be named no more, by C code alone: the handler of a signal may interrupt a `__del__`."""

    key_cell: ctypes.c_uint64


_Item = TypeVar("_Item")
_END, _ABANDON, _FORGET = "otel_end", "otel_abandon", "forget"


class Finish(NamedTuple):
    """An end of a span that is to be carried out: by otel_end, or by otel_abandon, as also where nobody ended it."""

    key: int
    how: str
    moment: Sequence[int] = ()


def _first(waiting: "Deque[_Item]") -> Optional[_Item]:
    try:
        return waiting[0]
    except IndexError:
        # Another thread has taken the last one.
        return None


def _drop(waiting: "Deque[_Item]", item: _Item) -> None:
    try:
        waiting.remove(item)
    except ValueError:
        # Another thread carried it out too.
        pass


class Handle:
    """An open handle. Each method answers what the library does, or raises an OtelError."""

    def __init__(
        self,
        settings: bytes,
        seed: int,
        failures: Failures,
        wake: Callable[[], None],
        parents: Optional["Handle"] = None,
    ) -> None:
        self._functions = _native.functions()
        self._memory = _native.HandleMemory()
        self._address = ctypes.byref(self._memory)
        self._failures = failures
        # Is called after each 256 ends, since they may have exported a batch.
        self._wake = wake
        self._ended = Count()
        self._turns = Turns()
        self._tracers: Dict[Scope, int] = {NO_SCOPE: 0}
        # The first to ask in the child of a fork may: a step of C code, which needs no lock.
        self._may_go_on: Iterator[bool] = iter(())
        self._rooms: Dict[str, int] = {}
        self._queue: Deque[Finish] = collections.deque()
        self._watches: Set[Watch] = set()
        self._gone: Deque[Watch] = collections.deque()
        self._forgotten = Count()
        self._lost = Count()
        # What was drained to be closed; an error in between loses none.
        self._last_lines: List[bytes] = []
        self.is_shut_down = False
        self.is_closed = False
        self.is_foreign = False
        self._begin(settings, seed, parents)
        _fork.register(self)

    def _begin(self, settings: bytes, seed: int, parents: Optional["Handle"]) -> None:
        """Opens the handle. In the child of a fork it goes on with that of the parent, where that was between two calls
        and no other goes on with it."""
        if parents is None or not next(parents._may_go_on, False):
            return self._do("otel_open", *text(settings), seed)
        self._memory, self._address = parents._memory, parents._address
        self._tracers.update(parents._tracers)
        self._do("otel_after_fork", seed)

    @property
    def forgotten_spans(self) -> int:
        """How many spans nobody ended."""
        return self._forgotten.number

    @property
    def lost_spans(self) -> int:
        """How many spans ended and could not be handed on."""
        return self._lost.number

    def _call(self, name: str, *arguments: Any) -> Call:
        """A call that is still to be made."""
        return partial(self._functions[name], self._address, *arguments)

    def _take(self, take: Callable[..., int], *calls: Any) -> int:
        """Has a turn, and carries out what waits for one: before it, and what came to wait in the middle of it."""
        if self.is_foreign:
            raise OtherProcess("the span was started before a fork, in the parent process")
        if self._queue or self._gone:
            self._carry_out()
        try:
            return take(*calls)
        finally:
            if self._queue or self._gone:
                self._carry_out()

    def _status(self, name: str, *arguments: Any) -> int:
        return self._take(self._turns.take_one, partial(self._functions[name], self._address, *arguments))

    def _do(self, name: str, *arguments: Any) -> None:
        _native.check(name, self._status(name, *arguments))

    def _read(self, name: str, *arguments: Any, least: int = _ROOM) -> bytes:
        length, wanted = ctypes.c_size_t(), self._rooms.get(name, least)
        while True:
            room = ctypes.create_string_buffer(wanted)
            status = self._status(name, *arguments, room, wanted, ctypes.byref(length))
            if status != _native.BUFFER_TOO_SMALL:
                _native.check(name, status)
                # The next answer is seldom twice as long; where it is, the library writes it a second time.
                self._rooms[name] = min(max(least, 2 * length.value), _ROOM_OF_LINES)
                return ctypes.string_at(room, length.value)
            wanted = length.value

    def _tracer(self, scope: Scope) -> int:
        tracer = self._tracers.get(scope)
        if tracer is None:
            number = ctypes.c_uint64()
            self._do("otel_tracer", *text(scope.name), *text(scope.version), *text(scope.schema_url), number)
            tracer = self._tracers[scope] = number.value
        return tracer

    def start(self, beginning: Beginning, parent: Union[int, Headers]) -> Started:
        """Starts a child of an open span of this handle, of the span that headers name, or of NO_SPAN."""
        tracer = self._tracer(beginning.scope)
        started = Started(self)
        attributes = listed(beginning.attributes)
        rest = (beginning.kind, *text(beginning.name), beginning.moment, *attributes, started.key_cell)
        if isinstance(parent, int):
            start = self._call("otel_start_with", tracer, parent, *rest)
        else:
            headers = (*text(parent.traceparent), *text(parent.tracestate), *text(parent.baggage))
            start = self._call("otel_start_remote_with", tracer, *headers, *rest)
        identify = self._call("otel_identity", started.key_cell, started.found)
        try:
            _native.check("otel_start", self._take(self._turns.take, (start, identify)))
        except OtelError:
            if started.key:
                started.finish(_ABANDON)
            raise
        return started

    def edit(self, name: str, key: int, *arguments: Any) -> None:
        """Edits a span by a function that takes no attributes."""
        self._do(name, key, *arguments)

    def edit_with(self, attributes: Sequence[Encoded], name: str, key: int, *arguments: Any) -> None:
        """Edits a span by a function that takes attributes."""
        self._do(name, key, *arguments, *listed(attributes))

    def inject(self, key: int) -> bytes:
        """The headers of a span, as lines."""
        return self._read("otel_inject", key)

    def watch(self, started: Started) -> Watch:
        """Has a span abandoned when nobody can name it any more."""
        watch = Watch(started, self._gone.append)
        watch.key_cell = started.key_cell
        self._watches.add(watch)
        return watch

    def unwatch(self, watch: Optional[Watch]) -> None:
        """Has it no more."""
        if watch is not None:
            self._watches.discard(watch)

    def queue(self, finish: Finish) -> None:
        """Has a span's end carried out before the next call. It waits for no other call."""
        self._queue.append(finish)

    def carry_out_ends(self) -> None:
        """Carries out the ends that wait. In the middle of a turn they are left to whoever has that.

        Each stays in the queue until it is done, so that an exception loses none. A second time nothing comes of it.
        """
        while self._queue and not self._turns.is_mine():
            finish = _first(self._queue)
            if finish is not None:
                self._settle(finish)
                _drop(self._queue, finish)

    def _carry_out(self) -> None:
        """Does so, and then has spans abandoned that nobody can name: a `__del__` may end them until the next call."""
        self.carry_out_ends()
        while self._gone and not self._turns.is_mine():
            watch = _first(self._gone)
            if watch is not None:
                self._settle(Finish(watch.key_cell.value, _FORGET))
                self._watches.discard(watch)
                _drop(self._gone, watch)

    def _settle(self, finish: Finish) -> None:
        if self.is_foreign:
            return self._note(finish, OtherProcess("the span was started before a fork, in the parent process"))
        key, how, moment = finish
        status = self._turns.take_one(self._call(_END if how == _END else _ABANDON, key, *moment))
        if status == _native.OK:
            return self._count(how)
        if status == _native.NO_SUCH_SPAN:
            return
        self._note(finish, _native.error_of(how, status))
        if how == _END and self._turns.take_one(self._call(_ABANDON, key)) != _native.NO_SUCH_SPAN:
            self._lost.add()

    def _count(self, how: str) -> None:
        if how == _FORGET:
            self._forgotten.add()
        elif how == _END:
            self._ended.add()
            if self._ended.number % _ENDS_TO_WAKE == 0:
                self._wake()

    def _note(self, finish: Finish, error: OtelError) -> None:
        if finish.how != _FORGET:
            self._failures.note(error)

    def ignored_settings(self) -> List[str]:
        """The names of the settings that were ignored."""
        return self._read("otel_ignored_settings").decode("utf-8", "replace").split("\n")[:-1]

    def flush(self) -> None:
        """Exports what waits."""
        self._do("otel_flush")

    def run(self, moment: int) -> None:
        """Exports what is due."""
        self._do("otel_run", moment)

    def drain(self) -> Iterator[bytes]:
        """The lines of what was exported until now, some at a time, which are then forgotten. What other threads export
        meanwhile may be left."""
        left = self.count().undrained_spans
        while left > 0:
            lines = self._read("otel_drain_some", least=_ROOM_OF_LINES)
            yield lines
            left = left - spans_in(lines) if lines else 0

    def count(self) -> Counts:
        """How many spans are where."""
        found = _declarations.Numbers()
        self._do("otel_count", found, ctypes.sizeof(found))
        return Counts(*(getattr(found, name) for name in Counts._fields))

    def shutdown(self) -> None:
        """Exports what waits, and nothing afterwards."""
        self.is_shut_down = True
        self._do("otel_shutdown")

    def close(self) -> bytes:
        """Shuts down and lets go of all but the lines that nobody drained, which it answers."""
        self.is_shut_down = True
        # One that was shut down before answers that it failed; what an export lost is counted.
        self._status("otel_shutdown")
        for lines in self.drain():
            self._last_lines.append(lines)
        self._do("otel_close")
        self.is_closed = True
        return b"".join(self._last_lines)

    def before_fork(self) -> None:
        """Waits for the call that runs, so that the child finds none half done."""
        self._turns.hold()

    def after_fork_in_parent(self) -> None:
        """Lets the next call run."""
        self._turns.let_go()
        self.carry_out_ends()

    def after_fork_in_child(self) -> None:
        """Calls by what is the parent's are refused. Another handle may go on where no call was under way."""
        if not self.is_closed and not self.is_foreign:
            self._may_go_on = iter((True,) if self._turns.is_mine() else ())
        self._turns = Turns()
        left_behind.clear()
        self._queue.clear()
        self._watches.clear()
        self._gone.clear()
        self.is_foreign = not self.is_closed

    def __del__(self) -> None:
        # Nobody else can call now. A handle that could not be opened may have less than this.
        if not getattr(self, "is_closed", True) and not self.is_foreign:
            if not sys.is_finalizing():
                self._note_left()
            self._functions["otel_close"](self._address)

    def _note_left(self) -> None:
        found = _declarations.Numbers()
        if self._functions["otel_count"](self._address, found, ctypes.sizeof(found)) == _native.OK:
            left_behind.append(found.open_spans + found.waiting_spans + found.undrained_spans)
