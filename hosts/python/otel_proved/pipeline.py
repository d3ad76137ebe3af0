# SPDX-License-Identifier: Apache-2.0
"""A pipeline: it takes spans, and exports them as lines of the OpenTelemetry protocol's JSON."""

from __future__ import annotations

import abc
import atexit
import contextlib
import secrets
import time
import weakref
from functools import partial
from typing import Dict, Iterator, List, Mapping, Optional, Protocol

from . import _fork
from ._failures import Failures
from ._handle import NO_SCOPE, NO_SPAN, Beginning, Handle, Scope, Started, left_behind
from ._native import Counts
from ._notices import Notices, warn
from ._outbox import spans_in
from ._settings import settings_of
from ._values import Attributes, encode_all, moment_fault, moment_near, text_of
from .current import SpanBlock, current_span
from .errors import Failed, NoSuchSpan, OtelError
from .remote import Remote
from .span import ROOT, Kind, Parent, Span, UnstartedSpan, member_of, origin_of, remote_of, started_parent

_LAST_SEED = 2**64 - 1


class Follower(Protocol):
    """What works for a pipeline: it goes on in a child process, and finishes before the pipeline is closed."""

    def resume(self) -> None:
        """Goes on, after a fork has left its thread in the parent."""

    def wake(self) -> None:
        """Is told that some hundred spans have ended. It is called in the middle of the work, and does little."""

    def close(self) -> object:
        """Finishes."""


class Starter(abc.ABC):
    """What starts spans."""

    _scope = NO_SCOPE
    _failures: Failures

    @abc.abstractmethod
    def _begin(self, beginning: Beginning, parent: Parent) -> Span:
        """Starts a span, or counts the failure."""

    def refuse(self, why: str) -> None:
        """Counts a wrong argument of a call that was to start a span."""
        self._failures.refuse(why)

    def start_span(
        self,
        name: str,
        kind: Kind = Kind.INTERNAL,
        attributes: Optional[Attributes] = None,
        parent: Parent = None,
        moment: Optional[int] = None,
    ) -> Span:
        """Starts a span, which you end. Its parent is the current span where none is given; that of ROOT is none.

        Where it cannot start it records nothing, and the failure is counted. So is an argument that is wrong; it stands
        for the default then.
        """
        failures, encoded = self._failures, encode_all(attributes, self._failures)
        if not isinstance(parent, (Span, Remote, type(None))):
            failures.refuse(f"a parent is a Span or a Remote, not {type(parent).__name__}")
            parent = None
        known = member_of(Kind, kind, failures) or Kind.INTERNAL
        beginning = Beginning(self._scope, known, text_of(name), encoded, moment_near(moment, failures))
        return self._begin(beginning, current_span() if parent is None else parent)

    def span(
        self,
        name: str,
        kind: Kind = Kind.INTERNAL,
        attributes: Optional[Attributes] = None,
        parent: Parent = None,
        moment: Optional[int] = None,
    ) -> SpanBlock:
        """A span for the block of a `with`, in which it is the current one. It ends on every path.

        An exception that leaves the block is recorded, and the status is an error. The end of a program that went well,
        of a generator of which no more is asked, and of a task that is cancelled is none.
        """
        return SpanBlock(lambda: self.start_span(name, kind, attributes, parent, moment))


class Tracer(Starter):
    """Starts the spans of a library. Make one by `Pipeline.tracer`."""

    def __init__(self, pipeline: "Pipeline", scope: Scope) -> None:
        self._pipeline = pipeline
        self._failures = pipeline._failures
        self._scope = scope

    def _begin(self, beginning: Beginning, parent: Parent) -> Span:
        return self._pipeline._begin(beginning, parent)


class Pipeline(Starter, _fork.Renewed):
    """A pipeline, safe for use from several threads. After a fork it goes on in the child with another seed, without
    the spans and the lines of the parent.

    The settings are those of `otel_open` in hosts/c/otel.h, by name. Without them each variable OTEL_* of the
    environment is one, but those that a Sender, `inject` and `extract` read. Without a seed it is random. The resource
    says by `telemetry.sdk.name`, `.version` and `.language` that the SDK is this package, unless a setting says others.
    """

    def __init__(self, settings: Optional[Mapping[str, str]] = None, seed: Optional[int] = None) -> None:
        self._settings, refused = settings_of(settings)
        self._failures = Failures()
        self._notices = Notices()
        self._seen_lost = 0
        self._followers: List[Follower] = []
        #: How many spans were in the lines that `close` handed back.
        self.returned_spans = 0
        self._opened: Dict[str, Handle] = {}
        self._handle = Handle(self._settings, _seed_of(seed), self._failures, partial(_wake, self._followers))
        #: The names of the settings that were ignored: unknown ones, and those whose value does not read.
        self.ignored_settings = [*refused, *self._handle.ignored_settings()]
        _fork.register(self)
        _opened.append(weakref.ref(self, _opened.remove))

    def tracer(self, name: str, version: str = "", schema_url: str = "") -> Tracer:
        """Who starts the spans of a library."""
        return Tracer(self, Scope(*map(text_of, (name, version, schema_url))))

    def _begin(self, beginning: Beginning, parent: Parent) -> Span:
        parent = started_parent(parent)
        try:
            started = self._started(self._live(), beginning, parent)
        except OtelError as error:
            self._failures.note(error)
            return UnstartedSpan(parent, self._failures)
        if not started.identity.trace_id:
            # After a shutdown the library starts nobody: the parent is passed on, as by an SDK that is disabled.
            started.finish("otel_abandon")
            return UnstartedSpan(parent, self._failures)
        return Span(started, origin_of(parent), self._failures)

    def _started(self, handle: Handle, beginning: Beginning, parent: Parent) -> Started:
        if parent is None or parent == ROOT:
            return handle.start(beginning, NO_SPAN)
        key = parent.key_at(handle) if isinstance(parent, Span) else None
        if key is not None:
            # It may end at this moment, and then names its children's parent by its headers.
            with contextlib.suppress(NoSuchSpan):
                return handle.start(beginning, key)
        return handle.start(beginning, remote_of(parent).encoded())

    def _live(self) -> Handle:
        """The handle of this process."""
        if self._handle.is_foreign:
            self._open_anew()
        return self._handle

    def _open_anew(self) -> None:
        wake = partial(_wake, self._followers)
        handle = Handle(self._settings, _seed_of(None), self._failures, wake, self._handle)
        if self._handle.is_shut_down:
            # It says that it failed where it is shut down still.
            with contextlib.suppress(Failed):
                handle.shutdown()
        # Another thread, or the handler of a signal, may have opened one meanwhile.
        self._handle = self._opened.setdefault("anew", handle)
        for follower in self._followers:
            follower.resume()

    def follow(self, follower: Follower) -> None:
        """Has a follower work for this pipeline."""
        self._followers.append(follower)

    @property
    def is_closed(self) -> bool:
        """Whether the pipeline was closed."""
        return self._handle.is_closed

    @property
    def failed_calls(self) -> int:
        """How many calls that start, change or end a span failed; they raise nothing."""
        return self._failures.count

    @property
    def left_out_attributes(self) -> int:
        """How many attributes were left out, since attributes have no such type."""
        return self._failures.left_out_attributes

    @property
    def last_failure(self) -> Optional[OtelError]:
        """Why the last of them failed."""
        return self._failures.last

    @property
    def forgotten_spans(self) -> int:
        """How many spans nobody ended before nobody knew them any more; they were abandoned."""
        return self._handle.forgotten_spans

    @property
    def lost_spans(self) -> int:
        """How many spans ended and could not be handed on when memory ran out; they were abandoned."""
        return self._handle.lost_spans

    def counts(self) -> Counts:
        """How many spans are where."""
        return self._live().count()

    def run(self, moment: Optional[int] = None) -> None:
        """Exports what is due, now or at a moment in nanoseconds of `time.monotonic_ns`, which never goes back."""
        fault = "" if moment is None else moment_fault(moment)
        if fault:
            raise ValueError(fault)
        self._live().run(time.monotonic_ns() if moment is None else moment)
        self._look()

    def flush(self) -> None:
        """Exports what waits."""
        self._live().flush()
        self._look()

    def drain(self) -> List[bytes]:
        """The lines of what was exported, without their line feeds. They are then forgotten. Where memory runs out
        after some lines those are handed out, and the others by a later call."""
        lines: List[bytes] = []
        try:
            for some in self.drain_some():
                lines += some
        except OtelError:
            if not lines:
                raise
        return lines

    def drain_some(self) -> Iterator[List[bytes]]:
        """The same, some lines at a time. What was handed out is not lost where an exception ends it."""
        return map(_lines_of, self._live().drain())

    def shutdown(self) -> None:
        """Exports what waits, and nothing afterwards. Lines can still be drained."""
        self._live().shutdown()

    def close(self) -> List[bytes]:
        """Has its senders finish, closes the pipeline, and answers the lines that nobody drained.

        Spans that are open are abandoned. From then on a start gives spans that record nothing.
        """
        if self.is_closed:
            return []
        handle = self._live()
        for follower in self._followers:
            follower.close()
        self._look()
        open_spans = handle.count().open_spans
        lines = _lines_of(handle.close())
        self.returned_spans += sum(map(spans_in, lines))
        if open_spans:
            warn("spans that were open when their pipeline was closed, and that are lost: %d", open_spans)
        return lines

    def _left_spans(self) -> int:
        """How many spans would be lost if the program ended now."""
        if self.is_closed or self._handle.is_foreign:
            return 0
        counts = self.counts()
        return counts.open_spans + counts.waiting_spans + counts.undrained_spans

    def _look(self) -> None:
        """Warns where spans were dropped, refused or lost since it looked last."""
        counts = self._live().count()
        lost = counts.dropped_spans + counts.refused_spans + counts.lost_spans + self.lost_spans
        if lost > self._seen_lost:
            self._seen_lost = lost
            said = "%d spans are lost: the queue was full, too many were not drained, or memory ran out"
            self._notices.warn("lost", said, lost)

    def __enter__(self) -> "Pipeline":
        return self

    def __exit__(self, *_: object) -> None:
        self.close()
        if self.returned_spans:
            warn("spans that were exported, that nobody drained, and that are lost: %d", self.returned_spans)

    def after_fork_in_child(self) -> None:
        """What a parent opened anew, and what it lost, is not the child's."""
        self._opened = {}
        self._seen_lost = 0


# The pipelines, in the order in which they were opened.
_opened: "List[weakref.ref[Pipeline]]" = []


def latest_pipeline() -> Optional[Pipeline]:
    """The pipeline that was opened last, of those that are not closed."""
    for reference in reversed(_opened):
        pipeline = reference()
        if pipeline is not None and not pipeline.is_closed:
            return pipeline
    return None


def _say_what_is_left() -> None:
    """At the end of the program, after senders have finished: what is lost with pipelines that nobody closed."""
    lost = sum(left_behind)
    for pipeline in [it() for it in _opened]:
        with contextlib.suppress(OtelError):
            lost += pipeline._left_spans() if pipeline is not None else 0
    if lost:
        warn("spans that nobody ended or drained before the end, and that are lost: %d", lost)


atexit.register(_say_what_is_left)


def _wake(followers: List[Follower]) -> None:
    for follower in followers:
        follower.wake()


def _seed_of(seed: Optional[int]) -> int:
    if seed is None:
        return secrets.randbits(64)
    if isinstance(seed, bool) or not isinstance(seed, int):
        raise TypeError(f"a seed must be an int, not {type(seed).__name__}")
    if not 0 <= seed <= _LAST_SEED:
        raise ValueError(f"a seed must be from 0 to {_LAST_SEED}, not {seed}")
    return seed


def _lines_of(drained: bytes) -> List[bytes]:
    return [line for line in drained.split(b"\n") if line]
