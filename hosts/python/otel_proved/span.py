# SPDX-License-Identifier: Apache-2.0
"""Spans: work that has a beginning and an end.

A call on a span raises nothing. What goes wrong, such as an argument that is wrong, no memory for an attribute or an
edit of a span that has ended, is counted in `Pipeline.failed_calls`; an attribute of a type that attributes do not have
is left out, and counted in `Pipeline.left_out_attributes`.
"""

from __future__ import annotations

import enum
import itertools
import sys
import traceback
from typing import Any, Callable, List, NamedTuple, Optional, Type, TypeVar, Union

from ._failures import Failures
from ._handle import NOBODY, Handle, Started
from ._values import Attributes, Encoded, Value, encode, encode_all, moment_near, text, text_of
from .errors import NoSuchSpan, OtelError
from .remote import Remote


class Kind(enum.IntEnum):
    """What role a span has in a call between services."""

    INTERNAL = 1
    SERVER = 2
    CLIENT = 3
    PRODUCER = 4
    CONSUMER = 5


class StatusCode(enum.IntEnum):
    """How the work of a span went."""

    UNSET = 0
    OK = 1
    ERROR = 2


class SpanContext(NamedTuple):
    """Who a span is: its ids in hexadecimal digits, and its flags."""

    trace_id: str
    span_id: str
    trace_flags: int

    @property
    def is_sampled(self) -> bool:
        """Whether the span is to be exported."""
        return self.trace_flags & 1 != 0

    @property
    def is_valid(self) -> bool:
        """Whether neither id is zero."""
        return self.trace_id.strip("0") != "" and self.span_id.strip("0") != ""

    @property
    def traceparent(self) -> str:
        """The header that names the span; an empty text where it is not valid."""
        return f"00-{self.trace_id}-{self.span_id}-{self.trace_flags & 1:02x}" if self.is_valid else ""


class Span:
    """A span that has started. Start one by `Pipeline.span`, `Pipeline.start_span`, or those of a `Tracer`."""

    def __init__(self, started: Started, origin: Remote, failures: Failures) -> None:
        self._started = started
        self._handle = started.handle
        self._key = started.key
        self._identity = started.identity
        self._is_recording = self._identity.is_recording
        self._origin = origin
        self._failures = failures

    @property
    def _is_over(self) -> bool:
        return self._started.is_over

    @property
    def context(self) -> SpanContext:
        """Who the span is."""
        trace_id, span_id, trace_flags, _ = self._identity
        return SpanContext(f"{trace_id:032x}", f"{span_id:016x}", trace_flags)

    @property
    def is_recording(self) -> bool:
        """Whether the span keeps what it is told: it is sampled, and has not ended."""
        return self._is_recording and not self._is_over

    def key_at(self, handle: Handle) -> Optional[int]:
        """The span's key where it is an open span of this handle."""
        return self._key if self._handle is handle and not self._is_over else None

    def as_remote(self) -> Remote:
        """The span by its headers: so it has children also after its end, in another pipeline or after a fork."""
        context = self.context
        # A state that came with a traceparent that did not read is of no trace.
        tracestate = self._origin.tracestate if context.trace_id in self._origin.traceparent else ""
        return Remote(context.traceparent, tracestate, self._origin.baggage)

    def headers(self) -> Remote:
        """The headers that hand the span on to another process."""
        if not self._is_over:
            try:
                return Remote.of_lines(self._handle.inject(self._key))
            except OtelError as error:
                self._failures.note(error)
        return self.as_remote()

    def _edit(self, name: str, *arguments: Any) -> None:
        self._change(lambda handle: handle.edit(name, self._key, *arguments))

    def _edit_with(self, attributes: List[Encoded], name: str, *arguments: Any) -> None:
        self._change(lambda handle: handle.edit_with(attributes, name, self._key, *arguments))

    def _change(self, change: Callable[[Handle], None]) -> None:
        if not self._is_recording:
            return
        try:
            if self._is_over:
                raise NoSuchSpan("a change of a span that has ended")
            change(self._handle)
        except OtelError as error:
            self._failures.note(error)

    def refuse(self, why: str) -> None:
        """Counts a wrong argument of a call that is for this span."""
        self._failures.refuse(why)

    def leave_out(self, key: str, why: str) -> None:
        """Counts something that is left out, as an attribute is, and says so once a key."""
        self._failures.leave_out(key, why)

    def set_attribute(self, key: str, value: Value) -> None:
        """Sets an attribute: a str, a bool, an int of 64 bits, a float, or a list of one of these."""
        encoded = encode(key, value, self._failures) if self._is_recording else None
        if encoded is not None and encoded.is_list:
            self._edit_with([encoded], "otel_set_attributes_with")
        elif encoded is not None:
            self._edit(f"otel_set_{encoded.form}", *encoded.arguments)

    def set_attributes(self, attributes: Attributes) -> None:
        """Sets attributes, all or none of those that are not left out."""
        self._edit_with(self._encoded(attributes), "otel_set_attributes_with")

    def _encoded(self, attributes: Optional[Attributes]) -> List[Encoded]:
        return encode_all(attributes, self._failures) if self._is_recording else []

    def add_event(self, name: str, attributes: Optional[Attributes] = None, moment: Optional[int] = None) -> None:
        """Adds an event; without a moment it is now."""
        when = moment_near(moment, self._failures)
        self._edit_with(self._encoded(attributes), "otel_add_event_with", *text(text_of(name)), when)

    def add_link(self, linked: Union["Span", Remote], attributes: Optional[Attributes] = None) -> None:
        """Adds a link to another span, also of another process."""
        encoded = self._encoded(attributes)
        if not isinstance(linked, (Span, Remote)):
            return self._failures.refuse(f"a link goes to a Span or a Remote, not to {type(linked).__name__}")
        if not self._is_recording:
            return
        key = linked.key_at(self._handle) if isinstance(linked, Span) else None
        if key is not None:
            return self._edit_with(encoded, "otel_add_link_with", key)
        headers = remote_of(linked).encoded()
        self._edit_with(encoded, "otel_add_remote_link_with", *text(headers.traceparent), *text(headers.tracestate))

    def set_status(self, code: StatusCode, description: str = "") -> None:
        """Says how the work went; only an error has a description."""
        known = member_of(StatusCode, code, self._failures)
        if known is not None:
            self._edit("otel_set_status", known, *text(text_of(description)))

    def update_name(self, name: str) -> None:
        """Gives the span another name."""
        self._edit("otel_update_name", *text(text_of(name)))

    def record_exception(self, error: BaseException, moment: Optional[int] = None) -> None:
        """Adds the event `exception`, with the error's type, message and traceback."""
        if not isinstance(error, BaseException):
            return self._failures.refuse(f"an exception must be one, not {type(error).__name__}")
        when = moment_near(moment, self._failures)
        if self._is_recording:
            texts = map(text_of, (_type_name(error), _message(error), _traceback(error)))
            self._edit("otel_record_exception", *itertools.chain.from_iterable(map(text, texts)), when)

    def record_error(self, error: BaseException) -> None:
        """Records an exception that the work ended by, and says by the status that it is an error."""
        self.record_exception(error)
        if isinstance(error, BaseException):
            self._edit("otel_set_status", StatusCode.ERROR, *text(text_of(_message(error))))

    def record_way_out(self, error: Optional[BaseException]) -> None:
        """Records what the work was left by, where that is an error: a program that ends well, a generator of which no
        more is asked, and a task that is cancelled are none."""
        if error is not None and not _is_no_error(error):
            self.record_error(error)

    def end(self, moment: Optional[int] = None) -> None:
        """Ends the span, now or at a moment, and hands it on where it is sampled. Only the first end counts."""
        when = moment_near(moment, self._failures)
        if not self._is_over:
            self._started.finish("otel_end", when)

    def abandon(self) -> None:
        """Ends the span, and hands nothing on."""
        if not self._is_over:
            self._started.finish("otel_abandon")


class UnstartedSpan(Span):
    """A span that could not start: it records nothing, and its children are those of its parent."""

    def __init__(self, parent: "Parent", failures: Failures) -> None:
        self._failures = failures
        self._is_recording = False
        self.parent = parent
        self._identity = parent._identity if isinstance(parent, Span) else NOBODY

    @property
    def _is_over(self) -> bool:
        return True

    def key_at(self, handle: Handle) -> Optional[int]:
        """No handle has it."""
        return None

    def as_remote(self) -> Remote:
        """The parent by its headers."""
        return remote_of(self.parent)


Parent = Union[Span, Remote, None]


def started_parent(parent: Parent) -> Parent:
    """The nearest ancestor that could start."""
    while isinstance(parent, UnstartedSpan):
        parent = parent.parent
    return parent


def remote_of(parent: Parent) -> Remote:
    """A parent by its headers; without one they say nothing."""
    return parent.as_remote() if isinstance(parent, Span) else parent or ROOT


def origin_of(parent: Parent) -> Remote:
    """The headers by which the trace came to this process, for what it takes along."""
    return parent._origin if isinstance(parent, Span) else parent or ROOT


ROOT = Remote()

_Named = TypeVar("_Named", bound=enum.IntEnum)


def member_of(kind: Type[_Named], value: object, failures: Failures) -> Optional[_Named]:
    """The member that a value stands for; None where it stands for none, which is counted."""
    if isinstance(value, kind):
        return value
    found = next((it for it in kind if it == value), None) if isinstance(value, int) else None
    if found is None:
        failures.refuse(f"it is of the type {type(value).__name__}, and no {kind.__name__}")
    return found


def _is_no_error(error: BaseException) -> bool:
    if isinstance(error, SystemExit):
        return error.code in (None, 0)
    # Whoever has a task has the module.
    tasks = sys.modules.get("asyncio.exceptions")
    return isinstance(error, GeneratorExit) or (tasks is not None and isinstance(error, tasks.CancelledError))


def _type_name(error: BaseException) -> str:
    kind = type(error)
    return kind.__qualname__ if kind.__module__ == "builtins" else f"{kind.__module__}.{kind.__qualname__}"


def _message(error: BaseException) -> str:
    try:
        return str(error)
    except Exception:
        return f"an error of the type {_type_name(error)}, whose text cannot be made"


def _traceback(error: BaseException) -> str:
    try:
        return "".join(traceback.format_exception(type(error), error, error.__traceback__))
    except Exception:
        # What an error says of itself may be anything.
        return ""
