# SPDX-License-Identifier: Apache-2.0
"""OpenTelemetry's trace pipeline, proved, for Python: spans go in, and a Sender sends them to a collector."""

from .errors import (
    AlreadyOpen,
    BadArgument,
    BadEndpoint,
    BadSetting,
    BufferTooSmall,
    Busy,
    Closed,
    Failed,
    LibraryNotFound,
    NoSuchSpan,
    NoSuchTracer,
    NotUtf8,
    OtelError,
    OtherProcess,
    OtherVersion,
    OutOfMemory,
    UnknownStatus,
)
from ._native import Counts
from .carried import baggage, use_baggage
from .current import SpanBlock, current_span, use_span
from .decorating import traced
from .pipeline import Pipeline, Tracer
from .propagation import extract, inject
from .remote import Remote
from .sender import Sender
from .span import ROOT, Kind, Span, SpanContext, StatusCode

__version__ = "0.1.0"

__all__ = [
    "ROOT",
    "AlreadyOpen",
    "BadArgument",
    "BadEndpoint",
    "BadSetting",
    "BufferTooSmall",
    "Busy",
    "Closed",
    "Counts",
    "Failed",
    "Kind",
    "LibraryNotFound",
    "NoSuchSpan",
    "NoSuchTracer",
    "NotUtf8",
    "OtelError",
    "OtherProcess",
    "OtherVersion",
    "OutOfMemory",
    "Pipeline",
    "Remote",
    "Sender",
    "Span",
    "SpanBlock",
    "SpanContext",
    "StatusCode",
    "Tracer",
    "UnknownStatus",
    "baggage",
    "current_span",
    "extract",
    "inject",
    "traced",
    "use_baggage",
    "use_span",
]
