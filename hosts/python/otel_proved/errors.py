# SPDX-License-Identifier: Apache-2.0
"""What can go wrong, each with a name of its own."""

from __future__ import annotations


class OtelError(Exception):
    """Something that a pipeline could not do."""


class Closed(OtelError):
    """The pipeline is not open."""


class AlreadyOpen(OtelError):
    """The pipeline is open, and cannot be opened again."""


class OutOfMemory(OtelError):
    """The library found no memory; nothing has changed."""


class NoSuchSpan(OtelError):
    """The span has ended, or was abandoned."""


class NoSuchTracer(OtelError):
    """The library knows no such tracer."""


class NotUtf8(OtelError, ValueError):
    """A text has characters that UTF-8 cannot express: lone surrogates."""


class BadArgument(OtelError, ValueError):
    """The library refuses an argument, such as a link to headers that name no span."""


class BufferTooSmall(OtelError):
    """An answer did not fit into its buffer."""


class Failed(OtelError):
    """What was to be exported was not, or the pipeline was shut down before."""


class UnknownStatus(OtelError):
    """The library answered a number that otel.h does not name."""


class LibraryNotFound(OtelError, ImportError):
    """The shared library is at none of its places, or lacks a function."""


class OtherVersion(OtelError, ImportError):
    """The shared library is of another version than this package was made for."""


class Busy(OtelError):
    """A call came in the middle of another one by the same thread, from what the garbage collector runs."""


class OtherProcess(OtelError):
    """The span was started before a fork: it is the parent process that ends it."""


class BadSetting(OtelError, ValueError):
    """A setting's name or value cannot stand in a line NAME=VALUE."""


class BadEndpoint(OtelError, ValueError):
    """A collector's address, or what is sent along, cannot be used."""
