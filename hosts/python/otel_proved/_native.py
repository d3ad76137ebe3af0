# SPDX-License-Identifier: Apache-2.0
"""The C interface of hosts/c/otel.h: its functions, its structures, and its statuses as exceptions."""

from __future__ import annotations

import ctypes
import functools
import os
from ctypes import POINTER, c_bool, c_uint32, c_void_p
from typing import Any, Callable, Dict, List, NamedTuple, Tuple, Type

from . import errors
from ._declarations import FUNCTIONS, VERSION

LIBRARY = "libotel_c.so"
VARIABLE = "OTEL_C_LIBRARY"
_WAYS = (
    f"Unpack a release, and let {VARIABLE} name {LIBRARY} in its folder lib/; or build it: `./run --build c` at the "
    "top of the repository proves it and makes it in bin/, in some 30 minutes."
)


class _Held(ctypes.Structure):
    _fields_ = [("at", c_void_p)]


class HandleMemory(ctypes.Structure):
    """`otel_handle`: all zeros until it is opened."""

    _fields_ = [("is_open", c_bool), ("held", _Held)]


class Counts(NamedTuple):
    """How many spans are where. What was dropped, refused or lost is counted from the opening on."""

    #: Started, and neither ended nor abandoned.
    open_spans: int
    #: Ended, and in the queue.
    waiting_spans: int
    #: Ended, and dropped since the queue was full.
    dropped_spans: int
    #: Ended, and refused when memory ran out.
    refused_spans: int
    #: Exported, and not kept: memory ran out, or as many spans were kept as OTEL_C_MAX_UNDRAINED_SPANS allows.
    lost_batches: int
    #: The spans of these batches.
    lost_spans: int
    #: Exported and kept, and not drained yet.
    undrained_spans: int
    #: How many bytes the lines take that were made and not drained yet.
    undrained_bytes: int


OK = 0
NO_SUCH_SPAN = 4
BUFFER_TOO_SMALL = 8
_ERRORS: Dict[int, Type[errors.OtelError]] = {
    1: errors.Closed,
    2: errors.AlreadyOpen,
    3: errors.OutOfMemory,
    NO_SUCH_SPAN: errors.NoSuchSpan,
    5: errors.NoSuchTracer,
    6: errors.NotUtf8,
    7: errors.BadArgument,
    BUFFER_TOO_SMALL: errors.BufferTooSmall,
    9: errors.Failed,
}

# The calls that let other threads run meanwhile. Where a short one did too, a thread that traces would wait for its
# next step as long as each of the others works.
_LONG = {"otel_open", "otel_after_fork", "otel_flush", "otel_run", "otel_drain_some", "otel_shutdown", "otel_close"}
_WITHOUT_HANDLE = {"otel_version"}

Functions = Dict[str, Callable[..., int]]


def error_of(name: str, status: int) -> errors.OtelError:
    """The exception for a status that is not OK, of the function of this name."""
    kind = _ERRORS.get(status)
    if kind is None:
        return errors.UnknownStatus(f"{name} answered the status {status}")
    return kind(f"{name}: {kind.__doc__}")


def check(name: str, status: int) -> None:
    """Raises the exception for a status, of the function of this name, where it is not OK."""
    if status != OK:
        raise error_of(name, status)


def places() -> List[str]:
    """Where the library may lie, the first place first."""
    package = os.path.dirname(os.path.abspath(__file__))
    named = os.environ.get(VARIABLE)
    checkout = os.path.normpath(os.path.join(package, "..", "..", "..", "bin"))
    return [os.path.join(package, LIBRARY), *([named] if named else []), os.path.join(checkout, LIBRARY)]


def _path() -> str:
    for place in places():
        if os.path.isfile(place):
            return place
        if place == os.environ.get(VARIABLE):
            raise errors.LibraryNotFound(f"{VARIABLE} names {place}, and there is no such file. {_WAYS}")
    raise errors.LibraryNotFound(f"{LIBRARY} is at none of {', '.join(places())}. {_WAYS}")


@functools.lru_cache(maxsize=None)
def functions() -> Functions:
    """The library's functions by name. It is loaded when it is asked for first."""
    path = _path()
    try:
        others_run, others_wait = ctypes.CDLL(path), ctypes.PyDLL(path)
        found = {
            name: _declared(others_run if name in _LONG else others_wait, name, arguments)
            for name, arguments in FUNCTIONS.items()
        }
    except (OSError, AttributeError) as error:
        raise errors.LibraryNotFound(f"{path} cannot be used: {error}") from error
    _hold_version(path, found["otel_version"])
    return found


def _hold_version(path: str, ask: Callable[..., int]) -> None:
    """Raises an exception where the library is of another version than what is declared here."""
    numbers = [c_uint32() for _ in VERSION]
    check("otel_version", ask(*numbers))
    library = tuple(it.value for it in numbers)
    if library[:2] != VERSION[:2]:
        is_of, is_for = ".".join(map(str, library)), ".".join(map(str, VERSION[:2]))
        raise errors.OtherVersion(f"{path} is of version {is_of}, and this package is for {is_for}")


def _declared(library: ctypes.CDLL, name: str, arguments: Tuple[Any, ...]) -> Any:
    function = getattr(library, name)
    function.argtypes = [*(() if name in _WITHOUT_HANDLE else (POINTER(HandleMemory),)), *arguments]
    function.restype = c_uint32
    return function
