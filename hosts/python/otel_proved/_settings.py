# SPDX-License-Identifier: Apache-2.0
"""The settings of a pipeline as lines NAME=VALUE, from a mapping or from the environment."""

from __future__ import annotations

import functools
import os
from typing import List, Mapping, NamedTuple, Optional, Tuple

from ._values import utf8
from .errors import BadSetting

_OURS = b"OTEL_"
_RESOURCE = b"OTEL_RESOURCE_ATTRIBUTES"
PROPAGATORS = "OTEL_PROPAGATORS"
# Of senders, of headers, and of what finds the library.
_OF_OTHERS = (b"OTEL_EXPORTER_", b"OTEL_C_DIR", b"OTEL_C_LIBRARY", b"OTEL_TRACES_EXPORTER", PROPAGATORS.encode())
_HEADERS = {"tracecontext": ("traceparent", "tracestate"), "baggage": ("baggage",), "none": ()}


class Settings(NamedTuple):
    """The lines, and the names of the variables that cannot stand in one."""

    lines: bytes
    refused: List[str]


def settings_of(given: Optional[Mapping[str, str]]) -> Settings:
    """The settings that are given; those of the environment where none are. What is said of the SDK comes with them."""
    return _of_environment() if given is None else Settings(_of_mapping(given), [])


def _about() -> bytes:
    """What the resource says of the SDK, which OpenTelemetry asks of each that is not its own, as its attributes."""
    from . import __version__

    facts = {"name": "otel_proved", "version": __version__, "language": "python"}
    return ",".join(f"telemetry.sdk.{key}={value}" for key, value in facts.items()).encode()


def _of_mapping(given: Mapping[str, str]) -> bytes:
    lines = []
    for name, value in {_RESOURCE.decode(): "", **given}.items():
        line = utf8(name, "a setting's name"), utf8(value, f"the setting {name!a}")
        if b"=" in line[0] or b"\n" in line[0] or not line[0]:
            raise BadSetting(f"a setting's name is empty, or has a '=' or a line feed: {name!a}")
        if b"\n" in line[1]:
            raise BadSetting(f"the setting {name!a} has a line feed: {value!a}")
        lines.append(_line(*line))
    return b"".join(lines)


def _line(name: bytes, value: bytes) -> bytes:
    # The later one of two attributes counts: the user's.
    before = _about() + b"," if name == _RESOURCE else b""
    return b"%s=%s%s\n" % (name, before, value)


def _of_environment() -> Settings:
    lines, refused = [], []
    for name, value in sorted({_RESOURCE: b"", **os.environb}.items()):
        if not name.startswith(_OURS) or name.startswith(_OF_OTHERS):
            continue
        line = _line(name, value)
        if line.count(b"\n") == 1 and _is_utf8(line):
            lines.append(line)
        else:
            refused.append(os.fsdecode(name))
    if propagators_of(os.environ.get(PROPAGATORS)).unknown:
        refused.append(PROPAGATORS)
    return Settings(b"".join(lines), refused)


class Propagators(NamedTuple):
    """The headers that are written and read, and the names that say nothing here."""

    headers: Tuple[str, ...]
    unknown: Tuple[str, ...]


@functools.lru_cache(maxsize=8)
def propagators_of(listed: Optional[str]) -> Propagators:
    """What a list of propagators stands for; all where it is not set."""
    names = [it.strip() for it in (listed or "").split(",") if it.strip()] or ["tracecontext", "baggage"]
    if "none" in names:
        return Propagators((), ())
    headers = dict.fromkeys(header for name in names for header in _HEADERS.get(name, ()))
    return Propagators(tuple(headers), tuple(it for it in names if it not in _HEADERS))


def _is_utf8(line: bytes) -> bool:
    try:
        line.decode()
    except UnicodeDecodeError:
        return False
    return True
