# SPDX-License-Identifier: Apache-2.0
"""Baggage: names and values that go along with a trace from one process to the next."""

from __future__ import annotations

import contextlib
import contextvars
import re
import urllib.parse
from typing import Dict, Iterator, List, Mapping, Optional, Tuple

from ._values import pairs_of, text_of
from .current import current_span
from .span import Span

_TOKEN = re.compile(r"[!#$%&'*+.^_`|~0-9A-Za-z-]+")
# What need not be encoded in a value.
_PLAIN = "!#$&'()*+-./:<=>?@[]^_`{|}~"
# What others have to hand on.
_MOST_MEMBERS, _MOST_BYTES = 64, 8192

# What blocks set, over what the current span's trace takes along; None takes a name away.
_set: "contextvars.ContextVar[Mapping[str, Optional[str]]]" = contextvars.ContextVar("otel_proved_baggage", default={})


def baggage() -> Dict[str, str]:
    """The current baggage: what came with the trace of the current span, and what `use_baggage` set."""
    found = {name: urllib.parse.unquote(value) for name, value, _ in _members_of(current_span().headers().baggage)}
    for name, value in _set.get().items():
        if value is None:
            found.pop(name, None)
        else:
            found[name] = value
    return found


@contextlib.contextmanager
def use_baggage(entries: Mapping[str, Optional[str]]) -> Iterator[None]:
    """Sets entries of the baggage for a block; None takes one away. `inject` writes them, and names no span has.

    A name is a token of HTTP; another one is left out, and counted as an attribute would be. A value is any text.
    """
    pairs = pairs_of(entries) if isinstance(entries, Mapping) else None
    if pairs is None:
        current_span().leave_out("baggage", f"is no mapping, but of the type {type(entries).__name__}")
    kept = {str.__str__(name): _plain(value) for name, value in pairs or () if _is_good(name, value)}
    token = _set.set({**_set.get(), **kept})
    try:
        yield
    finally:
        with contextlib.suppress(ValueError):
            _set.reset(token)


def _plain(value: Optional[str]) -> Optional[str]:
    return None if value is None else str.__str__(value)


def _is_good(name: object, value: object) -> bool:
    if isinstance(name, str) and _TOKEN.fullmatch(name) and isinstance(value, (str, type(None))):
        return True
    said = ascii(text_of(name).decode())
    current_span().leave_out(said, "is baggage whose name is no token of HTTP, or whose value is no text")
    return False


def header_of(span: Span, inherited: str) -> str:
    """The header of a span whose trace takes something along already; as much as others have to hand on."""
    entries = dict(_set.get())
    if not entries:
        return inherited
    members = [member for name, _, member in _members_of(inherited) if name not in entries]
    members += [f"{name}={_encoded(value)}" for name, value in entries.items() if value is not None]
    kept: List[str] = []
    for member in members:
        if len(kept) < _MOST_MEMBERS and len(",".join([*kept, member]).encode()) <= _MOST_BYTES:
            kept.append(member)
        else:
            span.leave_out(ascii(member.partition("=")[0]), "is baggage for which the header has no room")
    return ",".join(kept)


def _encoded(value: str) -> str:
    return urllib.parse.quote(value, safe=_PLAIN, errors="replace")


def _members_of(header: str) -> Iterator[Tuple[str, str, str]]:
    """The name and the encoded value of each member of a header, and the member as it stands there."""
    for member in header.split(","):
        name, equals, value = member.partition(";")[0].partition("=")
        if equals and _TOKEN.fullmatch(name.strip()):
            yield name.strip(), value.strip(), member.strip()
