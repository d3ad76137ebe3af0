# SPDX-License-Identifier: Apache-2.0
"""Headers that hand a span on to another process: traceparent, tracestate and baggage.

Which of them are written and read the environment's OTEL_PROPAGATORS says: `tracecontext,baggage`, or one of these, or
`none`. Others are ignored, as `Pipeline.ignored_settings` says.
"""

from __future__ import annotations

import os
from typing import Any, Dict, Iterable, List, Mapping, MutableMapping, Optional, Tuple, Union

from ._settings import PROPAGATORS, propagators_of
from .carried import header_of
from .current import current_span
from .remote import CONTROL, FIELDS, Remote
from .span import Span

Headers = Union[Mapping[Any, Any], Iterable[Tuple[Any, Any]]]


def inject(headers: MutableMapping[str, str], span: Optional[Span] = None) -> None:
    """Writes the headers of a span, or else of the current one, in place of those that stand there.

    Without a span and baggage it leaves all as it is.
    """
    given, span = span, span if isinstance(span, Span) else current_span()
    if given is not None and given is not span:
        span.refuse(f"headers name a Span, not {type(given).__name__}")
    found = span.headers()
    found = Remote(found.traceparent, found.tracestate, header_of(span, found.baggage))
    fields = [(name, value) for name, value in found.fields() if name in _known()]
    if type(headers) is dict:
        return _write(fields, headers)
    try:
        if hasattr(headers, "keys") and hasattr(headers, "__setitem__"):
            return _write(fields, headers)
        why = "a mapping"
    except Exception:
        why = "a mapping that takes them"
    return span.refuse(f"headers are written into {why}, not into {type(headers).__name__}")


def _write(fields: List[Tuple[str, str]], headers: MutableMapping[str, str]) -> None:
    for name in [it for it in headers if _field_of(it)] if fields else ():
        del headers[name]
    for name, value in fields:
        headers[name] = value


def extract(headers: Headers) -> Remote:
    """What a request's headers say, from a mapping or from pairs of a name and a value, each str or bytes.

    The case of a name says nothing. Several fields of one name are joined by commas, but two of `traceparent` say
    nothing, and neither does a field with a control character or, read as Latin-1, without good UTF-8, nor what is no
    header.
    """
    found: Dict[str, List[str]] = {name: [] for name in FIELDS}
    for name, value in _pairs_of(headers):
        field = _field_of(name)
        if field and field in _known():
            found[field].append(_text_of(value))
    if len(found["traceparent"]) > 1:
        found["traceparent"] = []
    return Remote(**{name: ",".join(filter(None, values)) for name, values in found.items()})


def _known() -> Tuple[str, ...]:
    """The headers that are written and read."""
    return propagators_of(os.environ.get(PROPAGATORS)).headers


def _pairs_of(headers: Headers) -> List[Tuple[Any, Any]]:
    try:
        return [(name, value) for name, value in (headers.items() if hasattr(headers, "items") else headers)]
    except Exception:
        # It may be the service's own code.
        return []


def _field_of(name: Any) -> Optional[str]:
    if isinstance(name, bytes):
        name = bytes.decode(name, "latin-1")
    lowered = str.lower(name) if isinstance(name, str) else None
    return lowered if lowered in FIELDS else None


def _text_of(value: Any) -> str:
    """The text of a field, which servers hand on as Latin-1; an empty one where it says nothing."""
    if not isinstance(value, (str, bytes)):
        return ""
    read = _decoded(value) if isinstance(value, bytes) else _as_utf8(str.__str__(value))
    return "" if CONTROL.search(read) else read


def _as_utf8(value: str) -> str:
    if value.isascii():
        return value
    try:
        return _decoded(value.encode("latin-1"))
    except UnicodeEncodeError:
        return value if _is_utf8(value) else ""


def _decoded(value: bytes) -> str:
    try:
        return bytes.decode(value)
    except UnicodeDecodeError:
        return ""


def _is_utf8(value: str) -> bool:
    """Whether a text has no lone surrogate."""
    return value.encode("utf-8", "replace").decode() == value
