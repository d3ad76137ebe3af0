# SPDX-License-Identifier: Apache-2.0
"""The span of a request that a server answers: how it starts, and how it ends."""

from __future__ import annotations

from typing import Optional

from ._values import Value
from .pipeline import Starter
from .propagation import Headers, extract
from .span import Kind, Span, StatusCode

_METHODS = {"CONNECT", "DELETE", "GET", "HEAD", "OPTIONS", "PATCH", "POST", "PUT", "TRACE"}
_FIRST_SERVER_ERROR = 500


def plain(value: object) -> str:
    """A text as it is; an empty one for what is none."""
    return str.__str__(value) if isinstance(value, str) else ""


def start_request(starter: Starter, method: str, path: str, headers: Headers) -> Span:
    """Starts the span of a request, as a child of the one that its headers name."""
    attributes: "dict[str, Value]" = {"url.path": path}
    if method in _METHODS:
        attributes["http.request.method"] = method
    else:
        # A stranger may send any method, and names of spans are to be few.
        attributes["http.request.method"] = "_OTHER"
        attributes["http.request.method_original"] = method.encode("ascii", "replace").decode()
    return starter.start_span(method if method in _METHODS else "HTTP", Kind.SERVER, attributes, extract(headers))


def end_request(span: Span, code: Optional[int]) -> None:
    """Says how the response went, by its status, and ends the span."""
    if code is not None:
        span.set_attribute("http.response.status_code", code)
        if code >= _FIRST_SERVER_ERROR:
            span.set_status(StatusCode.ERROR)
    span.end()
