# SPDX-License-Identifier: Apache-2.0
"""Where lines are sent, by what is given and by the environment's OTEL_EXPORTER_* variables."""

from __future__ import annotations

import os
import re
import ssl
import urllib.parse
from dataclasses import dataclass
from typing import Dict, List, Mapping, Optional, Tuple

from . import _security
from .errors import BadEndpoint

PATH = "/v1/traces"
_DEFAULT = "http://localhost:4318"
_ENDPOINT = "OTEL_EXPORTER_OTLP_ENDPOINT"
_TRACES_ENDPOINT = "OTEL_EXPORTER_OTLP_TRACES_ENDPOINT"
# The one for traces goes first.
_HEADERS = ("OTEL_EXPORTER_OTLP_TRACES_HEADERS", "OTEL_EXPORTER_OTLP_HEADERS")
_TIMEOUT = ("OTEL_EXPORTER_OTLP_TRACES_TIMEOUT", "OTEL_EXPORTER_OTLP_TIMEOUT")
_COMPRESSION = ("OTEL_EXPORTER_OTLP_TRACES_COMPRESSION", "OTEL_EXPORTER_OTLP_COMPRESSION")
_PROTOCOL = ("OTEL_EXPORTER_OTLP_TRACES_PROTOCOL", "OTEL_EXPORTER_OTLP_PROTOCOL")
_OF_TRACES = re.compile("OTEL_EXPORTER_OTLP_(?!METRICS_|LOGS_)")
_DEFAULT_SECONDS = 10.0
_TOKEN = re.compile(r"[!#$%&'*+.^_`|~0-9A-Za-z-]+")
_FIELD_VALUE = re.compile("[\t\x20-\x7e]*")


@dataclass(frozen=True)
class Destination:
    """A collector: its URL, headers more, how many seconds it may take, and which variables were ignored; whether what
    is posted is compressed by gzip, and whom https trusts, where that is not the system's matter."""

    url: str
    headers: Dict[str, str]
    timeout: float
    ignored_settings: List[str]
    is_compressed: bool = False
    ssl_context: Optional[ssl.SSLContext] = None


def destination_of(
    endpoint: Optional[str],
    headers: Optional[Mapping[str, str]],
    timeout: Optional[float],
    ssl_context: Optional[ssl.SSLContext] = None,
) -> Destination:
    """The destination by what is given, else by the environment, else the collector at this machine."""
    ignored = _unknown()
    found = dict(headers) if headers is not None else _headers_of_environment(ignored)
    for name, value in found.items():
        if not _TOKEN.fullmatch(name) or not _FIELD_VALUE.fullmatch(value):
            raise BadEndpoint(f"the header {name!a} for the collector cannot be sent")
    seconds = timeout if timeout is not None else _timeout_of_environment(ignored)
    url, is_compressed = _url(endpoint), _compression_of_environment(ignored)
    if ssl_context is None and url.startswith("https:"):
        ssl_context = _security.context_of_environment()
    return Destination(url, found, seconds, ignored, is_compressed, ssl_context)


def _url(endpoint: Optional[str]) -> str:
    if endpoint is not None:
        parts = _checked(endpoint, "the endpoint")
        return endpoint if parts.path.strip("/") else _with_path(endpoint)
    whole = os.environ.get(_TRACES_ENDPOINT)
    if whole:
        _checked(whole, _TRACES_ENDPOINT)
        return whole
    base = os.environ.get(_ENDPOINT) or _DEFAULT
    _checked(base, _ENDPOINT)
    return _with_path(base)


def _with_path(base: str) -> str:
    return base.rstrip("/") + PATH


def _checked(url: str, what: str) -> urllib.parse.SplitResult:
    """The parts of a URL that can be posted to."""
    try:
        parts = urllib.parse.urlsplit(url)
        is_good = parts.scheme in ("http", "https") and bool(parts.hostname) and parts.port != 0
    except ValueError:
        is_good = False
    if not is_good or not re.fullmatch("[\x21-\x7e]+", url):
        raise BadEndpoint(f"{what} is {url!a}, which is no URL of http or https")
    if parts.username is not None or parts.query or parts.fragment:
        raise BadEndpoint(f"{what} has a user, a query or a fragment, none of which is sent: use headers")
    return parts


def _first_set(names: Tuple[str, ...]) -> Tuple[str, str]:
    """The first of these variables that is set, and its value."""
    for name in names:
        if os.environ.get(name):
            return name, os.environ[name]
    return names[-1], ""


def _headers_of_environment(ignored: List[str]) -> Dict[str, str]:
    name, listed = _first_set(_HEADERS)
    found = {}
    for member in filter(None, (it.strip() for it in listed.split(","))):
        key, equals, value = member.partition("=")
        read = urllib.parse.unquote(value.strip())
        if not equals or not _TOKEN.fullmatch(key.strip()) or not _FIELD_VALUE.fullmatch(read):
            ignored.append(name)
            return {}
        found[key.strip()] = read
    return found


def _timeout_of_environment(ignored: List[str]) -> float:
    name, milliseconds = _first_set(_TIMEOUT)
    if re.fullmatch("[0-9]{1,9}", milliseconds) and int(milliseconds) > 0:
        return int(milliseconds) / 1000
    if milliseconds:
        ignored.append(name)
    return _DEFAULT_SECONDS


def _compression_of_environment(ignored: List[str]) -> bool:
    name, how = _first_set(_COMPRESSION)
    if how not in ("", "none", "gzip"):
        ignored.append(name)
    return how == "gzip"


def _unknown() -> List[str]:
    """The variables for traces that are set and not read here. Of protocols there is one, JSON over HTTP."""
    read = {_ENDPOINT, _TRACES_ENDPOINT, *_HEADERS, *_TIMEOUT, *_COMPRESSION, *_security.VARIABLES}
    name, protocol = _first_set(_PROTOCOL)
    if protocol == "http/json":
        read.add(name)
    return sorted(it for it, value in os.environ.items() if value and _OF_TRACES.match(it) and it not in read)
