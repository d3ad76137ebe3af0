# SPDX-License-Identifier: Apache-2.0
"""Posts a line to a collector, once."""

from __future__ import annotations

import datetime
import email.utils
import enum
import gzip
import http.client
import json
import urllib.error
import urllib.request
from typing import IO, Any, NamedTuple, Optional

from ._destination import Destination

# Statuses at which a line is to be sent again.
_LATER = (429, 502, 503, 504)
_LONGEST_ANSWER = 65536
_SHOWN = 300
_LONGEST_WAIT = 86400.0


class Outcome(enum.Enum):
    """What became of a line."""

    TAKEN = enum.auto()
    LATER = enum.auto()
    REFUSED = enum.auto()


class Answer(NamedTuple):
    """What came of a post, why it was not taken, and for how many seconds the collector asks to wait."""

    outcome: Outcome
    why: str = ""
    wait: Optional[float] = None
    rejected_spans: int = 0


class _Stays(urllib.request.HTTPRedirectHandler):
    """Follows no redirection: what follows one drops the body."""

    def redirect_request(self, *_: Any) -> None:
        return None


class Poster:
    """Posts lines to a destination."""

    def __init__(self, destination: Destination, agent: str) -> None:
        self._destination = destination
        self._headers = {"User-Agent": agent, **destination.headers, "Content-Type": "application/json"}
        if destination.is_compressed:
            self._headers["Content-Encoding"] = "gzip"
        trusting = [urllib.request.HTTPSHandler(context=destination.ssl_context)] if destination.ssl_context else []
        self._opener = urllib.request.build_opener(_Stays, *trusting)

    def post(self, line: bytes) -> Answer:
        """Posts a line. One whose answer did not come may have been taken, and comes twice when it is sent again."""
        body = gzip.compress(line, mtime=0) if self._destination.is_compressed else line
        request = urllib.request.Request(self._destination.url, body, self._headers)
        try:
            with self._opener.open(request, timeout=self._destination.timeout) as response:
                return _taken(_body_of(response))
        except urllib.error.HTTPError as error:
            with error:
                return _not_taken(error)
        except (OSError, http.client.HTTPException, ValueError) as error:
            return Answer(Outcome.LATER, f"no answer: {error}")


def _body_of(response: IO[bytes]) -> bytes:
    """The beginning of an answer's body, as far as it comes: the status has said what matters."""
    try:
        return response.read(_LONGEST_ANSWER)
    except (OSError, http.client.HTTPException):
        return b""


def _taken(body: bytes) -> Answer:
    """An answer of success, which may say that some spans were not taken."""
    try:
        partial = json.loads(body)["partialSuccess"]
        rejected = int(partial["rejectedSpans"])
        return Answer(Outcome.TAKEN, str(partial.get("errorMessage", ""))[:_SHOWN], None, max(rejected, 0))
    except (ValueError, TypeError, KeyError, AttributeError):
        return Answer(Outcome.TAKEN)


def _not_taken(error: urllib.error.HTTPError) -> Answer:
    why = f"status {error.code}: {_body_of(error)[:_SHOWN].decode('utf-8', 'replace')}"
    if error.code in _LATER:
        return Answer(Outcome.LATER, why, _asked_wait(error.headers.get("Retry-After", "")))
    return Answer(Outcome.REFUSED, why)


def _asked_wait(value: str) -> Optional[float]:
    """The seconds that Retry-After asks for, by a number or a date; a day at most."""
    value = value.strip()
    if value.isascii() and value.isdecimal():
        return min(float(value[:18]), _LONGEST_WAIT)
    try:
        moment = email.utils.parsedate_to_datetime(value)
    except (TypeError, ValueError):
        return None
    if moment.tzinfo is None:
        moment = moment.replace(tzinfo=datetime.timezone.utc)
    left = (moment - datetime.datetime.now(datetime.timezone.utc)).total_seconds()
    return min(max(left, 0.0), _LONGEST_WAIT)
