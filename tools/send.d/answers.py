# SPDX-License-Identifier: Apache-2.0
"""The answers of a collector, which may be any bytes: an `ExportTraceServiceResponse` in JSON or protobuf, or not."""

import email.utils
import http.client
import json
import re
import time

LONGEST_PAUSE = 60
# Of an answer so many bytes are read, and so many characters shown.
LONGEST_ANSWER = 1 << 16
SHOWN = 300
LATER = (408, 429, 502, 503, 504)


def shown(text):
    """A text without what could control a terminal; white space of any kind is a space."""
    return "".join(it for it in " ".join(text.split()) if it.isprintable())


class Noted:
    """The bytes of an answer, whose last line is noted."""

    def __init__(self, file):
        self.file = file
        self.last = b""

    def readline(self, *limit):
        self.last = self.file.readline(*limit)
        return self.last

    def __getattr__(self, name):
        return getattr(self.file, name)


class Response(http.client.HTTPResponse):
    """An answer whose head must be whole: http.client takes one that breaks off for one that ends."""

    def __init__(self, *words, **how):
        super().__init__(*words, **how)
        self.fp = self.noted = Noted(self.fp)

    def begin(self):
        super().begin()
        if self.noted.last not in (b"\r\n", b"\n"):
            raise http.client.HTTPException("the head of the answer breaks off")


class Answer:
    """An answer: its status, its type, how many seconds it asks to wait, and its body, None where that is too long."""

    def __init__(self, response):
        self.status = response.status
        self.is_protobuf = "protobuf" in response.headers.get_content_type()
        self.asked_wait = asked_wait(response.headers.get("Retry-After", ""))
        self.body = response.read(LONGEST_ANSWER + 1)
        if len(self.body) > LONGEST_ANSWER:
            self.body = None
        elif response.length:
            raise http.client.IncompleteRead(self.body, response.length)
        self.is_later = self.status in LATER or self.status < 200
        self.is_last = response.will_close or self.body is None or self.status < 200

    def words(self):
        """The beginning of what it says, as a message shows it."""
        body = self.body or b""
        try:
            texts = [value for number, value in fields_of(body) if number == 2] if self.is_protobuf else [body]
        except ValueError:
            texts = [body]
        return shown(b" ".join(it for it in texts if isinstance(it, bytes)).decode(errors="replace"))[:SHOWN]

    def rejected(self):
        """How many spans it rejects, and why. A ValueError where it does not read."""
        if self.body is None:
            raise ValueError
        count, why = (from_protobuf if self.is_protobuf else from_json)(self.body)
        if not 0 <= count < 1 << 63:
            raise ValueError
        return count, shown(why)[:SHOWN]


def asked_wait(value):
    """How many seconds a Retry-After asks for, as far as they are waited; None where it does not read."""
    value = value.strip()
    if re.fullmatch("[0-9]+", value):
        return min(int(value[:9]), LONGEST_PAUSE)
    try:
        seconds = email.utils.parsedate_to_datetime(value).timestamp() - time.time()
    except (TypeError, ValueError, IndexError, OverflowError):
        return None
    return min(max(int(seconds), 0), LONGEST_PAUSE)


def varint(data, at):
    """The number that stands there by seven bits a byte, and where it ends."""
    number = 0
    for index, byte in enumerate(data[at : at + 10]):
        number |= (byte & 127) << 7 * index
        if byte < 128:
            return number, at + index + 1
    raise ValueError


def fields_of(data):
    """Each field of a message of protobuf, its number and its value. A ValueError where it does not read."""
    at = 0
    while at < len(data):
        key, at = varint(data, at)
        if key & 7 == 0:
            value, at = varint(data, at)
        else:
            length, at = varint(data, at) if key & 7 == 2 else ({1: 8, 5: 4}.get(key & 7, len(data)), at)
            value = data[at : at + length]
            at += length
        if at > len(data):
            raise ValueError
        yield key >> 3, value


def typed(value, kind):
    if not isinstance(value, kind) or isinstance(value, bool):
        raise ValueError
    return value


def from_protobuf(body):
    """What an `ExportTraceServiceResponse` rejects, and why."""
    count, why = 0, b""
    for message in [typed(value, bytes) for number, value in fields_of(body) if number == 1]:
        for number, value in fields_of(message):
            if number == 1:
                count = typed(value, int)
            elif number == 2:
                why = typed(value, bytes)
    return count, why.decode(errors="replace")


def from_json(body):
    """The same of one in JSON. One without bytes rejects nothing."""
    try:
        tree = typed(json.loads(body or b"{}"), dict)
    except RecursionError:
        raise ValueError from None
    partial = typed(tree.get("partialSuccess", tree.get("partial_success")) or {}, dict)
    count = partial.get("rejectedSpans", partial.get("rejected_spans")) or 0
    if isinstance(count, str) and re.fullmatch("[0-9]{1,19}", count):
        count = int(count)
    why = partial.get("errorMessage", partial.get("error_message")) or ""
    return typed(count, int), typed(why, str)
