# SPDX-License-Identifier: Apache-2.0
"""What the tests share: pipelines that are closed after a test, their spans, and a stand-in for a collector."""

import contextlib
import gzip
import json
import os
import threading
import unittest
from http.server import BaseHTTPRequestHandler, ThreadingHTTPServer
from unittest import mock

from otel_proved import Pipeline

OUT_OF_MEMORY = 3
HERE = os.path.dirname(os.path.abspath(__file__))
PACKAGE_FOLDER = os.path.dirname(HERE)
TOP = os.path.normpath(os.path.join(PACKAGE_FOLDER, "..", ".."))
SHORT = 0.05


def spans_in(lines):
    """The spans of lines, each with the name of its scope, by their names."""
    found = {}
    for line in lines:
        for resource in json.loads(line)["resourceSpans"]:
            for scope in resource["scopeSpans"]:
                for span in scope["spans"]:
                    found[span["name"]] = {**span, "scope": scope["scope"]["name"]}
    return found


def value_of(value):
    """A value of the protocol as Python's."""
    (kind, inner), = value.items()
    if kind == "intValue":
        return int(inner)
    if kind == "doubleValue":
        return float(inner)
    return [value_of(it) for it in inner["values"]] if kind == "arrayValue" else inner


def attributes_of(thing):
    """The attributes of a span, an event or a link."""
    return {it["key"]: value_of(it["value"]) for it in thing["attributes"]}


class PipelineTest(unittest.TestCase):
    """A test that has a pipeline."""

    settings = {}

    def setUp(self):
        self.pipeline = Pipeline(self.settings, seed=7)
        self.addCleanup(self.pipeline.close)

    def exported(self):
        """The spans that have ended since this was asked last."""
        self.pipeline.flush()
        return spans_in(self.pipeline.drain())

    def no_memory(self, *names):
        """For a block these functions of the library find no memory."""
        stubs = {name: lambda *_: OUT_OF_MEMORY for name in names}
        return mock.patch.dict(self.pipeline._handle._functions, stubs)


class Collector(ThreadingHTTPServer):
    """Answers each request by the next of its scripted answers, and then by 200; notes bodies and headers."""

    def __init__(self, answers=(), port=0, ssl_context=None):
        super().__init__(("127.0.0.1", port), CollectorHandler)
        if ssl_context is not None:
            self.socket = ssl_context.wrap_socket(self.socket, server_side=True)
        self.answers = list(answers)
        self.came = []
        self.spans = {}
        self.url = f"http{'s' if ssl_context else ''}://127.0.0.1:{self.server_port}"
        self.lock = threading.Lock()
        self.serving = threading.Thread(target=self.serve_forever, args=(SHORT,))
        self.serving.start()

    def handle_error(self, *_):
        """Says nothing of clients that go away."""

    def stop(self):
        """Ends it."""
        self.shutdown()
        self.serving.join()
        self.server_close()


class CollectorHandler(BaseHTTPRequestHandler):
    """An answer is a status, headers and a body."""

    def do_POST(self):
        body = self.rfile.read(int(self.headers["Content-Length"]))
        if self.headers["Content-Encoding"] == "gzip":
            body = gzip.decompress(body)
        with self.server.lock:
            self.server.came.append((self.path, self.headers, body))
            status, headers, text = self.server.answers.pop(0) if self.server.answers else (200, {}, b"{}")
            if status == 200:
                self.server.spans.update(spans_in([body]))
        self.send_response(status)
        for name, value in headers.items():
            self.send_header(name, value)
        self.end_headers()
        with contextlib.suppress(OSError):
            self.wfile.write(text)

    do_GET = do_POST

    def log_message(self, *_):
        """Notes nothing."""
