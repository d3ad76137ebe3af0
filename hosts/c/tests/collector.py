# SPDX-License-Identifier: Apache-2.0
"""A stand-in for a collector, on the loopback, which answers as a test has it."""

import json
import re
import socket
import threading
import time


def answer(status, *headers, body="{}", length=None):
    """An answer with a head and a body."""
    lines = [f"HTTP/1.1 {status} Said", f"content-length: {len(body) if length is None else length}", *headers]
    return ("\r\n".join(lines) + "\r\n\r\n" + body).encode()


OK = answer(200)
IS_TAKEN = re.compile(rb"HTTP/1\.[01] 2\d\d [^\0]*\r?\n\r?\n")
# What is no answer: the connection stays, or ends at once.
SILENCE, END = "silence", "end"


class Request:
    """A request that came whole, and when."""

    def __init__(self, head, body):
        self.first, *lines = head.decode().split("\r\n")
        self.headers = dict(line.split(": ", 1) for line in lines)
        self.body = body
        self.came = time.monotonic()

    def spans(self):
        """The ids of its spans."""
        for resource in json.loads(self.body)["resourceSpans"]:
            for scope in resource["scopeSpans"]:
                yield from ((it["traceId"], it["spanId"]) for it in scope["spans"])


class Collector:
    """Answers requests by the answers of a list, one after another, the last one for ever."""

    def __init__(self, *answers):
        self.answers = list(answers) or [OK]
        self.requests = []
        self.taken = []
        self.lock = threading.Lock()
        self.held = []
        self.listener = socket.create_server(("127.0.0.1", 0), backlog=64)
        self.port = self.listener.getsockname()[1]
        threading.Thread(target=self.serve, daemon=True).start()

    def __enter__(self):
        return self

    def __exit__(self, *_):
        # A thread that waits at the listener would keep it open.
        self.listener.shutdown(socket.SHUT_RDWR)
        self.listener.close()
        for it in self.held:
            it.close()

    def serve(self):
        """Takes connections until the listener is closed."""
        while True:
            try:
                connection, _ = self.listener.accept()
            except OSError:
                return
            threading.Thread(target=self.talk, args=[connection], daemon=True).start()

    def talk(self, connection):
        """Reads a request, and answers it."""
        request = read_request(connection)
        with self.lock:
            if request:
                self.requests.append(request)
            said = self.answers.pop(0) if len(self.answers) > 1 else self.answers[0]
            if request and said not in (SILENCE, END) and IS_TAKEN.match(said):
                self.taken += request.spans()
        if said == SILENCE:
            self.held.append(connection)
            return
        if said != END:
            connection.sendall(said)
        connection.close()


def read_request(connection):
    """The request of a connection; None where it ends before."""
    came = b""
    while b"\r\n\r\n" not in came:
        more = connection.recv(65536)
        if not more:
            return None
        came += more
    head, body = came.split(b"\r\n\r\n", 1)
    length = next(int(it.split(b": ")[1]) for it in head.split(b"\r\n") if it.startswith(b"content-length"))
    while len(body) < length:
        more = connection.recv(65536)
        if not more:
            return None
        body += more
    return Request(head, body)
