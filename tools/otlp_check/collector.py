"""A stand-in for a collector, on the loopback alone: it answers as OTLP over HTTP has it, and notes what came.

`POST /v1/traces` is answered by 200 and a response without members, or `partialSuccess` where a span came before; a
body that cannot be read by 400 and a `Status`; a type that is neither JSON nor protobuf, or an encoding, by 415; another
path by 404. Answers are of the type of the request. What a client sent that has closed the connection meanwhile is not
taken.
"""

import collections
import json
import select
import signal
import socket
import sys
import threading
from http.server import BaseHTTPRequestHandler, ThreadingHTTPServer

PATH = "/v1/traces"
JSON, PROTOBUF = "application/json", "application/x-protobuf"
# Codes of `google.rpc.Code`.
INVALID_ARGUMENT, NOT_FOUND, UNIMPLEMENTED, UNAVAILABLE = 3, 5, 12, 14


def spans_of(tree):
    """Each span of a request, with its scope and its resource."""
    for resource_spans in tree["resourceSpans"]:
        for scope_spans in resource_spans["scopeSpans"]:
            for span in scope_spans["spans"]:
                yield span, scope_spans["scope"], resource_spans["resource"]


def key_of(span):
    return span["traceId"], span["spanId"]


def name_of(key):
    return f"span {key[1]} of trace {key[0]}"


class Received:
    """What came: spans by their ids, in order, and what was wrong."""

    def __init__(self, readers, failing, last, kept):
        self.readers = readers
        self.failing = failing
        self.last = last
        self.kept = kept
        self.spans = {}
        self.faults = []
        self.turned_away = 0
        self.left = 0
        self.requests = 0
        self.is_over = threading.Event()
        self.lock = threading.Lock()

    def turns_away(self):
        """Whether this request is one of those that find the collector busy."""
        with self.lock:
            is_busy = self.turned_away < self.failing
            self.turned_away += is_busy
            return is_busy

    def take(self, kind, body, is_left):
        """Takes a body: the keys of its spans that came before. A fault where it cannot be read.

        It is not taken, and the answer is None, where whoever sent it no longer waits, and so has to send it again.
        """
        with self.lock:
            self.requests += 1
            if self.requests == self.last:
                self.is_over.set()
            try:
                tree = self.readers[kind](body)
                found = [(key_of(it[0]), it) for it in spans_of(tree)]
            except Exception as fault:
                self.faults.append(f"request {self.requests} cannot be read: {fault}")
                raise
            if is_left():
                self.left += 1
                return None
            self.keep(body if kind == JSON else json.dumps(tree, ensure_ascii=False, separators=(",", ":")).encode())
            twice = []
            for key, span in found:
                if key in self.spans:
                    twice.append(key)
                    self.faults.append(f"request {self.requests}: {name_of(key)} came before")
                self.spans.setdefault(key, span)
            return twice

    def keep(self, body):
        """Adds a body to the file of those that came, where there is one, so that it is there before the answer is."""
        if self.kept:
            self.kept.write(body.removesuffix(b"\n") + b"\n")
            self.kept.flush()


def varint(number):
    """A number by seven bits a byte."""
    return bytes([number]) if number < 128 else bytes([128 + number % 128]) + varint(number // 128)


def texts_of(number, text):
    """A field of protobuf that holds a text or a message."""
    return varint(8 * number + 2) + varint(len(text)) + text


def status_bytes(code, message):
    """A `Status` of `google.rpc`."""
    return varint(8) + varint(code) + texts_of(2, message.encode())


def partial_bytes(rejected, message):
    """A response that rejects so many spans."""
    return texts_of(1, varint(8) + varint(rejected) + texts_of(2, message.encode()))


class Answers(BaseHTTPRequestHandler):
    """Answers a request."""

    protocol_version = "HTTP/1.1"
    # Seconds for which a client may be silent.
    timeout = 10
    received = None
    fault_type = None
    failing_status = None
    failing_message = None

    def do_POST(self):
        length = self.headers.get("Content-Length", "")
        if not length.isdecimal():
            return self.refuse(411, INVALID_ARGUMENT, "a body's length is to be said before it")
        body = self.rfile.read(int(length))
        if self.path != PATH:
            return self.refuse(404, NOT_FOUND, f"nothing is at {self.path}, traces are posted to {PATH}")
        if self.received.turns_away():
            return self.refuse(self.failing_status, UNAVAILABLE, self.failing_message, [("Retry-After", "1")])
        kind = self.headers.get_content_type()
        if kind not in self.received.readers or self.headers.get("Content-Encoding", "identity") != "identity":
            types = " and ".join(self.received.readers)
            return self.refuse(415, UNIMPLEMENTED, f"{types} without an encoding is what is read")
        try:
            twice = self.received.take(kind, body, self.is_left)
        except self.fault_type as fault:
            return self.refuse(400, INVALID_ARGUMENT, str(fault))
        if twice is None:
            self.close_connection = True
            return None
        if not twice:
            return self.answer(200, {}, b"")
        message = f"came before: {', '.join(name_of(it) for it in twice)}"
        tree = {"partialSuccess": {"rejectedSpans": str(len(twice)), "errorMessage": message}}
        return self.answer(200, tree, partial_bytes(len(twice), message))

    def is_left(self):
        """Whether the client has closed the connection before it was answered."""
        try:
            can_be_read = select.select([self.connection], [], [], 0)[0]
            return bool(can_be_read) and self.connection.recv(1, socket.MSG_PEEK) == b""
        except OSError:
            return True

    def do_GET(self):
        self.refuse(405, UNIMPLEMENTED, "requests are posted", [("Allow", "POST")])

    def refuse(self, status, code, message, headers=()):
        self.answer(status, {"code": code, "message": message}, status_bytes(code, message), headers)

    def answer(self, status, tree, message, headers=()):
        """Answers by a tree, or by the bytes of the same message where the request was of protobuf."""
        is_protobuf = self.headers.get_content_type() == PROTOBUF
        text = message if is_protobuf else json.dumps(tree).encode()
        self.send_response(status)
        fixed = [("Content-Type", PROTOBUF if is_protobuf else JSON), ("Content-Length", str(len(text)))]
        if self.close_connection:
            fixed.append(("Connection", "close"))
        for name, value in [*fixed, *headers]:
            self.send_header(name, value)
        self.end_headers()
        self.wfile.write(text)

    def log_message(self, form, *values):
        """Says nothing."""


class Server(ThreadingHTTPServer):
    """A thread that is still in a request when the server ends is waited for."""

    daemon_threads = False


def expected_spans(path, read):
    """The spans of a file of lines, by their ids."""
    with open(path, "rb") as file:
        return {key_of(it[0]): it for line in file for it in spans_of(read(line))}


def compare(spans, expected):
    """What differs between the spans that came and those that are expected."""
    for key in expected:
        if key not in spans:
            yield f"{name_of(key)} did not come"
        elif spans[key] != expected[key]:
            yield f"{name_of(key)} came otherwise than expected"
    for key in spans:
        if key not in expected:
            yield f"{name_of(key)} came and was not expected"


def show(spans):
    """Prints the spans, by trace."""
    traces = collections.defaultdict(list)
    for (trace, _), (span, _, _) in spans.items():
        traces[trace].append(span)
    for trace, found in traces.items():
        print(f"trace {trace}: {len(found)} span{'' if len(found) == 1 else 's'}")
        for span in found:
            print(f"  {span['spanId']} parent {span['parentSpanId'] or 'none'} {json.dumps(span['name'])}")


def serve(words, readers, fault_type):
    """Serves as the words ask, until it has had its requests or a signal comes, and answers whether all was well.

    `readers` make a tree of a body of their type, or raise a fault of this type. One thread asks them at a time.
    """
    expected = expected_spans(words.expect, readers[JSON]) if words.expect else None
    kept = open(words.keep, "ab") if words.keep else None
    received = Received(readers, words.fail, words.requests, kept)
    failing = {"failing_status": words.fail_with, "failing_message": words.fail_saying}
    how = {"received": received, "fault_type": fault_type, **failing}
    server = Server(("127.0.0.1", words.serve), type("AnswersHere", (Answers,), how))
    serving = threading.Thread(target=server.serve_forever, args=(0.05,))
    serving.start()
    signal.signal(signal.SIGTERM, signal.default_int_handler)
    try:
        print(f"serving at http://127.0.0.1:{server.server_port}", file=sys.stderr, flush=True)
        received.is_over.wait()
    except KeyboardInterrupt:
        pass
    signal.signal(signal.SIGTERM, signal.SIG_IGN)
    server.shutdown()
    serving.join()
    server.server_close()
    show(received.spans)
    faults = [*received.faults, *(compare(received.spans, expected) if words.expect else ())]
    for fault in faults:
        print(fault, file=sys.stderr)
    counts = f"{received.requests} requests read, {received.turned_away} turned away, {received.left} left unanswered"
    print(f"{counts}, {len(received.spans)} spans, {len(faults)} faults", file=sys.stderr)
    return not faults
