#!/usr/bin/env python3
# SPDX-License-Identifier: Apache-2.0
"""A service that stands in for those of the packages, to try the check itself: stand_in.py PORT [NEXT_URL]

It does what theirs do, with the plainest code, and goes wrong in one way where FAULT names one: `twice`, `lost`,
`parent`, `unsampled`, `state`, `kind`, `status`, `silent`.
"""

import http.client
import json
import os
import random
import sys
import threading
import time
import urllib.request
from http.server import BaseHTTPRequestHandler, ThreadingHTTPServer

FAULT = os.environ.get("FAULT", "")
SERVICE = {"key": "service.name", "value": {"stringValue": os.environ["OTEL_SERVICE_NAME"]}}
SERVER, CLIENT = 2, 3
CUT = {"attributes": [], "droppedAttributesCount": 0}


def caller_of(headers):
    """The trace, span, sampling and trace state of whoever calls; a new trace where nobody says."""
    fields = headers.get_all("traceparent", [])
    parts = fields[0].split("-") if len(fields) == 1 else []
    if len(parts) == 4 and int(parts[1], 16):
        return parts[1], parts[2], int(parts[3], 16) & 1, headers.get("tracestate", "")
    return f"{random.getrandbits(128):032x}", "", 1, ""


def span_of(trace, own, parent, kind, is_remote, state):
    """A span as the protocol has it."""
    ids = {"traceId": trace, "spanId": own, "traceState": state, "parentSpanId": parent}
    moment = str(time.time_ns())
    times = {"startTimeUnixNano": moment, "endTimeUnixNano": moment}
    lists = {"events": [], "droppedEventsCount": 0, "links": [], "droppedLinksCount": 0}
    said = {"flags": 257 + 512 * is_remote, "name": "GET", "kind": kind}
    return {**ids, **said, **times, **CUT, **lists, "status": {"message": "", "code": 0}}


def line_of(spans):
    scope = {"scope": {"name": "", "version": "", **CUT}, "spans": spans, "schemaUrl": ""}
    resource = {"attributes": [SERVICE], "droppedAttributesCount": 0}
    tree = {"resourceSpans": [{"resource": resource, "scopeSpans": [scope], "schemaUrl": ""}]}
    return json.dumps(tree, separators=(",", ":")).encode()


class Sender:
    """What waits to be sent, and what was given up."""

    def __init__(self):
        self.waiting = []
        self.sent = 0
        self.lock = threading.Lock()
        self.sending = threading.Lock()

    def send(self):
        """Sends what waits, and keeps it where nobody is there."""
        with self.sending:
            with self.lock:
                spans, self.waiting = self.waiting, []
            if spans:
                self.post(spans)

    def post(self, spans):
        """Posts spans, which wait again where nobody takes them."""
        address = f"{os.environ['OTEL_EXPORTER_OTLP_ENDPOINT']}/v1/traces"
        request = urllib.request.Request(address, line_of(spans), {"Content-Type": "application/json"})
        try:
            urllib.request.urlopen(request, timeout=10).close()
            if FAULT == "twice":
                urllib.request.urlopen(request, timeout=10).close()
            self.sent += len(spans)
        except (OSError, http.client.HTTPException):
            with self.lock:
                self.waiting = [] if FAULT == "lost" else spans + self.waiting

    def run(self):
        while True:
            time.sleep(0.2)
            self.send()


class Answers(BaseHTTPRequestHandler):
    """Traces a request, and calls the next service where there is one."""

    sender = Sender()
    next_url = "".join(sys.argv[2:3])

    def do_GET(self):
        trace, parent, is_sampled, state = caller_of(self.headers)
        own, call = (f"{random.getrandbits(64):016x}" for _ in range(2))
        if self.next_url and self.path != "/quit":
            self.call(trace, call, is_sampled, state)
        spans = [span_of(trace, own, parent, SERVER, parent != "", "" if FAULT == "state" else state)]
        if self.next_url:
            above = parent if FAULT == "parent" else own
            spans.append(span_of(trace, call, above, SERVER if FAULT == "kind" else CLIENT, False, state))
        if is_sampled or FAULT == "unsampled":
            with self.sender.lock:
                self.sender.waiting += spans
        self.send_response(500 if FAULT == "status" and is_sampled else 200)
        self.send_header("Content-Length", "0")
        self.end_headers()
        if self.path == "/quit":
            threading.Thread(target=self.server.shutdown).start()

    def call(self, trace, call, is_sampled, state):
        headers = {"traceparent": f"00-{trace}-{call}-0{is_sampled}", **({"tracestate": state} if state else {})}
        urllib.request.urlopen(urllib.request.Request(self.next_url, headers=headers), timeout=10).close()

    def log_message(self, form, *values):
        """Says nothing."""


def main():
    server = ThreadingHTTPServer(("127.0.0.1", int(sys.argv[1])), Answers)
    threading.Thread(target=Answers.sender.run, daemon=True).start()
    server.serve_forever(0.05)
    server.server_close()
    last = time.monotonic() + 2
    Answers.sender.send()
    while Answers.sender.waiting and time.monotonic() < last:
        Answers.sender.send()
    if FAULT != "silent":
        print(json.dumps(counts()), flush=True)


def counts():
    names = "open_spans", "waiting_spans", "dropped_spans", "refused_spans", "lost_batches", "failed_calls"
    return {**dict.fromkeys(names, 0), "sent_spans": Answers.sender.sent, "lost_spans": len(Answers.sender.waiting)}


if __name__ == "__main__":
    main()
