#!/usr/bin/env python3
# SPDX-License-Identifier: Apache-2.0
"""A stand-in for `otel_shop` in tests of tools/shop_check: it answers and leaves spans as that does, or goes wrong in
the way that the variable FAULT names."""

import json
import os
import random
import re
import sys

FAULT = os.environ.get("FAULT", "")
PAGES = {"/cart": (200, b"tea: 7.50\n"), "/price": (200, b"7.50\n"), "/slow": (200, b"1229\n")}
PAGES["/broken"] = (500, b"out of order\n")
PARENT = re.compile(r"00-([0-9a-f]{32})-([0-9a-f]{16})-0([01])$")
CHANCE = random.SystemRandom()
SPANS = []


def read_request(stream):
    """The method, the path and the fields of the next request; none at the end."""
    line = stream.readline().decode().split()
    fields = []
    while line and (field := stream.readline().strip()):
        fields.append(field.decode().split(": ", 1))
    return (line[0], line[1].partition("?")[0], fields) if line else None


def leave(name, kind, trace, parent, state, remote, method, path, code):
    """Leaves a span, and answers its id."""
    own = f"{CHANCE.getrandbits(64) | 1:016x}"
    target = {"url.full": f"http://prices{path}"} if kind == 3 else {"url.path": path}
    said = {"http.request.method": method, **target, "http.response.status_code": str(code)}
    attributes = [{"key": key, "value": {"stringValue": value}} for key, value in said.items()]
    status = {"message": "", "code": 2 if kind == 2 and code >= 500 and FAULT != "status" else 0}
    ids = {"traceId": trace, "spanId": own, "parentSpanId": parent, "traceState": state}
    flags = 257 | (512 if remote else 0)
    SPANS.append({**ids, "flags": flags, "name": name, "kind": kind, "attributes": attributes, "status": status})
    return own


def trace_request(method, path, fields, code):
    """Leaves the spans of a request."""
    found = PARENT.match(next((value for name, value in fields if name == "traceparent"), ""))
    trace, parent, is_sampled = found.groups() if found else (f"{CHANCE.getrandbits(128) | 1:032x}", "", "1")
    state = [value for name, value in fields if name == "tracestate"] if found else []
    if is_sampled == "0" and FAULT != "unsampled" or FAULT == "lost":
        return
    parent, state = ("" if FAULT == "root" else parent), ",".join(state[:1] if FAULT == "state" else state)
    name = method if path not in PAGES or FAULT == "name" else f"{method} {path}"
    own = leave(name, 2, trace, parent, state, bool(parent), method, path, code)
    if path == "/cart" and code == 200:
        call = leave("GET", 3, trace, parent if FAULT == "call" else own, state, False, "GET", "/price", 200)
        if FAULT != "answer":
            leave("GET /price", 2, trace, call, state, True, "GET", "/price", 200)
    if FAULT == "twice":
        SPANS.append(SPANS[-1])


def answer(method, path):
    """The status and the body."""
    if path not in PAGES:
        return 404, b"no such page\n"
    return PAGES[path] if method in ("GET", "HEAD") else (405, b"only to be read\n")


def main():
    while request := read_request(sys.stdin.buffer):
        method, path, fields = request
        code, body = answer(method, path)
        is_last = ["connection", "close"] in fields
        head = f"HTTP/1.1 {code} Said\r\ncontent-length: {len(body)}\r\n" + ("connection: close\r\n" if is_last else "")
        sys.stdout.buffer.write(head.encode() + b"\r\n" + (b"" if method == "HEAD" else body))
        sys.stdout.buffer.flush()
        trace_request(method, path, fields, code)
        if is_last:
            break
    resource = {"attributes": [{"key": "service.name", "value": {"stringValue": "otel_shop"}}]}
    line = json.dumps({"resourceSpans": [{"resource": resource, "scopeSpans": [{"scope": {}, "spans": SPANS}]}]}) + "\n"
    with open(os.environ["OTEL_SHOP_SPANS"], "ab", buffering=0) as file:
        half = len(line) // 2 if FAULT == "cut" else len(line)
        file.write(line.encode()[:half])


main()
