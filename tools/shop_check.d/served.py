# SPDX-License-Identifier: Apache-2.0
"""What is asked of the server: parts that go through the listener."""

import itertools
from concurrent.futures import ThreadPoolExecutor
from dataclasses import replace

from asking import curl, exchange, last, pipelined, plain, traced, wants_responses, with_header
from programs import Fault, need, wait_until
from spans import SECONDS, left_by

STATE = ("shop=1", "other=x")
SLOW = "/slow"
PATHS = ("/cart", "/price?id=7", "/broken", SLOW, "/nowhere")
CONNECTIONS = 12


def by_curl(listener):
    """Each page by a curl of its own, with and without a trace, and with two fields of a trace state."""
    need("curl", "curl")
    size, requests = listener.size(), []
    for path in PATHS:
        requests += [plain(path), traced(path), traced(path, state=STATE)]
    requests += [plain("/price", "HEAD"), traced("/cart", "HEAD"), plain("/cart", "DELETE"), traced("/slow", "PUT")]
    for request in requests:
        curl(listener.port, request)
    return said(left_by(listener, size, requests), requests)


def by_curl_kept(listener):
    """All pages by one curl, which keeps its connection; they have one caller."""
    need("curl", "curl")
    size, first = listener.size(), traced(PATHS[0], state=STATE)
    requests = [replace(first, path=path) for path in PATHS]
    curl(listener.port, *requests)
    return said(left_by(listener, size, requests), requests)


def in_pipelines(listener):
    """Many requests at once on a connection."""
    size, requests = listener.size(), mixed(3)
    pipelined(listener.port, requests)
    return said(left_by(listener, size, requests), requests)


def at_once(listener):
    """Several connections at once, each with a pipeline: their processes append to one file."""
    size, each = listener.size(), [mixed(1) for _ in range(CONNECTIONS)]
    with ThreadPoolExecutor(CONNECTIONS) as pool:
        list(pool.map(lambda it: pipelined(listener.port, it), each))
    requests = list(itertools.chain(*each))
    return said(left_by(listener, size, requests), requests)


def mixed(times):
    """Each page so often in each way, and then the slow one."""
    ways = (plain, traced, lambda path: traced(path, state=STATE), lambda path: traced(path, is_sampled=False))
    return [way(path) for _ in range(times) for way in ways for path in PATHS if path != SLOW] + [traced(SLOW)]


def said(spans, requests):
    return f"{len(requests)} requests, {len(spans)} spans"


def unsampled(listener):
    """What a caller does not sample leaves no span; what comes after it does."""
    size = listener.size()
    requests = [traced(it, is_sampled=False) for it in PATHS] + [plain("/price")]
    pipelined(listener.port, requests)
    return said(left_by(listener, size, requests), requests)


def hostile_headers():
    """Headers that a server has to answer, and that say nothing of a trace: names, with what is sent."""
    sane = f"00-{'1' * 32}-{'2' * 16}-01"
    one = f"traceparent: {sane}".encode()
    return {
        "two traceparents": (one, one.replace(b"1" * 32, b"3" * 32)),
        "the same traceparent twice": (one, one),
        "no trace id": (one.replace(b"1" * 32, b"0" * 32),),
        "no span id": (one.replace(b"2" * 16, b"0" * 16),),
        "letters above": (one.replace(b"1" * 32, b"A" * 32),),
        "the version ff": (one.replace(b" 00-", b" ff-"),),
        "more than version 00 has": (one + b"-00",),
        "too long": (b"traceparent: " + b"0" * 12000,),
        "empty": (b"traceparent:",),
        "bad UTF-8": (b"traceparent: \xff\xfe\xc3\x28", b"tracestate: \xff=\xfe", b"baggage: \x80=\x81"),
        "good UTF-8": ("traceparent: ☕".encode(), "tracestate: ☕=1".encode()),
        "a list": (one + b", " + sane.encode(),),
        "many baggages": tuple(b"baggage: k%d=%s" % (at, b"x" * 200) for at in range(50)),
    }


def hostile(listener):
    """Headers that say no trace: each request is answered, and its span is a root; the connection goes on."""
    size, requests = listener.size(), []
    for name, fields in hostile_headers().items():
        pair = [plain("/cart"), traced("/price")]
        try:
            wants_responses(exchange(listener.port, pair[0].bytes(*fields) + last(pair[1])), pair)
        except (Fault, OSError) as fault:
            raise Fault(f"{name}: {fault}") from None
        requests += pair
    return said(left_by(listener, size, requests), requests)


def hostile_states(listener):
    """A trace state that does not read is none, and the trace goes on; what reads is joined in order."""
    size = listener.size()
    bad = ("=,;=", "a=1,b", "=1", "a=1,a b=2")
    requests = [with_header(traced("/cart"), "tracestate", it) for it in bad]
    requests += [traced("/cart", state=("a=1", "b=2,c=3", "d@e=4"))]
    pipelined(listener.port, requests)
    return said(left_by(listener, size, requests), requests)


def refused_requests():
    """Requests that the server refuses by itself: names, with the status and what is sent."""
    start, host = b"GET /price HTTP/1.1\r\n", b"host: shop\r\n"
    parent = f"traceparent: 00-{'1' * 32}-{'2' * 16}-01".encode()
    return {
        "a folded traceparent": (400, start + host + parent[:30] + b"\r\n " + parent[30:] + b"\r\n\r\n"),
        "a newline within a value": (400, start + host + b"tracestate: a=1\nevil: 1\r\n\r\n"),
        "a carriage return within a value": (400, start + host + b"tracestate: a=1\revil: 1\r\n\r\n"),
        "a zero byte": (400, start + host + b"tracestate: a=\0\r\n\r\n"),
        "a space after a name": (400, start + host + b"traceparent : x\r\n\r\n"),
        "no host": (400, start + b"\r\n"),
        "a path with bad UTF-8": (400, b"GET /pr\xff HTTP/1.1\r\n" + host + b"\r\n"),
        "a value past the limit": (431, start + host + b"traceparent: " + b"0" * 20000 + b"\r\n\r\n"),
        "too many fields": (431, start + host + b"x: y\r\n" * 70 + b"\r\n"),
        "a long path": (414, b"GET /" + b"p" * 20000 + b" HTTP/1.1\r\n" + host + b"\r\n"),
        "a body past the limit": (413, start + host + b"content-length: 99999999\r\n\r\n"),
        "two lengths": (400, start + host + b"content-length: 5\r\ncontent-length: 6\r\n\r\nhello"),
        "a length and chunks": (400, start + host + b"content-length: 5\r\ntransfer-encoding: chunked\r\n\r\n0\r\n"),
        "the start of a TLS handshake": (400, b"\x16\x03\x01\x02\x00\x01\x00"),
        "the beginning of a request": (400, start + host),
    }


def refused(listener):
    """What is no request is refused, ends the connection, and leaves no span; what came before it does."""
    size, requests = listener.size(), []
    for name, (status, sent) in refused_requests().items():
        first = traced("/price")
        found = exchange(listener.port, first.bytes() + sent, is_cut=True)
        wants_responses(found[: found.rfind(b"HTTP/1.1 ")], [first])
        if not found[found.rfind(b"HTTP/1.1 ") :].startswith(f"HTTP/1.1 {status} ".encode()):
            raise Fault(f"{name}: answered {found!r}, and not with {status}")
        requests.append(first)
    return said(left_by(listener, size, requests), requests)


def without_errors(listener):
    """Nothing was said on standard error so far, and the file ends with a whole line."""
    with open(listener.errors, "rb") as file:
        found = file.read()
    if found:
        raise Fault(f"standard error has {found[-400:]!r}")
    wait_until(lambda: listener.size() > 0, SECONDS, "spans came")
    with open(listener.spans, "rb") as file:
        if not file.read().endswith(b"\n"):
            raise Fault("the file does not end with a line's end")


ASKED = (by_curl, by_curl_kept, in_pipelines, at_once, unsampled, hostile, hostile_states, refused)
PARTS = {it.__name__: it for it in (*ASKED, without_errors)}
