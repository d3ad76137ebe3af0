# SPDX-License-Identifier: Apache-2.0
"""Requests, what each is to be answered and to leave of spans, and how they are sent."""

import random
import socket
import subprocess
from dataclasses import dataclass, replace

from programs import Fault, environment

SECONDS = 60
CHANCE = random.Random()
BODIES = {"/cart": b"tea: 7.50\n", "/price": b"7.50\n", "/broken": b"out of order\n", "/slow": b"1229\n"}
STATUSES = {"/cart": 200, "/price": 200, "/broken": 500, "/slow": 200}


@dataclass(frozen=True)
class Request:
    """A request. Without a trace of the caller's that it is to take up, `trace` and `caller` are empty."""

    method: str
    path: str
    headers: tuple = ()
    trace: str = ""
    caller: str = ""
    state: str = ""
    is_sampled: bool = True

    @property
    def route(self):
        return self.path.partition("?")[0]

    @property
    def status(self):
        if self.route not in STATUSES:
            return 404
        return STATUSES[self.route] if self.method in ("GET", "HEAD") else 405

    @property
    def name(self):
        """The name of its span: a route that the service does not know makes none."""
        return f"{self.method} {self.route}" if self.route in STATUSES else self.method

    @property
    def body(self):
        """What the response has."""
        if self.method == "HEAD":
            return b""
        return {404: b"no such page\n", 405: b"only to be read\n"}.get(self.status) or BODIES[self.route]

    def bytes(self, *more):
        """What is sent of it; further fields are bytes."""
        fields = [f"{name}: {value}".encode() for name, value in (("host", "shop"), *self.headers)]
        return b"\r\n".join([f"{self.method} {self.path} HTTP/1.1".encode(), *fields, *more, b"", b""])


def plain(path, method="GET"):
    """A request of nobody's trace."""
    return Request(method, path)


def traced(path, method="GET", state=(), is_sampled=True):
    """A request of a new trace of its caller's, with so many fields `tracestate`."""
    trace, caller = f"{CHANCE.getrandbits(128) | 1:032x}", f"{CHANCE.getrandbits(64) | 1:016x}"
    parent = ("traceparent", f"00-{trace}-{caller}-{'01' if is_sampled else '00'}")
    headers = (parent, *(("tracestate", it) for it in state))
    return Request(method, path, headers, trace, caller, ",".join(state), is_sampled)


def with_header(request, name, value):
    return replace(request, headers=(*request.headers, (name, value)))


def curl(port, *requests):
    """Sends requests by curl, which keeps the connection, and wants their responses. All have the first one's headers."""
    words = ["curl", "--silent", "--show-error", "--max-time", str(SECONDS), "--noproxy", "*", "--http1.1"]
    words += [it for name, value in requests[0].headers for it in ("--header", f"{name}: {value}")]
    words += ["--head"] if requests[0].method == "HEAD" else ["--request", requests[0].method]
    words += ["--write-out", "%{http_code} %{num_connects}\n"]
    words += [it for request in requests for it in ("--output", "-", f"http://127.0.0.1:{port}{request.path}")]
    ran = subprocess.run(words, capture_output=True, env=environment(), timeout=SECONDS, check=False)
    if ran.returncode != 0:
        raise Fault(f"curl ended with status {ran.returncode}: {ran.stderr.decode(errors='replace')}")
    wanted = [f"{it.status} {int(at == 0)}\n".encode() for at, it in enumerate(requests)]
    if requests[0].method == "HEAD":
        found = [ran.stdout.rpartition(b"\r\n")[2]]
    else:
        found, wanted = [ran.stdout], [b"".join(it.body + end for it, end in zip(requests, wanted))]
    if found != wanted:
        raise Fault(f"curl wrote {found} for {requests}, and not {wanted}")


def exchange(port, sent, is_cut=False):
    """Sends bytes on a connection of their own, and answers all that came until its end; where they are cut off there,
    the server is told so."""
    with socket.create_connection(("127.0.0.1", port), timeout=SECONDS) as caller:
        caller.sendall(sent)
        if is_cut:
            caller.shutdown(socket.SHUT_WR)
        found = b""
        while piece := caller.recv(65536):
            found += piece
        return found


def pipelined(port, requests):
    """Sends requests at once on one connection, and wants their responses in order, and then the end."""
    wants_responses(exchange(port, b"".join(it.bytes() for it in requests[:-1]) + last(requests[-1])), requests)


def last(request):
    """What is sent of the last request of a connection."""
    return request.bytes(b"connection: close")


def wants_responses(found, requests):
    """Takes the responses to requests in turn from what came, and wants nothing more."""
    for request in requests:
        head, _, found = found.partition(b"\r\n\r\n")
        said = int(head.lower().partition(b"content-length: ")[2].split(b"\r\n")[0] or b"0")
        length = 0 if request.method == "HEAD" else said
        body, found = found[:length], found[length:]
        if not head.startswith(f"HTTP/1.1 {request.status} ".encode()) or body != request.body:
            raise Fault(f"{request} was answered {head!r} with {body!r}")
    if found:
        raise Fault(f"after the responses came {found[:200]!r}")
