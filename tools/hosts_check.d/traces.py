# SPDX-License-Identifier: Apache-2.0
"""What came to the collector, and what must hold of it.

A sampled request leaves three spans: the front service's server span, the client span of its call below that, and the
server span of the service after it, below that one. One that its caller did not sample leaves none.
"""

import json
import sys
from collections import Counter, defaultdict
from dataclasses import dataclass

from load import Request
from programs import TOP, Fault

sys.path.append(f"{TOP}/tools/otlp_check")
from collector import spans_of

SERVER, CLIENT = 2, 3
IS_SAMPLED, IS_REMOTE = 1, 512
SPANS_OF_A_REQUEST = 3
SHOWN_FAULTS = 5
NO_CALLER = Request("", ())


@dataclass(frozen=True)
class Span:
    """A span as it came, with the service that sent it."""

    trace: str
    own: str
    parent: str
    kind: int
    flags: int
    state: str
    service: str


def read(lines):
    """The spans of requests to the collector, in order."""
    return [span_of(*it) for line in lines for it in spans_of(json.loads(line))]


def span_of(span, _scope, resource):
    service = [it["value"]["stringValue"] for it in resource["attributes"] if it["key"] == "service.name"]
    ids = span["traceId"], span["spanId"], span["parentSpanId"]
    return Span(*ids, span["kind"], span["flags"], span["traceState"], "".join(service))


def hold_none(faults):
    """Raises the first of some faults."""
    if faults:
        shown = "\n".join(faults[:SHOWN_FAULTS])
        raise Fault(f"faults in the spans that came: {len(faults)}, of which the first are\n{shown}")


def came_twice(spans):
    """A fault for each span that came more than once."""
    counts = Counter((it.trace, it.own) for it in spans)
    return [f"span {own} of trace {trace} came {count} times" for (trace, own), count in counts.items() if count > 1]


def came_wrongly(spans, requests, front, back):
    """A fault for each span that no request can have left, whatever else came."""
    unsampled = {it.trace for it in requests if not it.is_sampled}
    kinds = {(front, SERVER), (front, CLIENT), (back, SERVER)}
    for span in spans:
        named = f"span {span.own} of trace {span.trace}"
        if span.trace in unsampled:
            yield f"{named} came, though its caller did not sample the trace"
        if not span.flags & IS_SAMPLED:
            yield f"{named} came, though it was not sampled"
        if (span.service, span.kind) not in kinds:
            yield f"{named} came from the service {span.service!r} with the kind {span.kind}"


def came_broken(spans, requests, front, back):
    """A fault for each trace that is not whole, and for each that is missing or too many."""
    by_trace = defaultdict(list)
    for span in spans:
        by_trace[span.trace].append(span)
    for request in requests:
        if request.is_sampled and request.trace:
            yield from faults_of_trace(request.trace, by_trace.pop(request.trace, []), request, front, back)
    begun_here = sum(it.is_sampled and not it.trace for it in requests)
    if len(by_trace) != begun_here:
        yield f"{len(by_trace)} traces came that began at a service, and not {begun_here}"
    for trace, found in by_trace.items():
        yield from faults_of_trace(trace, found, NO_CALLER, front, back)


def faults_of_trace(trace, spans, request, front, back):
    """What is not so of the spans of a trace that a request left."""
    by_role = {(it.service, it.kind): it for it in spans}
    roles = [by_role.get(it) for it in ((front, SERVER), (front, CLIENT), (back, SERVER))]
    if None in roles or len(spans) != SPANS_OF_A_REQUEST:
        yield f"trace {trace} has the spans {sorted((it.service, it.kind) for it in spans)}"
        return
    above, call, below = roles
    for span, parent in ((above, request.caller), (call, above.own), (below, call.own)):
        if span.parent != parent:
            yield f"span {span.own} of trace {trace} has the parent {span.parent or 'none'}, and not {parent or 'none'}"
        if span.state != request.state:
            yield f"span {span.own} of trace {trace} has the trace state {span.state!r}, and not {request.state!r}"
    for span, is_remote in ((above, request.caller != ""), (call, False), (below, True)):
        if bool(span.flags & IS_REMOTE) != is_remote:
            yield f"span {span.own} of trace {trace} says {not is_remote} of whether its parent is remote"
