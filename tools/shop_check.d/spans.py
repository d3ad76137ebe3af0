# SPDX-License-Identifier: Apache-2.0
"""The spans that requests left in the file, and what must hold of them."""

import json
import sys
from collections import Counter, defaultdict
from dataclasses import dataclass

from programs import TOP, Fault, wait_until

sys.path.append(f"{TOP}/tools/otlp_check")
from collector import spans_of

SERVER, CLIENT = 2, 3
UNSET, ERROR = 0, 2
IS_SAMPLED, IS_REMOTE = 1, 512
SECONDS = 10


@dataclass(frozen=True)
class Span:
    """A span as it came."""

    name: str
    kind: int
    trace: str
    own: str
    parent: str
    flags: int
    state: str
    status: int
    service: str
    method: str
    path: str
    code: str


def read(line):
    """The spans of a line."""
    return [span_from(*it) for it in spans_of(json.loads(line))]


def texts_of(attributes):
    """Attributes with their values as texts."""
    return {it["key"]: str(next(iter(it["value"].values()))) for it in attributes}


def span_from(span, _scope, resource):
    said, service = texts_of(span["attributes"]), texts_of(resource["attributes"]).get("service.name", "")
    ids = span["traceId"], span["spanId"], span["parentSpanId"]
    path = said.get("url.path") or said.get("url.full", "").removeprefix("http://prices")
    http = [said.get("http.request.method", ""), path, said.get("http.response.status_code", "")]
    said_once = span["flags"], span["traceState"], span["status"]["code"]
    return Span(span["name"], span["kind"], *ids, *said_once, service, *http)


def count_of(requests):
    """How many spans requests leave: each cart two more."""
    return sum(3 if is_cart(it) else 1 for it in requests if it.is_sampled)


def is_cart(request):
    return request.route == "/cart" and request.status == 200


def left_by(listener, size, requests):
    """Waits for the spans that requests leave, and looks at them."""
    count = count_of(requests)
    wait_until(lambda: sum(map(len, taken(listener, size))) >= count, SECONDS, f"{count} spans came")
    found = [it for spans in taken(listener, size) for it in spans]
    hold_spans(found, requests)
    return found


def taken(listener, size):
    """The spans of each line that came since the file had this size."""
    return [read(it) for it in listener.lines_since(size)]


def hold(is_so, fault):
    if not is_so:
        raise Fault(fault)


def key_of_request(request):
    """What is known of its span: a root's trace is a new one."""
    error = ERROR if request.status >= 500 else UNSET
    target = (request.method, request.route, str(request.status))
    return (request.trace, request.caller, request.state, request.name, error, *target)


def key_of_span(span):
    trace = span.trace if span.parent else ""
    return (trace, span.parent, span.state, span.name, span.status, span.method, span.path, span.code)


def hold_spans(spans, requests):
    """Every request ended one span of kind server, and every cart has two more below it, in a line."""
    ids = Counter((it.trace, it.own) for it in spans)
    hold(all(count == 1 for count in ids.values()), f"a span came twice: {ids.most_common(1)}")
    below = defaultdict(list)
    for span in spans:
        below[span.trace, span.parent].append(span)
        hold(span.flags & IS_SAMPLED, f"{span} is not sampled")
    asked = [it for it in spans if it.kind == SERVER and (it.trace, it.parent) not in ids]
    wanted = Counter(key_of_request(it) for it in requests if it.is_sampled)
    found = Counter(map(key_of_span, asked))
    more = f"and there are those that nobody asked for: {found - wanted}"
    hold(found == wanted, f"spans are missing: {wanted - found}; {more}")
    for span in asked:
        is_remote = bool(span.flags & IS_REMOTE)
        hold(is_remote == bool(span.parent), f"{span} says {is_remote} of whether its parent is remote")
        hold_below(span, below)
    roots = Counter(it.trace for it in asked if not it.parent)
    hold(all(count == 1 for count in roots.values()), f"two roots have one trace: {roots.most_common(1)}")
    hold(len(spans) == count_of(requests), f"{len(spans)} spans came, and not {count_of(requests)}")


def hold_below(span, below):
    """A cart has a client's span below it, and that a server's span, all with one trace state; others have none."""
    calls = below[span.trace, span.own]
    if span.path != "/cart" or span.code != "200":
        hold(not calls, f"below {span} is {calls}")
        return
    hold(len(calls) == 1 and calls[0].kind == CLIENT, f"below {span} is {calls}")
    answers = below[span.trace, calls[0].own]
    hold(len(answers) == 1 and answers[0].kind == SERVER, f"below {calls[0]} is {answers}")
    hold(not below[span.trace, answers[0].own], f"something is below {answers[0]}")
    for it, name in ((calls[0], "GET"), (answers[0], "GET /price")):
        hold(it.name == name and it.path == "/price" and it.code == "200", f"{it} is not of the request for the price")
        hold(it.state == span.state, f"{it} has not the trace state {span.state!r}")
    hold(answers[0].flags & IS_REMOTE, f"{answers[0]} does not say that its parent is remote")
