# SPDX-License-Identifier: Apache-2.0
"""The requests that a front service gets, by kinds in turn, and what each is to leave of spans."""

import http.client
import random
from concurrent.futures import ThreadPoolExecutor
from dataclasses import dataclass

from programs import Fault
from services import get

THREADS = 8
STATE = "shop=1,other=x"


@dataclass(frozen=True)
class Request:
    """A request. Without a trace of the caller's that it takes up, `trace` and `caller` are empty."""

    path: str
    headers: tuple
    is_sampled: bool = True
    trace: str = ""
    caller: str = ""
    state: str = ""


def plain(path, trace, caller):
    return Request(path, ())


def sampled(path, trace, caller):
    return Request(path, (("Traceparent", f"00-{trace}-{caller}-01"),), True, trace, caller)


def unsampled(path, trace, caller):
    return Request(path, (("traceparent", f"00-{trace}-{caller}-00"),), False, trace, caller)


def with_state(path, trace, caller):
    headers = (("TRACEPARENT", f"00-{trace}-{caller}-01"), ("tracestate", STATE), ("baggage", "user=7"))
    return Request(path, headers, True, trace, caller, STATE)


def unreadable(path, trace, caller):
    return Request(path, (("traceparent", f"00-{'0' * 32}-{caller}-01"),))


def two_callers(path, trace, caller):
    return Request(path, tuple(("traceparent", f"00-{trace}-{it}-01") for it in (caller, "3" * 16)))


KINDS = (plain, sampled, unsampled, with_state, sampled, plain, unsampled, unreadable, sampled, two_callers)


def made(count, seed):
    """So many requests of all kinds, each of a trace of its own; the same seed makes the same ones."""
    chance = random.Random(seed)
    ids = [(f"{chance.getrandbits(128) | 1:032x}", f"{chance.getrandbits(64) | 1:016x}") for _ in range(count)]
    return [KINDS[at % len(KINDS)](f"/item/{at}", trace, caller) for at, (trace, caller) in enumerate(ids)]


def send(requests, port):
    """Sends requests on eight threads, each of which has to be answered by 200."""
    with ThreadPoolExecutor(THREADS) as pool:
        faults = [it for it in pool.map(lambda request: fault_of(request, port), requests) if it]
    if faults:
        raise Fault(f"{len(faults)} of {len(requests)} requests failed, the first one: {faults[0]}")


def fault_of(request, port):
    """What is wrong with the answer to a request."""
    try:
        status = get(port, request.path, request.headers)
    except (OSError, http.client.HTTPException) as error:
        return f"{request.path}: {error!r}"
    return "" if status == 200 else f"{request.path}: status {status}"
