# SPDX-License-Identifier: Apache-2.0
"""Requests to a front service, which calls that of another package, and what comes to a collector of their spans, also
when it goes away."""

import contextlib
import tempfile
import time
from collections import Counter

import load
import traces
from programs import PROGRAMS, Fault, wait_until
from services import Collector, Service

SEED = 20261129
SECONDS_AWAY = 3
# Longer than a sender waits for an answer.
SECONDS_HALTED = 13
SECONDS_TO_COME = 30
NONE_AT_THE_END = ("open_spans", "waiting_spans", "refused_spans", "lost_batches", "failed_calls")


def parts(count):
    """What is tried under each name, in order, each with so many requests."""
    tried = {}
    for front, back in (("python", "rust"), ("rust", "python")):
        for name, course in (("", stays), ("_outage", goes_and_comes), ("_halt", halts), ("_gone", goes)):
            tried[f"{front}_to_{back}{name}"] = lambda it=(front, back, course): try_pair(*it, count)
    return tried


def stays(collector, requests, port):
    """Sends all requests while the collector is there."""
    load.send(requests, port)


def goes_and_comes(collector, requests, port):
    """Ends the collector after a third of the requests, and begins it again before the last third, seconds later."""
    third = len(requests) // 3
    load.send(requests[:third], port)
    end_within(collector)
    until = time.monotonic() + SECONDS_AWAY
    load.send(requests[third : 2 * third], port)
    time.sleep(max(0, until - time.monotonic()))
    collector.begin()
    load.send(requests[2 * third :], port)


def halts(collector, requests, port):
    """Has the collector halt after half of the requests, until nobody waits for its answers, and then go on."""
    half = len(requests) // 2
    load.send(requests[:half], port)
    collector.halt()
    until = time.monotonic() + SECONDS_HALTED
    load.send(requests[half:], port)
    time.sleep(max(0, until - time.monotonic()))
    collector.go_on()


def goes(collector, requests, port):
    """Ends the collector after half of the requests, for good."""
    half = len(requests) // 2
    load.send(requests[:half], port)
    end_within(collector)
    load.send(requests[half:], port)


def end_within(collector):
    """Ends the collector once something came to it."""
    wait_until(collector.lines, SECONDS_TO_COME, "a line came to the collector")
    collector.end()


def try_pair(front, back, course, count):
    """Lets events take their course, and looks at the spans that came: each came once, those that came and those that
    the services count as lost are all that were sampled, and where none was lost the traces are whole."""
    requests = load.made(count, SEED)
    with started(front, back) as (collector, services):
        course(collector, requests, services[0].port)
        counts = {it.package: it.end() for it in services}
        collector.end()
        spans = traces.read(collector.lines())
    traces.hold_none(traces.came_twice(spans))
    traces.hold_none(list(traces.came_wrongly(spans, requests, front, back)))
    lost = hold_sum(spans, counts, requests, front, back)
    if lost and course is stays:
        raise Fault(f"{lost} spans were lost, though the collector was there: {counts}")
    if not lost:
        traces.hold_none(list(traces.came_broken(spans, requests, front, back)))
    return f"{len(requests)} requests, {len(spans)} spans, {lost} lost"


@contextlib.contextmanager
def started(front, back):
    """A collector, and the services that send to it, the front one first, which calls the other."""
    with tempfile.TemporaryDirectory() as room:
        try:
            collector = Collector(room)
            behind = Service(back, room, collector)
            yield collector, [Service(front, room, collector, behind), behind]
        finally:
            PROGRAMS.kill_all()


def hold_sum(spans, counts, requests, front, back):
    """How many spans were lost; a fault where those and the ones that came are not all that the services made."""
    sampled = sum(it.is_sampled for it in requests)
    came = Counter(it.service for it in spans)
    made = {front: 2 * sampled, back: sampled}
    return sum(hold_counts(it, counts[it], came[it], made[it]) for it in (front, back))


def hold_counts(package, counts, came, made):
    """How many spans a service lost, in its queue or on their way, by counts that must agree with what came of it."""
    try:
        lost, sent = counts["lost_spans"] + counts["dropped_spans"], counts["sent_spans"]
        left = {name: counts[name] for name in NONE_AT_THE_END if counts[name] != 0}
    except (KeyError, TypeError):
        raise Fault(f"the line of counts of the service of {package} lacks some: {counts}") from None
    if came != sent:
        raise Fault(f"of the service of {package} {came} spans came, and it counts {sent} as sent: {counts}")
    if came + lost != made:
        said = f"{came} spans came, and it counts {lost} as lost, which is not {made}"
        raise Fault(f"of the service of {package} {said}: {counts}")
    if left:
        raise Fault(f"the service of {package} counts {left} at its end")
    return lost
