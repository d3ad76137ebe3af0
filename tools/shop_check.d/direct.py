# SPDX-License-Identifier: Apache-2.0
"""The program by itself: what it does with its variables, files and streams; and its lines as otlp_check reads them."""

import os
import subprocess

from asking import plain, traced, wants_responses
from programs import TOP, Fault, LeftOut, environment
from spans import hold_spans, read

SECONDS = 60
OTLP_CHECK = f"{TOP}/tools/otlp_check/otlp_check"
REQUESTS = [plain("/cart"), traced("/price"), plain("/broken")]


def run(listener, status=0, said=b"", stdout=subprocess.PIPE, **variables):
    """Runs the program over requests, and wants a status and words on standard error."""
    sent = b"".join(it.bytes() for it in REQUESTS)
    how = {"input": sent, "stdout": stdout, "stderr": subprocess.PIPE, "timeout": SECONDS, "check": False}
    ran = subprocess.run([listener.program], env=environment(**variables), **how)
    if ran.returncode != status:
        raise Fault(f"it ended with status {ran.returncode}, and not {status}; it said {ran.stderr!r}")
    if said not in ran.stderr or (not said and ran.stderr):
        raise Fault(f"it said {ran.stderr!r}, and not {said!r}")
    if stdout == subprocess.PIPE:
        wants_responses(ran.stdout, REQUESTS)


def spans_in(path):
    """The spans of a file."""
    if not os.path.exists(path):
        return []
    with open(path, "rb") as file:
        return [span for line in file for span in read(line)]


def services(listener):
    """Who the spans are of: the program, or who the environment says."""
    for wanted, variables in (
        ("otel_shop", {}),
        ("tea", {"OTEL_SERVICE_NAME": "tea"}),
        ("tea", {"OTEL_RESOURCE_ATTRIBUTES": "service.name=tea,a=b"}),
        ("otel_shop", {"OTEL_SERVICE_NAME": "", "OTEL_RESOURCE_ATTRIBUTES": "a=b"}),
    ):
        path = f"{listener.room}/services.jsonl"
        run(listener, OTEL_SHOP_SPANS=path, **variables)
        found = {it.service for it in spans_in(path)}
        hold_spans(spans_in(path), REQUESTS)
        os.remove(path)
        if found != {wanted}:
            raise Fault(f"with {variables} the spans are of {found}")


def samplers(listener):
    """By the environment no span may be recorded, or only those of sampled callers."""
    path = f"{listener.room}/samplers.jsonl"
    run(listener, OTEL_SHOP_SPANS=path, OTEL_TRACES_SAMPLER="always_off")
    run(listener, OTEL_SHOP_SPANS=path, OTEL_SDK_DISABLED="true")
    if spans_in(path):
        raise Fault(f"spans came: {spans_in(path)}")
    run(listener, OTEL_SHOP_SPANS=path, OTEL_TRACES_SAMPLER="parentbased_always_off")
    hold_spans(spans_in(path), [it for it in REQUESTS if it.trace])
    run(listener, said=b"OTEL_TRACES_SAMPLER", OTEL_SHOP_SPANS=path, OTEL_TRACES_SAMPLER="sometimes")


def without_file(listener):
    """It answers as ever where the file is not named or cannot be opened, and says so; where spans were asked for it
    ends with status 1."""
    run(listener, said=b"otel_shop: OTEL_SHOP_SPANS is not set: spans are dropped\n")
    run(listener, 1, b"cannot open the file of OTEL_SHOP_SPANS", OTEL_SHOP_SPANS=f"{listener.room}/none/spans")
    run(listener, 1, b"cannot open the file of OTEL_SHOP_SPANS", OTEL_SHOP_SPANS=listener.room)
    run(listener, 1, b"cannot write spans", OTEL_SHOP_SPANS="/dev/full")
    one_by_one = {"OTEL_SHOP_SPANS": "/dev/full", "OTEL_BSP_MAX_EXPORT_BATCH_SIZE": "1"}
    run(listener, 1, b"otel_shop: 4 exports of spans failed\notel_shop: 1 exports of spans failed\n", **one_by_one)
    variables = {"OTEL_SHOP_SPANS": "/dev/null", "OTEL_SERVICE_NAME": os.fsdecode(b"\xff")}
    run(listener, 1, b"nothing is traced: OTEL_SERVICE_NAME is not UTF-8", **variables)


def torn_line(listener):
    """A line that was cut off is ended by whoever writes after it, also where that one had the file open before."""
    path = f"{listener.room}/torn.jsonl"
    with open(path, "wb") as file:
        file.write(b'{"resourceSpans":[{"reso')
    run(listener, OTEL_SHOP_SPANS=path)
    with open(path, "rb") as file:
        torn, *whole = file.read().split(b"\n")
    hold_spans([span for line in whole if line for span in read(line)], REQUESTS)
    if torn != b'{"resourceSpans":[{"reso':
        raise Fault(f"the torn line is {torn!r}")


def broken_output(listener):
    """Where standard output fails it ends with status 1, and the spans come all the same."""
    path = f"{listener.room}/broken.jsonl"
    with open("/dev/full", "wb") as full:
        run(listener, 1, b"otel_shop: the connection broke: ", full, OTEL_SHOP_SPANS=path)
    found = spans_in(path)
    if not found:
        raise Fault("no span came")
    reader, writer = os.pipe()
    os.close(reader)
    with os.fdopen(writer, "wb") as closed:
        run(listener, 1, b"otel_shop: the connection broke: ", closed, OTEL_SHOP_SPANS=path)
    return f"{len(spans_in(path))} spans"


def lines(listener):
    """The lines of all parts as Google's protobuf reads them."""
    if not listener.size():
        run(listener, OTEL_SHOP_SPANS=listener.spans)
    given = b"".join(it + b"\n" for it in listener.lines_since(0))
    how = {"capture_output": True, "env": environment(), "timeout": SECONDS, "check": False}
    ran = subprocess.run([OTLP_CHECK], input=given, **how)
    said = ran.stderr.decode(errors="replace")
    if ran.returncode == 2:
        raise LeftOut(said.strip())
    if ran.returncode != 0:
        raise Fault(f"tools/otlp_check ended with status {ran.returncode}: {said[-2000:]}")
    return f"{len(ran.stdout.splitlines())} lines"


PARTS = {it.__name__: it for it in (services, samplers, without_file, torn_line, broken_output, lines)}
