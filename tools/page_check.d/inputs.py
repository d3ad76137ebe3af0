# SPDX-License-Identifier: Apache-2.0
"""OTLP JSON that is made for the check: a few traces that are known by heart, hostile texts, and many spans."""

import json

START = 1_700_000_000_000_000_000
SHOP, NIGHT, MAIL = "a" * 32, "b" * 32, "c" * 32

# What HTML, JavaScript, JSON, a terminal or an eye might take for its own.
HOSTILE = [
    "</script><script>window.ran = 1</script>",
    "</SCRIPT ><img src=x onerror='window.ran = 2'>",
    "<!--<script>window.ran = 3</script>-->",
    "<img src=//127.0.0.1:9/x onerror=window.ran=4>",
    "\"};window.ran = 5;//",
    "'+(window.ran = 6)+'",
    "${window.ran = 7}`",
    "javascript:window.ran=8",
    "&lt;b&gt; &amp; &#60;",
    "line\u2028separator\u2029paragraph",
    "right\u202eto\u2066left\u200b hidden\ufeff",
    "nul\u0000 bell\u0007 escape\u001b[31m tab\t feed\n",
    "\\u003c \\\\ \\\" \\",
    "]]>  %3Cscript%3E {{1+1}} __proto__",
    "\U0001f600 \U0010ffff ß 漢字 עברית",
]


def attribute(key, value):
    return {"key": key, "value": {"stringValue": value}}


def span(trace, number, parent, name, start, end, **more):
    """A span by its number; moments are in nanoseconds after the first, and 0 is no parent."""
    made = {"traceId": trace, "spanId": f"{number:016x}", "name": name, "kind": 1}
    made |= {"startTimeUnixNano": str(START + start), "endTimeUnixNano": str(START + end)}
    if parent:
        made["parentSpanId"] = f"{parent:016x}"
    return made | more


def line(service, *spans):
    """A request of one service."""
    resource = {"attributes": [attribute("service.name", service), attribute("host.name", f"{service}-host")]}
    return json.dumps({"resourceSpans": [{"resource": resource, "scopeSpans": [{"spans": list(spans)}]}]}) + "\n"


def failed(message):
    return {"status": {"code": 2, "message": message}}


def known():
    """Three traces: of four spans of two services, one of which failed; of one long span; and of two short ones."""
    ms = 1_000_000
    retry = {"timeUnixNano": str(START + 50 * ms), "name": "retry", "attributes": [attribute("try", "2")]}
    link = {"traceId": NIGHT, "spanId": f"{9:016x}", "attributes": [attribute("why", "batch")]}
    charge = {"kind": 3, "events": [retry], "links": [link], "attributes": [attribute("card", "visa")]}
    return (
        line("shop", span(SHOP, 1, 0, "GET /cart", 0, 100 * ms, kind=2), span(SHOP, 2, 1, "load", 10 * ms, 30 * ms))
        + line("db", span(SHOP, 3, 2, "SELECT", 12 * ms, 20 * ms, **failed("timed out")))
        + line("shop", span(SHOP, 4, 1, "charge", 40 * ms, 90 * ms, **charge))
        + line("batch", span(NIGHT, 9, 0, "nightly", 5 * ms, 2005 * ms))
        + line("mail", span(MAIL, 11, 0, "send", 7 * ms, 8 * ms), span(MAIL, 12, 11, "connect", 7 * ms, 7 * ms))
    )


def hostile():
    """A trace whose every text is hostile."""
    made = ""
    for number, text in enumerate(HOSTILE, 1):
        event = {"timeUnixNano": str(START), "name": text, "attributes": [attribute(text, text)]}
        link = {"traceId": MAIL, "spanId": f"{1:016x}", "attributes": [attribute(text, text)]}
        more = {"attributes": [attribute(text, text)], "events": [event], "links": [link]} | failed(text)
        made += line(text, span(SHOP, number, number - 1, text, number, 1000 - number, **more))
    return made


def many(count):
    """A trace of so many spans, in three levels, with an attribute and an event each."""
    made = []
    for number in range(1, count + 1):
        parent = 0 if number == 1 else 1 if number % 10 == 2 else (number - 2) // 10 * 10 + 2
        event = {"timeUnixNano": str(START + number * 1000), "name": "step"}
        more = {"attributes": [attribute("row", str(number))], "events": [event]}
        end = count * 1000 + 1000 if number == 1 else number * 1000 + 900
        made.append(span(SHOP, number, parent, f"work {number}", number * 1000, end, **more))
    return line("mill", *made)
