# SPDX-License-Identifier: Apache-2.0
"""What is tried on a page, part by part: each opens it, does what a reader does, and looks at what is seen then."""

import base64
import hashlib
import json
import os
import re
import time

import inputs
from inputs import MAIL, NIGHT, SHOP

# How long 10,000 spans may take until their list is drawn, and until their rows are, in seconds.
LIMIT = 2
DATA = re.compile(r'<script type="application/json" id="traces">(.*?)</script>', re.S)
TEXTS = "(at => [...document.querySelectorAll(at)].filter(e => e.offsetParent !== null).map(e => e.textContent))"


class Fault(Exception):
    """What is not so, in words for whoever runs the check."""


def want(found, wanted, what):
    if found != wanted:
        raise Fault(f"{what}: found {found!r}, and not {wanted!r}")


def comes(browser, look, wanted, what):
    """Wants what is seen after a turn of the page, which may take the browser a moment."""
    until = time.monotonic() + LIMIT
    while (found := look(browser)) != wanted and time.monotonic() < until:
        browser.settle()
    want(found, wanted, what)


def hold(is_so, what):
    if not is_so:
        raise Fault(what)


def texts(browser, selector):
    """The texts of the elements that fit and are seen."""
    return browser.value(f"{TEXTS}({json.dumps(selector)})")


def names(browser):
    """The spans that are seen, each by its line without signs of folding."""
    return [it.strip("\u25b8\u25be") for it in texts(browser, "#rows .name")]


def silent(browser):
    """The page asked for nothing, nothing of it was refused, and nothing went wrong in it."""
    want(browser.requests(), [], "what the page asked the network for")
    want(browser.complaints(), [], "what the browser complained of")


def opened(browser, pages, name="known"):
    """The page of an input, at its list."""
    browser.size(1400, 900)
    return browser.open(pages.page(name))


def first_trace(browser, pages, name="known"):
    """The rows of its first trace."""
    opened(browser, pages, name)
    browser.click("#all .line")
    comes(browser, lambda it: bool(names(it)), True, "that there are rows")


def data_of(path):
    with open(path, encoding="utf-8", newline="") as file:
        found = DATA.findall(file.read())
    want(len(found), 1, "how many scripts have data")
    return found[0]


def hash_of(text):
    return "'sha256-" + base64.b64encode(hashlib.sha256(text.encode()).digest()).decode() + "'"


def alone(browser, pages):
    """The file asks for nothing, lets only its own style and scripts in, and its data are those of `view json`."""
    opened(browser, pages)
    with open(pages.page("known"), encoding="utf-8", newline="") as file:
        text = file.read()
    style, *scripts = re.findall(r"<(?:style|script)>(.*?)</(?:style|script)>", text, re.S)
    policy = re.findall(r'http-equiv="Content-Security-Policy" content="(.*?)"', text, re.S)
    allowed = "default-src 'none'; base-uri 'none'; form-action 'none'; "
    allowed += f"style-src {hash_of(style)}; script-src {' '.join(map(hash_of, scripts))}"
    want([" ".join(it.split()) for it in policy], [allowed], "the policy")
    hold(not re.search("[<>&]", data_of(pages.page("known"))), "the data have a mark of HTML")
    found = json.loads(data_of(pages.page("known")))
    summary = [json.loads(it) for it in pages.run("known", "json").splitlines()]
    want([{key: it[key] for key in it if key != "rows"} for it in found], summary, "the data beside rows")
    want([row["name"] for row in found[0]["rows"]], ["GET /cart", "load", "SELECT", "charge"], "the rows")
    want(sorted(os.listdir(os.path.dirname(pages.page("known")))), ["known.html"], "the files")


def sorts(browser, pages):
    """A click on a head sorts by it, another one turns that round."""
    opened(browser, pages)
    want(texts(browser, "#all .what"), ["shop GET /cart", "batch nightly", "mail send"], "as they came")
    want(texts(browser, "#all .long"), ["100ms", "2s", "1ms"], "the lengths")
    want(texts(browser, "#all .services"), ["shop, db", "batch", "mail"], "the services")
    for column, wanted in (
        ("long", ["batch nightly", "shop GET /cart", "mail send"]),
        ("errors", ["shop GET /cart", "batch nightly", "mail send"]),
        ("spans", ["shop GET /cart", "mail send", "batch nightly"]),
        ("what", ["batch nightly", "mail send", "shop GET /cart"]),
        ("when", ["shop GET /cart", "batch nightly", "mail send"]),
        ("services", ["batch nightly", "mail send", "shop GET /cart"]),
    ):
        browser.click(f"#heads [data-by={column}] button")
        want(texts(browser, "#all .what"), wanted, f"sorted by {column}")
    browser.click("#heads [data-by=services] button")
    want(texts(browser, "#all .what"), ["shop GET /cart", "mail send", "batch nightly"], "the other way round")
    want(browser.value("document.querySelector('[data-by=services]').ariaSort"), "descending", "what a reader is told")


def searches(browser, pages):
    """A search leaves the traces that have its words, in any case, in any span; in a trace it marks spans."""
    opened(browser, pages)
    for words, wanted in (
        ("SELECT", ["shop GET /cart"]),
        ("timed OUT", ["shop GET /cart"]),
        ("try=2", ["shop GET /cart"]),
        (NIGHT[:20], ["batch nightly"]),
        ("send shop", []),
        ("", ["shop GET /cart", "batch nightly", "mail send"]),
    ):
        browser.value("document.getElementById('search').value = ''; document.getElementById('search').focus()")
        browser.type(words) if words else browser.key("Escape")
        want(texts(browser, "#all .what"), wanted, f"with {words!r}")
    browser.click("#all .line")
    comes(browser, lambda it: bool(names(it)), True, "that there are rows")
    browser.key("/")
    browser.type("shop")
    want(texts(browser, "#found"), ["3 found"], "how many spans are of the service")
    want([it.strip("\u25b8\u25be") for it in texts(browser, "#rows .found .name")],
         ["GET /cart @shop server", "load @shop", "charge @shop client"], "the spans that are marked")
    browser.key("Enter")
    want(chosen(browser), "load @shop", "the next one")
    browser.key("n")
    want(chosen(browser), "charge @shop client", "the one after that")
    browser.key("N")
    want(chosen(browser), "load @shop", "the one before")


def chosen(browser):
    """The span that is chosen."""
    found = [it.strip("\u25b8\u25be") for it in texts(browser, "#rows .chosen .name")]
    want(len(found), 1, "how many spans are chosen")
    return found[0]


ROWS = ["GET /cart @shop server", "load @shop", "! SELECT @db", "charge @shop client"]


def folds(browser, pages):
    """A click on a sign folds what is under a span, and unfolds it; so do the keys."""
    first_trace(browser, pages)
    want(names(browser), ROWS, "the rows")
    browser.click("#rows .line:nth-child(2) .fold")
    want(names(browser), [ROWS[0], "load @shop +1", ROWS[3]], "with one folded")
    browser.click("#rows .line:nth-child(2) .fold")
    want(names(browser), ROWS, "unfolded")
    browser.key("Home")
    browser.key("ArrowLeft")
    want(names(browser), [ROWS[0] + " +3"], "with all folded")
    browser.key("ArrowRight")
    browser.key("ArrowRight")
    want(names(browser), ROWS, "unfolded by a key")
    want(chosen(browser), ROWS[1], "the first child")
    browser.key("End")
    browser.key("ArrowLeft")
    want(chosen(browser), ROWS[0], "the parent")


def ticks(browser):
    return texts(browser, "#axis .tick")


def zooms(browser, pages):
    """An interval that is drawn is zoomed into; keys zoom, move along, and go back to the whole."""
    first_trace(browser, pages)
    whole = ["0ns", "50ms", "100ms"]
    want(ticks(browser), whole, "the whole trace")
    left, top, width, height = browser.box("#rows .line .time")
    browser.drag(left + width * 0.4, left + width * 0.6, top + height / 2)
    moments = [float(it.removesuffix("ms")) for it in ticks(browser)]
    are_round = set(moments[:-1]) <= {40, 45, 50, 55} and len(moments) > 3
    hold(are_round and abs(moments[-1] - 60) < 0.5, f"the interval that was drawn has ticks at {moments}")
    want(texts(browser, "#details"), [], "what a drag shows beside")
    bar = browser.box("#rows .line:nth-child(4) .bar")
    hold(abs(bar[0] - left) < 4 and bar[2] > width * 0.95, f"the bar of `charge` fills its cell, and stands at {bar}")
    browser.click("#whole")
    want(ticks(browser), whole, "the whole again")
    browser.key("End")
    browser.key("z")
    want(ticks(browser), ["40ms", "60ms", "80ms", "90ms"], "the chosen span")
    browser.key("-")
    want(ticks(browser), whole, "zoomed out")
    browser.key("+")
    want(ticks(browser), ["40ms", "60ms", "80ms", "90ms"], "zoomed in around the span")
    browser.key("ArrowLeft", shift=True)
    want(ticks(browser), ["40ms", "60ms", "77.5ms"], "moved along")
    browser.key("0")
    want(ticks(browser), whole, "the whole by a key")


def details(browser, pages):
    """A click shows all of a span, and who made it; a link leads to the trace that it names."""
    first_trace(browser, pages)
    browser.click("#rows .line:nth-child(4) .bar")
    said = texts(browser, "#said > *")
    for wanted in ("charge", "card=visa", "+50msretry", "try=2", "why=batch", f"trace{NIGHT}span{9:016x}"):
        hold(wanted in said, f"the details have no {wanted!r}: {said}")
    for wanted in ("serviceshop", "kindclient", "statusunset", f"parent{1:016x}", "offset+40ms", "length50ms",
                   f"start2023-11-14 22:13:20.040 UTC ({inputs.START + 40_000_000})"):
        hold(wanted in "".join(said), f"the details do not say {wanted!r}: {said}")
    written = [it.get("resource") for it in json.loads(data_of(pages.page("known")))[0]["rows"]]
    want([it is None for it in written], [False, True, False, False], "which rows have no resource of their own")
    for place, service in enumerate(["shop", "shop", "db", "shop"], 1):
        browser.click(f"#rows .line:nth-child({place})")
        resource = f"service.name={service}\nhost.name={service}-host"
        hold(["Resource", resource] == texts(browser, "#said > *")[-2:], f"the resource of row {place} is not said")
    browser.click("#rows .line:nth-child(3)")
    hold("faulttimed out" in "".join(texts(browser, "#said > *")), "what went wrong is not said")
    browser.click("#rows .line:nth-child(4)")
    browser.click("#said button")
    comes(browser, names, ["nightly"], "the trace of the link")
    browser.value("history.back()")
    comes(browser, names, ROWS, "the trace before")


def keys(browser, pages):
    """All is done without a mouse, and a reader is told where it stands."""
    opened(browser, pages)
    browser.key("ArrowDown")
    browser.key("ArrowDown")
    browser.key("Enter")
    comes(browser, names, ["nightly"], "the second trace")
    browser.key("Escape")
    comes(browser, lambda it: texts(it, "#all .chosen .what"), ["batch nightly"], "the list, where it was left")
    browser.key("End")
    browser.key("Home")
    browser.key("Enter")
    comes(browser, names, ROWS, "the first trace")
    browser.key("ArrowDown")
    browser.key("ArrowDown")
    browser.key("Enter")
    want(texts(browser, "#said h2"), ["SELECT"], "the details")
    browser.key("ArrowUp")
    want(texts(browser, "#said h2"), ["load"], "the details of the one above")
    told = "(e => [e.getAttribute('aria-level'), e.getAttribute('aria-expanded'), e.getAttribute('aria-selected')])"
    active = "document.getElementById(document.getElementById('rows').getAttribute('aria-activedescendant'))"
    want(browser.value(f"{told}({active})"), ["2", "true", "true"], "what a reader is told")
    browser.key("Escape")
    want(texts(browser, "#said h2"), [], "the details closed")
    browser.key("Escape")
    comes(browser, lambda it: len(texts(it, "#all .line")), 3, "the list again")


def hostile(browser, pages):
    """No text of a span runs, asks for anything, or hides how it goes on; each is shown."""
    opened(browser, pages, "hostile")
    count = len(inputs.HOSTILE)
    found = json.loads(data_of(pages.page("hostile")))
    want([it["name"] for it in found[0]["rows"]], inputs.HOSTILE, "the names in the data")
    browser.click("#all .line")
    comes(browser, lambda it: bool(names(it)), True, "that there are rows")
    for place in range(count):
        browser.key("Home" if place == 0 else "ArrowDown")
        browser.key("Enter")
        shown = "".join(texts(browser, "#said h2"))
        want(shown.replace("\\u{a}", "\n"), visible(inputs.HOSTILE[place]), "a name as it is shown")
    want(browser.value("window.ran === undefined"), True, "that nothing ran")
    want(browser.value("document.querySelectorAll('img, iframe, object, a, form').length"), 0, "what texts made")
    want(browser.value("document.querySelectorAll('script').length"), 3, "the scripts")


def visible(text):
    """A text with what is not seen by its number."""
    hidden = re.compile("[\0-\x09\x0b-\x1f\x7f-\x9f\u061c\u180e\u200b-\u200f\u2028-\u202e\u2060-\u206f\ufeff]")
    return hidden.sub(lambda it: f"\\u{{{ord(it[0]):x}}}", text)


def large(browser, pages):
    """10,000 spans are there in two seconds, of which those in sight stand in the page."""
    listed = opened(browser, pages, "large")
    hold(listed < LIMIT, f"the list took {listed:.1f} s")
    rows = browser.value("(async () => { const began = performance.now(); document.querySelector('#all .line').click();"
                         " await new Promise(done => requestAnimationFrame(() => setTimeout(done)));"
                         " return performance.now() - began; })()") / 1000
    hold(rows < LIMIT, f"the rows took {rows:.1f} s")
    hold(0 < len(names(browser)) < 200, f"{len(names(browser))} rows stand in the page")
    browser.key("End")
    want(chosen(browser), "work 10000", "the last row")
    browser.key("/")
    browser.type("row=7777")
    want(texts(browser, "#found"), ["1 found"], "a search")
    browser.key("Enter")
    want(chosen(browser), "work 7777", "what it found")
    return f"the list took {listed:.2f} s, the rows {rows:.2f} s"


def looks(browser, pages):
    """A light page and a dark one, nothing that moves, and all rows on paper."""
    first_trace(browser, pages)
    browser.click("#rows .line:nth-child(4)")
    for scheme, wanted in (("light", "rgb(255, 255, 255)"), ("dark", "rgb(18, 18, 18)")):
        browser.scheme(scheme)
        browser.picture(pages.picture(scheme))
        want(browser.value("getComputedStyle(document.body).backgroundColor"), wanted, f"the {scheme} page")
    browser.scheme("light")
    moving = "[...document.querySelectorAll('*')].filter(e => (s => s.animationName !== 'none' || "
    moving += "parseFloat(s.transitionDuration) > 0)(getComputedStyle(e))).length + document.getAnimations().length"
    want(browser.value(moving), 0, "what moves")
    first_trace(browser, pages, "large")
    browser.value("dispatchEvent(new Event('beforeprint'))")
    want(len(browser.value("[...document.querySelectorAll('#rows .line')].map(e => e.id)")), 10000, "rows on paper")
    browser.value("dispatchEvent(new Event('afterprint'))")


PARTS = {it.__name__: it for it in (alone, sorts, searches, folds, zooms, details, keys, hostile, large, looks)}
INPUTS = {"known": inputs.known, "hostile": inputs.hostile, "large": lambda: inputs.many(10_000)}
