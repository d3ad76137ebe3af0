"""The form of OTLP JSON that an exporter here writes: one text for each request, all members, in one order."""

import json
import math
import os
import re

WORDS = ("NaN", "Infinity", "-Infinity")


class Fault(Exception):
    """What is wrong in a line, after the path to it."""

    def __init__(self, path, what):
        super().__init__(f"{path or 'line'}: {what}")


def hold(is_so, path, what):
    """Raises a fault where something is not so."""
    if not is_so:
        raise Fault(path, what)


def shown(value):
    """A value as a message shows it: on one line, and cut where it is long."""
    if type(value) in (dict, list):
        return "an object" if type(value) is dict else "a list"
    text = json.dumps(value)
    return text if len(text) <= 40 else text[:40] + ".."


class Float(float):
    """A number with a point or an exponent, and the text that it has in a line."""

    def __new__(cls, text):
        it = super().__new__(cls, text)
        it.text = text
        return it


def no_integer(number):
    raise Fault("", f"has the number {number[:40]}, which is no integer")


def members_once(pairs):
    """An object, of which no two members have one name, and none but a doubleValue is a float."""
    names = [name for name, _ in pairs]
    for name, value in pairs:
        hold(names.count(name) == 1, "", f"has the member {shown(name)} twice in one object")
        if type(value) is Float and name != "doubleValue":
            no_integer(value.text)
    return dict(pairs)


def compact_of(tree):
    """The text of a tree without spaces; that of a float is the one that it has in the line."""
    if type(tree) is dict:
        return "{" + ",".join(f"{compact_of(name)}:{compact_of(it)}" for name, it in tree.items()) + "}"
    if type(tree) is list:
        return "[" + ",".join(compact_of(it) for it in tree) + "]"
    return tree.text if type(tree) is Float else json.dumps(tree, ensure_ascii=False)


def tree_of(line):
    """The JSON of a line, whose text must be the one that the form has for it."""
    hold(line.endswith(b"\n"), "end of line", "has no line feed")
    hold(line != b"\n", "", "is empty")
    try:
        text = line[:-1].decode()
        tree = json.loads(text, object_pairs_hook=members_once, parse_float=Float, parse_constant=no_integer)
        compact = compact_of(tree)
    except UnicodeDecodeError as error:
        raise Fault(f"byte {error.start + 1}", "is not UTF-8") from None
    except json.JSONDecodeError as error:
        raise Fault(f"character {error.pos + 1}", f"is no JSON: {error.msg}") from None
    except (ValueError, RecursionError) as error:
        raise Fault("", f"is no JSON that can be read: {error}") from None
    at = len(os.path.commonprefix([text, compact]))
    hold(text == compact, f"character {at + 1}", f"begins {shown(text[at:at + 8])}, not {shown(compact[at:at + 8])}")
    return json.loads(text)


def also(look, is_so, what):
    """Looks at a value, and then whether something more is so of it."""
    def look_further(value, path):
        look(value, path)
        hold(is_so(value), path, f"is {shown(value)}, which {what}")
    return look_further


def typed(type_of_it, name):
    def look(value, path):
        hold(type(value) is type_of_it, path, f"is {shown(value)}, no {name}")
    return look


def matching(pattern, name):
    def look(value, path):
        hold(type(value) is str and re.fullmatch(pattern, value), path, f"is {shown(value)}, no {name}")
    return look


def number(low, high):
    return also(typed(int, "number"), lambda it: low <= it <= high, f"is not from {low} to {high}")


def digits(low, high):
    decimal = matching("0|-?[1-9][0-9]{0,19}", "text of decimal digits")
    return also(decimal, lambda it: low <= int(it) <= high, f"is not from {low} to {high}")


def double(value, path):
    is_finite = type(value) is float and math.isfinite(value)
    hold(is_finite or value in WORDS, path, f"is {shown(value)}, no float")


def list_of(look_at_item):
    def look(value, path):
        typed(list, "list")(value, path)
        for index, item in enumerate(value):
            look_at_item(item, f"{path}[{index}]")
    return look


def object_of(**members):
    """Looks at an object that has these members in this order."""
    def look(value, path):
        typed(dict, "object")(value, path)
        for name in value:
            hold(name in members, path, f"has the unknown member {shown(name)}")
        for name in members:
            hold(name in value, path, f"lacks the member {name}")
        for found, wanted in zip(value, members):
            hold(found == wanted, path, f"has {found} where {wanted} belongs")
        for name, look_at_member in members.items():
            look_at_member(value[name], f"{path}.{name}" if path else name)
    return look


def any_value(value, path):
    typed(dict, "object")(value, path)
    hold(len(value) == 1, path, f"has {len(value)} kinds of value, not one")
    for kind, inner in value.items():
        hold(kind in VALUES, path, f"has the unknown member {shown(kind)}")
        VALUES[kind](inner, f"{path}.{kind}")


def item_of_array(value, path):
    hold(type(value) is not dict or "arrayValue" not in value, path, "is an array in an array")
    any_value(value, path)


def is_of_one_kind(items):
    return len({kind for item in items for kind in item}) <= 1


def is_sorted(attributes):
    keys = [it["key"].encode() for it in attributes]
    return all(key < following for key, following in zip(keys, keys[1:]))


def is_runs(scope_spans):
    """Neighbours of one scope are one run. Two that only look alike may have an empty text and none."""
    scopes = [(it["scope"], it["schemaUrl"]) for it in scope_spans]
    same = [scope for scope, following in zip(scopes, scopes[1:]) if scope == following]
    return all(not (scope["version"] and schema) for scope, schema in same)


TEXT = typed(str, "text")
INTEGER = digits(-(2**63), 2**63 - 1)
ITEMS = also(list_of(item_of_array), is_of_one_kind, "has items of more than one kind")
ARRAY = object_of(values=ITEMS)
VALUES = {"boolValue": typed(bool, "boolean"), "intValue": INTEGER, "stringValue": TEXT, "doubleValue": double, "arrayValue": ARRAY}
ATTRIBUTES = list_of(object_of(key=TEXT, value=any_value))
NONE = number(0, 0)
COUNT = number(0, 2**32 - 1)
MOMENT = digits(0, 2**64 - 1)
TRACE_ID = matching("[0-9a-f]{32}", "id of 32 lower-case hexadecimal digits")
SPAN_ID = matching("[0-9a-f]{16}", "id of 16 lower-case hexadecimal digits")
PARENT_ID = matching("(?!0{16})[0-9a-f]{16}|", "id of 16 lower-case hexadecimal digits but zeros, nor empty")
FLAGS = also(number(0, 1023), lambda it: it & 256, "lacks bit 8")
STATUS = object_of(message=TEXT, code=number(0, 2))
CUT_ATTRIBUTES = {"attributes": ATTRIBUTES, "droppedAttributesCount": COUNT}
EVENT = object_of(timeUnixNano=MOMENT, name=TEXT, **CUT_ATTRIBUTES)
LINK = object_of(traceId=TRACE_ID, spanId=SPAN_ID, traceState=TEXT, **CUT_ATTRIBUTES, flags=FLAGS)
SPAN = object_of(
    traceId=TRACE_ID,
    spanId=SPAN_ID,
    traceState=TEXT,
    parentSpanId=PARENT_ID,
    flags=FLAGS,
    name=TEXT,
    kind=number(1, 5),
    startTimeUnixNano=MOMENT,
    endTimeUnixNano=MOMENT,
    **CUT_ATTRIBUTES,
    events=list_of(EVENT),
    droppedEventsCount=COUNT,
    links=list_of(LINK),
    droppedLinksCount=COUNT,
    status=also(STATUS, lambda it: it["code"] == 2 or it["message"] == "", "has a message, but is no error"),
)
SPANS = also(list_of(SPAN), lambda it: it != [], "is empty")
SCOPE = object_of(name=TEXT, version=TEXT, attributes=ATTRIBUTES, droppedAttributesCount=NONE)
SCOPE_SPANS = list_of(object_of(scope=SCOPE, spans=SPANS, schemaUrl=TEXT))
RUNS = also(SCOPE_SPANS, is_runs, "has neighbours with one scope and schema")
SORTED = also(ATTRIBUTES, is_sorted, "is not sorted by the bytes of keys, each once")
RESOURCE = object_of(attributes=SORTED, droppedAttributesCount=NONE)
RESOURCE_SPANS = list_of(object_of(resource=RESOURCE, scopeSpans=RUNS, schemaUrl=TEXT))
REQUEST = object_of(resourceSpans=also(RESOURCE_SPANS, lambda it: len(it) == 1, "has not one item"))
