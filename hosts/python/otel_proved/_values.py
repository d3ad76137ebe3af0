# SPDX-License-Identifier: Apache-2.0
"""Python's values as arguments of the C interface. What does not fit is left out, and counted."""

from __future__ import annotations

import time
from ctypes import c_double, c_int64, c_uint64
from typing import Any, List, Mapping, NamedTuple, Optional, Sequence, Tuple, Union

from ._failures import Failures
from .errors import NotUtf8

Value = Union[str, int, float, bool, Sequence[str], Sequence[int], Sequence[float], Sequence[bool]]
Attributes = Mapping[str, Value]

SMALLEST, GREATEST = -(2**63), 2**63 - 1
LAST_MOMENT = 2**64 - 1


class Encoded(NamedTuple):
    """An attribute: the form of its value, and the key and the value as arguments. otel_set_FORM takes one that is no
    list, and a list of otel_attribute any."""

    form: str
    arguments: Tuple[Any, ...]

    @property
    def is_list(self) -> bool:
        """Whether its value is a list, which no otel_set_FORM takes."""
        return self.form.endswith("s")


def utf8(text: str, what: str) -> bytes:
    """The bytes of a text of a setting; `what` says in the error what it is."""
    if not isinstance(text, str):
        raise TypeError(f"{what} must be a str, not {type(text).__name__}")
    try:
        return text.encode()
    except UnicodeEncodeError:
        raise NotUtf8(f"{what} has a lone surrogate: {text!a}") from None


def text_of(value: object) -> bytes:
    """The bytes of a text, with U+FFFD for each lone surrogate; of another value the bytes of its text."""
    said = str.__str__(value) if isinstance(value, str) else _said(value)
    try:
        return said.encode()
    except UnicodeEncodeError:
        return said.encode("utf-16-le", "surrogatepass").decode("utf-16-le", "replace").encode()


def _said(value: object) -> str:
    try:
        return str(value)
    except Exception:
        return f"a value of the type {type(value).__name__}, whose text cannot be made"


def text(encoded: bytes) -> Tuple[bytes, int]:
    """The two arguments that a text takes."""
    return encoded, len(encoded)


def moment_fault(moment: object) -> str:
    """What is wrong with a moment in nanoseconds; an empty text where nothing is."""
    if isinstance(moment, bool) or not isinstance(moment, int):
        return f"a moment must be an int of nanoseconds, not {type(moment).__name__}"
    number = int.__int__(moment)
    return "" if 0 <= number <= LAST_MOMENT else f"a moment must be from 0 to {LAST_MOMENT}, not {number}"


def moment_near(moment: Optional[int], failures: Failures) -> int:
    """A moment in nanoseconds since 1970; now for None, and for what is no moment, which is counted."""
    fault = "" if moment is None else moment_fault(moment)
    if fault:
        failures.refuse(fault)
    return time.time_ns() if moment is None or fault else int.__int__(moment)


def encode_all(attributes: Optional[Attributes], failures: Failures) -> List[Encoded]:
    """Each attribute, in their order, but those that are left out."""
    if attributes is None:
        return []
    pairs = pairs_of(attributes)
    if pairs is None:
        failures.refuse(f"attributes must be a mapping, not {type(attributes).__name__}")
        return []
    return [it for it in (encode(key, value, failures) for key, value in pairs) if it is not None]


def pairs_of(mapping: Any) -> Optional[List[Tuple[Any, Any]]]:
    """The pairs of a mapping, whose code may be the service's own; None where it hands none out."""
    if type(mapping) is dict:
        return list(mapping.items())
    try:
        return [(key, value) for key, value in mapping.items()]
    except Exception:
        return None


def encode(key: str, value: Value, failures: Failures) -> Optional[Encoded]:
    """An attribute. None where its key or its value is of none of the types, which is counted.

    It runs no code of the value's type, and swallows nothing that the handler of a signal raises.
    """
    if not isinstance(key, str):
        failures.leave_out(type(key).__name__, "is of a key that is no str")
        return None
    name = text(text_of(key))
    encoded = _encode_list(name, value) if isinstance(value, (list, tuple)) else _encode(name, value)
    if encoded is None:
        failures.leave_out(ascii(str.__str__(key)), f"is {_named(value)}, not {_TYPES}, or a list of one of these")
    return encoded


_TYPES = "a str, a bool, an int of 64 bits, a float"


def _named(value: object) -> str:
    if isinstance(value, (list, tuple)):
        return "a list of items that are not all of one of the types"
    return "an int of more than 64 bits" if isinstance(value, int) else f"of the type {type(value).__name__}"


def _form_of(value: object) -> Optional[str]:
    if isinstance(value, str):
        return "text"
    if isinstance(value, bool):
        return "bool"
    if isinstance(value, int) and SMALLEST <= int.__int__(value) <= GREATEST:
        return "integer"
    if isinstance(value, float):
        return "float"
    return None


def _encode(name: Tuple[bytes, int], value: Any) -> Optional[Encoded]:
    form = _form_of(value)
    if form is None:
        return None
    if form == "text":
        return Encoded(form, (*name, *text(text_of(value))))
    return Encoded(form, (*name, float.__float__(value) if form == "float" else int.__int__(value)))


def _encode_list(name: Tuple[bytes, int], values: Sequence[Any]) -> Optional[Encoded]:
    values = list.copy(values) if isinstance(values, list) else list(tuple.__iter__(values))  # type: ignore[arg-type]
    forms = {_form_of(item) for item in values} or {"text"}
    if None in forms or len(forms) > 1:
        return None
    if forms == {"text"}:
        return _encode_texts(name, values)
    count = len(values)
    if forms == {"bool"}:
        return Encoded("bools", (*name, bytes(values), count))
    if forms == {"float"}:
        return Encoded("floats", (*name, (c_double * count)(*map(float.__float__, values)), count))
    return Encoded("integers", (*name, (c_int64 * count)(*map(int.__int__, values)), count))


def _encode_texts(name: Tuple[bytes, int], values: Sequence[str]) -> Encoded:
    texts = [text_of(item) for item in values]
    # An address is wanted also where there is no item.
    lengths = (c_uint64 * (len(texts) or 1))(*map(len, texts))
    return Encoded("texts", (*name, *text(b"".join(texts)), lengths, len(texts)))
