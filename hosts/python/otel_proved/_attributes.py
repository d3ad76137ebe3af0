# SPDX-License-Identifier: Apache-2.0
"""Attributes as the library takes them: a list of otel_attribute, in one call."""

from __future__ import annotations

from ctypes import c_double, c_int64, c_uint64
from typing import Any, Sequence, Tuple

from ._declarations import VALUE_KINDS, Attribute
from ._values import Encoded

# No address in an attribute may be none, also where nothing is there.
_NO_LENGTHS, _NO_INTEGERS, _NO_NUMBERS = (c_uint64 * 1)(), (c_int64 * 1)(), (c_double * 1)()
_EMPTY = Attribute(b"", 0, 0, 0, 0, 0.0, b"", 0, _NO_LENGTHS, 0, _NO_INTEGERS, 0, _NO_NUMBERS, 0)
_NONE = (Attribute * 1)(_EMPTY)
# Where the value of each form stands, after the key.
_FIELDS = {
    "text": ("bytes", "bytes_length"),
    "integer": ("integer",),
    "float": ("number",),
    "bool": ("truth",),
    "texts": ("bytes", "bytes_length", "lengths", "lengths_count"),
    "integers": ("integers", "integers_count"),
    "floats": ("numbers", "numbers_count"),
    "bools": ("bytes", "bytes_length"),
}
_KINDS = {form: (VALUE_KINDS[form], ("key", "key_length", *fields)) for form, fields in _FIELDS.items()}


def listed(attributes: Sequence[Encoded]) -> Tuple[Any, int]:
    """The two arguments that a list of attributes takes. They keep what the list leads to."""
    count = len(attributes)
    return ((Attribute * count)(*map(_attribute_of, attributes)), count) if count else (_NONE, 0)


def _attribute_of(encoded: Encoded) -> Attribute:
    made = Attribute.from_buffer_copy(_EMPTY)
    made.kind, fields = _KINDS[encoded.form]
    for field, value in zip(fields, encoded.arguments):
        setattr(made, field, value)
    return made
