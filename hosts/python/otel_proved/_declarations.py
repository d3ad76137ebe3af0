# SPDX-License-Identifier: Apache-2.0
"""Structures and constants of hosts/c/otel.h, and its functions with their arguments but the handle, which comes first
where one is taken; each answers a status.

`tools/header_check --make` writes this file from the header.
"""

from ctypes import POINTER, Structure, c_char_p, c_double, c_int64, c_size_t, c_uint32, c_uint64
from typing import Any, Dict, Tuple


class Attribute(Structure):
    """`otel_attribute`."""

    _fields_ = [
        ("key", c_char_p),
        ("key_length", c_size_t),
        ("kind", c_uint32),
        ("truth", c_uint32),
        ("integer", c_int64),
        ("number", c_double),
        ("bytes", c_char_p),
        ("bytes_length", c_size_t),
        ("lengths", POINTER(c_uint64)),
        ("lengths_count", c_size_t),
        ("integers", POINTER(c_int64)),
        ("integers_count", c_size_t),
        ("numbers", POINTER(c_double)),
        ("numbers_count", c_size_t),
    ]


class Identity(Structure):
    """`otel_span_identity`."""

    _fields_ = [
        ("trace_id_high", c_uint64),
        ("trace_id_low", c_uint64),
        ("span_id", c_uint64),
        ("trace_flags", c_uint32),
        ("is_recording", c_uint32),
    ]


class Numbers(Structure):
    """`otel_numbers`."""

    _fields_ = [
        ("open_spans", c_uint64),
        ("waiting_spans", c_uint64),
        ("dropped_spans", c_uint64),
        ("refused_spans", c_uint64),
        ("lost_batches", c_uint64),
        ("lost_spans", c_uint64),
        ("undrained_spans", c_uint64),
        ("undrained_bytes", c_uint64),
    ]


VERSION = (0, 1, 0)

# `otel_value_kind`.
VALUE_KINDS = {
    "text": 1,
    "integer": 2,
    "float": 3,
    "bool": 4,
    "texts": 5,
    "integers": 6,
    "floats": 7,
    "bools": 8,
}

FUNCTIONS: Dict[str, Tuple[Any, ...]] = {
    "otel_version": (POINTER(c_uint32), POINTER(c_uint32), POINTER(c_uint32)),
    "otel_open": (c_char_p, c_size_t, c_uint64),
    "otel_ignored_settings": (c_char_p, c_size_t, POINTER(c_size_t)),
    "otel_tracer": (c_char_p, c_size_t, c_char_p, c_size_t, c_char_p, c_size_t, POINTER(c_uint64)),
    "otel_with_text": (c_char_p, c_size_t, c_char_p, c_size_t),
    "otel_with_integer": (c_char_p, c_size_t, c_int64),
    "otel_with_float": (c_char_p, c_size_t, c_double),
    "otel_with_bool": (c_char_p, c_size_t, c_uint32),
    "otel_with_texts": (c_char_p, c_size_t, c_char_p, c_size_t, POINTER(c_uint64), c_size_t),
    "otel_with_integers": (c_char_p, c_size_t, POINTER(c_int64), c_size_t),
    "otel_with_floats": (c_char_p, c_size_t, POINTER(c_double), c_size_t),
    "otel_with_bools": (c_char_p, c_size_t, c_char_p, c_size_t),
    "otel_start": (c_uint64, c_uint64, c_uint32, c_char_p, c_size_t, c_uint64, POINTER(c_uint64)),
    "otel_start_remote": (
        c_uint64, c_char_p, c_size_t, c_char_p, c_size_t, c_char_p, c_size_t, c_uint32, c_char_p, c_size_t, c_uint64,
        POINTER(c_uint64),
    ),
    "otel_start_with": (
        c_uint64, c_uint64, c_uint32, c_char_p, c_size_t, c_uint64, POINTER(Attribute), c_size_t, POINTER(c_uint64),
    ),
    "otel_start_remote_with": (
        c_uint64, c_char_p, c_size_t, c_char_p, c_size_t, c_char_p, c_size_t, c_uint32, c_char_p, c_size_t, c_uint64,
        POINTER(Attribute), c_size_t, POINTER(c_uint64),
    ),
    "otel_identity": (c_uint64, POINTER(Identity)),
    "otel_set_text": (c_uint64, c_char_p, c_size_t, c_char_p, c_size_t),
    "otel_set_integer": (c_uint64, c_char_p, c_size_t, c_int64),
    "otel_set_float": (c_uint64, c_char_p, c_size_t, c_double),
    "otel_set_bool": (c_uint64, c_char_p, c_size_t, c_uint32),
    "otel_set_attributes": (c_uint64,),
    "otel_set_attributes_with": (c_uint64, POINTER(Attribute), c_size_t),
    "otel_add_event": (c_uint64, c_char_p, c_size_t, c_uint64),
    "otel_add_event_with": (c_uint64, c_char_p, c_size_t, c_uint64, POINTER(Attribute), c_size_t),
    "otel_record_exception": (c_uint64, c_char_p, c_size_t, c_char_p, c_size_t, c_char_p, c_size_t, c_uint64),
    "otel_add_link": (c_uint64, c_uint64),
    "otel_add_link_with": (c_uint64, c_uint64, POINTER(Attribute), c_size_t),
    "otel_add_remote_link": (c_uint64, c_char_p, c_size_t, c_char_p, c_size_t),
    "otel_add_remote_link_with": (c_uint64, c_char_p, c_size_t, c_char_p, c_size_t, POINTER(Attribute), c_size_t),
    "otel_set_status": (c_uint64, c_uint32, c_char_p, c_size_t),
    "otel_update_name": (c_uint64, c_char_p, c_size_t),
    "otel_inject": (c_uint64, c_char_p, c_size_t, POINTER(c_size_t)),
    "otel_end": (c_uint64, c_uint64),
    "otel_abandon": (c_uint64,),
    "otel_flush": (),
    "otel_run": (c_uint64,),
    "otel_drain": (c_char_p, c_size_t, POINTER(c_size_t)),
    "otel_drain_some": (c_char_p, c_size_t, POINTER(c_size_t)),
    "otel_count": (POINTER(Numbers), c_size_t),
    "otel_after_fork": (c_uint64,),
    "otel_shutdown": (),
    "otel_close": (),
}
