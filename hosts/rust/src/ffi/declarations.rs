// SPDX-License-Identifier: Apache-2.0
//! The functions of `otel.h`: `tools/header_check --make` writes this file from it.

use super::{Counts, RawAttribute, RawHandle, SpanIdentity, SpanKey, TracerKey};

/// The version of the header.
pub(super) const VERSION: [u32; 3] = [0, 1, 0];

/// `otel_value_kind`.
pub(super) mod value_kind {
    pub const TEXT: u32 = 1;
    pub const INTEGER: u32 = 2;
    pub const FLOAT: u32 = 3;
    pub const BOOL: u32 = 4;
    pub const TEXTS: u32 = 5;
    pub const INTEGERS: u32 = 6;
    pub const FLOATS: u32 = 7;
    pub const BOOLS: u32 = 8;
}

// Some of them the package does not call.
#[allow(dead_code)]
#[rustfmt::skip]
extern "C" {
    pub(super) fn otel_version(major: *mut u32, minor: *mut u32, patch: *mut u32) -> u32;
    pub(super) fn otel_open(handle: *mut RawHandle, settings: *const u8, settings_length: usize, seed: u64) -> u32;
    pub(super) fn otel_ignored_settings(
        handle: *mut RawHandle, buffer: *mut u8, buffer_length: usize, length: *mut usize,
    ) -> u32;
    pub(super) fn otel_tracer(
        handle: *mut RawHandle, name: *const u8, name_length: usize, version: *const u8, version_length: usize,
        schema_url: *const u8, schema_url_length: usize, tracer: *mut TracerKey,
    ) -> u32;
    pub(super) fn otel_with_text(
        handle: *mut RawHandle, key: *const u8, key_length: usize, value: *const u8, value_length: usize,
    ) -> u32;
    pub(super) fn otel_with_integer(handle: *mut RawHandle, key: *const u8, key_length: usize, value: i64) -> u32;
    pub(super) fn otel_with_float(handle: *mut RawHandle, key: *const u8, key_length: usize, value: f64) -> u32;
    pub(super) fn otel_with_bool(handle: *mut RawHandle, key: *const u8, key_length: usize, value: u32) -> u32;
    pub(super) fn otel_with_texts(
        handle: *mut RawHandle, key: *const u8, key_length: usize, values: *const u8, values_length: usize,
        lengths: *const u64, count: usize,
    ) -> u32;
    pub(super) fn otel_with_integers(
        handle: *mut RawHandle, key: *const u8, key_length: usize, values: *const i64, count: usize,
    ) -> u32;
    pub(super) fn otel_with_floats(
        handle: *mut RawHandle, key: *const u8, key_length: usize, values: *const f64, count: usize,
    ) -> u32;
    pub(super) fn otel_with_bools(
        handle: *mut RawHandle, key: *const u8, key_length: usize, values: *const u8, count: usize,
    ) -> u32;
    pub(super) fn otel_start(
        handle: *mut RawHandle, tracer: TracerKey, parent: Option<SpanKey>, kind: u32, name: *const u8,
        name_length: usize, moment: u64, key: *mut Option<SpanKey>,
    ) -> u32;
    pub(super) fn otel_start_remote(
        handle: *mut RawHandle, tracer: TracerKey, traceparent: *const u8, traceparent_length: usize,
        tracestate: *const u8, tracestate_length: usize, baggage: *const u8, baggage_length: usize, kind: u32,
        name: *const u8, name_length: usize, moment: u64, key: *mut Option<SpanKey>,
    ) -> u32;
    pub(super) fn otel_start_with(
        handle: *mut RawHandle, tracer: TracerKey, parent: Option<SpanKey>, kind: u32, name: *const u8,
        name_length: usize, moment: u64, attributes: *const RawAttribute, count: usize, key: *mut Option<SpanKey>,
    ) -> u32;
    pub(super) fn otel_start_remote_with(
        handle: *mut RawHandle, tracer: TracerKey, traceparent: *const u8, traceparent_length: usize,
        tracestate: *const u8, tracestate_length: usize, baggage: *const u8, baggage_length: usize, kind: u32,
        name: *const u8, name_length: usize, moment: u64, attributes: *const RawAttribute, count: usize,
        key: *mut Option<SpanKey>,
    ) -> u32;
    pub(super) fn otel_identity(handle: *mut RawHandle, span: SpanKey, identity: *mut SpanIdentity) -> u32;
    pub(super) fn otel_set_text(
        handle: *mut RawHandle, span: SpanKey, key: *const u8, key_length: usize, value: *const u8, value_length: usize,
    ) -> u32;
    pub(super) fn otel_set_integer(
        handle: *mut RawHandle, span: SpanKey, key: *const u8, key_length: usize, value: i64,
    ) -> u32;
    pub(super) fn otel_set_float(
        handle: *mut RawHandle, span: SpanKey, key: *const u8, key_length: usize, value: f64,
    ) -> u32;
    pub(super) fn otel_set_bool(
        handle: *mut RawHandle, span: SpanKey, key: *const u8, key_length: usize, value: u32,
    ) -> u32;
    pub(super) fn otel_set_attributes(handle: *mut RawHandle, span: SpanKey) -> u32;
    pub(super) fn otel_set_attributes_with(
        handle: *mut RawHandle, span: SpanKey, attributes: *const RawAttribute, count: usize,
    ) -> u32;
    pub(super) fn otel_add_event(
        handle: *mut RawHandle, span: SpanKey, name: *const u8, name_length: usize, moment: u64,
    ) -> u32;
    pub(super) fn otel_add_event_with(
        handle: *mut RawHandle, span: SpanKey, name: *const u8, name_length: usize, moment: u64,
        attributes: *const RawAttribute, count: usize,
    ) -> u32;
    pub(super) fn otel_record_exception(
        handle: *mut RawHandle, span: SpanKey, r#type: *const u8, type_length: usize, message: *const u8,
        message_length: usize, stacktrace: *const u8, stacktrace_length: usize, moment: u64,
    ) -> u32;
    pub(super) fn otel_add_link(handle: *mut RawHandle, span: SpanKey, linked: SpanKey) -> u32;
    pub(super) fn otel_add_link_with(
        handle: *mut RawHandle, span: SpanKey, linked: SpanKey, attributes: *const RawAttribute, count: usize,
    ) -> u32;
    pub(super) fn otel_add_remote_link(
        handle: *mut RawHandle, span: SpanKey, traceparent: *const u8, traceparent_length: usize, tracestate: *const u8,
        tracestate_length: usize,
    ) -> u32;
    pub(super) fn otel_add_remote_link_with(
        handle: *mut RawHandle, span: SpanKey, traceparent: *const u8, traceparent_length: usize, tracestate: *const u8,
        tracestate_length: usize, attributes: *const RawAttribute, count: usize,
    ) -> u32;
    pub(super) fn otel_set_status(
        handle: *mut RawHandle, span: SpanKey, code: u32, description: *const u8, description_length: usize,
    ) -> u32;
    pub(super) fn otel_update_name(handle: *mut RawHandle, span: SpanKey, name: *const u8, name_length: usize) -> u32;
    pub(super) fn otel_inject(
        handle: *mut RawHandle, span: SpanKey, buffer: *mut u8, buffer_length: usize, length: *mut usize,
    ) -> u32;
    pub(super) fn otel_end(handle: *mut RawHandle, span: SpanKey, moment: u64) -> u32;
    pub(super) fn otel_abandon(handle: *mut RawHandle, span: SpanKey) -> u32;
    pub(super) fn otel_flush(handle: *mut RawHandle) -> u32;
    pub(super) fn otel_run(handle: *mut RawHandle, moment: u64) -> u32;
    pub(super) fn otel_drain(handle: *mut RawHandle, buffer: *mut u8, buffer_length: usize, length: *mut usize) -> u32;
    pub(super) fn otel_drain_some(
        handle: *mut RawHandle, buffer: *mut u8, buffer_length: usize, length: *mut usize,
    ) -> u32;
    pub(super) fn otel_count(handle: *mut RawHandle, numbers: *mut Counts, numbers_size: usize) -> u32;
    pub(super) fn otel_after_fork(handle: *mut RawHandle, seed: u64) -> u32;
    pub(super) fn otel_shutdown(handle: *mut RawHandle) -> u32;
    pub(super) fn otel_close(handle: *mut RawHandle) -> u32;
}
