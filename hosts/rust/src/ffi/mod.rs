// SPDX-License-Identifier: Apache-2.0
//! The C interface, `otel.h`: its types, and its calls in `declarations`. All unsafe code of the package is in this
//! module; `Handle` is its safe face.

mod attributes;
mod declarations;
mod forks;
mod handle;
mod span_calls;
#[cfg(test)]
mod tests;
mod version;

pub use forks::{OfProcess, Process};
pub use handle::Handle;
pub use span_calls::{ParentOf, SpanStart};

use crate::Error;
use std::ffi::c_void;
use std::num::NonZeroU64;

/// `otel_handle`.
#[repr(C)]
struct RawHandle {
    is_open: bool,
    held: Held,
}

#[repr(C)]
struct Held {
    at: *mut c_void,
}

/// `otel_attribute`. What its addresses lead to is borrowed by whoever makes it.
#[repr(C)]
struct RawAttribute {
    key: *const u8,
    key_length: usize,
    kind: u32,
    truth: u32,
    integer: i64,
    number: f64,
    bytes: *const u8,
    bytes_length: usize,
    lengths: *const u64,
    lengths_count: usize,
    integers: *const i64,
    integers_count: usize,
    numbers: *const f64,
    numbers_count: usize,
}

/// Names a span of a pipeline for ever.
#[repr(transparent)]
#[derive(Clone, Copy, Debug, PartialEq, Eq)]
pub struct SpanKey(NonZeroU64);

/// Names a tracer of a pipeline.
#[repr(transparent)]
#[derive(Clone, Copy, Debug, PartialEq, Eq)]
pub struct TracerKey(u64);

impl TracerKey {
    /// The tracer that is there from the start.
    pub const FIRST: Self = Self(0);
}

/// `otel_span_identity`.
#[repr(C)]
#[derive(Clone, Copy, Debug, Default)]
pub struct SpanIdentity {
    pub trace_id_high: u64,
    pub trace_id_low: u64,
    pub span_id: u64,
    pub trace_flags: u32,
    pub is_recording: u32,
}

/// How many spans are where. What was dropped or lost is counted from the opening on, and never anew.
// It is `otel_numbers`.
#[repr(C)]
#[derive(Clone, Copy, Debug, Default, PartialEq, Eq)]
pub struct Counts {
    /// Started, and neither ended nor abandoned.
    pub open_spans: u64,
    /// Ended, and in the queue.
    pub waiting_spans: u64,
    /// Ended, and dropped since the queue was full.
    pub dropped_spans: u64,
    /// Ended, and refused when memory ran out.
    pub refused_spans: u64,
    /// Exported, and not kept: memory ran out, or as many spans were kept as `OTEL_C_MAX_UNDRAINED_SPANS` allows.
    pub lost_batches: u64,
    /// The spans of these batches.
    pub lost_spans: u64,
    /// Exported and kept, and not drained yet.
    pub undrained_spans: u64,
    /// How many bytes the lines take that were made and not drained yet.
    pub undrained_bytes: u64,
}

/// What a status means.
fn check(status: u32) -> Result<(), Error> {
    Err(match status {
        0 => return Ok(()),
        1 => Error::Closed,
        2 => Error::AlreadyOpen,
        3 => Error::OutOfMemory,
        4 => Error::NoSuchSpan,
        5 => Error::NoSuchTracer,
        6 => Error::NotUtf8,
        7 => Error::BadArgument,
        8 => Error::BufferTooSmall,
        9 => Error::Failed,
        other => Error::UnknownStatus(other),
    })
}
