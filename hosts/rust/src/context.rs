// SPDX-License-Identifier: Apache-2.0
//! Who a span is.

use crate::ffi::SpanIdentity;
use std::fmt;

/// The id of a trace; 0 is none. It shows itself as 32 hexadecimal digits.
#[derive(Clone, Copy, Debug, Default, PartialEq, Eq, Hash)]
pub struct TraceId(pub u128);

/// The id of a span; 0 is none. It shows itself as 16 hexadecimal digits.
#[derive(Clone, Copy, Debug, Default, PartialEq, Eq, Hash)]
pub struct SpanId(pub u64);

/// Flags of a trace; bit 0 says that it is sampled. They show themselves as 2 hexadecimal digits.
#[derive(Clone, Copy, Debug, Default, PartialEq, Eq, Hash)]
pub struct TraceFlags(pub u8);

/// Who a span is. It shows itself as the header `traceparent` has it. That of a span that did not start is the default.
///
/// ```
/// use otel_proved::{SpanContext, SpanId, TraceFlags, TraceId};
/// let context = SpanContext { trace_id: TraceId(10), span_id: SpanId(11), flags: TraceFlags(1) };
/// assert_eq!(context.to_string(), "00-0000000000000000000000000000000a-000000000000000b-01");
/// assert!(context.is_sampled());
/// ```
#[derive(Clone, Copy, Debug, Default, PartialEq, Eq, Hash)]
pub struct SpanContext {
    pub trace_id: TraceId,
    pub span_id: SpanId,
    pub flags: TraceFlags,
}

impl SpanContext {
    pub(crate) fn of(identity: &SpanIdentity) -> Self {
        let trace_id = u128::from(identity.trace_id_high) << 64 | u128::from(identity.trace_id_low);
        let [flags, ..] = identity.trace_flags.to_le_bytes();
        Self { trace_id: TraceId(trace_id), span_id: SpanId(identity.span_id), flags: TraceFlags(flags) }
    }

    /// Whether both ids are there.
    pub fn is_valid(&self) -> bool {
        self.trace_id != TraceId(0) && self.span_id != SpanId(0)
    }

    pub fn is_sampled(&self) -> bool {
        self.flags.0 & 1 == 1
    }
}

impl fmt::Display for TraceId {
    fn fmt(&self, out: &mut fmt::Formatter<'_>) -> fmt::Result {
        write!(out, "{:032x}", self.0)
    }
}

impl fmt::Display for SpanId {
    fn fmt(&self, out: &mut fmt::Formatter<'_>) -> fmt::Result {
        write!(out, "{:016x}", self.0)
    }
}

impl fmt::Display for TraceFlags {
    fn fmt(&self, out: &mut fmt::Formatter<'_>) -> fmt::Result {
        write!(out, "{:02x}", self.0)
    }
}

impl fmt::Display for SpanContext {
    fn fmt(&self, out: &mut fmt::Formatter<'_>) -> fmt::Result {
        write!(out, "00-{}-{}-{}", self.trace_id, self.span_id, self.flags)
    }
}
