// SPDX-License-Identifier: Apache-2.0
#![doc = include_str!("../README.md")]
#![deny(unsafe_code, clippy::undocumented_unsafe_blocks)]
#![warn(missing_debug_implementations)]

mod attributes;
mod context;
mod current;
mod error;
#[allow(unsafe_code)]
mod ffi;
mod headers;
pub mod http;
mod lines;
mod moment;
mod notices;
mod pipeline;
mod settings;
mod shared;
mod span;
mod tracer;

pub use attributes::{Attribute, Value};
pub use context::{SpanContext, SpanId, TraceFlags, TraceId};
pub use current::{current_span, Current, CurrentSpan};
pub use error::{CloseError, Error};
pub use ffi::Counts;
pub use headers::Extracted;
pub use pipeline::Pipeline;
pub use settings::Builder;
pub use span::{Span, SpanRef, Status};
pub use tracer::{Kind, Library, SpanBuilder, Tracer};
