// SPDX-License-Identifier: Apache-2.0
//! A layer for [`tracing`] that hands its spans to a pipeline of [`otel_proved`].
//!
//! ```
//! use otel_proved::{Extracted, Pipeline};
//! use otel_proved_tracing::{ProvedLayer, SpanHeaders};
//! use tracing_subscriber::layer::SubscriberExt;
//!
//! # fn main() -> Result<(), Box<dyn std::error::Error>> {
//! let pipeline = Pipeline::builder().from_env().open()?;
//! let subscriber = tracing_subscriber::registry().with(ProvedLayer::new(pipeline.tracer("shop")));
//! tracing::subscriber::with_default(subscriber, || {
//!     let request = tracing::info_span!("GET /cart", otel.kind = "server", cart.size = 3);
//!     let headers = [("traceparent", "00-0af7651916cd43dd8448eb211c80319c-b7ad6b7169203331-01")];
//!     request.set_parent(&Extracted::from_headers(headers)); // Before the span is entered.
//!     let _inside = request.enter();
//!     tracing::warn!(tries = 2, "cache miss"); // An event of the request.
//!     let mut onward = Vec::new();
//!     tracing::Span::current().inject(&mut onward); // The headers of a request to the next service.
//!     assert!(onward[0].1.contains("0af7651916cd43dd8448eb211c80319c"));
//! });
//! assert!(String::from_utf8(pipeline.close()?)?.contains("cache miss"));
//! # Ok(())
//! # }
//! ```
//!
//! - Each span of `tracing` is one span, below its parent there. One without a parent is below the current span of
//!   [`otel_proved`], where the thread has one, or that of [`SpanHeaders::set_parent`], or else a root. It begins when
//!   it is made, and ends when it is closed.
//! - Fields are attributes: integers, floats, truth values, and the text of all else; integers beyond 64 bits with a
//!   sign are the text of their digits. `otel.name` and, before it is entered, `otel.kind` (`server`, `client`,
//!   `producer`, `consumer`) say other names and kinds. `level` and `target` are those of `tracing`.
//! - An event is one of its span, named by its message; those outside of spans are left to other layers. One of the
//!   level `ERROR` makes the span's status an error. A field that is a `dyn Error` is recorded as an exception too.
//! - `follows_from` is a link, where both spans are open.
//! - In a process made by a fork the spans that are open are the parent's; spans there are traced after
//!   [`Pipeline::after_fork`](otel_proved::Pipeline::after_fork). `tracing` itself takes locks at the first call of a
//!   thread or a place in the sources, and a fork that meets one leaves it held.
//! - No call of the layer panics: a value whose text cannot be made, since its `Debug` panics, says so in its place.
#![deny(unsafe_code)]
#![warn(missing_debug_implementations)]

mod fields;
mod headers;
mod layer;
mod open_spans;
mod slot;

pub use headers::SpanHeaders;
pub use layer::ProvedLayer;
