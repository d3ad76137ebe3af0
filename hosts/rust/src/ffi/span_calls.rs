// SPDX-License-Identifier: Apache-2.0
//! The calls about one span. What makes them safe is said in `handle`.

use super::attributes::RawAttributes;
use super::declarations::{
    otel_abandon, otel_add_event_with, otel_add_link_with, otel_add_remote_link_with, otel_end, otel_identity,
    otel_inject, otel_record_exception, otel_set_attributes_with, otel_set_bool, otel_set_float, otel_set_integer,
    otel_set_status, otel_set_text, otel_start_remote_with, otel_start_with, otel_update_name,
};
use super::handle::{filled, Handle};
use super::{check, SpanIdentity, SpanKey, TracerKey};
use crate::attributes::{Attribute, Value};
use crate::headers::{self, Extracted};
use crate::moment::Moment;
use crate::Error;
use std::slice;

/// Room for the headers of most spans.
const ROOM_OF_HEADERS: usize = 256;

/// Whose child a span is.
pub enum ParentOf<'a> {
    /// A span without a parent.
    Root,
    Span(SpanKey),
    Remote(&'a Extracted),
}

/// What a span begins with.
pub struct SpanStart<'a> {
    pub tracer: TracerKey,
    pub parent: ParentOf<'a>,
    pub kind: u32,
    pub name: &'a str,
    pub moment: Moment,
    pub attributes: &'a [Attribute<'a>],
}

impl Handle {
    pub fn start(&mut self, start: &SpanStart<'_>) -> Result<SpanKey, Error> {
        match start.parent {
            ParentOf::Root => self.start_here(start, None),
            ParentOf::Span(key) => self.start_here(start, Some(key)),
            ParentOf::Remote(headers) => self.start_remote(start, headers),
        }
    }

    fn start_here(&mut self, start: &SpanStart<'_>, parent: Option<SpanKey>) -> Result<SpanKey, Error> {
        let attributes = RawAttributes::of(start.attributes);
        let mut key = None;
        // SAFETY: as in `handle`.
        check(unsafe {
            otel_start_with(
                &mut self.raw,
                start.tracer,
                parent,
                start.kind,
                start.name.as_ptr(),
                start.name.len(),
                start.moment.nanoseconds(),
                attributes.address(),
                attributes.count(),
                &mut key,
            )
        })?;
        key.ok_or(Error::NoSuchSpan)
    }

    fn start_remote(&mut self, start: &SpanStart<'_>, headers: &Extracted) -> Result<SpanKey, Error> {
        let (traceparent, tracestate, baggage) = (headers.traceparent(), headers.tracestate(), headers.baggage());
        let attributes = RawAttributes::of(start.attributes);
        let mut key = None;
        // SAFETY: as in `handle`.
        check(unsafe {
            otel_start_remote_with(
                &mut self.raw,
                start.tracer,
                traceparent.as_ptr(),
                traceparent.len(),
                tracestate.as_ptr(),
                tracestate.len(),
                baggage.as_ptr(),
                baggage.len(),
                start.kind,
                start.name.as_ptr(),
                start.name.len(),
                start.moment.nanoseconds(),
                attributes.address(),
                attributes.count(),
                &mut key,
            )
        })?;
        key.ok_or(Error::NoSuchSpan)
    }

    pub fn identity(&mut self, span: SpanKey) -> Result<SpanIdentity, Error> {
        let mut identity = SpanIdentity::default();
        // SAFETY: as in `handle`.
        check(unsafe { otel_identity(&mut self.raw, span, &mut identity) })?;
        Ok(identity)
    }

    pub fn set_attribute(&mut self, span: SpanKey, attribute: &Attribute<'_>) -> Result<(), Error> {
        let (key, length) = (attribute.key.as_ptr(), attribute.key.len());
        let raw = &mut self.raw;
        // SAFETY: as in `handle`.
        let status = unsafe {
            match &attribute.value {
                Value::Text(it) => otel_set_text(raw, span, key, length, it.as_ptr(), it.len()),
                Value::Integer(it) => otel_set_integer(raw, span, key, length, *it),
                Value::Float(it) => otel_set_float(raw, span, key, length, *it),
                Value::Bool(it) => otel_set_bool(raw, span, key, length, u32::from(*it)),
                Value::Texts(_) | Value::Integers(_) | Value::Floats(_) | Value::Bools(_) => {
                    let attributes = RawAttributes::of(slice::from_ref(attribute));
                    otel_set_attributes_with(raw, span, attributes.address(), attributes.count())
                }
            }
        };
        check(status)
    }

    pub fn add_event(
        &mut self,
        span: SpanKey,
        name: &str,
        moment: Moment,
        attributes: &[Attribute<'_>],
    ) -> Result<(), Error> {
        let attributes = RawAttributes::of(attributes);
        // SAFETY: as in `handle`.
        check(unsafe {
            otel_add_event_with(
                &mut self.raw,
                span,
                name.as_ptr(),
                name.len(),
                moment.nanoseconds(),
                attributes.address(),
                attributes.count(),
            )
        })
    }

    /// An event `exception` with a message alone.
    pub fn record_exception(&mut self, span: SpanKey, message: &str, moment: Moment) -> Result<(), Error> {
        let none = "";
        // SAFETY: as in `handle`.
        check(unsafe {
            otel_record_exception(
                &mut self.raw,
                span,
                none.as_ptr(),
                none.len(),
                message.as_ptr(),
                message.len(),
                none.as_ptr(),
                none.len(),
                moment.nanoseconds(),
            )
        })
    }

    pub fn add_link(&mut self, span: SpanKey, linked: SpanKey, attributes: &[Attribute<'_>]) -> Result<(), Error> {
        let attributes = RawAttributes::of(attributes);
        // SAFETY: as in `handle`.
        check(unsafe { otel_add_link_with(&mut self.raw, span, linked, attributes.address(), attributes.count()) })
    }

    pub fn add_remote_link(
        &mut self,
        span: SpanKey,
        headers: &Extracted,
        attributes: &[Attribute<'_>],
    ) -> Result<(), Error> {
        let (traceparent, tracestate) = (headers.traceparent(), headers.tracestate());
        let attributes = RawAttributes::of(attributes);
        // SAFETY: as in `handle`.
        check(unsafe {
            otel_add_remote_link_with(
                &mut self.raw,
                span,
                traceparent.as_ptr(),
                traceparent.len(),
                tracestate.as_ptr(),
                tracestate.len(),
                attributes.address(),
                attributes.count(),
            )
        })
    }

    pub fn set_status(&mut self, span: SpanKey, code: u32, description: &str) -> Result<(), Error> {
        // SAFETY: as in `handle`.
        check(unsafe { otel_set_status(&mut self.raw, span, code, description.as_ptr(), description.len()) })
    }

    pub fn update_name(&mut self, span: SpanKey, name: &str) -> Result<(), Error> {
        // SAFETY: as in `handle`.
        check(unsafe { otel_update_name(&mut self.raw, span, name.as_ptr(), name.len()) })
    }

    /// The headers that hand the span on, each `name: value` with a carriage return and a line feed after it.
    pub fn inject(&mut self, span: SpanKey) -> Result<Vec<u8>, Error> {
        // SAFETY: as in `handle`; the buffer is as long as is said.
        filled(ROOM_OF_HEADERS, |buffer, length| unsafe {
            otel_inject(&mut self.raw, span, buffer.as_mut_ptr(), buffer.len(), length)
        })
    }

    /// The headers that hand the span on, as a parent has them.
    pub fn headers_of(&mut self, span: SpanKey) -> Result<Extracted, Error> {
        let text = String::from_utf8(self.inject(span)?).map_err(|_| Error::NotUtf8)?;
        let headers: Vec<_> = headers::split(&text).collect();
        Ok(Extracted::from_headers(headers.iter().map(|(name, value)| (&**name, &**value))))
    }

    pub fn end(&mut self, span: SpanKey, moment: Moment) -> Result<(), Error> {
        // SAFETY: as in `handle`.
        check(unsafe { otel_end(&mut self.raw, span, moment.nanoseconds()) })
    }

    pub fn abandon(&mut self, span: SpanKey) -> Result<(), Error> {
        // SAFETY: as in `handle`.
        check(unsafe { otel_abandon(&mut self.raw, span) })
    }
}
