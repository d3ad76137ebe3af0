// SPDX-License-Identifier: Apache-2.0
//! Spans after their start.

use crate::attributes::{Attribute, Value};
use crate::context::SpanContext;
use crate::current::Current;
use crate::ffi::{Handle, SpanIdentity, SpanKey};
use crate::headers::{self, Extracted};
use crate::moment::Moment;
use crate::shared::Shared;
use crate::Error;
use std::borrow::Cow;
use std::error;
use std::fmt::{self, Write};
use std::panic::{self, AssertUnwindSafe};
use std::sync::Arc;
use std::thread;
use std::time::SystemTime;

/// Work that is traced. It ends when it is dropped, at that moment, and is handed on for export where it is sampled.
/// Where it is dropped by a panic it is an error, with an event `exception`. One that could not start, or starts after
/// the pipeline was shut down, records nothing, and passes its parent on.
///
/// No call of a span panics or answers an error: what fails is counted by
/// [`Pipeline::failed_calls`](crate::Pipeline::failed_calls). A span does not keep its pipeline open.
#[must_use = "a span that is not kept ends at once"]
pub struct Span {
    shared: Arc<Shared>,
    /// None where the span did not start, or has ended.
    key: Option<SpanKey>,
    /// Who it is; the default where it did not start.
    context: SpanContext,
    /// What its parent hands on, where it did not start, and stands for that.
    passed_on: Option<Arc<Extracted>>,
    /// Whether it started in a panic, as what cleans up does.
    began_in_panic: bool,
}

/// What a child is below.
#[derive(Clone)]
pub(crate) enum Standing {
    Open(SpanKey, SpanContext),
    /// What the parent hands on of a span that did not start.
    Passing(Arc<Extracted>),
}

/// A span to be a parent or to be linked.
#[derive(Clone, Copy, Debug)]
pub enum SpanRef<'a> {
    /// A span of the same pipeline.
    Span(&'a Span),
    /// The span of another process, by the headers that name it.
    Remote(&'a Extracted),
}

/// What came of a span's work.
#[derive(Clone, Debug, Default, PartialEq, Eq)]
pub enum Status<'a> {
    #[default]
    Unset,
    Ok,
    /// An error, with a description of it or an empty text.
    Error(Cow<'a, str>),
}

impl<'a> Status<'a> {
    pub fn error(description: impl Into<Cow<'a, str>>) -> Self {
        Self::Error(description.into())
    }

    fn parts(&self) -> (u32, &str) {
        match self {
            Self::Unset => (0, ""),
            Self::Ok => (1, ""),
            Self::Error(description) => (2, description),
        }
    }
}

impl Span {
    pub(crate) fn new(shared: Arc<Shared>, key: SpanKey, context: SpanContext) -> Self {
        Self { shared, key: Some(key), context, passed_on: None, began_in_panic: thread::panicking() }
    }

    /// A span that did not start.
    pub(crate) fn none(shared: Arc<Shared>) -> Self {
        Self { shared, key: None, context: SpanContext::default(), passed_on: None, began_in_panic: false }
    }

    /// A span that records nothing, and stands for its parent, as that is known in another process.
    pub(crate) fn passing(shared: Arc<Shared>, parent: Arc<Extracted>) -> Self {
        let mut span = Self::none(shared);
        span.passed_on = Some(parent);
        span
    }

    /// What its children are below.
    pub(crate) fn standing(&self) -> Option<Standing> {
        match (&self.key, &self.passed_on) {
            (Some(key), _) => Some(Standing::Open(*key, self.context)),
            (None, Some(parent)) => Some(Standing::Passing(Arc::clone(parent))),
            (None, None) => None,
        }
    }

    /// Lets the span be, which somebody else has.
    pub(crate) fn disown(&mut self) {
        self.key = None;
    }

    /// Makes the span the current one of this thread, until the guard is dropped.
    ///
    /// ```
    /// # fn main() -> Result<(), otel_proved::Error> {
    /// # let pipeline = otel_proved::Pipeline::builder().open()?;
    /// # let tracer = pipeline.tracer("shop");
    /// let request = tracer.span("GET /cart").start();
    /// let current = request.enter();
    /// let load = tracer.span("load cart").start(); // A child of the request.
    /// assert_eq!(load.context().trace_id, request.context().trace_id);
    /// drop(current);
    /// let other = tracer.span("other").start();
    /// assert_ne!(other.context().trace_id, request.context().trace_id);
    /// # Ok(())
    /// # }
    /// ```
    pub fn enter(&self) -> Current<'_> {
        Current::enter(self.standing().map(|standing| (&self.shared, standing)))
    }

    /// What its children are below in a pipeline, where the span is of that one.
    pub(crate) fn standing_within(&self, shared: &Arc<Shared>) -> Result<Option<Standing>, Error> {
        self.key_within(shared).map(|_| self.standing())
    }

    /// The key in a pipeline, where the span is of that one.
    fn key_within(&self, shared: &Arc<Shared>) -> Result<Option<SpanKey>, Error> {
        match self.key {
            Some(_) if !Arc::ptr_eq(&self.shared, shared) => Err(Error::OtherPipeline),
            key => Ok(key),
        }
    }

    /// Asks or tells the span something, where it did start.
    fn attempt<T>(&self, calls: impl FnOnce(&mut Handle, SpanKey) -> Result<T, Error>) -> Option<T> {
        let key = self.key?;
        self.shared.attempt(|handle| calls(handle, key))
    }

    fn identity(&self) -> SpanIdentity {
        self.attempt(|handle, key| handle.identity(key)).unwrap_or_default()
    }

    /// Who the span is.
    pub fn context(&self) -> SpanContext {
        self.context
    }

    /// Whether the span records what it is told: it did start, and the sampler did not drop it.
    pub fn is_recording(&self) -> bool {
        self.identity().is_recording != 0
    }

    /// Puts the headers `traceparent`, `tracestate` and `baggage`, which hand the span on to another process, into a
    /// list or a map, as far as there is something to say.
    ///
    /// ```
    /// # fn main() -> Result<(), otel_proved::Error> {
    /// # let pipeline = otel_proved::Pipeline::builder().open()?;
    /// # let span = pipeline.tracer("shop").span("call").start();
    /// let mut headers = vec![("accept".to_owned(), "*/*".to_owned())];
    /// span.inject(&mut headers);
    /// assert_eq!(headers[1], ("traceparent".to_owned(), span.context().to_string()));
    /// # Ok(())
    /// # }
    /// ```
    pub fn inject(&self, into: &mut impl Extend<(String, String)>) {
        if let Some(parent) = &self.passed_on {
            return into.extend(parent.fields());
        }
        let text = self.attempt(|handle, key| {
            let bytes = handle.inject(key)?;
            String::from_utf8(bytes).map_err(|_| Error::NotUtf8)
        });
        match text {
            Some(text) => into.extend(headers::split(&text)),
            // The trace goes on, also where the pipeline is closed.
            None => into.extend(Extracted::of_context(&self.context).fields()),
        }
    }

    pub fn set_attribute<'a>(&self, key: impl Into<Cow<'a, str>>, value: impl Into<Value<'a>>) -> &Self {
        let attribute = Attribute::new(key, value);
        self.attempt(|handle, key| handle.set_attribute(key, &attribute));
        self
    }

    /// An event at this moment.
    ///
    /// ```
    /// # fn main() -> Result<(), otel_proved::Error> {
    /// # use otel_proved::Attribute;
    /// # let pipeline = otel_proved::Pipeline::builder().open()?;
    /// # let span = pipeline.tracer("shop").span("call").start();
    /// span.add_event("cache miss", [Attribute::new("key", "cart"), Attribute::new("tries", 2)]);
    /// span.add_event("retry", []);
    /// # assert_eq!(pipeline.failed_calls(), 0);
    /// # Ok(())
    /// # }
    /// ```
    pub fn add_event<'a>(&self, name: &str, attributes: impl IntoIterator<Item = Attribute<'a>>) -> &Self {
        let (moment, attributes) = (Moment::now(), attributes.into_iter().collect::<Vec<_>>());
        self.attempt(|handle, key| handle.add_event(key, name, moment, &attributes));
        self
    }

    /// An event `exception` at this moment, with the error's text as its message. Where its `Display` panics, or fails,
    /// that counts as a failure, and the message says so.
    pub fn record_error(&self, error: &dyn error::Error) -> &Self {
        let moment = Moment::now();
        let message = text_of(error).unwrap_or_else(|why| {
            self.shared.note(why);
            "an error whose text cannot be made".to_owned()
        });
        self.attempt(|handle, key| handle.record_exception(key, &message, moment));
        self
    }

    /// A link to a [`Span`] of this pipeline, or to that of [`Extracted`] headers. That the linked one did not start,
    /// or is named by no valid header, counts as a failure.
    pub fn add_link<'a>(
        &self,
        linked: impl Into<SpanRef<'a>>,
        attributes: impl IntoIterator<Item = Attribute<'a>>,
    ) -> &Self {
        let linked = linked.into();
        let attributes: Vec<_> = attributes.into_iter().collect();
        self.attempt(|handle, key| match linked {
            SpanRef::Remote(headers) => handle.add_remote_link(key, headers, &attributes),
            SpanRef::Span(span) => {
                let linked = span.key_within(&self.shared)?.ok_or(Error::NoSuchSpan)?;
                handle.add_link(key, linked, &attributes)
            }
        });
        self
    }

    pub fn set_status(&self, status: Status<'_>) -> &Self {
        let (code, description) = status.parts();
        self.attempt(|handle, key| handle.set_status(key, code, description));
        self
    }

    pub fn update_name(&self, name: &str) -> &Self {
        self.attempt(|handle, key| handle.update_name(key, name));
        self
    }

    /// Ends the span now.
    pub fn end(mut self) {
        if self.key.is_some() {
            self.end_once(Moment::now());
        }
    }

    /// Ends the span at a moment. One before 1970 or after 2554 counts as a failure, and the span ends now.
    pub fn end_at(mut self, time: SystemTime) {
        let moment = Moment::of(time).unwrap_or_else(|error| {
            self.shared.note(error);
            Moment::now()
        });
        self.end_once(moment);
    }

    /// Ends the span, but does not hand it on.
    pub fn abandon(mut self) {
        self.attempt(|handle, key| handle.abandon(key));
        self.key = None;
    }

    /// Ends the span. Where that fails it is abandoned, so that no span stays open for ever.
    fn end_once(&mut self, moment: Moment) {
        self.attempt(|handle, key| {
            let ended = handle.end(key, moment);
            ended.or_else(|error| handle.abandon(key).and(Err(error)))
        });
        self.key = None;
        self.shared.ended();
    }
}

/// The text of an error, whose `Display` is the service's own.
fn text_of(error: &dyn error::Error) -> Result<String, Error> {
    let mut text = String::new();
    match panic::catch_unwind(AssertUnwindSafe(|| write!(text, "{error}"))) {
        Ok(Ok(())) => Ok(text),
        _ => Err(Error::NoText),
    }
}

impl Drop for Span {
    fn drop(&mut self) {
        if self.key.is_none() {
            return;
        }
        let now = Moment::now();
        if thread::panicking() && !self.began_in_panic {
            self.attempt(|handle, key| handle.record_exception(key, "a panic left the scope of the span", now));
            self.set_status(Status::error(""));
        }
        self.end_once(now);
    }
}

impl fmt::Debug for Span {
    fn fmt(&self, out: &mut fmt::Formatter<'_>) -> fmt::Result {
        out.debug_struct("Span").field("key", &self.key).finish_non_exhaustive()
    }
}
