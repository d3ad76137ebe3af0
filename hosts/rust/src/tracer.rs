// SPDX-License-Identifier: Apache-2.0
//! Tracers, and how a span starts.

use crate::attributes::{Attribute, Value};
use crate::context::SpanContext;
use crate::current;
use crate::ffi::{Handle, ParentOf, SpanKey, SpanStart, TracerKey};
use crate::headers::Extracted;
use crate::moment::Moment;
use crate::shared::Shared;
use crate::span::{Span, SpanRef, Standing};
use crate::Error;
use std::borrow::Cow;
use std::fmt;
use std::sync::Arc;
use std::time::SystemTime;

/// The library that a tracer is for. A name alone is one without a version and a schema URL.
#[derive(Clone, Copy, Debug, Default)]
pub struct Library<'a> {
    pub name: &'a str,
    pub version: &'a str,
    pub schema_url: &'a str,
}

impl<'a> From<&'a str> for Library<'a> {
    fn from(name: &'a str) -> Self {
        Self { name, ..Self::default() }
    }
}

/// What a span does among others.
#[derive(Clone, Copy, Debug, Default, PartialEq, Eq)]
pub enum Kind {
    #[default]
    Internal,
    Server,
    Client,
    Producer,
    Consumer,
}

impl Kind {
    fn number(self) -> u32 {
        match self {
            Self::Internal => 1,
            Self::Server => 2,
            Self::Client => 3,
            Self::Producer => 4,
            Self::Consumer => 5,
        }
    }
}

/// Starts spans for a library. It does not keep its pipeline open.
#[derive(Clone)]
pub struct Tracer {
    shared: Arc<Shared>,
    key: TracerKey,
}

impl Tracer {
    pub(crate) fn new(shared: Arc<Shared>, key: TracerKey) -> Self {
        Self { shared, key }
    }

    /// A span of this name, to be started: without more said it is of the kind `Internal`, and a child of the current
    /// span of the thread, where that is of this pipeline, or else a root.
    pub fn span<'a>(&'a self, name: impl Into<Cow<'a, str>>) -> SpanBuilder<'a> {
        SpanBuilder {
            tracer: self,
            name: name.into(),
            kind: Kind::default(),
            parent: Parent::Current,
            attributes: Vec::new(),
            start_time: None,
        }
    }
}

impl fmt::Debug for Tracer {
    fn fmt(&self, out: &mut fmt::Formatter<'_>) -> fmt::Result {
        out.debug_struct("Tracer").field("key", &self.key).finish_non_exhaustive()
    }
}

/// Whose child a span is to be.
#[derive(Debug)]
enum Parent<'a> {
    /// That of the current span of the thread, where there is one.
    Current,
    None,
    Given(SpanRef<'a>),
}

/// A span before its start.
#[derive(Debug)]
#[must_use = "a span starts by `start` or `try_start`"]
pub struct SpanBuilder<'a> {
    tracer: &'a Tracer,
    name: Cow<'a, str>,
    kind: Kind,
    parent: Parent<'a>,
    attributes: Vec<Attribute<'a>>,
    start_time: Option<SystemTime>,
}

impl<'a> SpanBuilder<'a> {
    pub fn kind(mut self, kind: Kind) -> Self {
        self.kind = kind;
        self
    }

    /// The parent: a [`Span`] of this pipeline, or [`Extracted`] headers of another process. Below headers without a
    /// valid `traceparent`, and below a span that did not start, the span is a root.
    pub fn parent(mut self, parent: impl Into<SpanRef<'a>>) -> Self {
        self.parent = Parent::Given(parent.into());
        self
    }

    /// No parent, also where there is a current span.
    pub fn root(mut self) -> Self {
        self.parent = Parent::None;
        self
    }

    pub fn attribute(mut self, key: impl Into<Cow<'a, str>>, value: impl Into<Value<'a>>) -> Self {
        self.attributes.push(Attribute::new(key, value));
        self
    }

    pub fn attributes(mut self, attributes: impl IntoIterator<Item = Attribute<'a>>) -> Self {
        self.attributes.extend(attributes);
        self
    }

    /// When the span began, where that is not the moment of its start.
    pub fn start_time(mut self, time: SystemTime) -> Self {
        self.start_time = Some(time);
        self
    }

    /// Starts the span. Where that fails the failure is counted, and the span records nothing, and stands for its
    /// parent.
    pub fn start(self) -> Span {
        self.started().unwrap_or_else(|error| {
            let shared = Arc::clone(&self.tracer.shared);
            shared.note(error);
            match self.passed_on_instead() {
                Some(parent) => Span::passing(shared, parent),
                None => Span::none(shared),
            }
        })
    }

    /// Starts the span, or answers why it cannot.
    pub fn try_start(self) -> Result<Span, Error> {
        self.started()
    }

    /// What the parent hands on, where its child cannot start.
    fn passed_on_instead(&self) -> Option<Arc<Extracted>> {
        let shared = &self.tracer.shared;
        let standing = match &self.parent {
            Parent::None => None,
            Parent::Current => current::standing_within(shared),
            Parent::Given(SpanRef::Span(span)) => span.standing(),
            Parent::Given(SpanRef::Remote(headers)) => Some(Standing::Passing(Arc::new((*headers).clone()))),
        };
        Some(match standing? {
            Standing::Passing(headers) => headers,
            Standing::Open(_, context) => Arc::new(Extracted::of_context(&context)),
        })
    }

    fn started(&self) -> Result<Span, Error> {
        let moment = self.start_time.map_or_else(|| Ok(Moment::now()), Moment::of)?;
        let shared = &self.tracer.shared;
        let is_implied = matches!(self.parent, Parent::Current);
        let parent = match &self.parent {
            Parent::None => None,
            Parent::Current => current::standing_within(shared),
            Parent::Given(SpanRef::Span(span)) => span.standing_within(shared)?,
            Parent::Given(SpanRef::Remote(headers)) => return self.start_below(ParentOf::Remote(headers), moment),
        };
        let started = match &parent {
            None => self.start_below(ParentOf::Root, moment),
            Some(Standing::Open(key, _)) => self.start_below(ParentOf::Span(*key), moment),
            Some(Standing::Passing(headers)) => self.start_below(ParentOf::Remote(headers), moment),
        };
        match started {
            // It has ended, and who made it the current one never left it.
            Err(Error::NoSuchSpan) if is_implied => self.start_below(ParentOf::Root, moment),
            started => started,
        }
    }

    fn start_below(&self, parent: ParentOf<'_>, moment: Moment) -> Result<Span, Error> {
        let shared = &self.tracer.shared;
        let name = &*self.name;
        let (tracer, kind, attributes) = (self.tracer.key, self.kind.number(), &*self.attributes);
        let start = SpanStart { tracer, parent, kind, name, moment, attributes };
        let started = shared.call(|handle| {
            let key = handle.start(&start)?;
            let context = SpanContext::of(&handle.identity(key)?);
            Ok(match passed_on(handle, key, &context, &start.parent)? {
                Some(parent) => Standing::Passing(parent),
                None => Standing::Open(key, context),
            })
        })?;
        Ok(match started {
            Standing::Open(key, context) => Span::new(Arc::clone(shared), key, context),
            Standing::Passing(parent) => Span::passing(Arc::clone(shared), parent),
        })
    }
}

/// The parent of a span that started after a shutdown, and is nobody then: it is let go of.
fn passed_on(
    handle: &mut Handle,
    key: SpanKey,
    context: &SpanContext,
    parent: &ParentOf<'_>,
) -> Result<Option<Arc<Extracted>>, Error> {
    if !handle.is_shut_down() || context.is_valid() {
        return Ok(None);
    }
    let headers = match parent {
        ParentOf::Root => return Ok(None),
        ParentOf::Remote(headers) => (*headers).clone(),
        ParentOf::Span(parent) => handle.headers_of(*parent)?,
    };
    handle.abandon(key)?;
    Ok(Some(Arc::new(headers)))
}

impl<'a> From<&'a Span> for SpanRef<'a> {
    fn from(span: &'a Span) -> Self {
        Self::Span(span)
    }
}

impl<'a> From<&'a Extracted> for SpanRef<'a> {
    fn from(headers: &'a Extracted) -> Self {
        Self::Remote(headers)
    }
}
