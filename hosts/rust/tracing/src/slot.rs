// SPDX-License-Identifier: Apache-2.0
//! A span of `tracing`, before and after its start here. It starts when it is needed first, so that until then headers
//! may name its parent.

use crate::fields::Fields;
use otel_proved::{Extracted, Kind, Span, Tracer};
use std::mem;
use std::sync::{Arc, Mutex, MutexGuard, PoisonError};
use std::time::SystemTime;

#[derive(Debug)]
pub(crate) struct Slot {
    /// Whose child it is in `tracing`.
    parent: Option<Arc<Slot>>,
    state: Mutex<State>,
}

#[derive(Debug)]
enum State {
    Waiting(Box<Waiting>),
    Started(Arc<Span>),
}

/// What a span is to start with.
#[derive(Debug)]
struct Waiting {
    name: &'static str,
    fields: Fields,
    began: SystemTime,
    /// The parent in another process, where headers named one.
    remote: Option<Extracted>,
}

impl Waiting {
    fn start(self, tracer: &Tracer, parent: Option<&Span>, is_below_current: bool) -> Span {
        let Fields { attributes, errors, message, name, kind } = self.fields;
        let builder = match name {
            Some(name) => tracer.span(name),
            None => tracer.span(self.name),
        };
        let message = message.map(|it| ("message", it).into());
        let builder = builder.kind(kind.unwrap_or(Kind::Internal)).attributes(attributes).attributes(message);
        let builder = builder.start_time(self.began);
        let span = match (&self.remote, parent) {
            (Some(remote), _) => builder.parent(remote).start(),
            (None, Some(parent)) => builder.parent(parent).start(),
            (None, None) if is_below_current => builder.start(),
            (None, None) => builder.root().start(),
        };
        for error in errors {
            span.record_error(&error);
        }
        span
    }
}

impl Slot {
    pub fn new(name: &'static str, fields: Fields, parent: Option<Arc<Slot>>) -> Self {
        let waiting = Waiting { name, fields, began: SystemTime::now(), remote: None };
        Self { parent, state: Mutex::new(State::Waiting(Box::new(waiting))) }
    }

    fn lock(&self) -> MutexGuard<'_, State> {
        self.state.lock().unwrap_or_else(PoisonError::into_inner)
    }

    /// The span, which has started then: below that of headers, or else its parent, or where it is asked for the
    /// current span of the thread. A child's lock is taken before its parent's, never after it.
    pub fn started(&self, tracer: &Tracer, is_below_current: bool) -> Arc<Span> {
        let mut state = self.lock();
        let waiting = match &mut *state {
            State::Started(span) => return Arc::clone(span),
            State::Waiting(waiting) => waiting,
        };
        let nothing = Waiting { name: "", fields: Fields::default(), began: waiting.began, remote: None };
        let waiting = mem::replace(&mut **waiting, nothing);
        let parent = self.parent.as_ref().map(|it| it.started(tracer, false));
        let span = Arc::new(waiting.start(tracer, parent.as_deref(), is_below_current));
        *state = State::Started(Arc::clone(&span));
        span
    }

    /// Names the parent by headers. False where the span has started.
    pub fn set_parent(&self, parent: &Extracted) -> bool {
        match &mut *self.lock() {
            State::Started(_) => false,
            State::Waiting(waiting) => {
                waiting.remote = Some(parent.clone());
                true
            }
        }
    }

    /// Takes fields that were said after the beginning.
    pub fn record(&self, fields: Fields) {
        let mut state = self.lock();
        let span = match &mut *state {
            State::Waiting(waiting) => return waiting.add(fields),
            State::Started(span) => Arc::clone(span),
        };
        drop(state);
        for it in fields.attributes {
            span.set_attribute(it.key, it.value);
        }
        for error in &fields.errors {
            span.record_error(error);
        }
        if let Some(message) = fields.message {
            span.set_attribute("message", message);
        }
        if let Some(name) = fields.name {
            span.update_name(&name);
        }
    }
}

impl Waiting {
    fn add(&mut self, fields: Fields) {
        self.fields.attributes.extend(fields.attributes);
        self.fields.errors.extend(fields.errors);
        self.fields.message = fields.message.or(self.fields.message.take());
        self.fields.name = fields.name.or(self.fields.name.take());
        self.fields.kind = fields.kind.or(self.fields.kind);
    }
}
