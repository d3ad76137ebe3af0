// SPDX-License-Identifier: Apache-2.0
//! The layer.

use crate::fields::Fields;
use crate::open_spans::OpenSpans;
use crate::slot::Slot;
use otel_proved::{current_span, Attribute, Span, Status, Tracer};
use std::panic::{self, AssertUnwindSafe};
use std::sync::Arc;
use tracing::span::{self, Id};
use tracing::{Event, Level, Metadata, Subscriber};
use tracing_subscriber::layer::{Context, Layer};
use tracing_subscriber::registry::{LookupSpan, SpanRef};

/// Hands spans of `tracing` to a pipeline, by a tracer of it. It does not keep the pipeline open.
#[derive(Debug)]
pub struct ProvedLayer {
    tracer: Tracer,
    open_spans: OpenSpans,
}

impl ProvedLayer {
    pub fn new(tracer: Tracer) -> Self {
        Self { tracer, open_spans: OpenSpans::default() }
    }

    pub(crate) fn slot(&self, id: &Id) -> Option<Arc<Slot>> {
        self.open_spans.here().get(id)
    }

    /// A span, which has started then.
    pub(crate) fn started(&self, id: &Id) -> Option<Arc<Span>> {
        self.slot(id).map(|slot| slot.started(&self.tracer, false))
    }

    /// The nearest of a span and those above it that is traced here.
    fn nearest<'l, S: LookupSpan<'l>>(&self, span: Option<SpanRef<'l, S>>) -> Option<Arc<Slot>> {
        span?.scope().find_map(|it| self.slot(&it.id()))
    }

    fn begin<S>(&self, attributes: &span::Attributes<'_>, id: &Id, context: &Context<'_, S>)
    where
        S: Subscriber + for<'l> LookupSpan<'l>,
    {
        let metadata = attributes.metadata();
        let mut fields = fields_of(metadata);
        attributes.record(&mut fields);
        let above = match attributes.parent() {
            Some(parent) => context.span(parent),
            None if attributes.is_contextual() => context.lookup_current(),
            None => None,
        };
        let parent = self.nearest(above);
        let is_below_current = parent.is_none() && attributes.is_contextual() && current_span().is_some();
        let slot = Arc::new(Slot::new(metadata.name(), fields, parent));
        if is_below_current {
            slot.started(&self.tracer, true);
        }
        self.open_spans.here().insert(id, slot);
    }

    fn event<S>(&self, event: &Event<'_>, context: &Context<'_, S>)
    where
        S: Subscriber + for<'l> LookupSpan<'l>,
    {
        let Some(slot) = self.nearest(context.event_span(event)) else {
            return;
        };
        let metadata = event.metadata();
        let mut fields = fields_of(metadata);
        event.record(&mut fields);
        let span = slot.started(&self.tracer, false);
        let name = fields.message.as_deref().unwrap_or(metadata.name());
        span.add_event(name, fields.attributes);
        for error in &fields.errors {
            span.record_error(error);
        }
        if *metadata.level() == Level::ERROR {
            let said = fields.errors.first().map(ToString::to_string);
            span.set_status(Status::error(fields.message.or(said).unwrap_or_default()));
        }
    }

    fn link(&self, id: &Id, follows: &Id) {
        if let (Some(followed), Some(span)) = (self.started(follows), self.started(id)) {
            span.add_link(&*followed, []);
        }
    }

    fn end(&self, id: &Id) {
        let slot = self.open_spans.here().remove(id);
        // It ends as it is dropped, where no thread tells it something at this moment.
        drop(slot.map(|it| it.started(&self.tracer, false)));
    }
}

fn fields_of(metadata: &Metadata<'_>) -> Fields {
    let about = [("level", metadata.level().as_str().to_owned()), ("target", metadata.target().to_owned())];
    Fields { attributes: about.map(Attribute::from).into(), ..Fields::default() }
}

/// Has nothing of what work panics with reach the service.
fn quietly(work: impl FnOnce()) {
    let _panicked = panic::catch_unwind(AssertUnwindSafe(work));
}

impl<S> Layer<S> for ProvedLayer
where
    S: Subscriber + for<'l> LookupSpan<'l>,
{
    fn on_new_span(&self, attributes: &span::Attributes<'_>, id: &Id, context: Context<'_, S>) {
        quietly(|| self.begin(attributes, id, &context));
    }

    fn on_record(&self, id: &Id, values: &span::Record<'_>, _: Context<'_, S>) {
        quietly(|| {
            let mut fields = Fields::default();
            values.record(&mut fields);
            if let Some(slot) = self.slot(id) {
                slot.record(fields);
            }
        });
    }

    fn on_follows_from(&self, id: &Id, follows: &Id, _: Context<'_, S>) {
        quietly(|| self.link(id, follows));
    }

    fn on_event(&self, event: &Event<'_>, context: Context<'_, S>) {
        quietly(|| self.event(event, &context));
    }

    fn on_enter(&self, id: &Id, _: Context<'_, S>) {
        quietly(|| drop(self.started(id)));
    }

    fn on_close(&self, id: Id, _: Context<'_, S>) {
        quietly(|| self.end(&id));
    }
}
