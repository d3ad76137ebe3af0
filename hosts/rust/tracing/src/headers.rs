// SPDX-License-Identifier: Apache-2.0
//! Headers in and out, for spans of `tracing`.

use crate::layer::ProvedLayer;
use otel_proved::{Extracted, SpanContext};
use std::sync::Arc;
use tracing::Span;

/// What a span of `tracing` has to do with those of other processes, where its subscriber has a [`ProvedLayer`].
pub trait SpanHeaders {
    /// Makes the span a child of that which headers name, in place of its parent in `tracing`. False where it has
    /// started: where it was entered, had an event or a child that was, or was asked for headers; or where no layer
    /// traces it. Headers without a valid `traceparent` make it a root.
    fn set_parent(&self, parent: &Extracted) -> bool;

    /// Puts the headers `traceparent`, `tracestate` and `baggage`, which hand the span on to another process, into a
    /// list or a map, as far as there is something to say.
    fn inject(&self, into: &mut impl Extend<(String, String)>);

    /// Who the span is; the default where no layer traces it.
    fn context(&self) -> SpanContext;
}

impl SpanHeaders for Span {
    fn set_parent(&self, parent: &Extracted) -> bool {
        let set = self.with_subscriber(|(id, dispatch)| {
            let layer = dispatch.downcast_ref::<ProvedLayer>()?;
            layer.slot(id).map(|slot| slot.set_parent(parent))
        });
        set.flatten().unwrap_or(false)
    }

    fn inject(&self, into: &mut impl Extend<(String, String)>) {
        if let Some(span) = started(self) {
            span.inject(into);
        }
    }

    fn context(&self) -> SpanContext {
        started(self).map_or_else(SpanContext::default, |span| span.context())
    }
}

fn started(span: &Span) -> Option<Arc<otel_proved::Span>> {
    let found = span.with_subscriber(|(id, dispatch)| dispatch.downcast_ref::<ProvedLayer>()?.started(id));
    found.flatten()
}
