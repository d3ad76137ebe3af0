// SPDX-License-Identifier: Apache-2.0
//! The current span of a thread, and spans that a panic leaves.

use otel_proved::{current_span, Pipeline, Span, Tracer};
use std::mem;
use std::panic::{self, AssertUnwindSafe};
use std::thread;

fn opened() -> (Pipeline, Tracer) {
    let pipeline = Pipeline::builder().open().unwrap();
    let tracer = pipeline.tracer("shop");
    (pipeline, tracer)
}

fn are_of_one_trace(one: &Span, other: &Span) -> bool {
    one.context().trace_id == other.context().trace_id
}

#[test]
fn spans_start_below_the_current_one() {
    let (pipeline, tracer) = opened();
    let outer = tracer.span("outer").start();
    assert!(current_span().is_none());
    let in_outer = outer.enter();
    let inner = tracer.span("inner").start();
    assert!(are_of_one_trace(&outer, &inner));
    let in_inner = inner.enter();
    assert_eq!(current_span().unwrap().context(), inner.context());
    assert!(!are_of_one_trace(&outer, &tracer.span("root").root().start()));
    assert!(are_of_one_trace(&outer, &tracer.span("given").parent(&outer).start()));
    // Guards may be dropped in any order.
    drop(in_outer);
    assert_eq!(current_span().unwrap().context(), inner.context());
    drop(in_inner);
    assert!(current_span().is_none());
    assert!(!are_of_one_trace(&outer, &tracer.span("after").start()));
    let (outer_id, inner_id) = (outer.context().span_id, inner.context().span_id);
    drop((inner, outer));
    assert_eq!(pipeline.failed_calls(), 0);
    let lines = String::from_utf8(pipeline.close().unwrap()).unwrap();
    let inner_is_below = format!(r#""spanId":"{inner_id}","traceState":"","parentSpanId":"{outer_id}""#);
    assert!(lines.contains(&inner_is_below), "{lines}");
}

#[test]
fn the_current_span_is_that_of_its_thread_and_pipeline() {
    let ((_pipeline, tracer), (_other, elsewhere)) = (opened(), opened());
    let span = tracer.span("here").start();
    let _current = span.enter();
    thread::scope(|scope| scope.spawn(|| assert!(current_span().is_none())).join().unwrap());
    let root = elsewhere.span("elsewhere").try_start().unwrap();
    assert!(!are_of_one_trace(&span, &root));
}

#[test]
fn the_current_span_is_edited_and_not_ended() {
    let (pipeline, tracer) = opened();
    let span = tracer.span("here").start();
    let current = span.enter();
    current_span().unwrap().set_attribute("size", 3).add_event("row", []);
    assert_eq!(pipeline.counts().unwrap().open_spans, 1);
    drop(current);
    span.end();
    assert_eq!(pipeline.failed_calls(), 0);
    let lines = String::from_utf8(pipeline.close().unwrap()).unwrap();
    assert!(lines.contains(r#"{"key":"size","value":{"intValue":"3"}}"#) && lines.contains(r#""name":"row""#));
}

#[test]
fn a_span_that_did_not_start_leaves_the_current_one() {
    let ((pipeline, tracer), (other, elsewhere)) = (opened(), opened());
    let span = tracer.span("here").start();
    let _current = span.enter();
    other.close().unwrap();
    let unstarted = elsewhere.span("there").start();
    let _unstarted = unstarted.enter();
    assert!(are_of_one_trace(&span, &tracer.span("child").start()));
    assert_eq!(pipeline.failed_calls(), 0);
}

#[test]
fn a_guard_that_was_forgotten_is_in_nobodys_way() {
    let (pipeline, tracer) = opened();
    let span = tracer.span("here").start();
    mem::forget(span.enter());
    span.end();
    assert!(tracer.span("next").start().context().is_valid());
    assert_eq!(pipeline.failed_calls(), 0);
}

#[test]
fn a_span_that_a_panic_leaves_is_an_error() {
    let (pipeline, tracer) = opened();
    struct CleansUp<'t>(&'t Tracer);
    impl Drop for CleansUp<'_> {
        fn drop(&mut self) {
            let _span = self.0.span("clean").start();
        }
    }
    let panicked = panic::catch_unwind(AssertUnwindSafe(|| {
        let _cleans_up = CleansUp(&tracer);
        let span = tracer.span("left").start();
        let _current = span.enter();
        panic!("no stock");
    }));
    assert!(panicked.is_err() && current_span().is_none());
    tracer.span("good").start().end();
    let lines = String::from_utf8(pipeline.close().unwrap()).unwrap();
    assert_eq!(lines.matches(r#""name":"exception""#).count(), 1);
    assert_eq!(lines.matches(r#""code":2"#).count(), 1);
    assert_eq!(lines.matches(r#""startTimeUnixNano""#).count(), 3);
}
