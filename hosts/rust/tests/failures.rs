// SPDX-License-Identifier: Apache-2.0
//! What goes wrong is answered or counted, and nothing panics.

use otel_proved::{Error, Extracted, Pipeline, Span, SpanContext};
use std::error;
use std::fmt;
use std::time::{Duration, UNIX_EPOCH};

fn open() -> Pipeline {
    Pipeline::builder().open().unwrap()
}

#[test]
fn a_closed_pipeline_answers_so() {
    let pipeline = open();
    let other = pipeline.clone();
    let tracer = pipeline.tracer("shop");
    tracer.span("GET").start().end();
    assert!(!pipeline.close().unwrap().is_empty());
    assert_eq!(other.flush(), Err(Error::Closed));
    assert_eq!(other.drain(), Err(Error::Closed));
    assert_eq!(other.counts(), Err(Error::Closed));
    assert_eq!(other.shutdown(), Err(Error::Closed));
    assert_eq!(other.try_tracer("shop").unwrap_err(), Error::Closed);
    assert_eq!(tracer.span("GET").try_start().unwrap_err(), Error::Closed);
    assert_eq!(other.failed_calls(), 0);
    let error = other.close().unwrap_err();
    assert_eq!((error.error, error.lines), (Error::Closed, vec![]));
}

#[test]
fn a_span_that_did_not_start_records_nothing_and_is_counted() {
    let pipeline = open();
    let tracer = pipeline.tracer("shop");
    let other = pipeline.clone();
    pipeline.close().unwrap();
    let span = tracer.span("GET").start();
    assert_eq!(other.failed_calls(), 1);
    assert_eq!(other.last_failure(), Some(Error::Closed));
    span.set_attribute("size", 3).add_event("row", []).update_name("POST");
    let mut headers = Vec::new();
    span.inject(&mut headers);
    assert_eq!(headers, []);
    assert_eq!(span.context(), SpanContext::default());
    assert!(!span.is_recording());
    span.end();
    assert_eq!(other.failed_calls(), 1);
}

#[test]
fn the_last_pipeline_closes_below_open_spans() {
    let pipeline = open();
    let tracer = pipeline.tracer("shop");
    let span = tracer.span("GET").start();
    drop(pipeline);
    assert_eq!(tracer.span("GET").try_start().unwrap_err(), Error::Closed);
    span.set_attribute("size", 3);
    span.end();
}

#[test]
fn after_a_shutdown_lines_can_still_be_drained() {
    let pipeline = open();
    let tracer = pipeline.tracer("shop");
    tracer.span("first").start().end();
    let open = tracer.span("second").start();
    pipeline.shutdown().unwrap();
    assert_eq!(pipeline.shutdown(), Err(Error::Failed));
    open.end();
    assert_eq!(pipeline.failed_calls(), 0);
    let lines = String::from_utf8(pipeline.close().unwrap()).unwrap();
    assert!(lines.contains(r#""name":"first""#) && !lines.contains(r#""name":"second""#));
}

#[test]
fn after_a_shutdown_a_span_passes_its_parent_on() {
    let headers = [
        ("traceparent", "00-0af7651916cd43dd8448eb211c80319c-b7ad6b7169203331-01"),
        ("tracestate", "a=1"),
        ("baggage", "user=7"),
    ];
    let headers_of = |span: &Span| {
        let mut onward = Vec::new();
        span.inject(&mut onward);
        onward
    };
    let pipeline = open();
    let tracer = pipeline.tracer("shop");
    let open = tracer.span("open").parent(&Extracted::from_headers(headers)).start();
    pipeline.shutdown().unwrap();
    let span = tracer.span("GET").parent(&Extracted::from_headers(headers)).start();
    assert!(!span.is_recording());
    let wanted = headers.map(|(name, value)| (name.to_owned(), value.to_owned()));
    assert_eq!(headers_of(&span), wanted);
    let _current = span.enter();
    assert_eq!(headers_of(&tracer.span("child").start()), wanted);
    assert_eq!(headers_of(&tracer.span("given").parent(&span).start()), wanted);
    assert_eq!(headers_of(&tracer.span("below").parent(&open).start()), headers_of(&open));
    assert_eq!(headers_of(&tracer.span("root").root().start()), []);
    assert_eq!((pipeline.failed_calls(), pipeline.counts().unwrap().open_spans), (0, 1));
}

#[test]
fn after_a_close_traces_of_others_go_on() {
    let caller = "00-0af7651916cd43dd8448eb211c80319c-b7ad6b7169203331-01";
    let headers = [("traceparent", caller), ("baggage", "user=7")];
    let headers_of = |span: &Span| {
        let mut onward = Vec::new();
        span.inject(&mut onward);
        onward
    };
    let (pipeline, extracted) = (open(), Extracted::from_headers(headers));
    let (other, tracer) = (pipeline.clone(), pipeline.tracer("shop"));
    let open = tracer.span("open").parent(&extracted).start();
    let context = open.context();
    let itself = [("traceparent".to_owned(), context.to_string())];
    pipeline.close().unwrap();
    assert_eq!((headers_of(&open), open.context()), (itself.to_vec(), context));
    assert_eq!(headers_of(&tracer.span("below").parent(&open).start()), itself);
    let span = tracer.span("late").parent(&extracted).start();
    let wanted = headers.map(|(name, value)| (name.to_owned(), value.to_owned()));
    assert_eq!((headers_of(&span), span.is_recording()), (wanted.to_vec(), false));
    let _current = span.enter();
    assert_eq!(headers_of(&tracer.span("child").start()), wanted);
    assert_eq!(headers_of(&tracer.span("root").root().start()), []);
    assert_eq!(other.last_failure(), Some(Error::Closed));
}

#[test]
fn spans_of_another_pipeline_are_refused() {
    let (here, there) = (open(), open());
    let (mine, other) = (here.tracer("shop").span("mine").start(), there.tracer("shop").span("other").start());
    let tracer = here.tracer("shop");
    assert_eq!(tracer.span("child").parent(&other).try_start().unwrap_err(), Error::OtherPipeline);
    mine.add_link(&other, []);
    assert_eq!((here.failed_calls(), here.last_failure()), (1, Some(Error::OtherPipeline)));
    assert_eq!(here.counts().unwrap().open_spans, 1);
}

#[test]
fn a_link_to_nothing_is_counted() {
    let pipeline = open();
    let span = pipeline.tracer("shop").span("GET").start();
    span.add_link(&Extracted::default(), []);
    assert_eq!(pipeline.last_failure(), Some(Error::BadArgument));
}

#[test]
fn moments_out_of_range_are_refused() {
    let pipeline = open();
    let tracer = pipeline.tracer("shop");
    let before = UNIX_EPOCH - Duration::from_secs(1);
    assert_eq!(tracer.span("GET").start_time(before).try_start().unwrap_err(), Error::BadMoment);
    tracer.span("GET").start().end_at(before);
    assert_eq!((pipeline.failed_calls(), pipeline.last_failure()), (1, Some(Error::BadMoment)));
    assert_eq!(pipeline.counts().unwrap().open_spans, 0);
}

#[test]
fn attributes_of_a_failed_call_go_to_no_other() {
    let pipeline = open();
    let tracer = pipeline.tracer("shop");
    let other = open();
    let elsewhere = other.tracer("shop").span("other").start();
    let _refused = tracer.span("child").parent(&elsewhere).attribute("lost", 1).start();
    tracer.span("GET").start().add_link(&Extracted::default(), [("lost", 2).into()]).add_event("row", []);
    let lines = String::from_utf8(pipeline.close().unwrap()).unwrap();
    assert!(lines.contains(r#""name":"row""#) && !lines.contains("lost"));
}

#[test]
fn errors_say_what_is_wrong() {
    assert_eq!(Error::OutOfMemory.to_string(), "out of memory");
    assert_eq!(Error::BadSetting("a b".into()).to_string(), "the setting \"a b\" cannot be handed on");
}

/// An error without a text.
#[derive(Debug)]
enum Mute {
    Panics,
    Fails,
}

impl fmt::Display for Mute {
    fn fmt(&self, out: &mut fmt::Formatter<'_>) -> fmt::Result {
        out.write_str("half")?;
        match self {
            Self::Panics => panic!("a text that cannot be made"),
            Self::Fails => Err(fmt::Error),
        }
    }
}

impl error::Error for Mute {}

#[test]
fn an_error_without_a_text_is_recorded_and_counted() {
    let pipeline = open();
    let span = pipeline.tracer("shop").span("GET").start();
    span.record_error(&Mute::Panics).record_error(&Mute::Fails);
    span.end();
    assert_eq!((pipeline.failed_calls(), pipeline.last_failure()), (2, Some(Error::NoText)));
    let lines = String::from_utf8(pipeline.close().unwrap()).unwrap();
    assert_eq!(lines.matches("an error whose text cannot be made").count(), 2);
    assert!(!lines.contains("half"));
}
