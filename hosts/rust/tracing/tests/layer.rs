// SPDX-License-Identifier: Apache-2.0
//! What is traced by `tracing` comes out of the pipeline.

use otel_proved::{current_span, Extracted, Pipeline, SpanContext};
use otel_proved_tracing::{ProvedLayer, SpanHeaders};
use std::error::Error;
use std::fmt;
use std::io;
use std::panic::{self, AssertUnwindSafe};
use std::thread;
use tracing::field::Empty;
use tracing::{debug_span, error, error_span, info, info_span, warn, Level, Span};
use tracing_subscriber::filter::LevelFilter;
use tracing_subscriber::layer::{Layer, SubscriberExt};

const TRACE: &str = "0af7651916cd43dd8448eb211c80319c";
const CALLER: &str = "00-0af7651916cd43dd8448eb211c80319c-b7ad6b7169203331-01";

fn opened() -> (Pipeline, ProvedLayer) {
    let pipeline = Pipeline::builder().setting("OTEL_SPAN_PROCESSOR", "simple").open().unwrap();
    let layer = ProvedLayer::new(pipeline.tracer("shop"));
    (pipeline, layer)
}

/// The lines that some work leaves, a span each, in the order of their ends. No call fails, and no span stays open.
fn traced(work: impl FnOnce()) -> Vec<String> {
    let (pipeline, layer) = opened();
    tracing::subscriber::with_default(tracing_subscriber::registry().with(layer), work);
    assert_eq!((pipeline.last_failure(), pipeline.counts().unwrap().open_spans), (None, 0));
    String::from_utf8(pipeline.close().unwrap()).unwrap().lines().map(str::to_owned).collect()
}

fn caller() -> Extracted {
    Extracted::from_headers([("traceparent", CALLER), ("tracestate", "a=1")])
}

fn headers_of(span: &Span) -> Vec<(String, String)> {
    let mut onward = Vec::new();
    span.inject(&mut onward);
    onward
}

#[track_caller]
fn has(line: &str, text: &str) {
    assert!(line.contains(text), "no {text} in {line}");
}

fn has_text(line: &str, key: &str, text: &str) {
    has(line, &format!(r#"{{"key":"{key}","value":{{"stringValue":"{text}"}}}}"#));
}

/// Whether the first span is below the second one.
fn is_below(line: &str, context: &SpanContext) -> bool {
    let (trace_id, span_id) = (context.trace_id, context.span_id);
    line.contains(&format!(r#""traceId":"{trace_id}""#)) && line.contains(&format!(r#""parentSpanId":"{span_id}""#))
}

#[test]
fn spans_are_below_their_parents() {
    let mut contexts = Vec::new();
    let lines = traced(|| {
        let outer = info_span!("outer");
        let _in_outer = outer.enter();
        let inner = debug_span!("inner").entered();
        contexts.extend([outer.context(), inner.context()]);
        drop(inner);
        drop(info_span!(parent: &outer, "named"));
        drop(info_span!(parent: None, "root"));
    });
    let [inner, named, root, outer] = &lines[..] else { panic!("{lines:?}") };
    has(outer, r#""name":"outer","kind":1"#);
    has(outer, r#""parentSpanId":"""#);
    assert!(is_below(inner, &contexts[0]) && is_below(named, &contexts[0]));
    assert!(inner.contains(&format!(r#""spanId":"{}""#, contexts[1].span_id)));
    has(root, r#""parentSpanId":"""#);
    assert!(!root.contains(&contexts[0].trace_id.to_string()));
    has_text(inner, "level", "DEBUG");
    has_text(inner, "target", "layer");
    has(inner, r#""scope":{"name":"shop""#);
}

#[test]
fn fields_are_attributes_of_their_types() {
    let lines = traced(|| {
        let (small, large) = (7_u64, u64::MAX);
        let span = info_span!("GET", otel.kind = "server", otel.name = "GET /cart", size = -3, small, large);
        span.in_scope(|| ());
        drop(span);
        let span = info_span!("later", ratio = 0.5, is_new = true, list = ?[1, 2], shown = %"x", later = Empty);
        span.record("later", 2);
        span.in_scope(|| span.record("later", 3));
    });
    let [first, second] = &lines[..] else { panic!("{lines:?}") };
    has(first, r#""name":"GET /cart","kind":2"#);
    has(first, r#"{"key":"size","value":{"intValue":"-3"}}"#);
    has(first, r#"{"key":"small","value":{"intValue":"7"}}"#);
    has_text(first, "large", "18446744073709551615");
    assert!(!first.contains("otel."));
    has(second, r#"{"key":"ratio","value":{"doubleValue":0.5}}"#);
    has(second, r#"{"key":"is_new","value":{"boolValue":true}}"#);
    has(second, r#"{"key":"later","value":{"intValue":"3"}}"#);
    has_text(second, "list", "[1, 2]");
    has_text(second, "shown", "x");
}

#[test]
fn events_are_those_of_their_spans() {
    let lines = traced(|| {
        info!("outside");
        let other = info_span!("other");
        info_span!("work").in_scope(|| {
            warn!(tries = 2, "cache {}", "miss");
            info!(parent: &other, "elsewhere");
            info!(is_new = true);
        });
    });
    let [work, other] = &lines[..] else { panic!("{lines:?}") };
    has(work, r#""name":"cache miss","attributes":[{"key":"level","value":{"stringValue":"WARN"}}"#);
    has(work, r#"{"key":"tries","value":{"intValue":"2"}}"#);
    has(work, r#""name":"event "#);
    has(work, r#""code":0"#);
    has(other, r#""name":"elsewhere""#);
    assert!(!work.contains("elsewhere") && !lines.concat().contains("outside"));
}

#[test]
fn errors_are_recorded_and_mark_the_status() {
    let broken = io::Error::other("no stock");
    let error: &(dyn Error + 'static) = &broken;
    let lines = traced(|| {
        info_span!("said").in_scope(|| error!("card declined"));
        info_span!("of an event").in_scope(|| error!(error));
        drop(info_span!("of a span", error));
        error_span!("level alone").in_scope(|| warn!(error, "tried again"));
    });
    let [said, event, span, alone] = &lines[..] else { panic!("{lines:?}") };
    has(said, r#""status":{"message":"card declined","code":2}"#);
    has(event, r#""status":{"message":"no stock","code":2}"#);
    for line in [event, span, alone] {
        has(line, r#""name":"exception""#);
        has_text(line, "exception.message", "no stock");
        has_text(line, "error", "no stock");
    }
    assert!(!said.contains("exception"));
    for line in [span, alone] {
        has(line, r#""code":0"#);
    }
}

#[test]
fn what_a_span_follows_from_is_a_link() {
    let mut followed = SpanContext::default();
    let lines = traced(|| {
        let (first, second) = (info_span!("first"), info_span!("second"));
        second.follows_from(&first);
        followed = first.context();
        let gone = first.id();
        drop(first);
        second.follows_from(gone);
    });
    let [_first, second] = &lines[..] else { panic!("{lines:?}") };
    let (trace_id, span_id) = (followed.trace_id, followed.span_id);
    has(second, &format!(r#""links":[{{"traceId":"{trace_id}","spanId":"{span_id}""#));
    assert_eq!(second.matches(&span_id.to_string()).count(), 1);
}

#[test]
fn headers_go_in_and_out() {
    let mut onward = Vec::new();
    let lines = traced(|| {
        let span = info_span!("GET");
        assert!(span.set_parent(&caller()));
        let _inside = span.enter();
        assert!(!span.set_parent(&caller()));
        let call = info_span!("call").entered();
        onward = headers_of(&Span::current());
        assert_eq!(onward[0].1, call.context().to_string());
    });
    let [call, get] = &lines[..] else { panic!("{lines:?}") };
    has(get, r#""parentSpanId":"b7ad6b7169203331""#);
    has(call, TRACE);
    assert!(onward[0].1.contains(TRACE));
    assert_eq!((&*onward[1].0, &*onward[1].1), ("tracestate", "a=1"));
    // Without the layer, and outside of spans.
    let nobody = Span::none();
    assert!(!nobody.set_parent(&caller()) && headers_of(&nobody).is_empty() && !nobody.context().is_valid());
}

#[test]
fn a_span_is_below_the_current_one_of_the_package() {
    let (pipeline, layer) = opened();
    let request = pipeline.tracer("server").span("request").start();
    tracing::subscriber::with_default(tracing_subscriber::registry().with(layer), || {
        let _current = request.enter();
        let span = info_span!("below").entered();
        assert_eq!(span.context().trace_id, request.context().trace_id);
        assert_eq!(current_span().unwrap().context(), request.context());
        let root = info_span!(parent: None, "root");
        assert_ne!(root.context().trace_id, request.context().trace_id);
    });
}

#[test]
fn what_another_filter_leaves_out_is_passed_over() {
    let (pipeline, layer) = opened();
    let subscriber = tracing_subscriber::registry().with(layer.with_filter(LevelFilter::INFO));
    tracing::subscriber::with_default(subscriber, || {
        let outer = info_span!("outer").entered();
        let _hidden = debug_span!("hidden").entered();
        let inner = info_span!("inner").entered();
        assert_eq!(inner.context().trace_id, outer.context().trace_id);
        assert!(outer.context().is_valid());
        tracing::debug!("too much");
    });
    let lines = String::from_utf8(pipeline.close().unwrap()).unwrap();
    assert!(!lines.contains("hidden") && !lines.contains("too much"));
    assert_eq!(lines.lines().count(), 2);
}

#[test]
fn spans_of_threads_do_not_mix() {
    let (pipeline, layer) = opened();
    let dispatch = tracing::Dispatch::new(tracing_subscriber::registry().with(layer));
    let shared = tracing::dispatcher::with_default(&dispatch, || info_span!("shared"));
    let work = |number: u64| {
        for round in 0..100_u64 {
            let outer = info_span!(parent: &shared, "outer", number).entered();
            let inner = info_span!("inner", number, round);
            inner.follows_from(&shared);
            outer.follows_from(&inner);
            inner.in_scope(|| info!(number, "event"));
        }
    };
    thread::scope(|scope| {
        for number in 0..8 {
            let (dispatch, work) = (&dispatch, &work);
            scope.spawn(move || tracing::dispatcher::with_default(dispatch, || work(number)));
        }
    });
    drop(shared);
    assert_eq!((pipeline.last_failure(), pipeline.counts().unwrap().open_spans), (None, 0));
    let lines = String::from_utf8(pipeline.close().unwrap()).unwrap();
    assert_eq!(lines.lines().count(), 8 * 100 * 2 + 1);
    for line in lines.lines().filter(|it| it.contains(r#""name":"inner""#)) {
        let numbers: Vec<_> =
            line.split(r#"{"key":"number","value":{"intValue":""#).skip(1).map(|it| &it[..1]).collect();
        assert!(numbers.len() == 2 && numbers[0] == numbers[1], "{line}");
    }
}

/// What has no text.
struct Mute;

impl fmt::Debug for Mute {
    fn fmt(&self, _: &mut fmt::Formatter<'_>) -> fmt::Result {
        panic!("a text that cannot be made")
    }
}

/// What traces while its text is made.
struct Traces;

impl fmt::Debug for Traces {
    fn fmt(&self, out: &mut fmt::Formatter<'_>) -> fmt::Result {
        info_span!("within").in_scope(|| info!("deep"));
        Span::current().record("note", "from within");
        out.write_str("traced")
    }
}

#[test]
fn no_panic_and_no_lock_stands_in_the_way() {
    let lines = traced(|| {
        let span = info_span!("work", mute = ?Mute, note = Empty).entered();
        info!(mute = ?Mute, traces = ?Traces, "event");
        span.record("note", tracing::field::debug(Traces));
    });
    let work = lines.iter().find(|it| it.contains(r#""name":"work""#)).unwrap();
    assert_eq!(work.matches("a value whose text cannot be made").count(), 2);
    has_text(work, "traces", "traced");
    has_text(work, "note", "traced");
}

#[test]
fn a_closed_pipeline_and_a_panic_are_in_nobodys_way() {
    let (pipeline, layer) = opened();
    let other = pipeline.clone();
    tracing::subscriber::with_default(tracing_subscriber::registry().with(layer), || {
        let panicked = panic::catch_unwind(AssertUnwindSafe(|| {
            let _left = info_span!("left").entered();
            panic!("no stock");
        }));
        assert!(panicked.is_err());
        let open = info_span!("open").entered();
        let lines = String::from_utf8(pipeline.close().unwrap()).unwrap();
        has(&lines, r#""name":"exception""#);
        has(&lines, r#""code":2"#);
        error!("late");
        drop(open);
        info_span!("later").in_scope(|| info!("late"));
    });
    assert!(other.failed_calls() > 0);
}

#[test]
fn levels_are_known() {
    let lines = traced(|| {
        let span = tracing::span!(Level::TRACE, "fine").entered();
        assert!(span.context().is_sampled());
    });
    has_text(&lines[0], "level", "TRACE");
}
