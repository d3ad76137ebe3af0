// SPDX-License-Identifier: Apache-2.0
//! Spans go in, lines come out.

use otel_proved::{Attribute, Builder, Error, Extracted, Kind, Library, Pipeline, Span, Status, Tracer};
use std::collections::HashMap;
use std::io;
use std::thread;
use std::time::{Duration, Instant, UNIX_EPOCH};

const TRACE: &str = "0af7651916cd43dd8448eb211c80319c";
const CALLER: &str = "00-0af7651916cd43dd8448eb211c80319c-b7ad6b7169203331-01";

fn batch() -> Pipeline {
    Pipeline::builder().setting("OTEL_SPAN_PROCESSOR", "batch").open().unwrap()
}

fn root(tracer: &Tracer) -> Span {
    tracer.span("root").start()
}

/// All lines of a pipeline that nothing went wrong in.
fn lines_of(pipeline: Pipeline) -> String {
    assert_eq!(pipeline.last_failure(), None);
    String::from_utf8(pipeline.close().unwrap()).unwrap()
}

/// How often a text stands in another.
fn times(lines: &str, text: &str) -> usize {
    lines.matches(text).count()
}

#[track_caller]
fn has(lines: &str, text: &str) {
    assert!(lines.contains(text), "no {text} in {lines}");
}

#[test]
fn what_threads_share_can_be_shared() {
    fn is_shared<T: Send + Sync>() {}
    is_shared::<Pipeline>();
    is_shared::<Tracer>();
    is_shared::<Span>();
    is_shared::<otel_proved::http::HttpSender>();
}

#[test]
fn a_span_is_written_as_it_was_told() {
    let pipeline = batch();
    let library = Library { name: "shop", version: "1.2", schema_url: "" };
    let tracer = pipeline.try_tracer(library).unwrap();
    let began = UNIX_EPOCH + Duration::new(1, 5);
    let span = tracer.span("GET").kind(Kind::Server).attribute("path", "/cart").start_time(began).start();
    span.set_attribute("size", 3).set_attribute("is_new", true).update_name("GET /cart");
    span.set_status(Status::error("card declined"));
    let id = span.context().span_id;
    span.end_at(UNIX_EPOCH + Duration::new(2, 0));
    let lines = lines_of(pipeline);
    has(&lines, r#""scope":{"name":"shop","version":"1.2""#);
    has(&lines, &format!(r#""spanId":"{id}""#));
    has(&lines, r#""name":"GET /cart","kind":2,"startTimeUnixNano":"1000000005","endTimeUnixNano":"2000000000""#);
    has(&lines, r#"{"key":"path","value":{"stringValue":"/cart"}}"#);
    has(&lines, r#"{"key":"size","value":{"intValue":"3"}}"#);
    has(&lines, r#"{"key":"is_new","value":{"boolValue":true}}"#);
    has(&lines, r#""status":{"message":"card declined","code":2}"#);
}

#[test]
fn lists_are_values_too() {
    let pipeline = batch();
    let tracer = pipeline.tracer("shop");
    let span = tracer.span("lists").attribute("texts", ["a", "", "é"]).attribute("numbers", [1, -2]).start();
    span.set_attribute("bools", vec![true, false]).set_attribute("none", Vec::<String>::new());
    span.end();
    let lines = lines_of(pipeline);
    let values = |list: &str| format!(r#"{{"arrayValue":{{"values":[{list}]}}}}"#);
    has(&lines, &values(r#"{"stringValue":"a"},{"stringValue":""},{"stringValue":"é"}"#));
    has(&lines, &values(r#"{"intValue":"1"},{"intValue":"-2"}"#));
    has(&lines, &values(r#"{"boolValue":true},{"boolValue":false}"#));
    has(&lines, &values(""));
}

#[test]
fn floats_are_values_too() {
    let pipeline = batch();
    let tracer = pipeline.tracer("shop");
    let span = tracer.span("floats").attribute("tenth", 0.1).attribute("at start", [2.5, -f64::INFINITY]).start();
    span.set_attribute("whole", 1.0).set_attribute("single", 0.5_f32).set_attribute("zero", -0.0);
    span.set_attribute("nan", f64::NAN).set_attribute("infinite", f64::INFINITY).set_attribute("least", 5e-324);
    span.set_attribute("set", vec![1e300]).set_attribute("none", Vec::<f64>::new());
    span.add_event("measured", [Attribute::new("seconds", 0.25)]);
    span.end();
    let lines = lines_of(pipeline);
    let single = [("tenth", "0.1"), ("whole", "1.0"), ("single", "0.5"), ("zero", "-0.0"), ("least", "5e-324")];
    let marked = [("nan", r#""NaN""#), ("infinite", r#""Infinity""#), ("seconds", "0.25")];
    for (key, number) in single.into_iter().chain(marked) {
        has(&lines, &format!(r#"{{"key":"{key}","value":{{"doubleValue":{number}}}}}"#));
    }
    let list = |key: &str, items: &str| format!(r#"{{"key":"{key}","value":{{"arrayValue":{{"values":[{items}]}}}}}}"#);
    has(&lines, &list("at start", r#"{"doubleValue":2.5},{"doubleValue":"-Infinity"}"#));
    has(&lines, &list("set", r#"{"doubleValue":1e300}"#));
    has(&lines, &list("none", ""));
}

#[test]
fn long_lines_are_drained_whole_and_in_order() {
    let pipeline = Pipeline::builder().setting("OTEL_SPAN_PROCESSOR", "simple").open().unwrap();
    let (tracer, long) = (pipeline.tracer("shop"), "x".repeat(200_000));
    for number in 0..9_i64 {
        let text = if number % 3 == 1 { &*long } else { "short" };
        tracer.span("GET").attribute("number", number).attribute("text", text).start().end();
    }
    let lines = String::from_utf8(pipeline.drain().unwrap()).unwrap();
    assert_eq!((lines.lines().count(), lines.ends_with('\n'), times(&lines, &long)), (9, true, 3));
    for (number, line) in lines.lines().enumerate() {
        has(line, &format!(r#"{{"key":"number","value":{{"intValue":"{number}"}}}}"#));
    }
    assert_eq!(pipeline.drain(), Ok(Vec::new()));
}

#[test]
fn events_and_links_are_written() {
    let pipeline = batch();
    let tracer = pipeline.tracer("shop");
    let (first, second) = (root(&tracer), root(&tracer));
    second.add_event("cache miss", [Attribute::new("key", "cart")]);
    second.record_error(&io::Error::other("no cart"));
    second.add_link(&first, [Attribute::new("why", "retry")]);
    second.add_link(&Extracted::from_headers([("traceparent", CALLER)]), []);
    let linked = first.context();
    first.abandon();
    second.end();
    let lines = lines_of(pipeline);
    has(&lines, r#""name":"cache miss","attributes":[{"key":"key","value":{"stringValue":"cart"}}]"#);
    has(&lines, r#""name":"exception","attributes":[{"key":"exception.message""#);
    has(&lines, r#"{"stringValue":"no cart"}"#);
    has(&lines, &format!(r#"{{"traceId":"{}","spanId":"{}""#, linked.trace_id, linked.span_id));
    has(&lines, &format!(r#"{{"traceId":"{TRACE}","spanId":"b7ad6b7169203331""#));
    assert_eq!(times(&lines, r#""startTimeUnixNano""#), 1);
}

#[test]
fn a_child_is_in_the_trace_of_its_parent() {
    let pipeline = batch();
    let tracer = pipeline.tracer("shop");
    let parent = root(&tracer);
    let child = tracer.span("child").parent(&parent).start();
    let (above, below) = (parent.context(), child.context());
    assert!(above.is_valid() && above.is_sampled() && child.is_recording());
    assert_eq!(above.trace_id, below.trace_id);
    assert_ne!(above.span_id, below.span_id);
    drop(child);
    drop(parent);
    has(&lines_of(pipeline), &format!(r#""parentSpanId":"{}""#, above.span_id));
}

#[test]
fn headers_carry_a_trace_on() {
    let pipeline = batch();
    let tracer = pipeline.tracer("shop");
    let headers = [("traceparent", CALLER), ("tracestate", "a=1"), ("TraceState", "b=2"), ("baggage", "user=7")];
    let extracted = Extracted::from_headers(headers);
    let span = tracer.span("GET").parent(&extracted).start();
    let mut onward = HashMap::new();
    span.inject(&mut onward);
    assert_eq!(span.context().trace_id.to_string(), TRACE);
    assert_eq!(onward["traceparent"], span.context().to_string());
    assert_eq!(onward["tracestate"], "a=1,b=2");
    assert_eq!(onward["baggage"], "user=7");
    span.end();
    has(&lines_of(pipeline), r#""parentSpanId":"b7ad6b7169203331""#);
}

#[test]
fn a_long_baggage_is_carried_whole() {
    let pipeline = batch();
    let baggage = format!("user={}", "7".repeat(4000));
    let extracted = Extracted::from_headers([("traceparent", CALLER), ("baggage", &baggage)]);
    let mut onward = HashMap::new();
    pipeline.tracer("shop").span("GET").parent(&extracted).start().inject(&mut onward);
    assert_eq!(onward["baggage"], baggage);
}

#[test]
fn what_the_caller_did_not_sample_is_not_recorded() {
    let pipeline = batch();
    let unsampled = CALLER.replace("-01", "-00");
    let extracted = Extracted::from_headers([("traceparent", unsampled.as_str())]);
    let span = pipeline.tracer("shop").span("GET").parent(&extracted).start();
    assert!(!span.is_recording() && !span.context().is_sampled());
    assert_eq!(span.context().trace_id.to_string(), TRACE);
    span.set_attribute("size", 3);
    span.end();
    assert_eq!(lines_of(pipeline), "");
}

#[test]
fn headers_that_do_not_read_make_a_root() {
    let pipeline = batch();
    let tracer = pipeline.tracer("shop");
    for headers in [vec![("traceparent", "?")], vec![("traceparent", CALLER), ("traceparent", CALLER)]] {
        let extracted = Extracted::from_headers(headers);
        let span = tracer.span("GET").parent(&extracted).start();
        assert!(span.context().is_valid());
        assert_ne!(span.context().trace_id.to_string(), TRACE);
    }
    assert_eq!(times(&lines_of(pipeline), r#""parentSpanId":"""#), 2);
}

#[test]
fn spans_are_counted_where_they_are() {
    let settings = Pipeline::builder().setting("OTEL_SPAN_PROCESSOR", "batch");
    let settings = settings.setting("OTEL_BSP_MAX_QUEUE_SIZE", "2").setting("OTEL_BSP_MAX_EXPORT_BATCH_SIZE", "2");
    let pipeline = settings.open().unwrap();
    let tracer = pipeline.tracer("shop");
    let spans: Vec<_> = (0..4).map(|_| root(&tracer)).collect();
    assert_eq!(pipeline.counts().unwrap().open_spans, 4);
    spans.into_iter().skip(1).for_each(Span::end);
    let counts = pipeline.counts().unwrap();
    assert_eq!((counts.open_spans, counts.waiting_spans, counts.dropped_spans), (0, 2, 2));
    pipeline.flush().unwrap();
    assert_eq!(pipeline.counts().unwrap().waiting_spans, 0);
    assert_eq!(pipeline.drain().unwrap().last(), Some(&b'\n'));
    assert_eq!(pipeline.drain().unwrap(), b"");
}

#[test]
fn what_is_due_is_exported() {
    let pipeline = batch();
    root(&pipeline.tracer("shop")).end();
    let now = Instant::now();
    pipeline.run_due(now).unwrap();
    pipeline.run_due(now + Duration::from_secs(60)).unwrap();
    assert_eq!(pipeline.counts().unwrap().waiting_spans, 0);
    assert!(!pipeline.drain().unwrap().is_empty());
}

#[test]
fn threads_share_a_pipeline() {
    const THREADS: usize = 8;
    const SPANS: usize = 500;
    let pipeline = Pipeline::builder().open().unwrap();
    let tracer = pipeline.tracer("shop");
    thread::scope(|scope| {
        for number in 0..THREADS {
            let tracer = &tracer;
            scope.spawn(move || {
                for _span in 0..SPANS {
                    let parent = tracer.span("parent").attribute("thread", number as i64).start();
                    tracer.span("child").parent(&parent).attribute("thread", number as i64).start().end();
                }
            });
        }
    });
    assert_eq!(pipeline.counts().unwrap().dropped_spans, 0);
    let lines = lines_of(pipeline);
    assert_eq!(times(&lines, r#""startTimeUnixNano""#), 2 * THREADS * SPANS);
    for number in 0..THREADS {
        let attribute = format!(r#"[{{"key":"thread","value":{{"intValue":"{number}"}}}}]"#);
        assert_eq!(times(&lines, &attribute), 2 * SPANS);
    }
}

#[test]
fn the_resource_says_what_the_sdk_is() {
    let said = |settings: Builder| {
        let pipeline = settings.open().unwrap();
        root(&pipeline.tracer("shop")).end();
        lines_of(pipeline)
    };
    let of = |key: &str, value: &str| format!(r#"{{"key":"{key}","value":{{"stringValue":"{value}"}}}}"#);
    let lines = said(Pipeline::builder());
    has(&lines, &of("telemetry.sdk.name", "otel_proved"));
    has(&lines, &of("telemetry.sdk.version", env!("CARGO_PKG_VERSION")));
    has(&lines, &of("telemetry.sdk.language", "rust"));
    let lines = said(Pipeline::builder().setting("OTEL_RESOURCE_ATTRIBUTES", "a=b,telemetry.sdk.name=mine"));
    has(&lines, &of("a", "b"));
    has(&lines, &of("telemetry.sdk.name", "mine"));
}

#[test]
fn settings_that_say_nothing_are_named() {
    let settings = Pipeline::builder().setting("OTEL_SERVICE_NAME", "shop").setting("OTEL_SERVICE_NAMES", "shop");
    assert_eq!(settings.open().unwrap().ignored_settings(), ["OTEL_SERVICE_NAMES"]);
}

#[test]
fn settings_that_are_no_lines_are_refused() {
    for (name, value) in [("", "a"), ("a=b", "c"), ("a\nb", "c"), ("a", "b\nOTEL_SERVICE_NAME=c"), ("a", "b\r")] {
        let refused = Pipeline::builder().setting(name, value).open();
        assert_eq!(refused.unwrap_err(), Error::BadSetting(name.to_owned()));
    }
}

#[test]
fn the_seed_decides_the_ids() {
    let first_of = |seed| {
        let pipeline = Pipeline::builder().seed(seed).open().unwrap();
        root(&pipeline.tracer("shop")).context()
    };
    assert_eq!(first_of(7), first_of(7));
    assert_ne!(first_of(7), first_of(8));
}
