// SPDX-License-Identifier: Apache-2.0
//! What waits has a bound, and what is lost is counted, and said.

use otel_proved::http::{Endpoint, HttpSender, Limits, Message};
use otel_proved::{Builder, Pipeline};
use std::io::{BufReader, Write};
use std::net::TcpListener;
use std::sync::mpsc::{channel, Receiver, Sender};
use std::sync::{Arc, Mutex};
use std::thread;
use std::time::{Duration, Instant};

const SPAN: &str = "\"startTimeUnixNano\":";
const LONG: Duration = Duration::from_secs(20);

/// A collector that says when a request has come, and answers once it is told to.
fn slow_collector() -> (Endpoint, Receiver<()>, Sender<()>) {
    let listener = TcpListener::bind("127.0.0.1:0").unwrap();
    let endpoint = Endpoint::below(&format!("http://{}", listener.local_addr().unwrap())).unwrap();
    let (came, has_come) = channel();
    let (answer, is_to_answer) = channel();
    thread::spawn(move || {
        for stream in listener.incoming() {
            let mut stream = stream.unwrap();
            Message::read_request(&mut BufReader::new(&stream)).unwrap();
            let _nobody_waits = came.send(());
            let _ends_anyway = is_to_answer.recv();
            let _is_gone = stream.write_all(b"HTTP/1.1 200 OK\r\ncontent-length: 0\r\n\r\n");
        }
    });
    (endpoint, has_come, answer)
}

fn deserted() -> Endpoint {
    Endpoint::below("http://127.0.0.1:1").unwrap()
}

fn end_spans(pipeline: &Pipeline, count: usize) {
    let tracer = pipeline.tracer("shop");
    (0..count).for_each(|_| tracer.span("GET").start().end());
}

fn wait_until(what: impl Fn() -> bool) {
    let begin = Instant::now();
    while !what() {
        assert!(begin.elapsed() < LONG);
        thread::sleep(Duration::from_millis(5));
    }
}

/// Notices of a pipeline.
fn heard(settings: Builder) -> (Pipeline, Arc<Mutex<Vec<String>>>) {
    let (pipeline, heard) = (settings.open().unwrap(), Arc::<Mutex<Vec<_>>>::default());
    let list = Arc::clone(&heard);
    pipeline.on_notice(move |text| list.lock().unwrap().push(text.to_owned()));
    (pipeline, heard)
}

#[test]
fn what_waits_has_a_bound_also_while_a_line_is_posted() {
    let ((endpoint, has_come, answer), pipeline) = (slow_collector(), Pipeline::builder().open().unwrap());
    let limits = Limits { kept_spans: 5000, interval: Duration::from_millis(20), ..Limits::default() };
    // The request ends by its answer, also on a machine that is busy.
    let limits = Limits { closing_limit: Duration::ZERO, request_limit: 5 * LONG, ..limits };
    let sender = HttpSender::start(&pipeline, endpoint, limits).unwrap();
    end_spans(&pipeline, 512);
    has_come.recv_timeout(LONG).unwrap();
    for _round in 0..20 {
        end_spans(&pipeline, 1000);
        thread::sleep(Duration::from_millis(5));
    }
    wait_until(|| sender.counts().lost_spans > 10_000);
    assert!(sender.counts().waiting_spans <= 5000);
    let undrained = String::from_utf8(pipeline.drain().unwrap()).unwrap();
    assert!(undrained.matches(SPAN).count() <= 5000);
    answer.send(()).unwrap();
    wait_until(|| sender.counts().sent_spans > 0);
    drop(answer);
    sender.close();
}

#[test]
fn each_span_is_counted_once() {
    let (pipeline, _heard) = heard(Pipeline::builder());
    let limits = Limits { kept_spans: 1000, closing_limit: Duration::from_millis(50), ..Limits::default() };
    let sender = HttpSender::start(&pipeline, deserted(), limits).unwrap();
    end_spans(&pipeline, 3000);
    let counts = sender.close();
    assert_eq!((counts.sent_spans, counts.waiting_spans), (0, 0));
    end_spans(&pipeline, 700);
    let other = pipeline.clone();
    let lines = String::from_utf8(pipeline.close().unwrap()).unwrap();
    assert_eq!((lines.matches(SPAN).count(), other.returned_spans()), (700, 700));
    assert_eq!(counts.lost_spans, 3000);
}

#[test]
fn a_pipeline_says_what_it_loses() {
    let settings = Pipeline::builder().setting("OTEL_SPAN_PROCESSOR", "batch");
    let settings = settings.setting("OTEL_BSP_MAX_QUEUE_SIZE", "2").setting("OTEL_BSP_MAX_EXPORT_BATCH_SIZE", "2");
    let (pipeline, heard) = heard(settings);
    for _round in 0..2 {
        end_spans(&pipeline, 5);
        pipeline.flush().unwrap();
    }
    let dropped = "spans that are lost, since the queue was full or memory ran out: 3";
    assert_eq!(*heard.lock().unwrap(), [dropped]);
    drop(pipeline);
    let last = "spans that were open or not drained at the end, and are lost: 4";
    assert_eq!(*heard.lock().unwrap(), [dropped, last]);
}

#[test]
fn what_nobody_drains_has_a_bound() {
    let settings = Pipeline::builder().setting("OTEL_SPAN_PROCESSOR", "simple");
    let (pipeline, heard) = heard(settings.setting("OTEL_C_MAX_UNDRAINED_SPANS", "3"));
    assert_eq!(pipeline.ignored_settings(), [""; 0]);
    end_spans(&pipeline, 5);
    let counts = pipeline.counts().unwrap();
    assert_eq!((counts.undrained_spans, counts.lost_batches, counts.lost_spans), (3, 2, 2));
    let _not_all = pipeline.flush();
    let said = "spans that are lost after their export, since too many were not drained or memory ran out: 2";
    assert_eq!(*heard.lock().unwrap(), [said]);
    let lines = String::from_utf8(pipeline.drain().unwrap()).unwrap();
    let counts = pipeline.counts().unwrap();
    assert_eq!((lines.matches(SPAN).count(), counts.undrained_spans, counts.undrained_bytes), (3, 0, 0));
    end_spans(&pipeline, 1);
    assert!(!pipeline.drain().unwrap().is_empty());
}

#[test]
fn what_is_open_at_a_close_is_said() {
    let (pipeline, heard) = heard(Pipeline::builder());
    let open = pipeline.tracer("shop").span("GET").start();
    pipeline.close().unwrap();
    assert_eq!(*heard.lock().unwrap(), ["spans that were open at the end, and are lost: 1"]);
    open.end();
}

#[test]
fn a_pipeline_that_loses_nothing_says_nothing() {
    let (pipeline, heard) = heard(Pipeline::builder());
    end_spans(&pipeline, 5);
    pipeline.close().unwrap();
    assert!(heard.lock().unwrap().is_empty());
}

#[test]
fn a_sender_says_what_it_does_not_send() {
    let (pipeline, heard) = heard(Pipeline::builder().setting("OTEL_SPAN_PROCESSOR", "simple"));
    let millis = Duration::from_millis;
    // All lines are taken at the close, and none is given up before the end of that, also where the machine is busy.
    let limits = Limits { interval: Duration::MAX, tries: u32::MAX, kept_spans: 4, ..Limits::default() };
    let limits = Limits { first_wait: millis(5), longest_wait: millis(20), closing_limit: millis(1000), ..limits };
    let sender = HttpSender::start(&pipeline, deserted(), limits).unwrap();
    end_spans(&pipeline, 6);
    sender.close();
    let heard = heard.lock().unwrap().join("\n");
    let goal = deserted();
    for said in [
        format!("spans that were not sent to {goal}, which is tried again: 1 (no answer from"),
        format!("more spans wait for {goal} than are kept, and the newest are lost: 2"),
        format!("spans that were not sent to {goal} before the end, and are lost: 4"),
    ] {
        assert_eq!(heard.matches(&said).count(), 1, "{said} in {heard}");
    }
}
