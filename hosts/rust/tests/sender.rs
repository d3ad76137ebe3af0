// SPDX-License-Identifier: Apache-2.0
//! Lines reach a collector, or are counted as lost. The collector is a stand-in on the loopback.

use otel_proved::http::{Endpoint, EndpointError, HttpSender, Limits, Message};
use otel_proved::Pipeline;
use std::collections::VecDeque;
use std::io::{BufReader, Write};
use std::net::{SocketAddr, TcpListener};
use std::sync::{Arc, Mutex};
use std::thread;
use std::time::{Duration, Instant};

const SPAN: &str = "\"startTimeUnixNano\":";
const OK: &str = "200 OK\r\n";
const BUSY: &str = "503 Busy\r\n";
const LONG: Duration = Duration::from_secs(20);

/// A stand-in that answers one request after another by given statuses, and all further ones by 200.
struct Collector {
    address: SocketAddr,
    received: Arc<Mutex<Vec<Message>>>,
}

impl Collector {
    fn start(statuses: &[&'static str]) -> Self {
        Self::on(TcpListener::bind("127.0.0.1:0").unwrap(), statuses)
    }

    fn on(listener: TcpListener, statuses: &[&'static str]) -> Self {
        let (address, received) = (listener.local_addr().unwrap(), Arc::<Mutex<Vec<_>>>::default());
        let (list, mut statuses) = (Arc::clone(&received), statuses.iter().copied().collect::<VecDeque<_>>());
        thread::spawn(move || {
            for stream in listener.incoming() {
                let mut stream = stream.unwrap();
                let request = Message::read_request(&mut BufReader::new(&stream)).unwrap();
                list.lock().unwrap().extend(request);
                let status = statuses.pop_front().unwrap_or(OK);
                let answer = format!("HTTP/1.1 {status}content-length: 0\r\nconnection: close\r\n\r\n");
                stream.write_all(answer.as_bytes()).unwrap();
            }
        });
        Self { address, received }
    }

    fn endpoint(&self) -> Endpoint {
        below(self.address)
    }

    /// The bodies of the requests so far.
    fn bodies(&self) -> Vec<String> {
        let received = self.received.lock().unwrap();
        received.iter().map(|it| String::from_utf8(it.body.clone()).unwrap()).collect()
    }

    fn spans(&self) -> usize {
        self.bodies().iter().map(|it| it.matches(SPAN).count()).sum()
    }
}

fn below(address: SocketAddr) -> Endpoint {
    Endpoint::below(&format!("http://{address}")).unwrap()
}

/// An address at which nobody listens.
fn deserted() -> SocketAddr {
    TcpListener::bind("127.0.0.2:0").unwrap().local_addr().unwrap()
}

/// Limits for which nobody has to wait long.
fn short() -> Limits {
    let millis = Duration::from_millis;
    Limits { interval: millis(20), first_wait: millis(10), longest_wait: millis(40), ..Limits::default() }
}

fn one_line_a_span() -> Pipeline {
    Pipeline::builder().setting("OTEL_SPAN_PROCESSOR", "simple").open().unwrap()
}

fn end_spans(pipeline: &Pipeline, count: usize) {
    let tracer = pipeline.tracer("shop");
    (0..count).for_each(|_| tracer.span("GET").start().end());
}

#[test]
fn lines_are_posted_as_the_protocol_has_it() {
    let (collector, pipeline) = (Collector::start(&[]), Pipeline::builder().open().unwrap());
    let sender = HttpSender::start(&pipeline, collector.endpoint(), short()).unwrap();
    end_spans(&pipeline, 3);
    assert!(sender.flush(LONG));
    let request = collector.received.lock().unwrap()[0].clone();
    assert_eq!(request.start_line, "POST /v1/traces HTTP/1.1");
    assert_eq!(request.header("content-type"), Some("application/json"));
    assert_eq!(request.header("connection"), Some("close"));
    assert_eq!(request.header("host"), Some(collector.address.to_string().as_str()));
    assert!(request.body.ends_with(b"}"));
    let counts = sender.close();
    assert_eq!((counts.sent_lines, counts.sent_spans, counts.lost_lines), (1, 3, 0));
}

#[test]
fn headers_go_along() {
    let (collector, pipeline) = (Collector::start(&[]), one_line_a_span());
    let endpoint = collector.endpoint().with_header("x-team", "old").unwrap().with_header("X-Team", "shop").unwrap();
    assert!(matches!(endpoint.clone().with_header("host", "b"), Err(EndpointError::BadHeader(_))));
    assert!(endpoint.clone().with_header("a", "b\r\nc: d").is_err());
    let sender = HttpSender::start(&pipeline, endpoint, short()).unwrap();
    end_spans(&pipeline, 1);
    assert_eq!(sender.close().sent_spans, 1);
    let request = collector.received.lock().unwrap()[0].clone();
    assert_eq!(request.header("x-team"), Some("shop"));
    assert_eq!(request.headers.iter().filter(|(name, _)| name.eq_ignore_ascii_case("x-team")).count(), 1);
}

#[test]
fn a_drop_sends_what_waits() {
    let (collector, pipeline) = (Collector::start(&[]), Pipeline::builder().open().unwrap());
    let patient = Limits { interval: Duration::MAX, ..short() };
    let sender = HttpSender::start(&pipeline, collector.endpoint(), patient).unwrap();
    end_spans(&pipeline, 1000);
    drop(sender);
    assert_eq!(collector.spans(), 1000);
}

#[test]
fn lines_are_sent_without_being_asked() {
    let (collector, pipeline) = (Collector::start(&[]), one_line_a_span());
    let sender = HttpSender::start(&pipeline, collector.endpoint(), short()).unwrap();
    end_spans(&pipeline, 2);
    let begin = Instant::now();
    while sender.counts().sent_lines < 2 {
        assert!(begin.elapsed() < LONG);
        thread::sleep(Duration::from_millis(5));
    }
    assert_eq!(collector.spans(), 2);
}

#[test]
fn a_line_is_tried_again() {
    let statuses = [BUSY, "429 Slow down\r\n", "502 Bad\r\n", "504 Slow\r\n"];
    let (collector, pipeline) = (Collector::start(&statuses), one_line_a_span());
    let sender = HttpSender::start(&pipeline, collector.endpoint(), short()).unwrap();
    end_spans(&pipeline, 1);
    assert!(sender.flush(LONG));
    assert_eq!(sender.last_fault().unwrap(), "the collector answers \"HTTP/1.1 504 Slow\"");
    let counts = sender.close();
    assert_eq!((counts.sent_lines, counts.lost_lines, collector.bodies().len()), (1, 0, 5));
}

#[test]
fn the_head_of_an_answer_decides_where_its_body_is_cut() {
    let cut =
        ["200 OK\r\ncontent-length: 50\r\n", "200 OK\r\ncontent-length: many\r\n", "400 Bad\r\ncontent-length: 50\r\n"];
    let (collector, pipeline) = (Collector::start(&cut), one_line_a_span());
    let sender = HttpSender::start(&pipeline, collector.endpoint(), short()).unwrap();
    end_spans(&pipeline, 3);
    assert!(sender.flush(LONG));
    let counts = sender.close();
    assert_eq!((counts.sent_spans, counts.lost_spans, collector.bodies().len()), (2, 1, 3));
}

#[test]
fn the_collector_decides_how_long_to_wait() {
    let busy_for_a_second = "503 Busy\r\nRetry-After: 1\r\n";
    let (collector, pipeline) = (Collector::start(&[busy_for_a_second]), one_line_a_span());
    let sender = HttpSender::start(&pipeline, collector.endpoint(), short()).unwrap();
    let begin = Instant::now();
    end_spans(&pipeline, 1);
    assert!(sender.flush(LONG));
    assert!(begin.elapsed() >= Duration::from_secs(1));
    assert_eq!(sender.counts().sent_lines, 1);
}

#[test]
fn a_line_that_is_refused_is_lost_and_the_next_is_sent() {
    let (collector, pipeline) = (Collector::start(&["400 Bad\r\n"]), one_line_a_span());
    let sender = HttpSender::start(&pipeline, collector.endpoint(), short()).unwrap();
    end_spans(&pipeline, 2);
    assert!(sender.flush(LONG));
    let counts = sender.close();
    assert_eq!((counts.sent_spans, counts.lost_lines, counts.lost_spans), (1, 1, 1));
}

#[test]
fn a_line_is_tried_so_often() {
    let (pipeline, limits) = (one_line_a_span(), Limits { tries: 3, ..short() });
    let sender = HttpSender::start(&pipeline, below(deserted()), limits).unwrap();
    end_spans(&pipeline, 2);
    assert!(sender.flush(LONG));
    assert_eq!(sender.lost_lines(), 2);
    assert!(sender.last_fault().unwrap().contains("refused"));
}

#[test]
fn lines_wait_for_a_collector_that_comes_later() {
    let (address, pipeline) = (deserted(), one_line_a_span());
    let sender = HttpSender::start(&pipeline, below(address), Limits { tries: 1000, ..short() }).unwrap();
    end_spans(&pipeline, 3);
    assert!(!sender.flush(Duration::from_millis(100)));
    assert_eq!(sender.counts().waiting_lines, 3);
    let collector = Collector::on(TcpListener::bind(address).unwrap(), &[]);
    assert!(sender.flush(LONG));
    let counts = sender.close();
    assert_eq!((counts.sent_lines, counts.lost_lines, counts.waiting_lines), (3, 0, 0));
    assert_eq!(collector.spans(), 3);
}

#[test]
fn so_many_lines_are_kept() {
    let limits = Limits { tries: 1000, kept_spans: 4, closing_limit: Duration::from_millis(50), ..short() };
    let pipeline = one_line_a_span();
    let sender = HttpSender::start(&pipeline, below(deserted()), limits).unwrap();
    end_spans(&pipeline, 10);
    assert!(!sender.flush(Duration::from_millis(200)));
    let counts = sender.counts();
    assert_eq!((counts.waiting_lines, counts.lost_lines), (4, 6));
    let counts = sender.close();
    assert_eq!((counts.waiting_lines, counts.lost_lines, counts.lost_spans), (0, 10, 10));
}

#[test]
fn spans_that_the_collector_left_out_are_counted() {
    let listener = TcpListener::bind("127.0.0.1:0").unwrap();
    let (endpoint, pipeline) = (below(listener.local_addr().unwrap()), Pipeline::builder().open().unwrap());
    let answering = thread::spawn(move || {
        let (mut stream, _) = listener.accept().unwrap();
        Message::read_request(&mut BufReader::new(&stream)).unwrap();
        let body = r#"{"partialSuccess":{"rejectedSpans":"2","errorMessage":"full"}}"#;
        stream.write_all(format!("HTTP/1.1 200 OK\r\n\r\n{body}").as_bytes()).unwrap();
    });
    let sender = HttpSender::start(&pipeline, endpoint, short()).unwrap();
    end_spans(&pipeline, 5);
    let counts = sender.close();
    answering.join().unwrap();
    assert_eq!((counts.sent_lines, counts.sent_spans, counts.rejected_spans), (1, 3, 2));
}

#[test]
fn a_pipeline_that_is_closed_ends_no_sender() {
    let (collector, pipeline) = (Collector::start(&[]), one_line_a_span());
    let sender = HttpSender::start(&pipeline, collector.endpoint(), short()).unwrap();
    end_spans(&pipeline, 1);
    assert!(sender.flush(LONG));
    assert_eq!(pipeline.close().unwrap(), b"");
    assert!(sender.flush(LONG));
    assert_eq!(sender.close().sent_lines, 1);
}
