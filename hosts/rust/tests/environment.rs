// SPDX-License-Identifier: Apache-2.0
//! What a sender reads from the environment. It is the only test of its program, so that no other thread reads while it
//! writes.

use otel_proved::http::{HttpSender, Message};
use otel_proved::Pipeline;
use std::env;
use std::io::{BufReader, Write};
use std::net::TcpListener;
use std::thread;

#[test]
fn headers_come_from_the_environment() {
    let listener = TcpListener::bind("127.0.0.1:0").unwrap();
    env::set_var("OTEL_EXPORTER_OTLP_ENDPOINT", format!("http://{}", listener.local_addr().unwrap()));
    env::set_var("OTEL_EXPORTER_OTLP_HEADERS", "authorization=Bearer%20abc,x-team=shop");
    let collector = thread::spawn(move || {
        let (mut stream, _) = listener.accept().unwrap();
        let request = Message::read_request(&mut BufReader::new(&stream)).unwrap().unwrap();
        stream.write_all(b"HTTP/1.1 200 OK\r\ncontent-length: 0\r\n\r\n").unwrap();
        request
    });
    let pipeline = Pipeline::builder().open().unwrap();
    let sender = HttpSender::from_env(&pipeline).unwrap();
    assert_eq!(sender.ignored_settings(), [""; 0]);
    pipeline.tracer("shop").span("GET").start().end();
    assert_eq!(sender.close().sent_spans, 1);
    let request = collector.join().unwrap();
    assert_eq!(request.header("authorization"), Some("Bearer abc"));
    assert_eq!(request.header("x-team"), Some("shop"));
    env::set_var("OTEL_EXPORTER_OTLP_TRACES_HEADERS", "no list");
    let sender = HttpSender::from_env(&pipeline).unwrap();
    assert_eq!(sender.ignored_settings(), ["OTEL_EXPORTER_OTLP_TRACES_HEADERS"]);
}
