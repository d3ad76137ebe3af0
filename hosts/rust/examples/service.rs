// SPDX-License-Identifier: Apache-2.0
//! A service that traces itself: `service PORT [NEXT_URL]`, at the loopback alone; at port 0 it takes a free one, and
//! standard error says which.
//!
//! Each request gets a span, below the one that its headers name. Where there is a next service it is asked in a span
//! within that, and what it answers is answered. Spans go to `OTEL_EXPORTER_OTLP_ENDPOINT`. `GET /quit` ends the
//! service, which then prints a line of counts.

use otel_proved::http::{Endpoint, HttpSender, Message, SenderCounts};
use otel_proved::{Counts, Extracted, Kind, Pipeline, Span, Status, Tracer};
use std::env;
use std::error::Error;
use std::io::{self, BufReader, Write};
use std::net::{SocketAddr, TcpListener, TcpStream};
use std::process::ExitCode;
use std::sync::atomic::{AtomicBool, AtomicU64, Ordering};
use std::sync::{Arc, Condvar, Mutex};
use std::thread;
use std::time::Duration;

/// How long the next service may take, and how long requests may take that are answered when the service is to end.
const NEXT_LIMIT: Duration = Duration::from_secs(10);
const QUIT_LIMIT: Duration = Duration::from_secs(15);
const USAGE: &str = "usage: service PORT [NEXT_URL]";

struct Words {
    port: u16,
    next: Option<Endpoint>,
}

struct Service {
    tracer: Tracer,
    next: Option<Endpoint>,
    address: SocketAddr,
    is_over: AtomicBool,
    requests: AtomicU64,
    /// How many requests are being answered.
    active: Mutex<u64>,
    became_idle: Condvar,
}

struct Answer {
    status: u16,
    body: Vec<u8>,
}

fn main() -> ExitCode {
    let words = match read_words() {
        Ok(words) => words,
        Err(why) => {
            eprintln!("service: {why}; {USAGE}");
            return ExitCode::from(2);
        }
    };
    match run(words) {
        Ok(()) => ExitCode::SUCCESS,
        Err(error) => {
            eprintln!("service: {error}");
            ExitCode::FAILURE
        }
    }
}

fn read_words() -> Result<Words, Box<dyn Error>> {
    let mut words = env::args().skip(1);
    let port = words.next().ok_or("a port is missing")?;
    let port = port.parse().map_err(|_| format!("{port:?} is no port"))?;
    let next = words.next().map(|url| Endpoint::parse(&url)).transpose()?;
    match words.next() {
        None => Ok(Words { port, next }),
        Some(word) => Err(format!("{word:?} is one word too many").into()),
    }
}

fn run(words: Words) -> Result<(), Box<dyn Error>> {
    let pipeline = Pipeline::builder().from_env().open()?;
    let sender = HttpSender::from_env(&pipeline)?;
    for name in pipeline.ignored_settings().iter().chain(sender.ignored_settings()) {
        eprintln!("service: {name} is ignored");
    }
    let listener = TcpListener::bind(("127.0.0.1", words.port))?;
    let service = Arc::new(Service {
        tracer: pipeline.tracer("service"),
        next: words.next,
        address: listener.local_addr()?,
        is_over: AtomicBool::new(false),
        requests: AtomicU64::new(0),
        active: Mutex::new(0),
        became_idle: Condvar::new(),
    });
    eprintln!("serving at http://{}", service.address);
    service.serve(&listener);
    service.wait_until_idle();
    let sent = sender.close();
    let requests = service.requests.load(Ordering::SeqCst);
    println!("{}", shown(requests, pipeline.failed_calls(), &pipeline.counts()?, &sent));
    Ok(())
}

/// The counts as a line of JSON.
fn shown(requests: u64, failed_calls: u64, counts: &Counts, sent: &SenderCounts) -> String {
    let members = [
        ("requests", requests),
        ("failed_calls", failed_calls),
        ("open_spans", counts.open_spans),
        ("waiting_spans", counts.waiting_spans),
        ("dropped_spans", counts.dropped_spans),
        ("refused_spans", counts.refused_spans),
        ("lost_batches", counts.lost_batches),
        ("sent_lines", sent.sent_lines),
        ("sent_spans", sent.sent_spans),
        ("rejected_spans", sent.rejected_spans),
        ("lost_lines", sent.lost_lines),
        ("lost_spans", counts.lost_spans + sent.lost_spans),
    ];
    let members = members.map(|(name, number)| format!("\"{name}\":{number}"));
    format!("{{{}}}", members.join(","))
}

impl Service {
    /// Takes connections, each in a thread of its own, until a request asks for the end.
    fn serve(self: &Arc<Self>, listener: &TcpListener) {
        for stream in listener.incoming() {
            if self.is_over.load(Ordering::SeqCst) {
                return;
            }
            let service = Arc::clone(self);
            let started =
                stream.and_then(|stream| thread::Builder::new().spawn(move || service.serve_connection(stream)));
            if let Err(error) = started {
                eprintln!("service: a connection is not served: {error}");
            }
        }
    }

    fn serve_connection(&self, stream: TcpStream) {
        if let Err(error) = self.answer_requests(&stream) {
            // Who asked is told as far as that is possible.
            let body = format!("{error}\n").into_bytes();
            let _ends_anyway = write_answer(&stream, &Answer { status: 400, body }, false);
        }
    }

    /// Answers one request after another, until the connection ends.
    fn answer_requests(&self, stream: &TcpStream) -> io::Result<()> {
        stream.set_nodelay(true)?;
        let mut reader = BufReader::new(stream);
        while let Some(request) = Message::read_request(&mut reader)? {
            if request.start_line.starts_with("GET /quit ") {
                return self.quit(stream);
            }
            let stays = stays(&request);
            self.start_one();
            let written = write_answer(stream, &self.answer(&request), stays);
            self.end_one();
            written?;
            if !stays {
                break;
            }
        }
        Ok(())
    }

    /// Answers a request in a span, which ends before the answer is written.
    fn answer(&self, request: &Message) -> Answer {
        self.requests.fetch_add(1, Ordering::SeqCst);
        let caller = Extracted::from_headers(request.headers.iter().map(|(name, value)| (&**name, &**value)));
        let mut words = request.start_line.split(' ');
        let (method, target) = (words.next().unwrap_or_default(), words.next().unwrap_or_default());
        let path = target.split('?').next().unwrap_or_default();
        let started = self.tracer.span(method).kind(Kind::Server).parent(&caller);
        let span = started.attribute("http.request.method", method).attribute("url.path", path).start();
        let answer = match &self.next {
            None => Answer { status: 200, body: b"hello\n".to_vec() },
            Some(next) => self.ask(next, &span),
        };
        span.set_attribute("http.response.status_code", answer.status);
        if answer.status >= 500 {
            span.set_status(Status::error(""));
        }
        answer
    }

    /// Asks the next service, in a span within that of the request.
    fn ask(&self, next: &Endpoint, request: &Span) -> Answer {
        let started = self.tracer.span("GET").kind(Kind::Client).parent(request);
        let span = started.attribute("http.request.method", "GET").attribute("url.full", next.to_string()).start();
        match get(next, &span) {
            Ok(answer) => {
                span.set_attribute("http.response.status_code", answer.status);
                if answer.status >= 400 {
                    span.set_status(Status::error(""));
                }
                answer
            }
            Err(error) => {
                span.record_error(&error).set_status(Status::error("no answer"));
                Answer { status: 502, body: format!("no answer from {next}: {error}\n").into_bytes() }
            }
        }
    }

    fn quit(&self, stream: &TcpStream) -> io::Result<()> {
        self.is_over.store(true, Ordering::SeqCst);
        let answered = write_answer(stream, &Answer { status: 200, body: b"bye\n".to_vec() }, false);
        // The thread that waits for connections looks up.
        TcpStream::connect(self.address)?;
        answered
    }

    fn start_one(&self) {
        *self.active.lock().unwrap() += 1;
    }

    fn end_one(&self) {
        *self.active.lock().unwrap() -= 1;
        self.became_idle.notify_all();
    }

    fn wait_until_idle(&self) {
        let active = self.active.lock().unwrap();
        let (active, waited) = self.became_idle.wait_timeout_while(active, QUIT_LIMIT, |it| *it > 0).unwrap();
        if waited.timed_out() {
            eprintln!("service: {} requests are left unanswered", *active);
        }
    }
}

/// Gets what a URL has, for a span that the headers hand on.
fn get(url: &Endpoint, span: &Span) -> io::Result<Answer> {
    let mut headers = vec![("host".to_owned(), url.authority()), ("connection".to_owned(), "close".to_owned())];
    span.inject(&mut headers);
    let headers: String = headers.iter().map(|(name, value)| format!("{name}: {value}\r\n")).collect();
    let mut connection = url.connect(NEXT_LIMIT)?;
    connection.write_all(format!("GET {} HTTP/1.1\r\n{headers}\r\n", url.path()).as_bytes())?;
    let answer = Message::read_answer(&mut BufReader::new(connection))?;
    let no_status = || io::Error::new(io::ErrorKind::InvalidData, "an answer without a status");
    Ok(Answer { status: answer.status().ok_or_else(no_status)?, body: answer.body })
}

/// Whether the connection is to stay after the answer.
fn stays(request: &Message) -> bool {
    let asks_for = |word| request.header("connection").is_some_and(|it| it.eq_ignore_ascii_case(word));
    match request.start_line.ends_with(" HTTP/1.0") {
        true => asks_for("keep-alive"),
        false => !asks_for("close"),
    }
}

fn write_answer(mut stream: &TcpStream, answer: &Answer, stays: bool) -> io::Result<()> {
    let reason = match answer.status {
        200 => "OK",
        400 => "Bad Request",
        502 => "Bad Gateway",
        _ => "Other",
    };
    let (status, length) = (answer.status, answer.body.len());
    let connection = if stays { "keep-alive" } else { "close" };
    let head = format!(
        "HTTP/1.1 {status} {reason}\r\ncontent-type: text/plain\r\ncontent-length: {length}\r\n\
         connection: {connection}\r\n\r\n"
    );
    stream.write_all(&[head.as_bytes(), &answer.body].concat())
}
