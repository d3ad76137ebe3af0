// SPDX-License-Identifier: Apache-2.0
//! Posts a line once, and judges the answer as the OpenTelemetry protocol has it.

use super::connection::Connection;
use super::endpoint::Endpoint;
use super::message::Message;
use std::io::{self, BufReader, Write};
use std::time::Duration;

/// In seconds.
const LONGEST_WAIT: u64 = 24 * 60 * 60;

/// What came of a line.
#[derive(Debug, PartialEq, Eq)]
pub(super) enum Outcome {
    /// The collector took it, but for so many of its spans.
    Taken { rejected_spans: u64 },
    /// It may be tried again, after so long where the collector says so.
    Later { why: String, after: Option<Duration> },
    /// It may not be tried again.
    Refused { why: String },
}

pub(super) fn post(endpoint: &Endpoint, line: &[u8], limit: Duration) -> Outcome {
    match exchange(endpoint, line, limit) {
        Ok(answer) => judge(&answer),
        Err(error) => Outcome::Later { why: format!("no answer from {endpoint}: {error}"), after: None },
    }
}

fn exchange(endpoint: &Endpoint, line: &[u8], limit: Duration) -> io::Result<Message> {
    let mut connection = endpoint.connect(limit)?;
    let written = write_request(&mut connection, endpoint, line);
    // A collector may answer before it has read all, and then the rest cannot be written.
    let answer = Message::read_answer_by_head(&mut BufReader::new(connection));
    answer.map_err(|error| written.err().unwrap_or(error))
}

fn write_request(connection: &mut Connection, endpoint: &Endpoint, line: &[u8]) -> io::Result<()> {
    let (path, authority, length) = (endpoint.path(), endpoint.authority(), line.len());
    let more: String = endpoint.headers().iter().map(|it| format!("{}: {}\r\n", it.name, it.value)).collect();
    let head = format!(
        "POST {path} HTTP/1.1\r\nhost: {authority}\r\ncontent-type: application/json\r\n\
         content-length: {length}\r\nconnection: close\r\n{more}\r\n"
    );
    connection.write_all(head.as_bytes())?;
    connection.write_all(line)?;
    connection.flush()
}

fn judge(answer: &Message) -> Outcome {
    let why = || format!("the collector answers {:?}", answer.start_line);
    match answer.status() {
        Some(200..=299) => Outcome::Taken { rejected_spans: rejected_spans(&answer.body) },
        Some(429 | 502 | 503 | 504) => Outcome::Later { why: why(), after: asked_wait(answer) },
        _ => Outcome::Refused { why: why() },
    }
}

/// How long the collector wants to be left alone, where it says so in seconds; a day at most.
fn asked_wait(answer: &Message) -> Option<Duration> {
    let seconds: u64 = answer.header("retry-after")?.parse().ok()?;
    Some(Duration::from_secs(seconds.min(LONGEST_WAIT)))
}

/// How many spans of a line the collector did not take.
fn rejected_spans(body: &[u8]) -> u64 {
    let body = String::from_utf8_lossy(body);
    let Some((_, after)) = body.split_once("\"rejectedSpans\"") else {
        return 0;
    };
    let number = after.trim_start_matches([' ', ':', '"', '\n', '\r', '\t']);
    let end = number.find(|it: char| !it.is_ascii_digit()).unwrap_or(number.len());
    number[..end].parse().unwrap_or(0)
}

#[cfg(test)]
mod tests {
    use super::*;

    fn judged(text: &str) -> Outcome {
        judge(&Message::read_answer(&mut text.as_bytes()).unwrap())
    }

    #[test]
    fn answers_are_judged() {
        assert_eq!(judged("HTTP/1.1 200 OK\r\n\r\n{}"), Outcome::Taken { rejected_spans: 0 });
        let partial = r#"{"partialSuccess": {"rejectedSpans": "12"}}"#;
        assert_eq!(judged(&format!("HTTP/1.1 200 OK\r\n\r\n{partial}")), Outcome::Taken { rejected_spans: 12 });
        let why = "the collector answers \"HTTP/1.1 400 Bad\"".to_owned();
        assert_eq!(judged("HTTP/1.1 400 Bad\r\n\r\n"), Outcome::Refused { why });
    }

    #[test]
    fn the_collector_says_how_long_to_wait() {
        let after = |text| match judged(text) {
            Outcome::Later { after, .. } => after,
            other => panic!("{other:?}"),
        };
        assert_eq!(after("HTTP/1.1 503 Busy\r\nretry-after: 7\r\n\r\n"), Some(Duration::from_secs(7)));
        let day = Some(Duration::from_secs(24 * 60 * 60));
        assert_eq!(after("HTTP/1.1 503 Busy\r\nretry-after: 4000000000\r\n\r\n"), day);
        assert_eq!(after("HTTP/1.1 429 Busy\r\nretry-after: tomorrow\r\n\r\n"), None);
        assert_eq!(after("HTTP/1.1 502 Busy\r\n\r\n"), None);
    }
}
