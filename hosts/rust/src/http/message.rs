// SPDX-License-Identifier: Apache-2.0
//! Requests and answers of HTTP/1.1, as far as it takes to send lines and to serve a small example. A body is as long
//! as `content-length` says; that of an answer without one goes on to the end of the connection, and its chunks stay as
//! they came.

use std::io::{self, BufRead, Read};

/// How many bytes a head may have, and a body; and how much is read of one that nobody needs whole.
const HEAD_LIMIT: u64 = 64 * 1024;
const SHORT_LIMIT: u64 = 64 * 1024;
const BODY_LIMIT: u64 = 16 * 1024 * 1024;

/// A request or an answer.
#[derive(Clone, Debug, Default, PartialEq, Eq)]
pub struct Message {
    /// The first line, such as `GET / HTTP/1.1` or `HTTP/1.1 200 OK`.
    pub start_line: String,
    /// Names and values, in their order.
    pub headers: Vec<(String, String)>,
    pub body: Vec<u8>,
}

impl Message {
    /// Reads a request. None where the connection ends before one begins.
    pub fn read_request(from: &mut impl BufRead) -> io::Result<Option<Self>> {
        let Some(mut message) = Self::read_head(from)? else {
            return Ok(None);
        };
        if message.header("transfer-encoding").is_some() {
            return Err(invalid("a request in chunks is not read"));
        }
        message.read_sized_body(from, message.content_length()?.unwrap_or(0))?;
        Ok(Some(message))
    }

    /// Reads an answer.
    pub fn read_answer(from: &mut impl BufRead) -> io::Result<Self> {
        let mut message = Self::read_answer_head(from)?;
        match message.content_length()? {
            Some(length) => message.read_sized_body(from, length)?,
            None => {
                from.take(BODY_LIMIT).read_to_end(&mut message.body)?;
            }
        }
        Ok(message)
    }

    /// Reads an answer of which the head decides: its body is what comes of it, and at most 64 KiB.
    pub(super) fn read_answer_by_head(from: &mut impl BufRead) -> io::Result<Self> {
        let mut message = Self::read_answer_head(from)?;
        let length = message.content_length().ok().flatten().unwrap_or(SHORT_LIMIT);
        // A body that is cut takes nothing back.
        let _is_cut = from.take(length.min(SHORT_LIMIT)).read_to_end(&mut message.body);
        Ok(message)
    }

    fn read_answer_head(from: &mut impl BufRead) -> io::Result<Self> {
        let ended = || io::Error::new(io::ErrorKind::UnexpectedEof, "the connection ended without an answer");
        Self::read_head(from)?.ok_or_else(ended)
    }

    fn read_head(from: &mut impl BufRead) -> io::Result<Option<Self>> {
        let mut head = from.take(HEAD_LIMIT);
        let mut message = Self::default();
        match read_line(&mut head)? {
            None => return Ok(None),
            Some(line) => message.start_line = line,
        }
        loop {
            let line = read_line(&mut head)?.ok_or_else(|| invalid("the head does not end"))?;
            if line.is_empty() {
                return Ok(Some(message));
            }
            let (name, value) = line.split_once(':').ok_or_else(|| invalid("a header has no colon"))?;
            message.headers.push((name.to_owned(), value.trim_matches([' ', '\t']).to_owned()));
        }
    }

    fn content_length(&self) -> io::Result<Option<u64>> {
        let Some(text) = self.header("content-length") else {
            return Ok(None);
        };
        match text.parse() {
            Ok(length) if length <= BODY_LIMIT => Ok(Some(length)),
            _ => Err(invalid("the content-length does not read, or is too large")),
        }
    }

    fn read_sized_body(&mut self, from: &mut impl BufRead, length: u64) -> io::Result<()> {
        if from.take(length).read_to_end(&mut self.body)? as u64 == length {
            return Ok(());
        }
        Err(io::Error::new(io::ErrorKind::UnexpectedEof, "the connection ended within a body"))
    }

    /// The value of the first header of this name, which is compared without regard to case.
    pub fn header(&self, name: &str) -> Option<&str> {
        let found = self.headers.iter().find(|(it, _)| it.eq_ignore_ascii_case(name));
        found.map(|(_, value)| value.as_str())
    }

    /// The status of an answer.
    pub fn status(&self) -> Option<u16> {
        self.start_line.strip_prefix("HTTP/1.")?.split(' ').nth(1)?.parse().ok()
    }
}

/// A line without its end. None at the end of what comes.
fn read_line(from: &mut io::Take<&mut impl BufRead>) -> io::Result<Option<String>> {
    let mut bytes = Vec::new();
    from.read_until(b'\n', &mut bytes)?;
    if bytes.is_empty() {
        return Ok(None);
    }
    let Some(line) = bytes.strip_suffix(b"\n") else {
        return Err(invalid("a line of the head is too long, or does not end"));
    };
    let line = line.strip_suffix(b"\r").unwrap_or(line);
    Ok(Some(String::from_utf8_lossy(line).into_owned()))
}

fn invalid(why: &str) -> io::Error {
    io::Error::new(io::ErrorKind::InvalidData, why)
}

#[cfg(test)]
mod tests {
    use super::*;

    #[test]
    fn requests_follow_one_another() {
        let mut bytes: &[u8] = b"POST / HTTP/1.1\r\nA:  b \r\nContent-Length: 2\r\n\r\nhiGET / HTTP/1.1\r\n\r\n";
        let first = Message::read_request(&mut bytes).unwrap().unwrap();
        assert_eq!(first.start_line, "POST / HTTP/1.1");
        assert_eq!(first.header("a"), Some("b"));
        assert_eq!(first.body, b"hi");
        assert_eq!(Message::read_request(&mut bytes).unwrap().unwrap().start_line, "GET / HTTP/1.1");
        assert_eq!(Message::read_request(&mut bytes).unwrap(), None);
    }

    #[test]
    fn an_answer_without_a_length_ends_with_the_connection() {
        let answer = Message::read_answer(&mut &b"HTTP/1.1 503 Busy\nRetry-After: 1\n\nlater"[..]).unwrap();
        assert_eq!(answer.status(), Some(503));
        assert_eq!(answer.body, b"later");
    }

    #[test]
    fn a_head_decides_whatever_comes_of_the_body() {
        for length in ["content-length: 9\r\n", "content-length: many\r\n", ""] {
            let text = format!("HTTP/1.1 200 OK\r\n{length}\r\ncut");
            let answer = Message::read_answer_by_head(&mut text.as_bytes()).unwrap();
            assert_eq!((answer.status(), &*answer.body), (Some(200), &b"cut"[..]));
        }
        assert!(Message::read_answer_by_head(&mut &b"HTTP/1.1 200 OK\r\na: b\r\n"[..]).is_err());
    }

    #[test]
    fn what_is_cut_or_too_long_is_refused() {
        let long = "x".repeat(70_000);
        for text in ["GET / HT", "GET /\r\nA: b\r\n", "GET /\r\nno colon\r\n\r\n", long.as_str()] {
            let error = Message::read_request(&mut text.as_bytes()).unwrap_err();
            assert_eq!(error.kind(), io::ErrorKind::InvalidData);
        }
        let cut = Message::read_request(&mut &b"GET /\r\nContent-Length: 3\r\n\r\nhi"[..]).unwrap_err();
        assert_eq!(cut.kind(), io::ErrorKind::UnexpectedEof);
        for head in ["Content-Length: -1", "Content-Length: 99999999999", "Transfer-Encoding: chunked"] {
            let text = format!("GET /\r\n{head}\r\n\r\n");
            assert!(Message::read_request(&mut text.as_bytes()).is_err());
        }
    }
}
