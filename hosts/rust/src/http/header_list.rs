// SPDX-License-Identifier: Apache-2.0
//! Headers that go along with each request, such as one by which a collector knows who sends.

use std::env;
use std::fmt;

/// The variable of traces goes first.
pub(super) const OF_TRACES: &str = "OTEL_EXPORTER_OTLP_TRACES_HEADERS";
pub(super) const OF_ALL: &str = "OTEL_EXPORTER_OTLP_HEADERS";

/// What the request says itself.
const OURS: [&str; 5] = ["host", "content-type", "content-length", "connection", "transfer-encoding"];

/// A header, whose value is not shown: it may be a secret.
#[derive(Clone, PartialEq, Eq)]
pub(super) struct Header {
    pub name: String,
    pub value: String,
}

impl Header {
    /// None where it cannot stand in a request.
    pub fn new(name: &str, value: &str) -> Option<Self> {
        let is_of_name = |it: u8| it.is_ascii_alphanumeric() || b"!#$%&'*+-.^_`|~".contains(&it);
        let is_name = !name.is_empty() && name.bytes().all(is_of_name);
        let is_value = value.bytes().all(|it| matches!(it, b'\t' | b' '..=b'~'));
        let is_ours = OURS.iter().any(|it| it.eq_ignore_ascii_case(name));
        (is_name && is_value && !is_ours).then(|| Self { name: name.to_owned(), value: value.to_owned() })
    }
}

impl fmt::Debug for Header {
    fn fmt(&self, out: &mut fmt::Formatter<'_>) -> fmt::Result {
        write!(out, "{}: ..", self.name)
    }
}

/// The headers of the environment, or the name of the variable where that does not read.
pub(super) fn of_environment() -> Result<Vec<Header>, &'static str> {
    for name in [OF_TRACES, OF_ALL] {
        match env::var_os(name) {
            Some(list) if !list.is_empty() => return list.to_str().and_then(read).ok_or(name),
            _ => {}
        }
    }
    Ok(Vec::new())
}

/// The headers of a list `name=value,name=value`, whose values may have `%2C` and the like. None where one does not
/// read.
fn read(list: &str) -> Option<Vec<Header>> {
    let members = list.split(',').map(str::trim).filter(|it| !it.is_empty());
    let read_one = |member: &str| {
        let (name, value) = member.split_once('=')?;
        Header::new(name.trim(), &unquoted(value.trim())?)
    };
    members.map(read_one).collect()
}

/// A text whose `%` and two hexadecimal digits each stand for a byte. None where that is no UTF-8.
fn unquoted(text: &str) -> Option<String> {
    let (mut bytes, mut rest) = (Vec::new(), text.as_bytes());
    while let [first, after @ ..] = rest {
        let digits = after.get(..2).filter(|it| *first == b'%' && it.iter().all(u8::is_ascii_hexdigit));
        let byte = digits.and_then(|it| u8::from_str_radix(std::str::from_utf8(it).ok()?, 16).ok());
        bytes.push(byte.unwrap_or(*first));
        rest = if byte.is_some() { &after[2..] } else { after };
    }
    String::from_utf8(bytes).ok()
}

#[cfg(test)]
mod tests {
    use super::*;

    fn shown(list: &str) -> Option<Vec<String>> {
        Some(read(list)?.iter().map(|it| format!("{}: {}", it.name, it.value)).collect())
    }

    #[test]
    fn lists_are_read() {
        let wanted = ["Authorization: Basic a=b", "x-team: one, two", "x-odd: 5%"];
        assert_eq!(shown(" Authorization=Basic%20a=b, x-team = one%2C%20two ,,x-odd=5%").unwrap(), wanted);
        assert_eq!(shown("").unwrap(), [""; 0]);
    }

    #[test]
    fn what_cannot_stand_in_a_request_does_not_read() {
        for list in ["a", "=b", "a b=c", "a=%0D%0Ax", "a=%ff", "a=\u{e9}", "Host=c", "content-Length=1"] {
            assert_eq!(shown(list), None, "{list}");
        }
    }

    #[test]
    fn values_are_not_shown() {
        assert_eq!(format!("{:?}", Header::new("authorization", "secret")), "Some(authorization: ..)");
    }
}
