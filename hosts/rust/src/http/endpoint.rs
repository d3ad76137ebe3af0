// SPDX-License-Identifier: Apache-2.0
//! Where requests go.

use super::connection::Connection;
use super::header_list::Header;
use std::env;
use std::error;
use std::fmt;
use std::io;
use std::time::Duration;

/// The variable with a URL that is taken as it is, and that with a URL to which `/v1/traces` is added.
pub(super) const OF_TRACES: &str = "OTEL_EXPORTER_OTLP_TRACES_ENDPOINT";
pub(super) const OF_ALL: &str = "OTEL_EXPORTER_OTLP_ENDPOINT";
const PATH: &str = "/v1/traces";
const DEFAULT: &str = "http://localhost:4318";
const SCHEME: &str = "http://";
const PORT: u16 = 80;

/// A URL of plain HTTP.
///
/// ```
/// use otel_proved::http::Endpoint;
/// let endpoint = Endpoint::parse("http://localhost:4318/v1/traces").unwrap();
/// assert_eq!((endpoint.host(), endpoint.port(), endpoint.path()), ("localhost", 4318, "/v1/traces"));
/// assert_eq!(endpoint.to_string(), "http://localhost:4318/v1/traces");
/// ```
#[derive(Clone, Debug, PartialEq, Eq)]
pub struct Endpoint {
    /// Without the brackets that an address of IPv6 has.
    host: String,
    port: u16,
    path: String,
    headers: Vec<Header>,
}

/// Why a text, which each has, is no endpoint, or no name of a header.
#[derive(Clone, Debug, PartialEq, Eq)]
#[non_exhaustive]
pub enum EndpointError {
    /// It does not begin with `http://`.
    NotHttp(String),
    NoHost(String),
    BadPort(String),
    /// A character that is none of a URL, a name of a user, or a `#`; a `?` where a path is added.
    BadCharacter(String),
    /// A header that no request has, or that a request says itself.
    BadHeader(String),
}

impl Endpoint {
    pub fn parse(url: &str) -> Result<Self, EndpointError> {
        if url.contains(|it: char| !it.is_ascii_graphic() || it == '#' || it == '@') {
            return Err(EndpointError::BadCharacter(url.to_owned()));
        }
        let rest = url.strip_prefix(SCHEME).ok_or_else(|| EndpointError::NotHttp(url.to_owned()))?;
        let (authority, path) = rest.split_at(rest.find(['/', '?']).unwrap_or(rest.len()));
        let (host, port) = split_authority(authority).ok_or_else(|| EndpointError::NoHost(url.to_owned()))?;
        let port = port.map_or(Some(PORT), read_port).ok_or_else(|| EndpointError::BadPort(url.to_owned()))?;
        let slash = if path.starts_with('/') { "" } else { "/" };
        Ok(Self { host: host.to_owned(), port, path: format!("{slash}{path}"), headers: Vec::new() })
    }

    /// The endpoint of a collector, below whose URL traces are posted.
    pub fn below(url: &str) -> Result<Self, EndpointError> {
        if url.contains('?') {
            return Err(EndpointError::BadCharacter(url.to_owned()));
        }
        Self::parse(&format!("{}{PATH}", url.trim_end_matches('/')))
    }

    /// The endpoint that `OTEL_EXPORTER_OTLP_TRACES_ENDPOINT` is, or that is [below](Endpoint::below)
    /// `OTEL_EXPORTER_OTLP_ENDPOINT`, or else `http://localhost:4318`.
    pub fn from_env() -> Result<Self, EndpointError> {
        let value_of = |name| env::var_os(name).map(|it| it.to_string_lossy().into_owned());
        Self::of_variables(value_of(OF_TRACES), value_of(OF_ALL))
    }

    fn of_variables(of_traces: Option<String>, of_all: Option<String>) -> Result<Self, EndpointError> {
        let is_set = |it: &String| !it.is_empty();
        match of_traces.filter(is_set) {
            Some(url) => Self::parse(&url),
            None => Self::below(of_all.filter(is_set).as_deref().unwrap_or(DEFAULT)),
        }
    }

    /// The same, with a header in each request; it replaces one of the same name.
    ///
    /// ```
    /// use otel_proved::http::Endpoint;
    /// let endpoint = Endpoint::parse("http://localhost:4318/v1/traces")?.with_header("x-team", "shop")?;
    /// # Ok::<(), otel_proved::http::EndpointError>(())
    /// ```
    pub fn with_header(self, name: &str, value: &str) -> Result<Self, EndpointError> {
        let header = Header::new(name, value).ok_or_else(|| EndpointError::BadHeader(name.to_owned()))?;
        Ok(self.with_headers([header]))
    }

    pub(super) fn with_headers(mut self, headers: impl IntoIterator<Item = Header>) -> Self {
        for header in headers {
            self.headers.retain(|it| !it.name.eq_ignore_ascii_case(&header.name));
            self.headers.push(header);
        }
        self
    }

    pub(super) fn headers(&self) -> &[Header] {
        &self.headers
    }

    pub fn host(&self) -> &str {
        &self.host
    }

    pub fn port(&self) -> u16 {
        self.port
    }

    pub fn path(&self) -> &str {
        &self.path
    }

    /// Host and port as the header `host` has them.
    pub fn authority(&self) -> String {
        let host = &self.host;
        let is_address = host.contains(':');
        let host = if is_address { format!("[{host}]") } else { host.clone() };
        format!("{host}:{}", self.port)
    }

    /// Connects. The connection is good for as long as the limit says, from now on.
    pub fn connect(&self, limit: Duration) -> io::Result<Connection> {
        Connection::open(&self.host, self.port, limit)
    }
}

/// Host and port of an authority. None where there is no host.
fn split_authority(authority: &str) -> Option<(&str, Option<&str>)> {
    let (host, rest) = match authority.strip_prefix('[') {
        Some(address) => address.split_once(']')?,
        None => authority.split_at(authority.find(':').unwrap_or(authority.len())),
    };
    if host.is_empty() || host.contains(['[', ']']) {
        return None;
    }
    match rest {
        "" => Some((host, None)),
        _ => Some((host, Some(rest.strip_prefix(':')?))),
    }
}

fn read_port(text: &str) -> Option<u16> {
    let is_number = text.bytes().all(|it| it.is_ascii_digit());
    text.parse().ok().filter(|it| is_number && *it != 0)
}

impl fmt::Display for Endpoint {
    fn fmt(&self, out: &mut fmt::Formatter<'_>) -> fmt::Result {
        write!(out, "{SCHEME}{}{}", self.authority(), self.path)
    }
}

impl fmt::Display for EndpointError {
    fn fmt(&self, out: &mut fmt::Formatter<'_>) -> fmt::Result {
        let (url, why) = match self {
            Self::BadHeader(name) => return write!(out, "no request may have the header {name:?} with this value"),
            Self::NotHttp(url) => (url, "only http is spoken here"),
            Self::NoHost(url) => (url, "it names no host"),
            Self::BadPort(url) => (url, "its port is no number from 1 to 65535"),
            Self::BadCharacter(url) => (url, "it has a character that no endpoint has"),
        };
        write!(out, "the endpoint {url:?} does not read: {why}")
    }
}

impl error::Error for EndpointError {}

#[cfg(test)]
mod tests {
    use super::*;

    fn of(host: &str, port: u16, path: &str) -> Result<Endpoint, EndpointError> {
        Ok(Endpoint { host: host.into(), port, path: path.into(), headers: Vec::new() })
    }

    #[test]
    fn urls_are_read() {
        assert_eq!(Endpoint::parse("http://a"), of("a", 80, "/"));
        assert_eq!(Endpoint::parse("http://a:1?b=2"), of("a", 1, "/?b=2"));
        assert_eq!(Endpoint::parse("http://[::1]:4318/v1"), of("::1", 4318, "/v1"));
        assert_eq!(Endpoint::parse("http://[::1]:4318/v1").unwrap().to_string(), "http://[::1]:4318/v1");
        assert_eq!(Endpoint::below("http://a:1/b/"), of("a", 1, "/b/v1/traces"));
    }

    #[test]
    fn what_is_no_url_is_named() {
        for url in ["https://a", "a", ""] {
            assert_eq!(Endpoint::parse(url), Err(EndpointError::NotHttp(url.into())));
        }
        for url in ["http://", "http:///b", "http://:1", "http://[::1", "http://[::1]1", "http://a]", "http://::1"] {
            assert_eq!(Endpoint::parse(url), Err(EndpointError::NoHost(url.into())));
        }
        for url in ["http://a:", "http://a:0", "http://a:65536", "http://a:+1", "http://a:1:2"] {
            assert_eq!(Endpoint::parse(url), Err(EndpointError::BadPort(url.into())));
        }
        for url in ["http://a b", "http://a\r\nx: y", "http://u:p@a", "http://a#b"] {
            assert_eq!(Endpoint::parse(url), Err(EndpointError::BadCharacter(url.into())));
        }
        assert_eq!(Endpoint::below("http://a?b"), Err(EndpointError::BadCharacter("http://a?b".into())));
    }

    #[test]
    fn the_variable_of_traces_goes_first() {
        let text = |it: &str| Some(it.to_owned());
        assert_eq!(Endpoint::of_variables(text("http://a/b"), text("http://c")), of("a", 80, "/b"));
        assert_eq!(Endpoint::of_variables(text(""), text("http://c")), of("c", 80, "/v1/traces"));
        assert_eq!(Endpoint::of_variables(None, None), of("localhost", 4318, "/v1/traces"));
    }
}
