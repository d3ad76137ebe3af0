// SPDX-License-Identifier: Apache-2.0
//! Headers that hand a span on from process to process.

use crate::context::SpanContext;

/// What headers say about the span of another process: the fields `traceparent`, `tracestate` and `baggage`. They are
/// read when a span starts or is linked; what does not read says nothing.
///
/// ```
/// use otel_proved::Extracted;
/// let parent = "00-0af7651916cd43dd8448eb211c80319c-b7ad6b7169203331-01";
/// let headers = [("Traceparent", parent), ("baggage", "a=1"), ("Baggage", "b=2")];
/// let extracted = Extracted::from_headers(headers);
/// assert_eq!(extracted.traceparent(), parent);
/// assert_eq!(extracted.baggage(), "a=1,b=2");
/// ```
#[derive(Clone, Debug, Default, PartialEq, Eq)]
pub struct Extracted {
    traceparent: String,
    tracestate: String,
    baggage: String,
}

impl Extracted {
    /// Takes the three fields out of headers, whose names are compared without regard to case. Several fields of one
    /// name are joined by commas; but of several fields `traceparent` none is taken, since only one may be there.
    pub fn from_headers<'h>(headers: impl IntoIterator<Item = (&'h str, &'h str)>) -> Self {
        let mut extracted = Self::default();
        let mut parents = 0;
        for (name, value) in headers {
            if name.eq_ignore_ascii_case("traceparent") {
                parents += 1;
                extracted.traceparent = value.to_owned();
            } else if name.eq_ignore_ascii_case("tracestate") {
                join(&mut extracted.tracestate, value);
            } else if name.eq_ignore_ascii_case("baggage") {
                join(&mut extracted.baggage, value);
            }
        }
        if parents > 1 {
            extracted.traceparent.clear();
        }
        extracted
    }

    /// What names a span, where no more is known of it; nothing where that is nobody.
    pub(crate) fn of_context(context: &SpanContext) -> Self {
        let traceparent = if context.is_valid() { context.to_string() } else { String::new() };
        Self { traceparent, ..Self::default() }
    }

    /// The headers that have these fields.
    pub(crate) fn fields(&self) -> impl Iterator<Item = (String, String)> + '_ {
        let all = [("traceparent", &self.traceparent), ("tracestate", &self.tracestate), ("baggage", &self.baggage)];
        let said = all.into_iter().filter(|(_, value)| !value.is_empty());
        said.map(|(name, value)| (name.to_owned(), value.clone()))
    }

    /// The field `traceparent`, or an empty text.
    pub fn traceparent(&self) -> &str {
        &self.traceparent
    }

    /// The fields `tracestate`, or an empty text.
    pub fn tracestate(&self) -> &str {
        &self.tracestate
    }

    /// The fields `baggage`, or an empty text.
    pub fn baggage(&self) -> &str {
        &self.baggage
    }
}

fn join(field: &mut String, value: &str) {
    if !field.is_empty() {
        field.push(',');
    }
    field.push_str(value);
}

/// The headers of a text in which each stands as `name: value` with a carriage return and a line feed after it.
pub(crate) fn split(text: &str) -> impl Iterator<Item = (String, String)> + '_ {
    let lines = text.split_terminator("\r\n");
    lines.filter_map(|line| line.split_once(": ")).map(|(name, value)| (name.to_owned(), value.to_owned()))
}

#[cfg(test)]
mod tests {
    use super::*;

    #[test]
    fn two_parents_are_none() {
        let extracted = Extracted::from_headers([("traceparent", "one"), ("x", "y"), ("TRACEPARENT", "two")]);
        assert_eq!(extracted, Extracted::default());
    }

    #[test]
    fn fields_are_joined_in_their_order() {
        let extracted = Extracted::from_headers([("tracestate", "a=1"), ("Tracestate", "b=2,c=3")]);
        assert_eq!(extracted.tracestate(), "a=1,b=2,c=3");
    }

    #[test]
    fn headers_are_split() {
        let found: Vec<_> = split("a: 1\r\nb: 2: 3\r\n").collect();
        assert_eq!(found, [("a".into(), "1".into()), ("b".into(), "2: 3".into())]);
    }
}
