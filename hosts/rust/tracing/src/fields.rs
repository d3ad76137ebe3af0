// SPDX-License-Identifier: Apache-2.0
//! What fields of spans and events say. Their texts are the service's own code, which may panic, or trace: none is made
//! while a lock is held.

use otel_proved::{Attribute, Kind};
use std::error::Error;
use std::fmt::{self, Debug, Display, Write};
use std::panic::{self, AssertUnwindSafe};
use tracing::field::{Field, Visit};

const NO_TEXT: &str = "a value whose text cannot be made";

/// Fields, read.
#[derive(Debug, Default)]
pub(crate) struct Fields {
    pub attributes: Vec<Attribute<'static>>,
    pub errors: Vec<Said>,
    pub message: Option<String>,
    pub name: Option<String>,
    pub kind: Option<Kind>,
}

/// An error by its text.
#[derive(Debug)]
pub(crate) struct Said(String);

impl Display for Said {
    fn fmt(&self, out: &mut fmt::Formatter<'_>) -> fmt::Result {
        out.write_str(&self.0)
    }
}

impl Error for Said {}

impl Fields {
    fn text(&mut self, field: &Field, text: String) {
        match field.name() {
            "message" => self.message = Some(text),
            "otel.name" => self.name = Some(text),
            "otel.kind" => self.kind = kind_of(&text).or(self.kind),
            name => self.attributes.push(Attribute::new(name, text)),
        }
    }

    fn integer(&mut self, field: &Field, value: impl TryInto<i64> + Display + Copy) {
        match value.try_into() {
            Ok(number) => self.attributes.push(Attribute::new(field.name(), number)),
            Err(_) => self.text(field, value.to_string()),
        }
    }
}

impl Visit for Fields {
    fn record_debug(&mut self, field: &Field, value: &dyn Debug) {
        self.text(field, text_of(format_args!("{value:?}")));
    }

    fn record_str(&mut self, field: &Field, value: &str) {
        self.text(field, value.to_owned());
    }

    fn record_error(&mut self, field: &Field, value: &(dyn Error + 'static)) {
        let text = text_of(format_args!("{value}"));
        self.errors.push(Said(text.clone()));
        self.text(field, text);
    }

    fn record_bool(&mut self, field: &Field, value: bool) {
        self.attributes.push(Attribute::new(field.name(), value));
    }

    fn record_f64(&mut self, field: &Field, value: f64) {
        self.attributes.push(Attribute::new(field.name(), value));
    }

    fn record_i64(&mut self, field: &Field, value: i64) {
        self.integer(field, value);
    }

    fn record_u64(&mut self, field: &Field, value: u64) {
        self.integer(field, value);
    }

    fn record_i128(&mut self, field: &Field, value: i128) {
        self.integer(field, value);
    }

    fn record_u128(&mut self, field: &Field, value: u128) {
        self.integer(field, value);
    }
}

fn kind_of(text: &str) -> Option<Kind> {
    let kinds = [
        ("internal", Kind::Internal),
        ("server", Kind::Server),
        ("client", Kind::Client),
        ("producer", Kind::Producer),
        ("consumer", Kind::Consumer),
    ];
    kinds.into_iter().find(|(name, _)| text.eq_ignore_ascii_case(name)).map(|(_, kind)| kind)
}

/// The text of a value of the service's own.
fn text_of(value: fmt::Arguments<'_>) -> String {
    let mut text = String::new();
    match panic::catch_unwind(AssertUnwindSafe(|| text.write_fmt(value))) {
        Ok(Ok(())) => text,
        _ => NO_TEXT.to_owned(),
    }
}
