// SPDX-License-Identifier: Apache-2.0
//! Attributes as the interface takes them: a list, in one call.

use super::declarations::value_kind;
use super::RawAttribute;
use crate::attributes::{Attribute, Value};
use std::borrow::Cow;
use std::marker::PhantomData;

/// A list of `otel_attribute`, which borrows what it is made of, or owns it.
pub(super) struct RawAttributes<'a> {
    list: Vec<RawAttribute>,
    /// What the list points to where texts of a list are to stand one after another. It is let alone until the end.
    _texts: Vec<Texts>,
    _of: PhantomData<&'a [Attribute<'a>]>,
}

/// Texts one after another, and how long each is.
struct Texts {
    joined: String,
    lengths: Vec<u64>,
}

impl Texts {
    fn of(texts: &[Cow<'_, str>]) -> Self {
        Self { joined: texts.concat(), lengths: texts.iter().map(|it| it.len() as u64).collect() }
    }
}

impl<'a> RawAttributes<'a> {
    pub(super) fn of(attributes: &'a [Attribute<'a>]) -> Self {
        let mut texts = Vec::new();
        let list = attributes.iter().map(|it| raw_of(it, &mut texts)).collect();
        Self { list, _texts: texts, _of: PhantomData }
    }

    /// The address of the list, which is good as long as this is there.
    pub(super) fn address(&self) -> *const RawAttribute {
        self.list.as_ptr()
    }

    pub(super) fn count(&self) -> usize {
        self.list.len()
    }
}

/// An attribute as C has it. No address in it is null, also where nothing is there.
fn raw_of(attribute: &Attribute<'_>, texts: &mut Vec<Texts>) -> RawAttribute {
    let raw = RawAttribute::of_key(&attribute.key);
    match &attribute.value {
        Value::Text(it) => raw.with_bytes(value_kind::TEXT, it.as_bytes()),
        Value::Integer(it) => RawAttribute { kind: value_kind::INTEGER, integer: *it, ..raw },
        Value::Float(it) => RawAttribute { kind: value_kind::FLOAT, number: *it, ..raw },
        Value::Bool(it) => RawAttribute { kind: value_kind::BOOL, truth: u32::from(*it), ..raw },
        Value::Integers(it) => {
            RawAttribute { kind: value_kind::INTEGERS, integers: it.as_ptr(), integers_count: it.len(), ..raw }
        }
        Value::Floats(it) => {
            RawAttribute { kind: value_kind::FLOATS, numbers: it.as_ptr(), numbers_count: it.len(), ..raw }
        }
        // A truth value in memory is a byte, 0 or 1.
        Value::Bools(it) => {
            RawAttribute { kind: value_kind::BOOLS, bytes: it.as_ptr().cast(), bytes_length: it.len(), ..raw }
        }
        Value::Texts(it) => {
            let made = Texts::of(it);
            let (lengths, lengths_count) = (made.lengths.as_ptr(), made.lengths.len());
            let raw = raw.with_bytes(value_kind::TEXTS, made.joined.as_bytes());
            // What is on the heap stays where it is.
            texts.push(made);
            RawAttribute { lengths, lengths_count, ..raw }
        }
    }
}

impl RawAttribute {
    /// An attribute without a value yet.
    fn of_key(key: &str) -> Self {
        Self {
            key: key.as_ptr(),
            key_length: key.len(),
            kind: 0,
            truth: 0,
            integer: 0,
            number: 0.0,
            bytes: key.as_ptr(),
            bytes_length: 0,
            lengths: [].as_ptr(),
            lengths_count: 0,
            integers: [].as_ptr(),
            integers_count: 0,
            numbers: [].as_ptr(),
            numbers_count: 0,
        }
    }

    fn with_bytes(self, kind: u32, bytes: &[u8]) -> Self {
        Self { kind, bytes: bytes.as_ptr(), bytes_length: bytes.len(), ..self }
    }
}
