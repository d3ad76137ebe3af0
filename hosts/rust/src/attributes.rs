// SPDX-License-Identifier: Apache-2.0
//! Attributes: what spans, events and links say about themselves, each a key and a value.

use std::borrow::Cow;

/// The value of an attribute. Texts and lists may be borrowed: a call copies what it is given.
#[derive(Clone, Debug, PartialEq)]
pub enum Value<'a> {
    Text(Cow<'a, str>),
    Integer(i64),
    Float(f64),
    Bool(bool),
    Texts(Vec<Cow<'a, str>>),
    Integers(Cow<'a, [i64]>),
    Floats(Cow<'a, [f64]>),
    Bools(Cow<'a, [bool]>),
}

/// A key and its value.
///
/// ```
/// use otel_proved::Attribute;
/// let pair = Attribute::new("http.request.method", "GET");
/// assert_eq!(pair, ("http.request.method", "GET").into());
/// ```
#[derive(Clone, Debug, PartialEq)]
pub struct Attribute<'a> {
    pub key: Cow<'a, str>,
    pub value: Value<'a>,
}

impl<'a> Attribute<'a> {
    pub fn new(key: impl Into<Cow<'a, str>>, value: impl Into<Value<'a>>) -> Self {
        Self { key: key.into(), value: value.into() }
    }
}

impl<'a, K: Into<Cow<'a, str>>, V: Into<Value<'a>>> From<(K, V)> for Attribute<'a> {
    fn from((key, value): (K, V)) -> Self {
        Self::new(key, value)
    }
}

/// A number such as a length. One that is no `i64` is the text of its digits, as OpenTelemetry maps it.
fn of_unsigned<'a>(number: u64) -> Value<'a> {
    i64::try_from(number).map_or_else(|_| Value::Text(number.to_string().into()), Value::Integer)
}

macro_rules! value_from {
    ($($from:ty, $it:ident => $value:expr;)*) => {
        $(impl<'a> From<$from> for Value<'a> {
            fn from($it: $from) -> Self {
                $value
            }
        })*
    };
}

value_from! {
    &'a str, it => Value::Text(it.into());
    &'a String, it => Value::Text(it.as_str().into());
    String, it => Value::Text(it.into());
    Cow<'a, str>, it => Value::Text(it);
    bool, it => Value::Bool(it);
    i64, it => Value::Integer(it);
    u64, it => of_unsigned(it);
    usize, it => of_unsigned(it as u64);
    isize, it => Value::Integer(it as i64);
    i32, it => Value::Integer(it.into());
    i16, it => Value::Integer(it.into());
    i8, it => Value::Integer(it.into());
    u32, it => Value::Integer(it.into());
    u16, it => Value::Integer(it.into());
    u8, it => Value::Integer(it.into());
    f64, it => Value::Float(it);
    f32, it => Value::Float(it.into());
    Vec<String>, it => Value::Texts(it.into_iter().map(Cow::from).collect());
    Vec<&'a str>, it => Value::Texts(it.into_iter().map(Cow::from).collect());
    &'a [String], it => Value::Texts(it.iter().map(Cow::from).collect());
    &'a [&'a str], it => Value::Texts(it.iter().map(|text| Cow::from(*text)).collect());
    Vec<i64>, it => Value::Integers(it.into());
    &'a [i64], it => Value::Integers(it.into());
    Vec<f64>, it => Value::Floats(it.into());
    &'a [f64], it => Value::Floats(it.into());
    Vec<bool>, it => Value::Bools(it.into());
    &'a [bool], it => Value::Bools(it.into());
}

macro_rules! value_from_array {
    ($($from:ty),*) => {
        $(impl<'a, const N: usize> From<[$from; N]> for Value<'a> {
            fn from(it: [$from; N]) -> Self {
                Value::from(Vec::from(it))
            }
        })*
    };
}

value_from_array!(&'a str, String, i64, f64, bool);

#[cfg(test)]
mod tests {
    use super::*;

    #[test]
    fn numbers_keep_their_value() {
        assert_eq!(Value::from([1, 2].len()), Value::Integer(2));
        assert_eq!(Value::from(u64::MAX >> 1), Value::Integer(i64::MAX));
        assert_eq!(Value::from(u64::MAX), Value::Text("18446744073709551615".into()));
        assert_eq!(Value::from(isize::MIN), Value::Integer(i64::MIN));
    }
}
