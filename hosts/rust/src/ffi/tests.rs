// SPDX-License-Identifier: Apache-2.0
//! Compares the structs and statuses here with the header, whose texts are brought into one form. The functions are
//! declared by what `tools/header_check` makes of it.

/// The header, where this package stands in its repository.
const HEADER: &str = include_str!("../../../c/otel.h");
const HERE: &str = include_str!("mod.rs");

/// Types of C and of Rust that are the same.
const TYPES: [(&str, &str); 9] = [
    ("uint32_t", "u32"),
    ("uint64_t", "u64"),
    ("int64_t", "i64"),
    ("double", "f64"),
    ("size_t", "usize"),
    ("const uint8_t *", "*const u8"),
    ("const uint64_t *", "*const u64"),
    ("const int64_t *", "*const i64"),
    ("const double *", "*const f64"),
];

/// A text with one space for each run of white space, and without the comments of C.
fn plain(text: &str) -> String {
    let parts = text.split("/*").map(|it| it.split_once("*/").map_or(it, |(_, rest)| rest));
    let words = parts.flat_map(str::split_whitespace);
    words.collect::<Vec<_>>().join(" ")
}

/// What stands between two texts.
fn between<'t>(text: &'t str, begin: &str, end: &str) -> &'t str {
    let (_, rest) = text.split_once(begin).unwrap();
    rest.split_once(end).unwrap().0
}

/// A field of C, as `uint64_t name`, as a name and a type.
fn of_c(text: &str) -> (String, String) {
    let (of_type, name) = text.trim().rsplit_once(' ').unwrap();
    let (stars, name) = name.split_at(name.len() - name.trim_start_matches('*').len());
    (name.to_owned(), format!("{of_type} {stars}").trim_end().to_owned())
}

/// A field here, as `pub name: u64`, as a name and a type of C.
fn of_rust(text: &str) -> (String, String) {
    let (name, of_type) = text.trim().trim_start_matches("pub ").split_once(": ").unwrap();
    let same = TYPES.iter().find(|(_, here)| *here == of_type).map_or(of_type, |(there, _)| *there);
    (name.to_owned(), same.to_owned())
}

type Named = Vec<(String, String)>;

fn list(text: &str, separator: char, read: fn(&str) -> (String, String)) -> Named {
    text.split(separator).filter(|it| !it.trim().is_empty()).map(read).collect()
}

#[test]
fn the_structs_are_those_of_the_header() {
    let header = plain(HEADER);
    let structs =
        [("otel_attribute", "RawAttribute"), ("otel_span_identity", "SpanIdentity"), ("otel_numbers", "Counts")];
    for (there, here) in structs {
        let (before, _) = header.split_once(&format!("}} {there};")).unwrap();
        let fields = list(before.rsplit_once('{').unwrap().1, ';', of_c);
        let declared = between(HERE, &format!("struct {here} {{"), "\n}");
        let code: Vec<_> = declared.lines().filter(|it| !it.contains("///")).collect();
        assert_eq!(fields, list(&code.join(" "), ',', of_rust));
    }
}

#[test]
fn the_statuses_are_those_of_the_header() {
    let header = plain(HEADER);
    let statuses = list(between(&header, "enum otel_status {", "}"), ',', |it| {
        let (name, number) = it.trim().split_once(" = ").unwrap();
        (name.to_owned(), number.to_owned())
    });
    for (name, number) in &statuses[1..] {
        let error = super::check(number.parse().unwrap()).unwrap_err();
        let plain = format!("{error:?}").to_uppercase();
        assert_eq!(name.replace("OTEL_", "").replace('_', ""), plain);
    }
    assert_eq!(super::check(statuses.len() as u32), Err(crate::Error::UnknownStatus(statuses.len() as u32)));
}
