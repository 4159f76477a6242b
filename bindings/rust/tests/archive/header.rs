//! The linked archive, the project's C header and its README have the same
//! version, and the header gives the same names to the same numbers.

use crate::refusals::{lowering_rows, verifying_rows};
use malovuneth::{linked_version, MOST_BYTES, VERSION};
use std::collections::BTreeSet;

/// A file of the project.
fn file(path: &str) -> String {
    let root = concat!(env!("CARGO_MANIFEST_DIR"), "/../..");
    std::fs::read_to_string(format!("{root}/{path}")).expect("the project has the file")
}

fn header() -> String {
    file("include/malovuneth.h")
}

/// The lines of the header's enum of answers that have a constant, as
/// `NAME = NUMBER`.
fn constants() -> BTreeSet<String> {
    let header = header();
    let start = header.find("enum malovuneth_answer {").unwrap();
    let end = start + header[start..].find("};").unwrap();
    let lines = header[start..end]
        .lines()
        .filter(|line| line.contains(" = "));
    let line = |line: &str| line.trim().trim_end_matches(',').to_string();
    lines.map(line).collect()
}

/// `UndefinedValue` as `UNDEFINED_VALUE`.
fn upper(name: &str) -> String {
    let mut upper = String::new();
    for letter in name.chars() {
        if letter.is_uppercase() && !upper.is_empty() {
            upper.push('_');
        }
        upper.push(letter.to_ascii_uppercase());
    }
    upper
}

#[test]
fn the_header_has_the_same_numbers() {
    let mut expected = BTreeSet::from(["MALOVUNETH_ACCEPTED = 0".to_string()]);
    for (_, refusal, _) in [lowering_rows(), verifying_rows()].concat() {
        let debug = format!("{refusal:?}");
        let name = upper(debug.split(' ').next().unwrap());
        expected.insert(format!("MALOVUNETH_{name} = {}", refusal.number()));
    }
    assert_eq!(constants(), expected);
}

#[test]
fn the_same_version_everywhere() {
    let number = |part: &str| part.parse::<usize>().unwrap();
    let [major, minor, patch] = [
        number(env!("CARGO_PKG_VERSION_MAJOR")),
        number(env!("CARGO_PKG_VERSION_MINOR")),
        number(env!("CARGO_PKG_VERSION_PATCH")),
    ];
    assert_eq!(VERSION, major * 10_000 + minor * 100 + patch);
    assert_eq!(linked_version(), VERSION);
    let header = header();
    for (name, value) in [
        ("VERSION_MAJOR", env!("CARGO_PKG_VERSION_MAJOR")),
        ("VERSION_MINOR", env!("CARGO_PKG_VERSION_MINOR")),
        ("VERSION_PATCH", env!("CARGO_PKG_VERSION_PATCH")),
        ("VERSION", concat!("\"", env!("CARGO_PKG_VERSION"), "\"")),
        ("VERSION_NUMBER", &VERSION.to_string()),
        ("MOST_BYTES", &MOST_BYTES.to_string()),
    ] {
        let line = format!("#define MALOVUNETH_{name} {value}\n");
        assert!(header.contains(&line), "{line}");
    }
    assert!(header.contains(concat!("Version ", env!("CARGO_PKG_VERSION"), ".")));
    let readme = concat!("This is version ", env!("CARGO_PKG_VERSION"), " (");
    assert!(file("README.md").contains(readme));
}
