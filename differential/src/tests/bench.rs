//! What is measured is of the sizes that are said, and accepted.

use crate::analysis::analyze;
use crate::bench::analyzing::{sizes, worst};
use crate::sheet::SHEET_LIMIT;

#[test]
fn the_body_check_accepts_what_is_measured() {
    for measured in sizes().into_iter().chain(worst()) {
        let answer = analyze(&measured.sheet).to_string();
        assert_eq!(answer, "OK", "{}", measured.label);
    }
}

#[test]
fn the_sheets_have_their_sizes() {
    let lengths: Vec<usize> = sizes().iter().map(|one| one.sheet.len()).collect();
    let wanted = [90..=120, 2_500..=3_000, 11_500..=12_000, 29_500..=30_000];
    assert_eq!(lengths.len(), wanted.len());
    for (length, wanted) in lengths.iter().zip(wanted) {
        assert!(wanted.contains(length), "{length} bytes");
    }
    for measured in worst() {
        let length = measured.sheet.len();
        let label = measured.label;
        assert!(
            (30_000..=SHEET_LIMIT).contains(&length),
            "{label}: {length} bytes"
        );
    }
}
