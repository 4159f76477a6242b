//! Name numbers of the sheets and the strings they stand for.

/// The strings of the name numbers 0 to 9.
pub const RESERVED: [&str; 10] = [
    "",
    "u64",
    "bool",
    "field",
    "void",
    "poseidon",
    "verify_merkle_proof",
    "msg::sender",
    "msg::nonce",
    "block::number",
];

/// Marks an absent return type, result or returned value; never a name or an id.
pub const ABSENT: u16 = 65_535;

/// The string that name number `number` stands for.
pub fn text(number: u16) -> String {
    assert!(number != ABSENT, "65,535 is no name");
    match RESERVED.get(number as usize) {
        Some(reserved) => (*reserved).to_string(),
        None => format!("n{number}"),
    }
}

/// The name number of a string that `text` made.
pub fn number(text: &str) -> u16 {
    if let Some(position) = RESERVED.iter().position(|reserved| *reserved == text) {
        return position as u16;
    }
    text.strip_prefix('n')
        .and_then(|digits| digits.parse().ok())
        .unwrap_or_else(|| panic!("not the text of a name number: {text:?}"))
}
