//! Lists of bytes as words of hexadecimal digits.

/// How an empty list of bytes is shown.
const EMPTY: &str = "-";

pub fn hex(bytes: &[u8]) -> String {
    if bytes.is_empty() {
        return EMPTY.to_string();
    }
    bytes.iter().map(|byte| format!("{byte:02x}")).collect()
}

pub fn from_hex(word: &str) -> Option<Vec<u8>> {
    if word == EMPTY {
        return Some(Vec::new());
    }
    word.as_bytes().chunks(2).map(byte_from_hex).collect()
}

fn byte_from_hex(digits: &[u8]) -> Option<u8> {
    let [high, low] = *digits else { return None };
    let digit = |character: u8| char::from(character).to_digit(16);
    Some((digit(high)? * 16 + digit(low)?) as u8)
}
