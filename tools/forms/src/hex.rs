//! Bytes as hex digits and back.

pub fn show(bytes: &[u8]) -> String {
    let digit = |number: u8| char::from_digit(u32::from(number), 16).unwrap_or_default();
    bytes.iter().flat_map(|byte| [digit(byte >> 4), digit(byte & 15)]).collect()
}

pub fn parse(digits: &str) -> Result<Vec<u8>, String> {
    if !digits.is_ascii() || !digits.len().is_multiple_of(2) {
        return Err("hex bytes have two digits each".to_string());
    }
    let pair = |at: usize| {
        let two = &digits[at..at + 2];
        let is_pair = two.bytes().all(|digit| digit.is_ascii_hexdigit());
        u8::from_str_radix(two, 16).ok().filter(|_| is_pair).ok_or_else(|| format!("{two} is no hex byte"))
    };
    (0..digits.len()).step_by(2).map(pair).collect()
}
