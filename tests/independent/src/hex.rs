//! Bytes as lower-case hex, and as printable text.

/// Two hex digits for each byte.
pub fn encode(bytes: &[u8]) -> String {
    const DIGITS: &[u8; 16] = b"0123456789abcdef";
    bytes.iter().flat_map(|byte| [byte >> 4, byte & 15]).map(|digit| char::from(DIGITS[usize::from(digit)])).collect()
}

/// Bytes as a field: `-` where there are none.
pub fn field(bytes: &[u8]) -> String {
    match bytes {
        [] => "-".to_string(),
        _ => encode(bytes),
    }
}

/// The bytes of lower-case hex.
pub fn decode(text: &str) -> Option<Vec<u8>> {
    text.as_bytes()
        .chunks(2)
        .map(|pair| match pair {
            [high, low] => Some(16 * digit(*high)? + digit(*low)?),
            _ => None,
        })
        .collect()
}

/// The value of a hex digit in small letters; nothing for any other byte.
fn digit(byte: u8) -> Option<u8> {
    match byte {
        b'0'..=b'9' => Some(byte - b'0'),
        b'a'..=b'f' => Some(byte - b'a' + 10),
        _ => None,
    }
}

/// The bytes in quotation marks, those that cannot be shown escaped.
pub fn printable(bytes: &[u8]) -> String {
    let escaped: String = bytes.iter().flat_map(|&byte| std::ascii::escape_default(byte)).map(char::from).collect();
    format!("\"{escaped}\"")
}

#[cfg(test)]
mod tests {
    use super::*;

    /// Every byte comes back from its hex, and texts that are no hex give nothing.
    #[test]
    fn there_and_back() {
        let all: Vec<u8> = (0..=255).collect();
        assert_eq!(decode(&encode(&all)), Some(all));
        assert_eq!(encode(&[0, 10, 255]), "000aff");
        assert_eq!((field(&[]), field(&[7])), ("-".to_string(), "07".to_string()));
        assert_eq!(decode("0"), None);
        assert_eq!(decode("0G"), None);
        assert_eq!(decode("FF"), None);
        assert_eq!(printable(b"A\r\x00"), "\"A\\r\\x00\"");
    }
}
