//! Bytes as text and back.

pub fn hex(bytes: &[u8]) -> String {
    if bytes.is_empty() {
        return "-".into();
    }
    bytes.iter().map(|b| format!("{b:02x}")).collect()
}

/// Long inputs are shown by their ends.
pub fn short(bytes: &[u8]) -> String {
    if bytes.len() <= 700 {
        return format!("{} bytes {}", bytes.len(), hex(bytes));
    }
    format!("{} bytes {}..{}", bytes.len(), hex(&bytes[..64]), hex(&bytes[bytes.len() - 64..]))
}

pub fn unhex(text: &str) -> Vec<u8> {
    if text == "-" {
        return Vec::new();
    }
    (0..text.len() / 2).map(|i| u8::from_str_radix(&text[2 * i..2 * i + 2], 16).expect("hex")).collect()
}
