//! Octets that may be text.

use super::hex;

/// In hex, and as text too if it is printable ASCII.
pub fn text(octets: &[u8]) -> String {
    match quoted(octets) {
        Some(text) => format!("{} {text}", hex::text(octets)),
        None => hex::text(octets),
    }
}

/// As text if it can be, else in hex.
pub fn short(octets: &[u8]) -> String {
    match quoted(octets) {
        _ if octets.is_empty() => "without a name".to_string(),
        Some(text) => text,
        None => hex::text(octets),
    }
}

fn quoted(octets: &[u8]) -> Option<String> {
    printable(octets).map(|text| format!("\"{text}\""))
}

/// As text, if there is any and all of it is printable ASCII.
pub fn printable(octets: &[u8]) -> Option<String> {
    let printable = |c: &u8| c.is_ascii_graphic() || *c == b' ';
    if octets.is_empty() || !octets.iter().all(printable) {
        return None;
    }
    Some(String::from_utf8_lossy(octets).into_owned())
}

#[cfg(test)]
mod tests {
    use super::*;

    #[test]
    fn names() {
        assert_eq!(text(b"B1"), "4231 \"B1\"");
        assert_eq!(text(b"a\n"), "610a");
        assert_eq!(text(b""), "-");
        assert_eq!(short(b"B1"), "\"B1\"");
        assert_eq!(short(&[0xc3, 0xa5]), "c3a5");
        assert_eq!(short(b""), "without a name");
    }
}
