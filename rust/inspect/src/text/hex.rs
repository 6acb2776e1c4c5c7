//! Hex text: two digits an octet; white space does not count, nor does a
//! comment from `#` to the end of its line, nor a byte order mark before it all.

/// As some editors put it before a text in UTF-8.
const BYTE_ORDER_MARK: &[u8] = "\u{feff}".as_bytes();

pub fn octets(text: &[u8]) -> Result<Vec<u8>, String> {
    let mut digits = Vec::new();
    for (index, code) in codes(text).enumerate() {
        for &character in code.iter().filter(|c| !c.is_ascii_whitespace()) {
            let Some(digit) = (character as char).to_digit(16) else {
                let shown = char::from(character).escape_default();
                return Err(format!("line {}: '{shown}' is no hex digit", index + 1));
            };
            digits.push(digit as u8);
        }
    }
    if digits.len() % 2 != 0 {
        return Err(format!("an odd number of hex digits, {}", digits.len()));
    }
    let pairs = digits.chunks(2);
    Ok(pairs.map(|pair| pair[0] << 4 | pair[1]).collect())
}

/// Whether octets look like text, so that they are meant as hex: no control
/// character but white space stands anywhere, and outside of comments all are
/// printable ASCII. A raw certificate or message begins with the octet 2, and a
/// raw store has zeros.
pub fn is_text(octets: &[u8]) -> bool {
    let is_control = |c: &u8| c.is_ascii_control() && !c.is_ascii_whitespace();
    let is_ascii = |code: &[u8]| code.is_ascii();
    !octets.is_empty() && !octets.iter().any(is_control) && codes(octets).all(is_ascii)
}

/// Lowercase digits, `-` for no octets.
pub fn text(octets: &[u8]) -> String {
    if octets.is_empty() {
        return "-".to_string();
    }
    digits(octets)
}

/// Lowercase digits.
pub fn digits(octets: &[u8]) -> String {
    octets.iter().map(|octet| format!("{octet:02x}")).collect()
}

/// The lines without their comments.
fn codes(text: &[u8]) -> impl Iterator<Item = &[u8]> {
    let text = text.strip_prefix(BYTE_ORDER_MARK).unwrap_or(text);
    text.split(|&c| c == b'\n')
        .map(|line| line.split(|&c| c == b'#').next().unwrap_or_default())
}

#[cfg(test)]
mod tests {
    use super::*;

    #[test]
    fn both_ways() {
        let given = b" 0aFf # a comment, xyz \xc3\xa5\n#\n 1\t0\r\n";
        assert_eq!(octets(given), Ok(vec![0x0a, 0xff, 0x10]));
        assert!(is_text(given));
        assert_eq!(text(&[0x0a, 0xff, 0x10]), "0aff10");
        assert_eq!(text(&[]), "-");
    }

    #[test]
    fn faults() {
        let odd = "an odd number of hex digits, 3";
        assert_eq!(octets(b"012"), Err(odd.to_string()));
        let line = "line 2: 'g' is no hex digit";
        assert_eq!(octets(b"00\n0g"), Err(line.to_string()));
    }

    /// At the start it is skipped, elsewhere it is a fault.
    #[test]
    fn a_byte_order_mark() {
        let marked = b"\xef\xbb\xbf0aff # a comment\n";
        assert!(is_text(marked));
        assert_eq!(octets(marked), Ok(vec![0x0a, 0xff]));
        let twice = [&b"\xef\xbb\xbf"[..], marked].concat();
        assert!(!is_text(&twice) && octets(&twice).is_err());
        let raw = [&b"\xef\xbb\xbf"[..], &[0; 5]].concat();
        assert!(!is_text(&raw));
    }

    #[test]
    fn octets_are_no_text() {
        assert!(!is_text(&[2, 0, 4]));
        assert!(!is_text(&[0; 20]));
        assert!(!is_text(&[]));
        assert!(!is_text(&[&b"#1234567"[..], &[0; 204]].concat()));
        assert!(!is_text("å0".as_bytes()));
        assert!(is_text(b"0g"));
    }
}
