//! Octet strings in the vectors' format: lowercase hex, `-` for none, and
//! `(N)` inside for N zero octets.

/// More octets than any request has: a larger `(N)` does not parse.
const MOST_OCTETS: usize = 1 << 20;

/// The octets of a string, or `None` if it is not in the format.
pub fn octets(text: &str) -> Option<Vec<u8>> {
    if text == "-" {
        return Some(Vec::new());
    }
    let mut octets = Vec::new();
    let mut rest = text.as_bytes();
    while let Some(&first) = rest.first() {
        if first == b'(' {
            let end = rest.iter().position(|&c| c == b')')?;
            let zeros = number(&rest[1..end])?;
            if octets.len() + zeros > MOST_OCTETS {
                return None;
            }
            octets.resize(octets.len() + zeros, 0);
            rest = &rest[end + 1..];
        } else {
            octets.push(digit(first)? << 4 | digit(*rest.get(1)?)?);
            rest = &rest[2..];
        }
    }
    (!text.is_empty()).then_some(octets)
}

/// A line with each `(N)` in it written out as N zero octets, or `None` if a
/// parenthesis is not in the format.
pub fn written_out(line: &str) -> Option<String> {
    let mut pieces = line.split('(');
    let mut text = pieces.next().unwrap_or_default().to_string();
    for piece in pieces {
        let (zeros, rest) = piece.split_once(')')?;
        let zeros = number(zeros.as_bytes()).filter(|&zeros| zeros <= MOST_OCTETS)?;
        text.push_str(&"00".repeat(zeros));
        text.push_str(rest);
    }
    Some(text)
}

/// Octets as the format has them, written out whole.
pub fn text(octets: &[u8]) -> String {
    if octets.is_empty() {
        return "-".to_string();
    }
    octets.iter().map(|octet| format!("{octet:02x}")).collect()
}

fn digit(character: u8) -> Option<u8> {
    match character {
        b'0'..=b'9' => Some(character - b'0'),
        b'a'..=b'f' => Some(character - b'a' + 10),
        _ => None,
    }
}

/// A decimal number of at most seven digits.
fn number(digits: &[u8]) -> Option<usize> {
    if digits.is_empty() || digits.len() > 7 || !digits.iter().all(u8::is_ascii_digit) {
        return None;
    }
    std::str::from_utf8(digits).ok()?.parse().ok()
}

#[cfg(test)]
mod tests {
    use super::*;

    #[test]
    fn strings_of_the_format() {
        assert_eq!(octets("-"), Some(vec![]));
        assert_eq!(octets("0aff"), Some(vec![0x0a, 0xff]));
        assert_eq!(octets("01(3)02"), Some(vec![1, 0, 0, 0, 2]));
        assert_eq!(octets("(0)"), Some(vec![]));
        assert_eq!(text(&[0x0a, 0xff]), "0aff");
        assert_eq!(text(&[]), "-");
    }

    #[test]
    fn lines_written_out() {
        assert_eq!(written_out("0 01(2)ff -"), Some("0 010000ff -".into()));
        assert_eq!(written_out("10 (1)(3)"), Some("10 00000000".into()));
        assert_eq!(written_out("5"), Some("5".into()));
        for line in ["0 (", "0 (3", "0 ()", "0 (x)", "0 (9999999)"] {
            assert_eq!(written_out(line), None, "{line}");
        }
    }

    #[test]
    fn strings_outside_it() {
        for text in [
            "",
            "0",
            "0A",
            "0g",
            "--",
            "-0",
            "(",
            "(3",
            "()",
            "(x)",
            "(+1)",
            "(-1)",
            "0(1)0",
            "(9999999)",
        ] {
            assert_eq!(octets(text), None, "{text}");
        }
    }
}
