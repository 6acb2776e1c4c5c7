//! Counts in words.

/// `1 octet`, `2 octets`.
pub fn octets(count: usize) -> String {
    match count {
        1 => "1 octet".to_string(),
        _ => format!("{count} octets"),
    }
}

/// `1 is left`, `2 are left`.
pub fn left(count: usize) -> String {
    let verb = if count == 1 { "is" } else { "are" };
    format!("{count} {verb} left")
}

#[cfg(test)]
mod tests {
    use super::*;

    #[test]
    fn one_and_others() {
        assert_eq!([0, 1, 2].map(octets), ["0 octets", "1 octet", "2 octets"]);
        let words = ["0 are left", "1 is left", "2 are left"];
        assert_eq!([0, 1, 2].map(left), words);
    }
}
