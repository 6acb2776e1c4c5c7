//! Tenths of a microdegree as degrees, exactly.

pub fn text(tenths: i32) -> String {
    format!("{} degrees ({tenths})", plain(tenths))
}

pub fn place(latitude: i32, longitude: i32) -> String {
    let (latitude, longitude) = (plain(latitude), plain(longitude));
    format!("latitude {latitude}, longitude {longitude}")
}

pub fn plain(tenths: i32) -> String {
    let sign = if tenths < 0 { "-" } else { "" };
    let size = tenths.unsigned_abs();
    format!("{sign}{}.{:07}", size / 10_000_000, size % 10_000_000)
}

/// Degrees with at most 7 decimals, such as -21.9.
pub fn parse(text: &str) -> Option<i32> {
    let (sign, size) = match text.strip_prefix('-') {
        Some(size) => (-1, size),
        None => (1, text),
    };
    let (whole, decimals) = size.split_once('.').unwrap_or((size, "0"));
    let digits = |text: &str| !text.is_empty() && text.bytes().all(|c| c.is_ascii_digit());
    if !digits(whole) || !digits(decimals) || decimals.len() > 7 || whole.len() > 3 {
        return None;
    }
    let tenths = format!("{whole}{decimals:0<7}").parse::<i64>().ok()?;
    i32::try_from(sign * tenths).ok()
}

#[cfg(test)]
mod tests {
    use super::*;

    #[test]
    fn both_ways() {
        let cases = [
            (900_000_000, "90.0000000"),
            (-1, "-0.0000001"),
            (-1_800_000_000, "-180.0000000"),
            (123_456_789, "12.3456789"),
            (0, "0.0000000"),
        ];
        for (tenths, degrees) in cases {
            assert_eq!(plain(tenths), degrees);
            assert_eq!(parse(degrees), Some(tenths));
        }
        assert_eq!(parse("-21.9"), Some(-219_000_000));
        assert_eq!(parse("64"), Some(640_000_000));
    }

    #[test]
    fn what_is_no_number() {
        for text in ["", "-", "1.", ".5", "1.12345678", "x", "1e3", "--1", "300"] {
            assert_eq!(parse(text), None, "{text}");
        }
    }
}
