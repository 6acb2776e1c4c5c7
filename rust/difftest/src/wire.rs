//! Octets under construction, with a mark at each field.

use crate::random::Random;

/// What a mark says about the field that starts there.
#[derive(Clone, Copy, Debug, PartialEq, Eq)]
pub enum Field {
    /// A version, kind, type or algorithm, one octet.
    Type,
    /// The length of a vector.
    Length,
    /// A number of variable length that is no vector's length.
    IntX,
    Time,
    Duration,
    Latitude,
    Longitude,
    /// Octets that mean nothing to a reader.
    Run,
}

#[derive(Clone, Copy, Debug, PartialEq, Eq)]
pub struct Mark {
    pub field: Field,
    pub at: usize,
    pub length: usize,
}

#[derive(Clone, Debug, Default)]
pub struct Wire {
    pub octets: Vec<u8>,
    pub marks: Vec<Mark>,
}

impl Wire {
    pub fn put(&mut self, field: Field, octets: &[u8]) {
        self.marks.push(Mark {
            field,
            at: self.octets.len(),
            length: octets.len(),
        });
        self.octets.extend(octets);
    }

    /// Appends what was written elsewhere, marks too.
    pub fn append(&mut self, other: Wire) {
        let by = self.octets.len();
        self.marks.extend(other.marks.into_iter().map(|mark| Mark {
            at: mark.at + by,
            ..mark
        }));
        self.octets.extend(other.octets);
    }

    /// A random mark of a field, if there is one whose octets are still there.
    pub fn pick(&self, field: Field, random: &mut Random) -> Option<Mark> {
        let fits = |mark: &Mark| mark.field == field && mark.at + mark.length <= self.octets.len();
        let marks: Vec<Mark> = self.marks.iter().copied().filter(fits).collect();
        (!marks.is_empty()).then(|| random.pick(&marks))
    }
}

/// An IntX with `further` octets behind the first, at most 3. The value is cut
/// to what fits.
pub fn intx(value: u32, further: usize) -> Vec<u8> {
    let ones = !(0xff_u32 >> further) & 0xff;
    let mut octets = (ones << (8 * further) | value & (most_intx(further)))
        .to_be_bytes()
        .to_vec();
    octets.split_off(3 - further)
}

/// The fewest further octets that hold a value.
pub fn shortest(value: u32) -> usize {
    (0..3)
        .find(|&further| value <= most_intx(further))
        .unwrap_or(3)
}

/// The largest value with so many further octets.
fn most_intx(further: usize) -> u32 {
    (1 << (7 * (further + 1))) - 1
}

#[cfg(test)]
mod tests {
    use super::*;

    /// The worked numbers of paper 01.
    #[test]
    fn intx_of_the_paper() {
        for (value, octets) in [
            (10, vec![0x0a]),
            (2_184, vec![0x88, 0x88]),
            (128, vec![0x80, 0x80]),
            (16_384, vec![0xc0, 0x40, 0x00]),
            (268_435_455, vec![0xef, 0xff, 0xff, 0xff]),
        ] {
            assert_eq!(intx(value, shortest(value)), octets);
        }
        assert_eq!(intx(127, 1), [0x80, 0x7f]);
    }
}
