//! Numbers, lengths and places (document 01, "Numbers, lengths and vectors").

use super::cursor::{fault, Cursor};
use super::number::{CUT, MALFORMED, UNSUPPORTED};
use super::Fault;
use crate::fact::Fact;
use crate::json::Value;
use crate::text::{count, degrees};

/// The most octets that an IntX has after its first.
const MOST_FURTHER: usize = 3;
/// The seconds of the units of a Duration.
const UNITS: [(u64, &str); 5] = [
    (1, "seconds"),
    (60, "minutes"),
    (3_600, "hours"),
    (216_000, "times 60 hours"),
    (31_556_925, "years"),
];
pub const MOST_LATITUDE: i32 = 900_000_000;
pub const MOST_LONGITUDE: i32 = 1_800_000_000;

impl Cursor<'_> {
    /// An IntX: its own faults in its own order, all at its first octet.
    pub fn intx(&mut self, name: &'static str) -> Result<u32, Fault> {
        let at = self.at();
        let Some(first) = self.peek() else {
            return Err(self.cut(name, 1));
        };
        let further = first.leading_ones() as usize;
        if further > MOST_FURTHER {
            let reason = format!("{name} begins with {first:02x}: an IntX of more than 4 octets");
            return Err(fault(UNSUPPORTED, at, &reason));
        }
        let octets = self.run(name, further + 1)?;
        let whole = octets.iter().fold(0_u32, |n, &o| n << 8 | u32::from(o));
        // The low 7 bits of each octet: further ones and a zero go off the top.
        let value = whole & ((1 << (7 * (further + 1))) - 1);
        self.describe(Fact::number(value));
        let shortest = further == 0 || value >= 1 << (7 * further);
        let reason = format!("{name} is {value} in a form that is not the shortest");
        self.need(shortest, MALFORMED, &reason)?;
        Ok(value)
    }

    pub fn its_aid(&mut self) -> Result<u32, Fault> {
        let value = self.intx("its_aid")?;
        self.describe(Fact::number(value));
        Ok(value)
    }

    /// The length of a vector, which must fit its container; where the vector
    /// ends.
    pub fn length(&mut self, name: &'static str) -> Result<usize, Fault> {
        let length = self.intx(name)? as usize;
        self.describe(Fact::length(length));
        self.fits(name, length)?;
        Ok(self.at() + length)
    }

    /// A vector that passes its container's end is cut at its length.
    pub fn fits(&self, name: &str, length: usize) -> Result<(), Fault> {
        let (says, left) = (count::octets(length), count::left(self.left()));
        let reason = format!("{name} says {says}, and {left} in what holds it");
        self.need(length <= self.left(), CUT, &reason)
    }

    pub fn time32(&mut self, name: &'static str) -> Result<u32, Fault> {
        let value = number(self.run(name, 4)?) as u32;
        self.describe(Fact::second(value.into()));
        Ok(value)
    }

    pub fn time64(&mut self, name: &'static str) -> Result<u64, Fault> {
        let value = number(self.run(name, 8)?);
        self.describe(Fact::microsecond(value));
        Ok(value)
    }

    /// A Duration in seconds.
    pub fn duration(&mut self) -> Result<u64, Fault> {
        let value = number(self.run("duration", 2)?);
        let (unit, count) = ((value >> 13) as usize, value & 0x1fff);
        let words = format!("unit {unit}, count {count}");
        self.describe(Fact::new(words, Value::Null));
        self.need(
            unit < UNITS.len(),
            MALFORMED,
            "an undefined unit of a Duration",
        )?;
        let (seconds, word) = UNITS[unit];
        let words = format!("{count} {word}: {} seconds", count * seconds);
        self.describe(Fact::new(words, count * seconds));
        Ok(count * seconds)
    }

    pub fn latitude(&mut self, name: &'static str) -> Result<i32, Fault> {
        self.coordinate(name, MOST_LATITUDE)
    }

    pub fn longitude(&mut self, name: &'static str) -> Result<i32, Fault> {
        self.coordinate(name, MOST_LONGITUDE)
    }

    fn coordinate(&mut self, name: &'static str, most: i32) -> Result<i32, Fault> {
        let value = number(self.run(name, 4)?) as u32 as i32;
        self.describe(Fact::new(degrees::text(value), value));
        let reason = format!("{name} is {value}, beyond {most} to either side of 0");
        self.need((-most..=most).contains(&value), MALFORMED, &reason)?;
        Ok(value)
    }
}

fn number(octets: &[u8]) -> u64 {
    octets.iter().fold(0, |n, &o| n << 8 | u64::from(o))
}

/// The worked numbers of document 01.
#[cfg(test)]
mod tests {
    use super::*;

    fn read<T>(octets: &[u8], read: fn(&mut Cursor) -> Result<T, Fault>) -> Result<T, u8> {
        read(&mut Cursor::new(octets)).map_err(|fault| fault.number)
    }

    #[test]
    fn intx() {
        let cases: [(&[u8], Result<u32, u8>); 10] = [
            (&[0x0a], Ok(10)),
            (&[0x88, 0x88], Ok(2_184)),
            (&[0x80, 0x80], Ok(128)),
            (&[0x80, 0x7f], Err(5)),
            (&[0xc0, 0x40, 0x00], Ok(16_384)),
            (&[0xef, 0xff, 0xff, 0xff], Ok(268_435_455)),
            (&[0xf0], Err(6)),
            (&[], Err(4)),
            (&[0xc0, 0x40], Err(4)),
            (&[0xc0, 0x3f, 0xff], Err(5)),
        ];
        for (octets, value) in cases {
            assert_eq!(read(octets, |c| c.intx("its_aid")), value, "{octets:02x?}");
        }
    }

    #[test]
    fn durations_and_places() {
        assert_eq!(read(&[0x20, 0x01], |c| c.duration()), Ok(60));
        assert_eq!(read(&[0x60, 0x02], |c| c.duration()), Ok(432_000));
        assert_eq!(read(&[0xa0, 0x00], |c| c.duration()), Err(5));
        let latitude = |octets: &[u8]| read(octets, |c| c.latitude("latitude"));
        assert_eq!(latitude(&[0xff; 4]), Ok(-1));
        assert_eq!(latitude(&900_000_000_i32.to_be_bytes()), Ok(900_000_000));
        assert_eq!(latitude(&900_000_001_i32.to_be_bytes()), Err(5));
        let longitude = |octets: &[u8]| read(octets, |c| c.longitude("longitude"));
        assert_eq!(longitude(&900_000_001_i32.to_be_bytes()), Ok(900_000_001));
        assert_eq!(longitude(&(-1_800_000_001_i32).to_be_bytes()), Err(5));
    }
}
