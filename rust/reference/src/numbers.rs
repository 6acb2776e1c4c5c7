//! The number fields of document 01, "Numbers, lengths and vectors".

use crate::constants::{LATITUDE_LIMIT, LONGITUDE_LIMIT, MALFORMED, UNSUPPORTED};
use crate::octets::Reader;

/// Seconds of each Duration unit (001, table 3); units 5 to 7 are undefined.
const DURATION_UNITS: [u64; 5] = [1, 60, 3_600, 216_000, 31_556_925];

impl<'a> Reader<'a> {
    /// IntX (001, clause 4.2.1) of at most four octets, in its shortest form.
    #[inline]
    pub(crate) fn int_x(&mut self) -> Result<u32, u8> {
        let (value, least) = match self.peek_octet()?.leading_ones() {
            0 => return self.octet().map(u32::from),
            1 => (u32::from(self.u16()?) & 0x3fff, 1 << 7),
            2 => {
                let [a, b, c] = self.array()?;
                (u32::from_be_bytes([0, a, b, c]) & 0x1f_ffff, 1 << 14)
            }
            3 => (self.u32()? & 0x0fff_ffff, 1 << 21),
            _ => return Err(UNSUPPORTED),
        };
        if value < least {
            return Err(MALFORMED);
        }
        Ok(value)
    }

    /// The contents of a `<var>` vector. Passing the container's end is cut, at the length.
    #[inline]
    pub(crate) fn vector(&mut self) -> Result<Reader<'a>, u8> {
        let length = self.int_x()?;
        self.container(length as usize)
    }

    /// Duration (001, clause 4.2.17) in seconds.
    pub(crate) fn duration(&mut self) -> Result<u64, u8> {
        let field = self.u16()?;
        match DURATION_UNITS.get(usize::from(field >> 13)) {
            Some(unit) => Ok(u64::from(field & 0x1fff) * unit),
            None => Err(MALFORMED),
        }
    }

    #[inline]
    pub(crate) fn latitude(&mut self) -> Result<i32, u8> {
        self.angle(LATITUDE_LIMIT)
    }

    #[inline]
    pub(crate) fn longitude(&mut self) -> Result<i32, u8> {
        self.angle(LONGITUDE_LIMIT)
    }

    #[inline]
    fn angle(&mut self, limit: i32) -> Result<i32, u8> {
        let angle = self.i32()?;
        if angle < -limit || angle > limit {
            return Err(MALFORMED);
        }
        Ok(angle)
    }
}

#[cfg(test)]
mod tests {
    use super::*;
    use crate::constants::CUT;

    fn int_x(octets: &[u8]) -> Result<u32, u8> {
        Reader::new(octets).int_x()
    }

    #[test]
    fn int_x_worked_numbers() {
        assert_eq!(int_x(&[0x0a]), Ok(10));
        assert_eq!(int_x(&[0x88, 0x88]), Ok(2_184));
        assert_eq!(int_x(&[0x80, 0x80]), Ok(128));
        assert_eq!(int_x(&[0x80, 0x7f]), Err(MALFORMED));
        assert_eq!(int_x(&[0xc0, 0x40, 0x00]), Ok(16_384));
        assert_eq!(int_x(&[0xef, 0xff, 0xff, 0xff]), Ok(268_435_455));
        assert_eq!(int_x(&[0xf0]), Err(UNSUPPORTED));
        // 001, table 1: vector lengths 5, 123 and 388.
        assert_eq!(int_x(&[0b0000_0101]), Ok(5));
        assert_eq!(int_x(&[0b0111_1011]), Ok(123));
        assert_eq!(int_x(&[0b1000_0001, 0b1000_0100]), Ok(388));
    }

    #[test]
    fn int_x_edges_of_each_length() {
        assert_eq!(int_x(&[0x00]), Ok(0));
        assert_eq!(int_x(&[0x7f]), Ok(127));
        assert_eq!(int_x(&[0xbf, 0xff]), Ok(16_383));
        assert_eq!(int_x(&[0xc0, 0x3f, 0xff]), Err(MALFORMED));
        assert_eq!(int_x(&[0xdf, 0xff, 0xff]), Ok(2_097_151));
        assert_eq!(int_x(&[0xe0, 0x1f, 0xff, 0xff]), Err(MALFORMED));
        assert_eq!(int_x(&[0xe0, 0x20, 0x00, 0x00]), Ok(2_097_152));
        assert_eq!(int_x(&[0xff, 0xff, 0xff, 0xff]), Err(UNSUPPORTED));
    }

    #[test]
    fn int_x_reading_order() {
        assert_eq!(int_x(&[]), Err(CUT));
        assert_eq!(int_x(&[0x80]), Err(CUT));
        assert_eq!(int_x(&[0xc0, 0x00]), Err(CUT));
        assert_eq!(int_x(&[0xe0, 0x00, 0x00]), Err(CUT));
    }

    #[test]
    fn int_x_passes_its_own_octets_alone() {
        for (octets, length) in [
            ([0x7f, 9, 9, 9, 9], 1),
            ([0x80, 0x80, 9, 9, 9], 2),
            ([0xc0, 0x40, 0, 9, 9], 3),
            ([0xe0, 0x20, 0, 0, 9], 4),
        ] {
            let mut reader = Reader::new(&octets);
            assert!(reader.int_x().is_ok());
            assert_eq!(reader.position(), length);
        }
    }

    #[test]
    fn a_vector_is_cut_at_its_containers_end() {
        let mut reader = Reader::new(&[2, 1, 9, 9, 9]);
        let mut outer = reader.vector().unwrap();
        assert_eq!(reader.position(), 3);
        assert_eq!(outer.vector().unwrap().remaining(), 1);
        let mut outer = Reader::new(&[2, 2, 9, 9, 9]).vector().unwrap();
        assert_eq!(outer.vector().err(), Some(CUT));
        // Not shortest: no value to judge further, though 127 octets are not there.
        assert_eq!(Reader::new(&[0x80, 0x7f]).vector().err(), Some(MALFORMED));
    }

    #[test]
    fn duration_worked_numbers() {
        let duration = |field: u16| Reader::new(&field.to_be_bytes()).duration();
        assert_eq!(duration(0x2001), Ok(60));
        assert_eq!(duration(0x6002), Ok(432_000));
        assert_eq!(duration(0xa000), Err(MALFORMED));
        assert_eq!(duration(0xffff), Err(MALFORMED));
        assert_eq!(duration(0x0000), Ok(0));
        assert_eq!(duration(0x1fff), Ok(8_191));
        assert_eq!(duration(0x4001), Ok(3_600));
        assert_eq!(duration(0x9fff), Ok(262_777_739_970 - 4_294_967_295));
        assert_eq!(Reader::new(&[0xa0]).duration(), Err(CUT));
    }

    #[test]
    fn latitude_and_longitude_ranges() {
        let latitude = |value: i32| Reader::new(&value.to_be_bytes()).latitude();
        let longitude = |value: i32| Reader::new(&value.to_be_bytes()).longitude();
        assert_eq!(Reader::new(&[0xff; 4]).latitude(), Ok(-1));
        assert_eq!(Reader::new(&[0xff; 4]).longitude(), Ok(-1));
        assert_eq!(latitude(900_000_000), Ok(900_000_000));
        assert_eq!(latitude(-900_000_000), Ok(-900_000_000));
        assert_eq!(latitude(900_000_001), Err(MALFORMED));
        assert_eq!(latitude(-900_000_001), Err(MALFORMED));
        assert_eq!(longitude(1_800_000_000), Ok(1_800_000_000));
        assert_eq!(longitude(-1_800_000_000), Ok(-1_800_000_000));
        assert_eq!(longitude(1_800_000_001), Err(MALFORMED));
        assert_eq!(longitude(-1_800_000_001), Err(MALFORMED));
        assert_eq!(latitude(i32::MIN), Err(MALFORMED));
        assert_eq!(longitude(i32::MIN), Err(MALFORMED));
        assert_eq!(Reader::new(&[0x7f, 0xff, 0xff]).latitude(), Err(CUT));
    }
}
