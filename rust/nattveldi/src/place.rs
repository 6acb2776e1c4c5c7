//! Where: positions, rectangles and regions, in tenths of a microdegree.

use core::fmt;

use crate::raw::MOST_RECTANGLES;
use crate::refusal::Refusal;

const TENTHS_A_DEGREE: u32 = 10_000_000;

/// A place on the earth, always in range.
///
/// ```
/// use nattveldi::{Position, Refusal};
///
/// let here = Position::new(641_500_000, -219_000_000)?;
/// assert_eq!(here.to_string(), "64.1500000, -21.9000000");
/// assert_eq!(Position::from_degrees(64.15, -21.9)?, here);
/// // Latitude and longitude mixed up: no latitude is so far north.
/// assert_eq!(Position::from_degrees(139.7, 35.7), Err(Refusal::BadCall));
/// # Ok::<(), Refusal>(())
/// ```
#[derive(Clone, Copy, Debug, PartialEq, Eq, Hash)]
pub struct Position {
    latitude: i32,
    longitude: i32,
}

impl Position {
    /// The farthest latitude to either side of 0: 90 degrees.
    pub const MOST_LATITUDE: i32 = 900_000_000;
    /// The farthest longitude to either side of 0: 180 degrees.
    pub const MOST_LONGITUDE: i32 = 1_800_000_000;

    /// A position by latitude and longitude, in tenths of a microdegree, north
    /// and east positive.
    ///
    /// # Errors
    ///
    /// [`Refusal::BadCall`] for a latitude beyond 90 degrees or a longitude
    /// beyond 180.
    ///
    /// ```
    /// use nattveldi::{Position, Refusal};
    ///
    /// assert!(Position::new(-900_000_000, 1_800_000_000).is_ok());
    /// assert_eq!(Position::new(900_000_001, 0), Err(Refusal::BadCall));
    /// ```
    pub const fn new(latitude: i32, longitude: i32) -> Result<Position, Refusal> {
        if latitude.unsigned_abs() > Position::MOST_LATITUDE.unsigned_abs()
            || longitude.unsigned_abs() > Position::MOST_LONGITUDE.unsigned_abs()
        {
            return Err(Refusal::BadCall);
        }
        Ok(Position {
            latitude,
            longitude,
        })
    }

    /// A position by latitude and longitude in degrees, rounded to the nearest
    /// tenth of a microdegree, which is about a centimetre.
    ///
    /// # Errors
    ///
    /// [`Refusal::BadCall`] for what is out of range, or not a number.
    ///
    /// ```
    /// use nattveldi::{Position, Refusal};
    ///
    /// assert_eq!(Position::from_degrees(64.150_000_04, 0.0)?.latitude(), 641_500_000);
    /// assert_eq!(Position::from_degrees(f64::NAN, 0.0), Err(Refusal::BadCall));
    /// # Ok::<(), Refusal>(())
    /// ```
    pub fn from_degrees(latitude: f64, longitude: f64) -> Result<Position, Refusal> {
        Position::new(tenths(latitude)?, tenths(longitude)?)
    }

    /// The latitude in tenths of a microdegree, north positive.
    ///
    /// ```
    /// assert_eq!(nattveldi::Position::new(5, 7)?.latitude(), 5);
    /// # Ok::<(), nattveldi::Refusal>(())
    /// ```
    #[must_use]
    pub const fn latitude(self) -> i32 {
        self.latitude
    }

    /// The longitude in tenths of a microdegree, east positive.
    ///
    /// ```
    /// assert_eq!(nattveldi::Position::new(5, 7)?.longitude(), 7);
    /// # Ok::<(), nattveldi::Refusal>(())
    /// ```
    #[must_use]
    pub const fn longitude(self) -> i32 {
        self.longitude
    }
}

/// The nearest tenth of a microdegree, halves away from 0.
fn tenths(degrees: f64) -> Result<i32, Refusal> {
    let tenths = degrees * f64::from(TENTHS_A_DEGREE);
    let half = if tenths < 0.0 { -0.5 } else { 0.5 };
    if !(f64::from(i32::MIN)..=f64::from(i32::MAX)).contains(&(tenths + half)) {
        return Err(Refusal::BadCall);
    }
    #[allow(clippy::cast_possible_truncation)] // it is in range, and loses its fraction
    Ok((tenths + half) as i32)
}

/// Latitude and longitude in degrees.
impl fmt::Display for Position {
    fn fmt(&self, f: &mut fmt::Formatter<'_>) -> fmt::Result {
        write_degrees(f, self.latitude)?;
        f.write_str(", ")?;
        write_degrees(f, self.longitude)
    }
}

fn write_degrees(f: &mut fmt::Formatter<'_>, tenths: i32) -> fmt::Result {
    let sign = if tenths < 0 { "-" } else { "" };
    let size = tenths.unsigned_abs();
    let (whole, rest) = (size / TENTHS_A_DEGREE, size % TENTHS_A_DEGREE);
    write!(f, "{sign}{whole}.{rest:07}")
}

/// A rectangle, its edges in tenths of a microdegree.
///
/// ```
/// # mod sample { include!(concat!(env!("CARGO_MANIFEST_DIR"), "/tests/sample/mod.rs")); }
/// use nattveldi::{read, Rectangle};
///
/// let land = Rectangle { north: 9, west: -8, south: 0, east: 8 };
/// assert_eq!(read(&sample::root_in(land))?.region.rectangles(), [land]);
/// # Ok::<(), nattveldi::Refusal>(())
/// ```
#[derive(Clone, Copy, Debug, Default, PartialEq, Eq, Hash)]
pub struct Rectangle {
    /// The latitude of the north edge.
    pub north: i32,
    /// The longitude of the west edge.
    pub west: i32,
    /// The latitude of the south edge.
    pub south: i32,
    /// The longitude of the east edge.
    pub east: i32,
}

impl Rectangle {
    /// A rectangle of four edges, in the order in which the library writes them.
    pub(crate) fn from_edges(edge: impl Fn(usize) -> u32) -> Rectangle {
        let edge = |index| edge(index).cast_signed();
        Rectangle {
            north: edge(0),
            west: edge(1),
            south: edge(2),
            east: edge(3),
        }
    }
}

/// Where a certificate is valid: everywhere, or in one to four rectangles. Their
/// edges belong to them.
///
/// ```
/// # mod sample { include!(concat!(env!("CARGO_MANIFEST_DIR"), "/tests/sample/mod.rs")); }
/// use nattveldi::{read, Rectangle};
///
/// let region = read(&sample::root("R"))?.region;
/// assert!(region.is_everywhere());
///
/// let land = Rectangle { north: 9, west: -8, south: 0, east: 8 };
/// let region = read(&sample::root_in(land))?.region;
/// assert!(!region.is_everywhere());
/// assert_eq!(region.rectangles(), [land]);
/// # Ok::<(), nattveldi::Refusal>(())
/// ```
#[derive(Clone, Copy, Debug, Default, PartialEq, Eq, Hash)]
pub struct Region {
    count: usize,
    rectangles: [Rectangle; MOST_RECTANGLES],
}

impl Region {
    /// A region of so many rectangles; none of them means everywhere.
    pub(crate) fn of(count: usize, rectangle: impl Fn(usize) -> Rectangle) -> Region {
        let mut rectangles = [Rectangle::default(); MOST_RECTANGLES];
        for (index, place) in rectangles[..count].iter_mut().enumerate() {
            *place = rectangle(index);
        }
        Region { count, rectangles }
    }

    /// Whether it has no bounds.
    ///
    /// ```
    /// assert!(nattveldi::Region::default().is_everywhere());
    /// ```
    #[must_use]
    pub const fn is_everywhere(&self) -> bool {
        self.count == 0
    }

    /// The rectangles, in the certificate's order, at most 4. There are none
    /// where the region is everywhere.
    ///
    /// ```
    /// assert!(nattveldi::Region::default().rectangles().is_empty());
    /// ```
    #[must_use]
    pub fn rectangles(&self) -> &[Rectangle] {
        &self.rectangles[..self.count]
    }
}

#[cfg(test)]
mod tests {
    use alloc::format;

    use super::*;

    #[test]
    fn edges_of_the_range() {
        let [north, east] = [Position::MOST_LATITUDE, Position::MOST_LONGITUDE];
        for (latitude, longitude) in [(north, east), (-north, -east), (0, 0)] {
            let position = Position::new(latitude, longitude).expect("in range");
            assert_eq!(
                (position.latitude(), position.longitude()),
                (latitude, longitude)
            );
        }
        for (latitude, longitude) in [
            (north + 1, 0),
            (-north - 1, 0),
            (0, east + 1),
            (0, -east - 1),
            (i32::MIN, 0),
            (0, i32::MIN),
            (i32::MAX, i32::MAX),
        ] {
            assert_eq!(
                Position::new(latitude, longitude),
                Err(Refusal::BadCall),
                "{latitude}, {longitude}"
            );
        }
    }

    #[test]
    fn degrees_are_rounded() {
        for (degrees, tenths) in [
            (64.15, 641_500_000),
            (-21.9, -219_000_000),
            (0.000_000_04, 0),
            (-0.000_000_04, 0),
            (0.000_000_06, 1),
            (-0.000_000_06, -1),
            (89.999_999_96, 900_000_000),
            (-90.0, -900_000_000),
        ] {
            let position = Position::from_degrees(degrees, degrees).expect("in range");
            assert_eq!(
                (position.latitude(), position.longitude()),
                (tenths, tenths)
            );
        }
    }

    #[test]
    fn degrees_out_of_range() {
        for degrees in [180.000_000_1, 1e300, f64::INFINITY, f64::NAN] {
            for degrees in [degrees, -degrees] {
                assert_eq!(Position::from_degrees(degrees, 0.0), Err(Refusal::BadCall));
                assert_eq!(Position::from_degrees(0.0, degrees), Err(Refusal::BadCall));
            }
        }
    }

    #[test]
    fn the_sign_is_written_below_one_degree() {
        let position = Position::new(-1, 1_799_999_999).expect("in range");
        assert_eq!(format!("{position}"), "-0.0000001, 179.9999999");
    }
}
