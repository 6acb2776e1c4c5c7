//! A valid certificate, made up at random: its values, and the answer line that
//! the papers give it. No reader has a part in this.

use crate::answers;
use crate::hex;
use crate::random::Random;

pub const TICKET: u8 = 1;
pub const AUTHORITY: u8 = 2;
pub const ROOT: u8 = 4;

pub const MOST_LATITUDE: i32 = 900_000_000;
pub const MOST_LONGITUDE: i32 = 1_800_000_000;
/// The largest value of an IntX of up to four octets.
pub const MOST_INTX: u32 = 268_435_455;
/// Seconds of each unit of a duration.
pub const UNITS: [u64; 5] = [1, 60, 3_600, 216_000, 31_556_925];
pub const MOST_DURATION_COUNT: u16 = 8_191;
/// The latest end of a period.
pub const LATEST_END: u64 = 262_777_739_970;

pub const MOST_PERMISSIONS: usize = 16;
pub const MOST_RECTANGLES: usize = 4;
pub const SIGNATURE_LENGTH: usize = 66;

/// A point of the curve: its type and its x coordinate.
#[derive(Clone, Debug)]
pub struct Point {
    pub point_type: u8,
    pub x: [u8; 32],
}

#[derive(Clone, Debug)]
pub struct Permission {
    pub its_aid: u32,
    /// Only tickets have it in their octets.
    pub ssp: Vec<u8>,
}

#[derive(Clone, Copy, Debug)]
pub enum Period {
    End(u32),
    StartAndEnd(u32, u32),
    /// The duration has its unit in the top three bits.
    StartAndDuration(u32, u16),
}

/// North, west, south, east.
pub type Rectangle = [i32; 4];

#[derive(Clone, Debug)]
pub struct Plan {
    pub kind: u8,
    pub issuer: [u8; 8],
    pub name: Vec<u8>,
    pub key: Point,
    pub encryption_key: Option<Point>,
    pub assurance: Option<u8>,
    pub permissions: Vec<Permission>,
    pub period: Period,
    /// No rectangles are the region "none".
    pub region: Option<Vec<Rectangle>>,
    pub signature: Point,
    pub signature_s: [u8; 32],
}

impl Plan {
    pub fn random(random: &mut Random) -> Plan {
        let kind = random.pick(&[TICKET, TICKET, AUTHORITY, ROOT]);
        Plan::of_kind(kind, random)
    }

    pub fn of_kind(kind: u8, random: &mut Random) -> Plan {
        let name_length = size(random, 32);
        Plan {
            kind,
            issuer: random.array(),
            name: random.octets(name_length),
            key: point(random, &[2, 3]),
            encryption_key: random.once_in(3).then(|| point(random, &[2, 3])),
            assurance: random.once_in(2).then(|| random.octet()),
            permissions: permissions(random),
            period: period(random),
            region: region(random),
            signature: point(random, &[0, 2, 3]),
            signature_s: random.array(),
        }
    }

    /// The answer line to `read` if the certificate has `length` octets.
    pub fn answer(&self, length: usize) -> String {
        let issuer = if self.kind == ROOT {
            [0; 8]
        } else {
            self.issuer
        };
        let region = self.region.as_deref().unwrap_or_default();
        let (start, end) = self.period.seconds();
        format!(
            "0 {} {} {} {} {} {} {start} {end} {} {} {}",
            self.kind,
            hex::text(&issuer),
            hex::text(&self.name),
            self.key.point_type - 2,
            hex::text(&self.key.x),
            self.assurance
                .map_or("-".to_string(), |assurance| assurance.to_string()),
            answers::list(
                region.iter().map(|[n, w, s, e]| format!("{n},{w},{s},{e}")),
                ";"
            ),
            answers::list(self.permissions.iter().map(|p| p.its_aid.to_string()), ","),
            length - SIGNATURE_LENGTH,
        )
    }
}

impl Period {
    /// The first second and the first second after.
    pub fn seconds(self) -> (u64, u64) {
        match self {
            Period::End(end) => (0, end.into()),
            Period::StartAndEnd(start, end) => (start.into(), end.into()),
            Period::StartAndDuration(start, duration) => {
                let count = u64::from(duration & MOST_DURATION_COUNT);
                let seconds = count * UNITS[usize::from(duration >> 13)];
                (start.into(), u64::from(start) + seconds)
            }
        }
    }
}

/// A size from 0 to `most`, the two ends more often than the others.
fn size(random: &mut Random, most: usize) -> usize {
    match random.below(8) {
        0 => 0,
        1 => most,
        _ => random.below(most + 1),
    }
}

fn point(random: &mut Random, types: &[u8]) -> Point {
    Point {
        point_type: random.pick(types),
        x: random.array(),
    }
}

fn permissions(random: &mut Random) -> Vec<Permission> {
    let count = size(random, MOST_PERMISSIONS);
    let mut permissions: Vec<Permission> = (0..count).map(|_| permission(random)).collect();
    if count > 1 && random.once_in(3) {
        let (from, to) = (random.below(count), random.below(count));
        permissions[to].its_aid = permissions[from].its_aid;
    }
    permissions
}

fn permission(random: &mut Random) -> Permission {
    let ssp_length = size(random, 31);
    Permission {
        its_aid: its_aid(random),
        ssp: random.octets(ssp_length),
    }
}

/// Often at the edge between two lengths of an IntX.
pub fn its_aid(random: &mut Random) -> u32 {
    const EDGES: [u32; 10] = [
        0, 1, 36, 127, 128, 16_383, 16_384, 2_097_151, 2_097_152, MOST_INTX,
    ];
    if random.once_in(2) {
        return random.pick(&EDGES);
    }
    let bits = 1 + random.below(28);
    random.below(1 << bits) as u32
}

fn period(random: &mut Random) -> Period {
    match random.below(3) {
        0 => Period::End(second(random).max(1)),
        1 => {
            let start = second(random).min(u32::MAX - 1);
            let end = if random.once_in(4) {
                start + 1
            } else {
                second(random).max(start + 1)
            };
            Period::StartAndEnd(start, end)
        }
        _ => Period::StartAndDuration(second(random), duration(random)),
    }
}

fn second(random: &mut Random) -> u32 {
    match random.below(3) {
        0 => random.pick(&[
            0,
            1,
            2,
            255,
            256,
            0x7fff_ffff,
            0x8000_0000,
            u32::MAX - 1,
            u32::MAX,
        ]),
        1 => random.below(1_000) as u32,
        _ => random.next() as u32,
    }
}

/// Of at least one second.
fn duration(random: &mut Random) -> u16 {
    let unit = random.below(UNITS.len()) as u16;
    let count = match random.below(3) {
        0 => random.pick(&[1, 2, 255, 256, MOST_DURATION_COUNT]),
        _ => random.between(1, MOST_DURATION_COUNT.into()) as u16,
    };
    unit << 13 | count
}

fn region(random: &mut Random) -> Option<Vec<Rectangle>> {
    match random.below(5) {
        0 => None,
        1 => Some(Vec::new()),
        _ => {
            let count = 1 + random.below(MOST_RECTANGLES);
            Some((0..count).map(|_| rectangle(random)).collect())
        }
    }
}

pub fn rectangle(random: &mut Random) -> Rectangle {
    let (south, north) = two_edges(random, MOST_LATITUDE);
    let (west, east) = two_edges(random, MOST_LONGITUDE);
    [north, west, south, east]
}

/// Two different numbers from `-most` to `most`, the lower one first.
fn two_edges(random: &mut Random, most: i32) -> (i32, i32) {
    let one = edge(random, most);
    let other = match random.below(4) {
        0 if one < most => one + 1,
        _ => edge(random, most),
    };
    match one.cmp(&other) {
        std::cmp::Ordering::Less => (one, other),
        std::cmp::Ordering::Greater => (other, one),
        std::cmp::Ordering::Equal => (-most, most),
    }
}

fn edge(random: &mut Random, most: i32) -> i32 {
    match random.below(3) {
        0 => random.pick(&[-most, 1 - most, -256, -1, 0, 1, 256, most - 1, most]),
        1 => random.between(-1_000, 1_000) as i32,
        _ => random.between((-most).into(), most.into()) as i32,
    }
}

#[cfg(test)]
mod tests {
    use super::*;

    /// Paper 01: duration 2001 is 60 and 6002 is 432,000; the latest end.
    #[test]
    fn seconds_of_a_period() {
        assert_eq!(Period::StartAndDuration(0, 0x2001).seconds(), (0, 60));
        assert_eq!(Period::StartAndDuration(5, 0x6002).seconds(), (5, 432_005));
        assert_eq!(
            Period::StartAndDuration(u32::MAX, 0x9fff).seconds(),
            (4_294_967_295, LATEST_END)
        );
        assert_eq!(Period::End(7).seconds(), (0, 7));
    }

    #[test]
    fn plans_keep_the_papers_rules() {
        for case in 0..5_000 {
            let plan = Plan::random(&mut Random::for_case(1, case));
            let (start, end) = plan.period.seconds();
            assert!(start < end && plan.name.len() <= 32 && plan.permissions.len() <= 16);
            for permission in &plan.permissions {
                assert!(permission.its_aid <= MOST_INTX && permission.ssp.len() <= 31);
            }
            let region = plan.region.unwrap_or_default();
            assert!(region.len() <= 4);
            for [north, west, south, east] in region {
                assert!(-MOST_LATITUDE <= south && south < north && north <= MOST_LATITUDE);
                assert!(-MOST_LONGITUDE <= west && west < east && east <= MOST_LONGITUDE);
            }
        }
    }
}
