//! Places inside a region and just outside it.

use crate::plan::{Rectangle, MOST_LATITUDE, MOST_LONGITUDE};
use crate::random::Random;
use crate::standing::Place;

/// In a region, often on an edge; no rectangles are everywhere.
pub fn inside(rectangles: &[Rectangle], random: &mut Random) -> Place {
    if rectangles.is_empty() {
        return anywhere(random);
    }
    let [north, west, south, east] = random.pick(rectangles);
    (between(south, north, random), between(west, east, random))
}

/// Any place, often at the end of a range.
pub fn anywhere(random: &mut Random) -> Place {
    (
        between(-MOST_LATITUDE, MOST_LATITUDE, random),
        between(-MOST_LONGITUDE, MOST_LONGITUDE, random),
    )
}

fn between(low: i32, high: i32, random: &mut Random) -> i32 {
    let any = random.between(low.into(), high.into()) as i32;
    random.pick(&[low, high, any])
}

/// Beyond one edge of a rectangle by one, and inside as to the others; on that
/// edge where nothing is beyond it.
pub fn beyond([north, west, south, east]: Rectangle, random: &mut Random) -> Place {
    let latitude = between(south, north, random);
    let longitude = between(west, east, random);
    match random.below(4) {
        0 => ((north + 1).min(MOST_LATITUDE), longitude),
        1 => ((south - 1).max(-MOST_LATITUDE), longitude),
        2 => (latitude, (west - 1).max(-MOST_LONGITUDE)),
        _ => (latitude, (east + 1).min(MOST_LONGITUDE)),
    }
}

/// With a coordinate that no place has.
pub fn out_of_range(random: &mut Random) -> Place {
    let (latitude, longitude) = anywhere(random);
    let beyond = |most: i32, random: &mut Random| {
        random.pick(&[most + 1, -most - 1, i32::MAX, i32::MIN, i32::MIN + 1])
    };
    match random.below(3) {
        0 => (beyond(MOST_LATITUDE, random), longitude),
        1 => (latitude, beyond(MOST_LONGITUDE, random)),
        _ => (
            beyond(MOST_LATITUDE, random),
            beyond(MOST_LONGITUDE, random),
        ),
    }
}
