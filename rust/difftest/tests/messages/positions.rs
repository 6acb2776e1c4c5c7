//! Places: the caller's position and the location header, at the ends of their
//! ranges and at the edges of regions.

use difftest::message::scene::Scene;
use difftest::plan::{Rectangle, MOST_LATITUDE, MOST_LONGITUDE};
use difftest::standing::Place;

use crate::by_hand::{number, scene, BOTH};

const ENDS: [i32; 4] = [i32::MIN, i32::MIN + 1, i32::MAX - 1, i32::MAX];

/// Both ends of a range, one beyond each, and those of the type.
fn around(most: i32) -> Vec<i32> {
    let near = [
        -most - 1,
        -most,
        1 - most,
        -1,
        0,
        1,
        most - 1,
        most,
        most + 1,
    ];
    near.into_iter().chain(ENDS).collect()
}

fn in_range((latitude, longitude): Place) -> bool {
    i64::from(latitude).abs() <= i64::from(MOST_LATITUDE)
        && i64::from(longitude).abs() <= i64::from(MOST_LONGITUDE)
}

fn all_places() -> Vec<Place> {
    let longitudes = around(MOST_LONGITUDE);
    let row = |latitude| {
        longitudes
            .iter()
            .map(move |&longitude| (latitude, longitude))
    };
    around(MOST_LATITUDE).into_iter().flat_map(row).collect()
}

/// The caller's position is tested whether the message has a location or not.
#[test]
fn positions_of_the_caller() {
    for carried in BOTH {
        for place in all_places() {
            for location in [None, Some((0, 0))] {
                let mut scene = scene(carried);
                (scene.own, scene.location) = (place, location);
                let expected = if in_range(place) { 0 } else { 1 };
                assert_eq!(number(scene), expected, "{place:?}, {location:?}");
            }
        }
    }
}

/// A location header that is out of range is malformed.
#[test]
fn locations() {
    for carried in BOTH {
        for place in all_places() {
            let mut scene = scene(carried);
            scene.location = Some(place);
            let is_place = in_range(place);
            if !is_place {
                scene
                    .octet_breaks
                    .push(|made, _| made.facts.reading = Some(Err(5)));
            }
            let expected = if is_place { 0 } else { 5 };
            assert_eq!(number(scene), expected, "{place:?}");
        }
    }
}

/// The number for a place, by the caller's position and by a location header;
/// the other one is elsewhere.
fn asked(sound: &Scene, place: Place) -> u8 {
    const ELSEWHERE: Place = (-MOST_LATITUDE, MOST_LONGITUDE);
    let mut by_caller = sound.clone();
    by_caller.own = place;
    let mut by_header = sound.clone();
    (by_header.own, by_header.location) = (ELSEWHERE, Some(place));
    let numbers = (number(by_caller), number(by_header));
    assert_eq!(numbers.0, numbers.1, "{place:?}");
    numbers.0
}

/// The edges belong to a rectangle, and nothing beyond them does; longitudes
/// and latitudes may be below zero.
#[test]
fn edges() {
    const RECTANGLES: [Rectangle; 4] = [
        [50, -80, -50, 80],
        [-100, -1_700_000_000, -200, -1_600_000_000],
        [900_000_000, 1_000, 899_999_999, 1_800_000_000],
        [1, -1_800_000_000, 0, 1_800_000_000],
    ];
    for carried in BOTH {
        for count in 1..=RECTANGLES.len() {
            let region = &RECTANGLES[..count];
            let mut scene = scene(carried);
            scene.chain.signer.region = Some(region.to_vec());
            for place in region.iter().flat_map(corners) {
                let is_inside = region.iter().any(|r| holds(r, place));
                let expected = if is_inside { 0 } else { 13 };
                assert_eq!(asked(&scene, place), expected, "{region:?}, {place:?}");
            }
        }
    }
}

/// At each edge, inside and outside by one, as far as there are places.
fn corners(&[north, west, south, east]: &Rectangle) -> Vec<Place> {
    let latitudes = [south - 1, south, south + 1, north - 1, north, north + 1];
    let longitudes = [west - 1, west, west + 1, east - 1, east, east + 1];
    let row = |latitude| longitudes.map(|longitude| (latitude, longitude));
    let places = latitudes.into_iter().flat_map(row);
    places.filter(|place| in_range(*place)).collect()
}

fn holds(&[north, west, south, east]: &Rectangle, (latitude, longitude): Place) -> bool {
    latitude <= north && latitude >= south && longitude >= west && longitude <= east
}

/// The place must lie in the region of the signer, and everywhere above it: an
/// issuer's region holds the signer's, or that is what is wrong.
#[test]
fn regions_of_issuers() {
    for carried in BOTH {
        let mut scene = scene(carried);
        scene.chain.signer.region = Some(vec![[50, -80, -50, 80]]);
        scene.chain.above[1].rectangles = vec![[49, -80, -50, 80]];
        assert_eq!(asked(&scene, (0, 0)), 13);
        scene.chain.above[1].rectangles = vec![[50, -80, -50, 80], [60, 1, 55, 2]];
        assert_eq!(asked(&scene, (50, 80)), 0);
        scene.chain.above[0].rectangles = vec![[50, -80, -50, 80]];
        assert_eq!(asked(&scene, (50, 80)), 13);
        scene.chain.above[0].rectangles = vec![[50, -80, -50, 80], [60, 0, 55, 3]];
        assert_eq!(asked(&scene, (50, 80)), 0);
    }
}
