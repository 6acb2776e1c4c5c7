//! The limits that the types keep are the library's.

#[allow(dead_code)] // what other tests use of it
mod sample;

use nattveldi::raw::{self, Situation, QUESTIONS_LENGTH};
use nattveldi::{Age, Position};

const BAD_CALL: u8 = 1;
const NOW: u64 = 250_000_000;

/// The library's answer to a message that it accepts but for the situation.
fn answer(latitude: i32, longitude: i32, age: u64) -> u8 {
    let situation = Situation {
        now: NOW,
        latitude,
        longitude,
        age,
    };
    let (store, message) = (sample::store(), sample::message());
    let mut questions = [0; QUESTIONS_LENGTH];
    raw::prepare(store.as_octets(), &message, &situation, &mut questions)
}

#[test]
fn of_a_position() {
    let (north, east) = (Position::MOST_LATITUDE, Position::MOST_LONGITUDE);
    for latitude in [-north - 1, -north, 0, north, north + 1] {
        for longitude in [-east - 1, -east, 0, east, east + 1] {
            let refused = Position::new(latitude, longitude).is_err();
            let number = if refused { BAD_CALL } else { 0 };
            assert_eq!(
                answer(latitude, longitude, 0),
                number,
                "{latitude}, {longitude}"
            );
        }
    }
}

#[test]
fn of_an_age() {
    let most = Age::MOST_MICROSECONDS;
    for age in [0, 1, most, most + 1, u64::MAX] {
        let refused = Age::from_microseconds(age).is_err();
        let number = if refused { BAD_CALL } else { 0 };
        assert_eq!(answer(0, 0, age), number, "{age}");
    }
}
