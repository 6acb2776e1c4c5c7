//! Every vector, against every side.

use difftest::answers;
use difftest::requests;
use difftest::seed::tell;
use difftest::sides::Side;
use difftest::vectors;

/// How many vectors of a file were answered.
fn check(file: &str) -> usize {
    let vectors = vectors::file(file);
    for vector in &vectors {
        let request = requests::parse(&vector.request)
            .unwrap_or_else(|fault| panic!("{file}, line {}: {fault:?}", vector.line));
        for side in Side::ALL {
            let answer = answers::to_request(side, &request);
            assert_eq!(
                answer, vector.answer,
                "{file}, line {}, {side:?}: {}",
                vector.line, vector.request
            );
        }
    }
    tell(&format!("{file}: {} answered", vectors.len()));
    vectors.len()
}

#[test]
fn reading() {
    assert_eq!(check("reading.txt"), 2_358);
}

#[test]
fn open_points() {
    assert_eq!(check("open-points.txt"), 78);
}

#[test]
fn operations() {
    assert_eq!(check("operations.txt"), 298);
}
