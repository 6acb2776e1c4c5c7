//! Breaks: changes with a name, made at random to something sound.

use crate::random::Random;

pub type Break<T> = (&'static str, fn(&mut T, &mut Random));

/// Makes so many of them, and says which.
pub fn make<T>(
    subject: &mut T,
    count: usize,
    all: &[Break<T>],
    random: &mut Random,
) -> Vec<&'static str> {
    let mut names = Vec::new();
    for _ in 0..count {
        let (name, change) = random.pick(all);
        change(subject, random);
        names.push(name);
    }
    names
}
