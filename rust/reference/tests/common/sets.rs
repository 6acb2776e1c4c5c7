//! Every set of the faults in an order of checks.

/// Each set of the faults, with their answers, both in the order of checks.
pub fn sets<F: Copy>(order: &[(F, u8)]) -> impl Iterator<Item = (Vec<F>, Vec<u8>)> + '_ {
    (0..1_usize << order.len()).map(|set| {
        let chosen = (0..order.len()).filter(|number| set >> number & 1 == 1);
        chosen.map(|number| order[number]).unzip()
    })
}

/// The answer that comes first, 0 for none.
pub fn first(answers: &[u8]) -> u8 {
    answers.first().copied().unwrap_or(0)
}
