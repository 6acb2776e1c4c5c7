//! The times as a table.

use std::fmt::Write;

use crate::measure::Contest;

pub fn markdown(contests: &[Contest], rounds: usize) -> String {
    let mut text = format!("Nanoseconds an input, the shortest of {rounds} rounds.\n\n");
    text.push_str("| inputs | count | mean octets | operation | library | reference | ratio |\n");
    text.push_str("|---|---:|---:|---|---:|---:|---:|\n");
    for contest in contests {
        let Contest {
            operation,
            set,
            library,
            reference,
            ..
        } = contest;
        let (count, octets) = (set.inputs.len(), set.mean_length());
        writeln!(
            text,
            "| {} | {count} | {octets} | {operation} | {library:.0} | {reference:.0} | {:.2} |",
            set.name,
            library / reference,
        )
        .expect("a string takes everything");
    }
    text
}
