//! The answers about several files.

use crate::arguments::Source;
use crate::input::{input, Origin};
use crate::output::Outcome;
use crate::show::{self, Page};
use crate::styles::Styles;

/// Stands for the number of a file that could not be read.
const NO_NUMBER: &str = "-";

/// The answer about a file, or about several in the order given. One of several
/// that cannot be read does not keep the others from being shown.
pub fn about(
    command: &'static str,
    sources: &[Source],
    show: impl Fn(&Origin, &[u8]) -> Page,
) -> Result<Outcome, String> {
    let shown = |source| input(source).map(|input| show(&input.origin, &input.octets));
    match sources {
        [source] => shown(source).map(Outcome::from),
        _ => Ok(joined(command, sources.iter().map(shown).collect())),
    }
}

fn joined(command: &'static str, answers: Vec<Result<Page, String>>) -> Outcome {
    let mut accepted = true;
    let (mut texts, mut numbers, mut faults) = (Vec::new(), String::new(), Vec::new());
    let mut results = Vec::new();
    for answer in answers {
        match answer {
            Ok(page) => {
                accepted &= page.accepted;
                numbers.push_str(&format!("{}\n", page.number));
                texts.push(page.text);
                results.push(page.json);
            }
            Err(fault) => {
                accepted = false;
                numbers.push_str(&format!("{NO_NUMBER}\n"));
                results.push(show::head(command).with("error", &fault[..]));
                faults.push(fault);
            }
        }
    }
    let json = show::head(command).with("accepted", accepted);
    let json = json.with("results", results);
    Outcome {
        out: texts.join("\n").into_bytes(),
        styles: Some(Styles { json, numbers }),
        faults,
        accepted,
        ..Outcome::default()
    }
}
