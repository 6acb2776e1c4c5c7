//! The steps of an explanation.

use super::Lines;
use crate::explain::{Explanation, Line};
use crate::json::{Object, Value};
use crate::verdict;

impl Lines {
    /// An explanation, and the same as an object.
    pub fn explanation(&mut self, explanation: &Explanation, library: u8) -> Object {
        let steps = self.steps(explanation, library);
        verdict::own(library, explanation.number).with("steps", steps)
    }

    /// The steps, and whether they arrive at the library's number. That they do
    /// not is said before them too.
    pub fn steps(&mut self, explanation: &Explanation, library: u8) -> Vec<Object> {
        let own = explanation.number;
        let unfit = verdict::unfit("this explanation", library, own);
        self.plain("");
        if let Some(unfit) = &unfit {
            self.plain(unfit);
        }
        self.plain("what must hold, in the order of document 01, with the number that is answered");
        self.plain("if it does not:");
        let steps = explanation.steps.lines.iter();
        let steps: Vec<Object> = steps.map(|line| self.step(line)).collect();
        self.plain("");
        let fits = format!("the explanation arrives at {own}, as the library does");
        self.plain(&unfit.unwrap_or(fits));
        steps
    }

    fn step(&mut self, line: &Line) -> Object {
        let (step, number, passed, text) = match line {
            Line::Note(note) => {
                self.plain(&format!("        {note}"));
                ("note", Value::Null, Value::Null, note)
            }
            Line::Test {
                number,
                passed,
                text,
            } => {
                let word = if *passed { "pass" } else { "FAIL" };
                let name = number.map_or("3 to 6, reading".to_string(), verdict::short);
                self.plain(&format!("  {word}  {name:<34} {text}"));
                ("test", (*number).into(), (*passed).into(), text)
            }
        };
        Object::new()
            .with("step", step)
            .with("number", number)
            .with("passed", passed)
            .with("text", &text[..])
    }
}

#[cfg(test)]
mod tests {
    use nattveldi::Refusal;

    use super::*;
    use crate::explain::Steps;

    /// The text, and the object.
    fn shown(library: Refusal, own: Refusal) -> (String, String) {
        let mut steps = Steps::default();
        let number = steps.test(own, false, "a rule").expect_err("it fails");
        let explanation = Explanation { steps, number };
        let mut lines = Lines::about("decide", &[]);
        let own = lines.explanation(&explanation, library.number());
        (lines.text, own.to_string())
    }

    #[test]
    fn an_explanation_that_fits() {
        let (text, json) = shown(Refusal::OutsidePeriod, Refusal::OutsidePeriod);
        assert!(text.contains("FAIL  12 outside period"));
        assert!(text.ends_with("the explanation arrives at 12, as the library does\n"));
        assert!(!text.contains("DOES NOT FIT"));
        let step = r#"{"step":"test","number":12,"passed":false,"text":"a rule"}"#;
        let whole = format!(r#"{{"number":12,"fits":true,"steps":[{step}]}}"#);
        assert_eq!(json, whole);
    }

    /// It is said before and behind the steps.
    #[test]
    fn an_explanation_that_does_not_fit() {
        let (text, json) = shown(Refusal::OutsidePeriod, Refusal::OutsidePlace);
        let said = "DOES NOT FIT: this explanation arrives at 13, the library at 12.";
        assert_eq!(text.matches(said).count(), 2, "{text}");
        assert!(!text.contains("as the library does"));
        assert!(json.starts_with(r#"{"number":13,"fits":false,"#), "{json}");
    }
}
