//! The words of a command line: plain ones, options with a value, flags.

use std::ffi::{OsStr, OsString};

use super::{Form, Source, Style, Target};

const WITH_VALUE: [&str; 7] = [
    "--at",
    "--now",
    "--position",
    "--age",
    "--verdict",
    "--certificate-verdict",
    "--output",
];
const FLAGS: [&str; 9] = [
    "--octets",
    "--hex",
    "--input-raw",
    "--input-hex",
    "--raw",
    "--output-hex",
    "--each",
    "--json",
    "--quiet",
];

/// What says that the inputs are raw octets, and that they are hex text, under
/// two names each.
const INPUT_RAW: [&str; 2] = ["--octets", "--input-raw"];
const INPUT_HEX: [&str; 2] = ["--hex", "--input-hex"];
/// All of them.
pub const INPUT_FORM: [&str; 4] = [INPUT_RAW[0], INPUT_HEX[0], INPUT_RAW[1], INPUT_HEX[1]];
/// What says the form of the output: raw, hex.
pub const OUTPUT_FORM: [&str; 2] = ["--raw", "--output-hex"];

#[derive(Default)]
pub struct Words {
    plain: Vec<OsString>,
    options: Vec<(&'static str, OsString)>,
}

impl Words {
    pub fn sorted(mut words: impl Iterator<Item = OsString>) -> Result<Words, String> {
        let mut sorted = Words::default();
        while let Some(word) = words.next() {
            let known = |options: &[&'static str]| options.iter().copied().find(|o| word == *o);
            if let Some(option) = known(&WITH_VALUE) {
                sorted.option(option, value(option, words.next())?)?;
            } else if let Some(flag) = known(&FLAGS) {
                sorted.option(flag, OsString::new())?;
            } else if word != "-" && word.as_encoded_bytes().starts_with(b"-") {
                return Err(format!("no option {}", word.to_string_lossy()));
            } else {
                sorted.plain.push(word);
            }
        }
        Ok(sorted)
    }

    fn option(&mut self, name: &'static str, value: OsString) -> Result<(), String> {
        if self.has(name) {
            return Err(format!("{name} is given twice"));
        }
        self.options.push((name, value));
        Ok(())
    }

    pub fn plain(&self) -> Vec<&OsStr> {
        self.plain.iter().map(OsString::as_os_str).collect()
    }

    pub fn has(&self, name: &str) -> bool {
        self.options.iter().any(|(option, _)| *option == name)
    }

    /// No option but these and those of the style.
    pub fn allow(&self, command: &str, allowed: &[&str]) -> Result<(), String> {
        let is_known = |o: &str| allowed.contains(&o) || Style::OPTIONS.contains(&o);
        let other = self.options.iter().find(|(option, _)| !is_known(option));
        other.map_or(Ok(()), |(option, _)| {
            Err(format!("{command} takes no option {option}"))
        })
    }

    /// The value of an option, as `parse` understands it.
    pub fn value<T>(
        &self,
        name: &str,
        what: &str,
        parse: impl Fn(&str) -> Option<T>,
    ) -> Result<Option<T>, String> {
        let Some((_, value)) = self.options.iter().find(|(option, _)| *option == name) else {
            return Ok(None);
        };
        let parsed = value.to_str().and_then(parse);
        let fault = format!("{name} wants {what}, not {}", value.to_string_lossy());
        parsed.map(Some).ok_or(fault)
    }

    pub fn source(&self, file: &OsStr) -> Result<Source, String> {
        Ok(Source {
            file: (file != "-").then(|| file.to_owned()),
            form: self.input_form()?,
        })
    }

    fn input_form(&self) -> Result<Option<Form>, String> {
        let given = |names: [&'static str; 2]| names.into_iter().find(|name| self.has(name));
        match (given(INPUT_RAW), given(INPUT_HEX)) {
            (Some(raw), Some(hex)) => Err(format!("an input is either {hex} or {raw}")),
            (Some(_), None) => Ok(Some(Form::Raw)),
            (None, Some(_)) => Ok(Some(Form::Hex)),
            (None, None) => Ok(None),
        }
    }

    pub fn target(&self) -> Result<Target, String> {
        let mut options = self.options.iter();
        let output = options.find(|(option, _)| *option == "--output");
        let file = output.map(|(_, file)| file.clone());
        if file.as_ref().is_some_and(|file| file == "-") {
            return Err("--output wants a file, and - is none".to_string());
        }
        Ok(Target {
            file,
            form: self.output_form()?,
        })
    }

    fn output_form(&self) -> Result<Option<Form>, String> {
        let [raw, hex] = OUTPUT_FORM;
        match (self.has(raw), self.has(hex)) {
            (true, true) => Err(format!("either {raw} or {hex}, not both")),
            (true, false) => Ok(Some(Form::Raw)),
            (false, true) => Ok(Some(Form::Hex)),
            (false, false) => Ok(None),
        }
    }
}

/// What follows an option. It may begin with one `-`, as a latitude does; a file
/// that begins with two is named as `./--file`.
fn value(option: &str, word: Option<OsString>) -> Result<OsString, String> {
    let is_option = |word: &OsString| word.as_encoded_bytes().starts_with(b"--");
    match word {
        None => Err(format!("{option} wants a value")),
        Some(word) if is_option(&word) => {
            let word = word.to_string_lossy();
            Err(format!("{option} wants a value, and {word} is an option"))
        }
        Some(word) => Ok(word),
    }
}

#[cfg(test)]
mod tests {
    use super::*;
    use crate::help;

    #[test]
    fn the_help_has_every_option() {
        let help = help::all();
        for option in WITH_VALUE.iter().chain(&FLAGS) {
            assert!(help.contains(&format!("{option} ")), "{option}");
        }
    }
}
