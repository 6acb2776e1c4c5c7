//! Octets from a file or from standard input.

use std::fmt::{self, Display, Formatter};
use std::fs::File;
use std::io::{self, Read};

use crate::arguments::{Form, Source};
use crate::json::Object;
use crate::text::{count, hex};

/// More than any store needs, even as text with many comments.
const MOST_OCTETS: u64 = 1 << 20;

/// Octets, and where they came from.
pub struct Input {
    pub octets: Vec<u8>,
    pub origin: Origin,
}

/// Where octets came from, in which form, and how many they are.
#[derive(Clone, Debug)]
pub struct Origin {
    /// `None` is standard input.
    pub file: Option<String>,
    pub form: Form,
    pub length: usize,
}

impl Origin {
    fn name(&self) -> &str {
        self.file.as_deref().unwrap_or("standard input")
    }

    pub fn object(&self) -> Object {
        let form = match self.form {
            Form::Raw => "raw",
            Form::Hex => "hex",
        };
        Object::new()
            .with("file", self.file.clone())
            .with("form", form)
            .with("length", self.length)
    }
}

impl Display for Origin {
    fn fmt(&self, f: &mut Formatter) -> fmt::Result {
        let form = match self.form {
            Form::Raw => "raw octets",
            Form::Hex => "hex text",
        };
        write!(
            f,
            "{} ({form}), {}",
            self.name(),
            count::octets(self.length)
        )
    }
}

pub fn input(source: &Source) -> Result<Input, String> {
    let name = match &source.file {
        None => "standard input".to_string(),
        Some(file) => file.to_string_lossy().into_owned(),
    };
    let taken = match &source.file {
        None => take(io::stdin()),
        Some(file) => File::open(file).and_then(take),
    };
    let given = taken.map_err(|error| format!("{name}: {error}"))?;
    if given.len() as u64 > MOST_OCTETS {
        return Err(format!("{name}: more than {MOST_OCTETS} octets"));
    }
    let form = source.form.unwrap_or_else(|| seen(&given));
    let octets = match form {
        Form::Raw => given,
        Form::Hex => {
            let octets = hex::octets(&given);
            octets.map_err(|fault| format!("{name}: hex text: {fault}"))?
        }
    };
    let origin = Origin {
        file: source.file.is_some().then_some(name),
        form,
        length: octets.len(),
    };
    Ok(Input { octets, origin })
}

fn seen(given: &[u8]) -> Form {
    match hex::is_text(given) {
        true => Form::Hex,
        false => Form::Raw,
    }
}

fn take(input: impl Read) -> io::Result<Vec<u8>> {
    let mut octets = Vec::new();
    input.take(MOST_OCTETS + 1).read_to_end(&mut octets)?;
    Ok(octets)
}
