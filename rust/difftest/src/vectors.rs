//! Files of vectors: a request a line, its answer on the next line after "= ".

use std::fs;
use std::path::{Path, PathBuf};

use crate::hex;

/// A request as it stands in the file and its answer written out, and the line
/// that the request stands on.
#[derive(Debug, PartialEq)]
pub struct Vector {
    pub line: usize,
    pub request: String,
    pub answer: String,
}

/// The vectors of a file in this package's folder `vectors`.
pub fn file(name: &str) -> Vec<Vector> {
    let path = folder().join(name);
    let text =
        fs::read_to_string(&path).unwrap_or_else(|error| panic!("{}: {error}", path.display()));
    parse(&text).unwrap_or_else(|fault| panic!("{}: {fault}", path.display()))
}

fn folder() -> PathBuf {
    Path::new(env!("CARGO_MANIFEST_DIR")).join("vectors")
}

fn parse(text: &str) -> Result<Vec<Vector>, String> {
    let mut vectors = Vec::new();
    let mut open: Option<(usize, &str)> = None;
    for (index, line) in text.lines().enumerate() {
        if line.starts_with('#') || line.is_empty() {
            continue;
        }
        match (open.take(), line.strip_prefix("= ")) {
            (Some((at, request)), Some(answer)) => vectors.push(Vector {
                line: at,
                request: request.into(),
                answer: hex::written_out(answer)
                    .ok_or_else(|| format!("line {}: an answer that does not parse", index + 1))?,
            }),
            (None, None) => open = Some((index + 1, line)),
            (Some((at, _)), None) => return Err(format!("line {at}: a request without an answer")),
            (None, Some(_)) => {
                return Err(format!("line {}: an answer without a request", index + 1))
            }
        }
    }
    match open {
        None => Ok(vectors),
        Some((at, _)) => Err(format!("line {at}: a request without an answer")),
    }
}

#[cfg(test)]
mod tests {
    use super::*;

    #[test]
    fn pairs() {
        let vectors = parse("# comment\nread 00\n= 6\n\nid -\n= 4 (2)\n").unwrap();
        assert_eq!(vectors.len(), 2);
        assert_eq!(
            vectors[1],
            Vector {
                line: 5,
                request: "id -".into(),
                answer: "4 0000".into()
            }
        );
    }

    #[test]
    fn unpaired_lines() {
        assert_eq!(
            parse("read 00\nread 01\n= 6"),
            Err("line 1: a request without an answer".into())
        );
        assert_eq!(
            parse("= 6"),
            Err("line 1: an answer without a request".into())
        );
        assert_eq!(
            parse("\nread 00"),
            Err("line 2: a request without an answer".into())
        );
        assert_eq!(
            parse("read 00\n= 0 (x)"),
            Err("line 2: an answer that does not parse".into())
        );
    }
}
