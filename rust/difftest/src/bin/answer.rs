//! `answer`: request lines on standard input, an answer line each on standard
//! output.

use std::env;
use std::io::{self, BufRead, Write};
use std::process::ExitCode;

use difftest::answers::{self, ERROR};
use difftest::sides::Side;

const HELP: &str = "\
answer [--reference]

Takes request lines on standard input, in the format of vectors/README.md, and
writes one answer line for each to standard output: the answer of the proved
library, or with --reference that of the independent reference. --version prints
the library's version, --help this.

  read CERT    NUMBER, and where it is 0 also KIND ISSUER NAME PARITY KEY
               ASSURANCE START END REGION PERMISSIONS SIGNATURE_AT
  id CERT      NUMBER ID
  install STORE CERT VERDICT
  admit STORE CERT VERDICT
               NUMBER STORE
  list STORE ID SECOND LIST
               NUMBER N LIST
  withdraw STORE ID
               NUMBER STORE
  stored STORE SLOT
               NUMBER, and where it is 0 also STATE ID ISSUER KIND NAME PARITY
               KEY START END REGION PERMISSIONS
  standing STORE SECOND LIST
               NUMBER N LIST
  prepare STORE MESSAGE NOW LATITUDE LONGITUDE AGE
               NUMBER, and for the message and the certificate that it carries
               SIGNED_START,LENGTH POINT_TYPE KEY SIGNATURE_START,LENGTH
  decide STORE MESSAGE NOW LATITUDE LONGITUDE AGE VERDICT CERTIFICATE_VERDICT
               NUMBER PAYLOAD_START PAYLOAD_LENGTH SIGNER_ID PERMISSION
               GENERATION_TIME
  page INPUT   the text in hex

A line that is unknown or does not parse is answered `error`. Blank lines, lines
that start with # and lines that start with = are no requests and get no answer,
so that a file of vectors can be given as it is.

Exit status: 0, or 2 for bad usage or a failure of input or output.
";

fn main() -> ExitCode {
    let words: Vec<String> = env::args_os()
        .skip(1)
        .map(|w| w.to_string_lossy().into())
        .collect();
    let words: Vec<&str> = words.iter().map(String::as_str).collect();
    let done = match words[..] {
        [] => answer_all(Side::Library),
        ["--reference"] => answer_all(Side::Reference),
        ["--help"] => io::stdout().write_all(HELP.as_bytes()),
        ["--version"] => writeln!(io::stdout(), "answer {}", nattveldi::VERSION),
        _ => {
            eprintln!("answer: usage is answer [--reference]; try `answer --help`");
            return ExitCode::from(2);
        }
    };
    match done {
        Ok(()) => ExitCode::SUCCESS,
        Err(error) if error.kind() == io::ErrorKind::BrokenPipe => ExitCode::SUCCESS,
        Err(error) => {
            eprintln!("answer: {error}");
            ExitCode::from(2)
        }
    }
}

fn answer_all(side: Side) -> io::Result<()> {
    let mut output = io::stdout().lock();
    for line in io::stdin().lock().split(b'\n') {
        let line = line?;
        let line = line.strip_suffix(b"\r").unwrap_or(&line);
        if is_request(line) {
            // Standard output passes each line on as it ends.
            writeln!(output, "{}", answer(side, line))?;
        }
    }
    Ok(())
}

fn is_request(line: &[u8]) -> bool {
    !line.trim_ascii().is_empty() && !line.starts_with(b"#") && !line.starts_with(b"=")
}

fn answer(side: Side, line: &[u8]) -> String {
    match std::str::from_utf8(line) {
        Ok(line) => answers::to_line(side, line),
        Err(_) => ERROR.to_string(),
    }
}
