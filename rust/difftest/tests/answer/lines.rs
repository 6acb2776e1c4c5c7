//! Request lines of each kind, and lines that are none.

use difftest::hex;
use difftest::vectors;

use crate::program::{lines, run};

/// A root: name "R", no permissions, ends at second 1,000.
const ROOT: &str = "020004015225000002(32)20000500000003e80000(64)";

/// From `sha256sum` over its octets.
const ROOT_ID: &str = "86057c3d82f36f2d";

/// A withdrawn ticket with id 03.. below 01..: octet 16 has the state 10 and the
/// kind 001, octets 19 and 20 the start 200 << 3, octets 24 and 25 the end 300
/// << 5 and a length of name whose last bit leads octet 26, with "T" behind it,
/// octet 58 the parity and the key's first bit. Bits 722 to 724 are a count of
/// two rectangles, bits 1,237 to 1,241 one of two permissions.
const TICKET: &str = "0303030303030303010101010101010188000006400000002580aa(31)60(31)100000000ffffffff7fffffff80000001000000028000000180000002000000030(32)80000093ffffffc0(49)";

/// A file of vectors goes in as it is, and its answers come out.
#[test]
fn answers_a_file_of_vectors() {
    for words in [&[][..], &["--reference"]] {
        for file in ["reading.txt", "open-points.txt", "operations.txt"] {
            let vectors = vectors::file(file);
            let input: String = vectors
                .iter()
                .map(|v| format!("# comment\n{}\n= {}\n\n", v.request, v.answer))
                .collect();
            let given = lines(words, input.as_bytes());
            assert_eq!(given.len(), vectors.len());
            for (given, vector) in given.iter().zip(&vectors) {
                assert_eq!(given, &vector.answer, "{file}, line {}", vector.line);
            }
        }
    }
}

#[test]
fn answers_error_and_goes_on() {
    let accepted = format!(
        "0 4 {} 52 0 {} - 0 1000 - - 49",
        "00".repeat(8),
        "00".repeat(32)
    );
    let input = format!(
        "read\nreed 00\nread 0\nread 00 00\nread 0A\nréad 00\nread {ROOT}\r\nread -\nid 03"
    );
    for words in [&[][..], &["--reference"]] {
        let mut expected = vec!["error"; 6];
        expected.extend([&accepted[..], "4", "6 0000000000000000"]);
        assert_eq!(lines(words, input.as_bytes()), expected);
    }
    assert_eq!(lines(&[], b"read \xff\n"), ["error"]);
    assert_eq!(lines(&[], b""), [""; 0]);
}

/// A store of another length, an empty store, a bad one, and the root put in.
#[test]
fn answers_changes() {
    let zeros = |octets| "00".repeat(octets);
    let input = format!(
        "install - {ROOT} 1\nadmit (13568) {ROOT} 1\ninstall (13568) {ROOT} 2\n\
         install (13567)01 {ROOT} 1\ninstall (13568) {ROOT} 256\ninstall (13568) {ROOT} 1\n"
    );
    for words in [&[][..], &["--reference"]] {
        let lines = lines(words, input.as_bytes());
        assert_eq!(lines[0], "1 -");
        assert_eq!(lines[1], format!("10 {}", zeros(13_568)));
        assert_eq!(lines[2], format!("15 {}", zeros(13_568)));
        assert_eq!(lines[3], format!("2 {}01", zeros(13_567)));
        assert_eq!(lines[4], "error");
        // After id and issuer: state 01, kind 100, 32 bits of start 0, 38 of end
        // 1,000, name length 000001, the name 01010010, and zeros.
        let slot = format!("{ROOT_ID}{}60000000000000007d00a9{}", zeros(8), zeros(185));
        assert_eq!(lines[5], format!("0 {slot}{}", zeros(13_568 - 212)));
        assert_eq!(lines.len(), 6);
    }
}

/// The root put in, and what its withdrawal takes down, does and prints.
#[test]
fn answers_withdrawals() {
    let zeros = |octets| "00".repeat(octets);
    let slot = |state| {
        format!(
            "{ROOT_ID}{}{state}0000000000000007d00a9{}",
            zeros(8),
            zeros(185)
        )
    };
    let store = format!("{}{}", slot("6"), zeros(13_568 - 212));
    let list = "ee".repeat(65);
    let input = format!(
        "list {store} {ROOT_ID} 999 {list}\nlist {store} {ROOT_ID} 1000 {list}\n\
         list {store} {ROOT_ID} 0 -\nlist {store} (8) 0 {list}\nlist {store} {ROOT_ID} x {list}\n\
         withdraw {store} {ROOT_ID}\nwithdraw (13568) {ROOT_ID}\nwithdraw {store} -\n\
         page {store}{ROOT_ID}000003e7\npage -\npage\n"
    );
    let rest = "ee".repeat(64);
    let text = format!("withdraw {ROOT_ID} at 999\n0 {ROOT_ID} root 52\n1 certificates\n");
    for words in [&[][..], &["--reference"]] {
        let lines = lines(words, input.as_bytes());
        assert_eq!(lines[0], format!("0 1 00{rest}"));
        assert_eq!(lines[1], format!("0 0 {list}"));
        assert_eq!(lines[2], "1 0 -");
        assert_eq!(lines[3], format!("7 0 {list}"));
        assert_eq!(lines[4], "error");
        assert_eq!(lines[5], format!("0 {}{}", slot("a"), zeros(13_568 - 212)));
        assert_eq!(lines[6], format!("7 {}", zeros(13_568)));
        assert_eq!(lines[7], format!("1 {store}"));
        assert_eq!(lines[8], hex::text(text.as_bytes()));
        assert_eq!(lines[9], hex::text(b"refused 1\n"));
        assert_eq!(lines[10], "error");
        assert_eq!(lines.len(), 11);
    }
}

/// A held root in slot 0 and a withdrawn ticket in slot 63, whose issuer is not
/// stored; and lines that do not parse.
#[test]
fn answers_overviews() {
    let root = format!("{ROOT_ID}(8)60(7)7d00a9(185)");
    let store = format!("{root}(13144){TICKET}");
    let list = "ee".repeat(65);
    let input = format!(
        "stored {store} 0\nstored {store} 63\nstored {store} 1\nstored {store} 64\n\
         stored {store} 18446744073709551615\nstored {store} 18446744073709551616\n\
         stored (13567)01 0\nstored (13567)01 64\nstored - 0\nstored {store} -1\nstored {store}\n\
         standing {store} 999 {list}\nstanding {store} 1000 {list}\nstanding {store} 0 -\n\
         standing (13567)01 0 {list}\nstanding {store} 4294967296 {list}\nstanding {store} 0\n"
    );
    let zeros = |octets| "00".repeat(octets);
    let rest = "ee".repeat(64);
    let expected = [
        format!("0 1 {ROOT_ID} {} 4 52 0 {} 0 1000 - -", zeros(8), zeros(32)),
        format!(
            "0 2 {} {} 1 54 1 80{} 200 300 1,-2,-1,2;5,3,4,6 36,268435455",
            "03".repeat(8),
            "01".repeat(8),
            zeros(31)
        ),
        "7".into(),
        "1".into(),
        "1".into(),
        "error".into(),
        "2".into(),
        "1".into(),
        "1".into(),
        "error".into(),
        "error".into(),
        format!("0 1 00{rest}"),
        format!("0 0 {list}"),
        "1 0 -".into(),
        format!("2 0 {list}"),
        "error".into(),
        "error".into(),
    ];
    for words in [&[][..], &["--reference"]] {
        assert_eq!(lines(words, input.as_bytes()), expected, "{words:?}");
    }
}

#[test]
fn usage() {
    for words in [&["--refrence"][..], &["--reference", "x"], &[""]] {
        let output = run(words, b"read -\n");
        assert_eq!(output.status.code(), Some(2));
        assert!(output.stdout.is_empty() && !output.stderr.is_empty());
    }
    let help = run(&["--help"], b"");
    assert!(help.status.success() && help.stdout.starts_with(b"answer [--reference]\n"));
    let text = String::from_utf8(help.stdout).expect("text");
    for request in ["stored STORE SLOT", "standing STORE SECOND LIST"] {
        let said = text.lines().any(|line| line.trim() == request);
        assert!(said, "{request}");
    }
    let version = format!("answer {}", nattveldi::VERSION);
    assert_eq!(lines(&["--version"], b""), [version]);
}
