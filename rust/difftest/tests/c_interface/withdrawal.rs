//! The example that withdraws.

use std::path::Path;

use crate::programs::{build, check_fault, file, run_with};

/// At 694,700,000 all three stand; at 695,260,800 the unit's period ends. The ids
/// are from `sha256sum` as in `certificates.rs`, kinds and names from the files'
/// comments.
const ALL_FALL: &str = "\
install 0
admit 0
admit 0
3 stand at 694700000:
slot 0 1e38b1de3f581532 root \"root\", held, stands
slot 1 30e658f573ab3a01 ticket \"unit 18\", held, stands
slot 2 9f914a14da0667de authority \"north\", held, stands
withdraw this? 3 would no longer stand:
slot 0 1e38b1de3f581532 root \"root\", held
slot 1 30e658f573ab3a01 ticket \"unit 18\", held
slot 2 9f914a14da0667de authority \"north\", held
withdraw 1e38b1de3f581532 at 694700000
0 1e38b1de3f581532 root 726f6f74
1 30e658f573ab3a01 ticket 756e6974203138
2 9f914a14da0667de authority 6e6f727468
3 certificates
withdraw 0
list refused 8
0 stand at 694700000:
slot 0 1e38b1de3f581532 root \"root\", withdrawn, does not stand
slot 1 30e658f573ab3a01 ticket \"unit 18\", held, does not stand
slot 2 9f914a14da0667de authority \"north\", held, does not stand
";
const TWO_FALL: &str = "\
install 0
admit 0
admit 0
2 stand at 695260800:
slot 0 1e38b1de3f581532 root \"root\", held, stands
slot 1 30e658f573ab3a01 ticket \"unit 18\", held, does not stand
slot 2 9f914a14da0667de authority \"north\", held, stands
withdraw this? 2 would no longer stand:
slot 0 1e38b1de3f581532 root \"root\", held
slot 2 9f914a14da0667de authority \"north\", held
withdraw 1e38b1de3f581532 at 695260800
0 1e38b1de3f581532 root 726f6f74
2 9f914a14da0667de authority 6e6f727468
2 certificates
withdraw 0
list refused 8
0 stand at 695260800:
slot 0 1e38b1de3f581532 root \"root\", withdrawn, does not stand
slot 1 30e658f573ab3a01 ticket \"unit 18\", held, does not stand
slot 2 9f914a14da0667de authority \"north\", held, does not stand
";
const NOT_STORED: &str = "\
install 10
0 stand at 694700000:
list refused 7
refused 7
withdraw 7
list refused 7
0 stand at 694700000:
";

#[test]
fn example_withdraws_a_root() {
    let program = build("withdraw");
    let names = ["root.hex", "unit.hex", "authority.hex"];
    let [root, unit, authority] = names.map(|name| file("withdraw", name));
    let all = [&root, &unit, &authority];
    let last = ALL_FALL.replace("694700000", "695260799");
    for (second, files, expected) in [
        ("694700000", &all[..], (Some(0), ALL_FALL)),
        ("695260799", &all, (Some(0), &last)),
        ("695260800", &all, (Some(0), TWO_FALL)),
        ("694700000", &[&unit], (Some(1), NOT_STORED)),
    ] {
        let words: Vec<&str> = [second]
            .into_iter()
            .chain(files.iter().map(|f| &f[..]))
            .collect();
        let (status, text) = run_with(&program, &words);
        assert_eq!((status, &text[..]), expected, "{second}");
    }
    says_what_is_wrong(&program, &root);
}

fn says_what_is_wrong(program: &Path, root: &str) {
    let usage = "withdraw: usage: withdraw SECOND ROOT CERTIFICATE..";
    check_fault(program, &["1"], usage);
    // The last two are above the largest numbers of 32 and of 64 bits.
    for word in ["", "-1", "1x", "4294967296", "99999999999999999999999"] {
        let said = format!("withdraw: no second since the start of 2004: {word}");
        check_fault(program, &[word, root], &said);
    }
    check_fault(
        program,
        &["1", "/no/such"],
        "withdraw: cannot open /no/such",
    );
    check_fault(program, &["1", "/"], "withdraw: cannot read /");
}
