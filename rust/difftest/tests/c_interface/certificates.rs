//! The examples that read certificates and put them into a store.

use std::path::Path;

use crate::programs::{build, check_fault, example, file, run, run_with, target, text};

/// The fields that are expected are those that the comments of `ticket.hex`
/// give; the id is from `sha256sum` over its octets with octet 100 as 0.
pub fn reads_the_ticket(program: &Path) {
    let output = run(program, &example("ticket.hex"));
    let said = String::from_utf8_lossy(&output.stdout);
    assert_eq!(said, text("read.expected"));
    assert_eq!(output.status.code(), Some(0));
}

#[test]
fn example_reads_a_ticket() {
    let program = build("read");
    reads_the_ticket(&program);
    let ticket = example("ticket.hex");
    let long = [&ticket[..], &[0; 2_000]].concat();
    let left_over = [&ticket[..], &[0]].concat();
    let version = [&[1], &ticket[1..]].concat();
    for (number, input) in [
        (4, &[][..]),
        (4, &ticket[..99]),
        (5, &left_over),
        (6, &version),
        (3, &long),
    ] {
        let output = run(&program, input);
        assert_eq!(
            String::from_utf8_lossy(&output.stdout),
            format!("refused {number}\n")
        );
        assert_eq!(output.status.code(), Some(1));
    }
}

/// The ids are from `sha256sum` over the octets, with the signature's point
/// type as 0; kinds and names are those that the files' comments give.
const ROOT_AND_UNIT: &str = "\
install 0
admit 0
admit 17
admit 7
slot 0 1e38b1de3f581532 root \"root\", held
slot 1 30e658f573ab3a01 ticket \"unit 18\", held
";

/// Below the root a unit goes in once; the ticket of the other example has
/// another issuer.
#[test]
fn example_admits_a_ticket() {
    let program = build("admit");
    let [root, unit, ticket] =
        ["root.hex", "unit.hex", "ticket.hex"].map(|name| file("admit", name));
    let all = run_with(&program, &[&root, &unit, &unit, &ticket]);
    assert_eq!(all, (Some(1), ROOT_AND_UNIT.to_string()));
    let (status, text) = run_with(&program, &[&root, &unit]);
    assert_eq!(status, Some(0), "{text}");
    let (status, text) = run_with(&program, &[&unit, &root]);
    assert_eq!((status, &text[..]), (Some(1), "install 10\nadmit 10\n"));
    check_fault(&program, &[], "admit: usage: admit ROOT CERTIFICATE..");
    check_fault(
        &program,
        &[&root, "/no/such"],
        "admit: cannot open /no/such",
    );
    check_fault(&program, &["/"], "admit: cannot read /");
    shows_any_name(&program);
}

/// Octets 4 to 7 of the root are its name. Space and `~` are the first and the
/// last plain character, and their neighbours are none.
fn shows_any_name(program: &Path) {
    let mut octets = example("root.hex");
    octets[4..8].copy_from_slice(&[0x1f, b' ', b'~', 0x7f]);
    let path = target("admit-any-name.octets");
    std::fs::write(&path, octets).expect("a file of octets");
    let (status, text) = run_with(program, &[&path.to_string_lossy()]);
    assert_eq!(status, Some(0), "{text}");
    assert!(text.ends_with(" root \"? ~?\", held\n"), "{text}");
}
