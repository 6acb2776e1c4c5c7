//! The flags that a file for pkg-config stands for.

use std::collections::HashMap;
use std::fs;
use std::path::Path;
use std::process::Command;

/// The flags that pkg-config gives or, on a machine without it, those that the
/// file says.
pub fn flags(file: &Path) -> Vec<String> {
    let folder = file.parent().expect("a folder");
    let asked = Command::new("pkg-config")
        .args(["--cflags", "--libs"])
        .arg(file.file_stem().expect("a package"))
        .env("PKG_CONFIG_PATH", folder)
        .output();
    let said = match asked {
        Ok(output) => {
            assert!(output.status.success(), "pkg-config refuses the file");
            String::from_utf8(output.stdout).expect("text")
        }
        Err(_) => flags_in(&fs::read_to_string(file).expect("a text")),
    };
    said.split_whitespace().map(String::from).collect()
}

/// The flags of a file for pkg-config, its variables written out.
fn flags_in(text: &str) -> String {
    let mut variables = HashMap::new();
    let mut flags = String::new();
    for line in text.lines() {
        if let Some((name, value)) = line.split_once('=') {
            variables.insert(format!("${{{name}}}"), value);
        }
        let found = ["Cflags:", "Libs:"].map(|start| line.strip_prefix(start));
        flags.extend(found.into_iter().flatten());
    }
    variables
        .iter()
        .fold(flags, |text, (name, value)| text.replace(name, value))
}

#[test]
fn flags_of_a_file() {
    let text = "a=/x\nb=/y/z\n\nName: n\nCflags: -I${b}\nLibs: -L${a} -ln\n";
    assert_eq!(flags_in(text), " -I/y/z -L/x -ln");
}
