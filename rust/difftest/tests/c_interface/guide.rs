//! The code of docs/C.md, compiled against the header.

use crate::programs::{compiler, include_flag, must_succeed, root, target, WARNINGS};

/// The blocks of C of a document, one after the other: together they are one file.
fn code(document: &str) -> String {
    let mut code = String::new();
    let mut inside = false;
    for line in document.lines() {
        match line {
            "```c" => inside = true,
            "```" => inside = false,
            _ if inside => code.extend([line, "\n"]),
            _ => (),
        }
    }
    code
}

#[test]
fn the_code_compiles() {
    let document = std::fs::read_to_string(root().join("docs/C.md")).expect("docs/C.md");
    let code = code(&document);
    for call in ["read", "install", "stored", "withdraw", "decide"] {
        let call = format!("nattveldi_{call}(");
        assert!(code.contains(&call), "docs/C.md shows no {call}");
    }
    let source = target("guide.c");
    std::fs::write(&source, code).expect("a source file");
    let mut compiler = compiler("CC", "cc");
    compiler
        .args(WARNINGS)
        .args(["-std=c99", "-fsyntax-only"])
        .arg(include_flag())
        .arg(&source);
    must_succeed(&mut compiler);
}
