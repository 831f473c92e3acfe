//! Runs the built program itself on texts whose reports are known.

use std::fs;
use std::io::Write;
use std::path::Path;
use std::process::{Command, Stdio};

/// What the program writes on the text.
fn written(text: &[u8]) -> String {
    let mut child = Command::new(env!("CARGO_BIN_EXE_reference"))
        .stdin(Stdio::piped())
        .stdout(Stdio::piped())
        .spawn()
        .expect("the program starts");
    child
        .stdin
        .take()
        .expect("standard input is a pipe")
        .write_all(text)
        .expect("the program takes the text");
    let output = child.wait_with_output().expect("the program ends");
    assert!(output.status.success());
    String::from_utf8(output.stdout).expect("a report is plain")
}

#[test]
fn one_impossible_class_empties_what_needs_it() {
    let text = "\
H   3   1   3
D   1   1   0
X   1   1   0
F   2   0   1
";
    let expected = "\
V   2   1   0
C   1   0   0
C   2   0   0
A   0   0   0
";
    assert_eq!(written(text.as_bytes()), expected);
}

#[test]
fn nothing_to_read() {
    assert_eq!(written(b""), "!   8   0   0\n");
}

#[test]
fn longest_text_and_one_byte_more() {
    let mut text = String::from("H  64  32 512\n");
    text.push_str(&"F  63  63  30\n".repeat(512));
    assert_eq!(written(text.as_bytes()), "V   0   0   0\n");
    text.push('\n');
    assert_eq!(written(text.as_bytes()), "!  11   0   0\n");
}

#[test]
fn examples() {
    let directory = Path::new(env!("CARGO_MANIFEST_DIR")).join("../../examples");
    for name in ["clean", "forced", "refused"] {
        let text = fs::read(directory.join(name).with_extension("txt")).expect("the text");
        let report = fs::read_to_string(directory.join(name).with_extension("report"));
        assert_eq!(written(&text), report.expect("the report"), "{name}");
    }
}
