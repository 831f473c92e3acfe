//! Runs the built program itself on scripts whose answers are known.

use std::io::Write;
use std::process::{Command, Output, Stdio};

fn replay(script: &[u8]) -> Output {
    let mut child = Command::new(env!("CARGO_BIN_EXE_reference"))
        .arg("replay")
        .stdin(Stdio::piped())
        .stdout(Stdio::piped())
        .stderr(Stdio::piped())
        .spawn()
        .expect("the program starts");
    child
        .stdin
        .take()
        .expect("standard input is a pipe")
        .write_all(script)
        .expect("the program takes the script");
    child.wait_with_output().expect("the program ends")
}

#[test]
fn a_script_with_refused_calls_is_a_success() {
    let output = replay(b"book 4 2\nbase enter X 0 0\nstrikes strike 1\nstrikes ask X 1 0\n");
    assert!(output.status.success());
    let expected = b"\
1: book 4 2: done
2: base enter X 0 0: done
3: strikes strike 1: refused 4: there is no such row below
4: strikes ask X 1 0: yes
";
    assert_eq!(output.stdout, expected);
}

#[test]
fn a_bad_script_writes_no_answer() {
    let output = replay(b"book 4 2\nbase rows\nbase row\n");
    assert_eq!(output.status.code(), Some(1));
    assert_eq!(output.stdout, b"");
    assert!(output.stderr.starts_with(b"line 3: "));
}
