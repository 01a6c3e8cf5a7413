//! The reference as it is called from the command line.

use std::io::Write;
use std::process::{Command, Output, Stdio};

/// What it writes, says and ends with.
pub fn run(arguments: &[&str], input: &[u8]) -> Output {
    let mut child = Command::new(env!("CARGO_BIN_EXE_reference"))
        .args(arguments)
        .stdin(Stdio::piped())
        .stdout(Stdio::piped())
        .stderr(Stdio::piped())
        .spawn()
        .expect("the reference starts");
    let mut standard_input = child.stdin.take().expect("a pipe");
    standard_input.write_all(input).expect("the input is read");
    drop(standard_input);
    child.wait_with_output().expect("the reference ends")
}
