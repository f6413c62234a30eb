//! What is wrong with the arguments is said on stderr, with status 2; an input that `bench` writes is answered by the path printer.
mod common;

use std::process::Command;
use std::time::Duration;

#[test]
fn wrong_arguments() {
    let cases: [&[&str]; 9] = [
        &["tables"],
        &["check", "small"],
        &["check", "no_shape", "1"],
        &["ask", "small", "many"],
        &["input", "no_shape", "1"],
        &["input", "workspace", "5000"],
        &["input", "layers", "50"],
        &["family", "clique", "0", "1"],
        &["family", "no_family", "4", "1"],
    ];
    for arguments in cases {
        let output = Command::new(env!("CARGO_BIN_EXE_bench")).args(arguments).output().unwrap();
        let said = String::from_utf8_lossy(&output.stderr);
        assert_eq!(output.status.code(), Some(2), "{arguments:?}: {said}");
        assert!(said.starts_with("bench ["), "{arguments:?}: {said}");
    }
}

/// What the path printer prints for an input.
fn printed(input: &[u8]) -> String {
    let (output, _) = common::run(&mut Command::new(common::printer()), input, Duration::from_secs(20));
    String::from_utf8(output.stdout).unwrap()
}

/// A full workspace and the questions of a file: as much as the path printer takes, and each question has a path or none.
#[test]
fn inputs_are_answered() {
    for (shape, count) in [("workspace", "40"), ("small", "1"), ("chain", "40")] {
        let lines = printed(&common::made(shape, count));
        assert_eq!(lines.lines().count().to_string(), count, "{shape}: {lines}");
        assert!(lines.lines().all(|line| line.starts_with("found ") || line.starts_with("none ")), "{shape}: {lines}");
    }
}
