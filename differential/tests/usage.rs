//! What is wrong with a program's arguments is said on stderr, with status 2.
use std::process::Command;

const CASES: &[(&str, &[&str])] = &[
    (env!("CARGO_BIN_EXE_compare"), &[]),
    (env!("CARGO_BIN_EXE_compare"), &["rules", "0", "many"]),
    (env!("CARGO_BIN_EXE_compare"), &["rules", "0", "1", "--routes"]),
    (env!("CARGO_BIN_EXE_compare"), &["rules", "0", "1", "--steps"]),
    (env!("CARGO_BIN_EXE_compare"), &["no/such/printer", "0", "1"]),
    (env!("CARGO_BIN_EXE_compare"), &["", "0", "1"]),
    (env!("CARGO_BIN_EXE_compare_check"), &["rules", "0"]),
    (env!("CARGO_BIN_EXE_compare_check"), &["rules", "0", "-1"]),
    (env!("CARGO_BIN_EXE_compare_imports"), &["rules", "0"]),
    (env!("CARGO_BIN_EXE_compare_imports"), &["rule", "0", "1"]),
    (env!("CARGO_BIN_EXE_compare_imports"), &["rules", "0", "x"]),
    (env!("CARGO_BIN_EXE_judge"), &[]),
    (env!("CARGO_BIN_EXE_judge"), &["original", "0", "one"]),
    (env!("CARGO_BIN_EXE_judge"), &["original", "0", "1", "--uses"]),
    (env!("CARGO_BIN_EXE_replay"), &["rules", "no/such/list"]),
    (env!("CARGO_BIN_EXE_rustc_says"), &["refused"]),
    (env!("CARGO_BIN_EXE_smallest"), &["rules", "0", "1", "x"]),
    (env!("CARGO_BIN_EXE_store"), &["no/such/program", "0", "1", "stored"]),
    (env!("CARGO_BIN_EXE_store"), &["wrong", "a", "1", "stored"]),
    (env!("CARGO_BIN_EXE_store_imports"), &["0", "1", "no/such/folder/imports"]),
    (env!("CARGO_BIN_EXE_tell"), &["no/such/program", "0", "1"]),
    (env!("CARGO_BIN_EXE_tell"), &["wrong", "0"]),
];

#[cfg(feature = "library")]
const OF_THE_LIBRARY: &[(&str, &[&str])] = &[
    (env!("CARGO_BIN_EXE_compare_any"), &["0"]),
    (env!("CARGO_BIN_EXE_compare_any"), &["0", "x"]),
    (env!("CARGO_BIN_EXE_compare_joins"), &["0", "1"]),
    (env!("CARGO_BIN_EXE_compare_joins"), &["no/such/printer", "0", "1"]),
];

#[cfg(not(feature = "library"))]
const OF_THE_LIBRARY: &[(&str, &[&str])] = &[];

#[test]
fn wrong_arguments() {
    for (program, arguments) in CASES.iter().chain(OF_THE_LIBRARY) {
        let output = Command::new(program).args(*arguments).output().unwrap();
        let said = String::from_utf8_lossy(&output.stderr);
        assert_eq!(output.status.code(), Some(2), "{program} {arguments:?}: {said}");
        assert!(!said.is_empty() && !said.contains("panicked"), "{program} {arguments:?}: {said}");
    }
}
