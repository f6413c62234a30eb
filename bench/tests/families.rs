//! The families whose search is bounded are answered at once, by a bounded number of instructions, at their largest sizes too.
//! `samples/families/list` has each input with its bound and its line.
mod common;

use std::fs;
use std::io::Write;
use std::path::{Path, PathBuf};
use std::process::Command;
use std::time::Duration;

/// A line of the list.
struct Case {
    family: String,
    size: String,
    stored: bool,
    /// Instructions of a run, at most.
    most: u64,
    line: String,
}

impl Case {
    fn read(text: &str) -> Self {
        let words: Vec<&str> = text.splitn(6, ' ').collect();
        let [family, size, kept, most, _measured, line] = words[..] else { panic!("{text}") };
        Case {
            family: family.into(),
            size: size.into(),
            stored: kept == "stored",
            most: most.parse().unwrap(),
            line: line.into(),
        }
    }

    fn name(&self) -> String {
        format!("{}-{}", self.family, self.size)
    }

    fn stored(&self) -> Vec<u8> {
        fs::read(folder().join(format!("{}.input", self.name()))).unwrap()
    }

    fn input(&self) -> Vec<u8> {
        if self.stored { self.stored() } else { common::made(&self.family, &self.size) }
    }
}

fn folder() -> PathBuf {
    Path::new(env!("CARGO_MANIFEST_DIR")).join("../samples/families")
}

fn cases() -> Vec<Case> {
    let list = fs::read_to_string(folder().join("list")).unwrap();
    list.lines().filter(|line| !line.starts_with('#')).map(Case::read).collect()
}

#[test]
fn stored_inputs_are_those_that_are_made() {
    let stored: Vec<Case> = cases().into_iter().filter(|case| case.stored).collect();
    for case in &stored {
        assert!(case.stored() == common::made(&case.family, &case.size), "{}", case.name());
    }
    let files = fs::read_dir(folder()).unwrap().count();
    assert_eq!(files, stored.len() + 1, "an input that the list does not have");
}

/// The time in which each is to be answered, the start of the program and the check of the words included, and the runs of which one has to be as
/// short: the machine may have other work.
const AT_ONCE: Duration = Duration::from_millis(100);
const RUNS: usize = 20;

/// The time after which a run is ended.
const LONGEST: Duration = Duration::from_secs(20);

#[test]
fn each_is_answered_at_once() {
    for case in cases() {
        let input = case.input();
        let is_short = |_| {
            let (output, time) = common::run(&mut Command::new(common::printer()), &input, LONGEST);
            assert_eq!(String::from_utf8(output.stdout).unwrap().trim_end(), case.line, "{}", case.name());
            time < AT_ONCE
        };
        assert!((0..RUNS).any(is_short), "{}: each run takes more than {AT_ONCE:?}", case.name());
    }
}

/// Instructions of a run of the path printer, as callgrind counts them: they do not depend on what else the machine does.
fn instructions(input: &[u8]) -> u64 {
    let mut counting = Command::new("valgrind");
    counting.args(["--tool=callgrind", "--callgrind-out-file=/dev/null"]).arg(common::printer());
    let (output, _) = common::run(&mut counting, input, 3 * LONGEST);
    let said = String::from_utf8_lossy(&output.stderr);
    let counted = said.lines().find_map(|line| line.split_once("Collected : ")).unwrap_or_else(|| panic!("{said}"));
    counted.1.trim().parse().unwrap()
}

#[test]
fn each_is_answered_by_so_many_instructions() {
    if Command::new("valgrind").arg("--version").output().is_err() {
        // Not by a macro for printing, whose text is kept back where the test passes.
        writeln!(std::io::stderr(), "no valgrind: the instructions of the families are not counted").unwrap();
        return;
    }
    for case in cases() {
        let counted = instructions(&case.input());
        assert!(counted <= case.most, "{}: {counted} instructions", case.name());
    }
}
