//! The functions of the C header against this crate, where a C compiler is there.
mod common;

use std::collections::HashSet;
use std::io::Write;
use std::path::PathBuf;
use std::process::{Command, Stdio};

use common::{random, repository};
use kelumavor::{AnyPath, Outcome, PathKind, Question, RefusalKind, Snapshot, VERSION};

/// The program of a C file, or none without the compiler.
fn compiled(compiler: &str, standard: &str, file: &str) -> Option<PathBuf> {
    let folder = PathBuf::from(env!("CARGO_TARGET_TMPDIR"));
    let program = folder.join(format!("{compiler}_{file}"));
    // The library is the one that this crate was built with: its build copied it.
    let made = Command::new(compiler)
        .args([standard, "-Wall", "-Wextra", "-Wpedantic", "-Werror", "-O2", "-o"])
        .arg(&program)
        .arg(repository("bindings/c").join(format!("{file}.c")))
        .arg(concat!(env!("OUT_DIR"), "/libkelumavor.a"))
        .output();
    let Ok(made) = made else {
        eprintln!("no {compiler}: not tested");
        return None;
    };
    assert!(made.status.success(), "{}", String::from_utf8_lossy(&made.stderr));
    Some(program)
}

fn printed(program: &PathBuf, words: &[u32], questions: &[Question]) -> String {
    let mut running = Command::new(program).stdin(Stdio::piped()).stdout(Stdio::piped()).spawn().unwrap();
    let count = u32::try_from(words.len()).unwrap();
    let asked = questions.iter().flat_map(|question| {
        let options = common::option_bits(question.options);
        let Question { namespace, definition, from, prefix, fuel, limit, .. } = *question;
        [namespace as u32, definition.0, from.0, prefix as u32, options, fuel, limit]
    });
    let input = [count].into_iter().chain(words.iter().copied()).chain(asked);
    let bytes: Vec<u8> = input.flat_map(u32::to_le_bytes).collect();
    running.stdin.take().unwrap().write_all(&bytes).unwrap();
    String::from_utf8(running.wait_with_output().unwrap().stdout).unwrap()
}

#[test]
fn examples_print_a_use_line() {
    for (compiler, standard) in [("gcc", "-std=c99"), ("g++", "-std=c++11")] {
        let Some(example) = compiled(compiler, standard, "example") else { continue };
        assert_eq!(Command::new(example).output().unwrap().stdout, b"use a::f;\n");
    }
}

/// The path that the compiler takes for the item, or why there is none.
fn any_path(snapshot: &Snapshot, question: &Question) -> String {
    match snapshot.any_path(question.namespace, question.definition, question.from) {
        Ok(AnyPath::Found(path)) => path.to_string(),
        Ok(AnyPath::Nowhere) => "nowhere".to_string(),
        Ok(_) => "longer".to_string(),
        Err(refusal) => refusal.kind().to_string(),
    }
}

/// Paths as text, editions and the words of refusals of random questions.
#[test]
fn paths_as_text() {
    for (compiler, standard) in [("gcc", "-std=c99"), ("g++", "-std=c++11")] {
        let Some(program) = compiled(compiler, standard, "test_paths") else { continue };
        let mut kinds = HashSet::new();
        for seed in 0..40 {
            let mut random = random::Random::new(seed);
            let made = random::snapshot(&mut random);
            let questions: Vec<Question> = (0..60).map(|_| random::question(&mut random, &made)).collect();
            let snapshot = Snapshot::check(&made.words).unwrap();
            let lines: Vec<String> = questions
                .iter()
                .map(|question| {
                    let report = snapshot.find_path(question);
                    let edition = snapshot.edition(question.from).map_or(0, |edition| edition as u32);
                    let answer = match (report.path(), report.refusal()) {
                        _ if matches!(report.outcome, Outcome::Misleads(_)) => "misleads 0".to_string(),
                        (Some(path), _) => format!("{path} {}", u32::from(path.is_use_line())),
                        (None, Some(refusal)) => refusal.kind().to_string(),
                        (None, None) => "none".to_string(),
                    };
                    if let Ok(AnyPath::Found(path)) =
                        snapshot.any_path(question.namespace, question.definition, question.from)
                    {
                        kinds.insert((path.kind(), path.supers() > 1));
                    }
                    [format!("{edition} {answer}"), any_path(&snapshot, question)]
                })
                .collect::<Vec<_>>()
                .concat();
            assert_eq!(printed(&program, &made.words, &questions).lines().collect::<Vec<_>>(), lines, "seed {seed}");
        }
        for kind in [PathKind::Plain, PathKind::SelfModule, PathKind::Crate, PathKind::Absolute] {
            assert!(kinds.contains(&(kind, false)), "{kind}");
        }
        assert!(kinds.contains(&(PathKind::Super, false)) && kinds.contains(&(PathKind::Super, true)));
        let refused = format!("{}\n", RefusalKind::WrongKind);
        assert_eq!(printed(&program, &[0], &[]), refused);
        let refused = format!("{}\n", RefusalKind::TooManyWords);
        assert_eq!(printed(&program, &[0; 16_385], &[]), refused);
    }
}

/// The header, this crate and the library have one version.
#[test]
fn one_version() {
    let header = std::fs::read_to_string(repository("bindings/c/find_path.h")).unwrap();
    assert!(header.contains(&format!("#define KELUMAVOR_VERSION {VERSION}\n")));
}

/// The words of every refusal are in the header.
#[test]
fn words_of_refusals() {
    let header = std::fs::read_to_string(repository("bindings/c/find_path.h")).unwrap();
    for kind in (0..100).filter_map(RefusalKind::from_number).filter(|kind| ![40, 41, 42].contains(&kind.number())) {
        assert!(header.contains(&format!("return \"{kind}\";")), "{kind}");
    }
}
