//! The check and the texts of names.
mod common;

use common::{WORKED, random, read_words, repository};
use kelumavor::{NameId, Refusal, RefusalKind, Snapshot, SnapshotWords, WorkArea};

#[test]
fn counts_of_the_worked_snapshot() {
    let snapshot = Snapshot::check(&WORKED).unwrap();
    let counts = snapshot.counts();
    assert_eq!([counts.names, counts.crates, counts.dependencies, counts.maps], [2, 1, 0, 1]);
    assert_eq!([counts.modules, counts.children, counts.preludes, counts.definitions], [2, 1, 0, 2]);
    assert_eq!([counts.scopes, counts.imports, counts.externs, counts.members], [2, 0, 0, 0]);
}

/// The stored list of the check's test program, each case with the answer that the program prints.
#[test]
fn stored_cases() {
    let cases = std::fs::read_to_string(repository("crates/refusals/stdin")).unwrap();
    let answers = std::fs::read_to_string(repository("crates/refusals/stdout")).unwrap();
    let mut area = WorkArea::new();
    let mut kinds = std::collections::HashSet::new();
    for (case, answer) in cases.lines().zip(answers.lines()) {
        let (name, words) = case.split_once(' ').unwrap_or((case, ""));
        let printed = match Snapshot::check_in(&read_words(words), &mut area) {
            Ok(_) => format!("{name} accepted"),
            Err(refusal) => {
                kinds.insert(refusal.kind());
                format!("{name} refused {} at {}", refusal.kind().number(), refusal.place().unwrap())
            }
        };
        assert_eq!(printed, answer);
    }
    assert_eq!(kinds.len(), 8, "30 to 36, and 43");
}

#[test]
fn random_snapshots_are_accepted() {
    for seed in 0..300 {
        let snapshot = random::snapshot(&mut random::Random::new(seed));
        let checked = Snapshot::check(&snapshot.words).unwrap();
        assert_eq!(checked.counts().modules as u32, snapshot.modules);
        assert_eq!(checked.counts().definitions as u32, snapshot.definitions);
    }
}

#[test]
fn texts() {
    let long = "x".repeat(255);
    let names = ["a", "bb", "ccc", "dddd", "naïve", "r#type", &long];
    let mut words = SnapshotWords::new();
    for name in names {
        words.name(name);
    }
    let snapshot = Snapshot::check(words.as_words()).unwrap();
    for (number, name) in names.iter().enumerate() {
        let text = snapshot.name(NameId(number as u32)).unwrap();
        assert_eq!(text.as_bytes(), name.as_bytes());
        assert_eq!(text.to_str(), Ok(*name));
    }
    assert_eq!(snapshot.name(NameId(names.len() as u32)), None);
    assert_eq!(snapshot.name(NameId(u32::MAX)), None);
}

#[test]
fn texts_that_are_no_utf8() {
    let snapshot = Snapshot::check(&[0x1000_0002, 0xff41]).unwrap();
    let text = snapshot.name(NameId(0)).unwrap();
    assert_eq!(text.as_bytes(), [0x41, 0xff]);
    assert!(text.to_str().is_err());
    assert_eq!(text.to_string(), "A\u{fffd}");
}

#[test]
fn refusals_in_words() {
    let refusal: Refusal = Snapshot::check(&[0x1000_0001]).unwrap_err();
    assert_eq!((refusal.kind(), refusal.place()), (RefusalKind::WrongKind, Some(0)));
    for number in (20..=24).chain(30..=36).chain(40..=42).chain([44]) {
        let kind = RefusalKind::from_number(number).unwrap();
        assert_eq!(kind.number(), number);
        assert!(!kind.to_string().is_empty());
    }
    assert_eq!(RefusalKind::from_number(25), None);
}
