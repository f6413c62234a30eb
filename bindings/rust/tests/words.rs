//! Writing words: nothing is masked.
mod common;

use std::panic::{AssertUnwindSafe, catch_unwind};

use common::build;
use kelumavor::record::{Dependency, Map, Member};
use kelumavor::{
    CrateId, DefinitionId, Edition, Entry, Import, MapId, MemberKind, ModuleId, NameId, Namespace, Outcome, Question,
    Refusal, RefusalKind, Snapshot, SnapshotWords, Text, Visibility,
};

#[test]
fn names_have_1_to_255_bytes() {
    let mut words = SnapshotWords::new();
    let kind = |answer: Result<NameId, Refusal>| answer.unwrap_err().kind();
    assert_eq!(kind(words.try_name(b"")), RefusalKind::WrongField);
    assert_eq!(kind(words.try_name(&[b'x'; Text::MAX_BYTES + 1])), RefusalKind::WrongField);
    assert!(words.as_words().is_empty());
    assert!(words.try_name(&[0xff; Text::MAX_BYTES]).is_ok());
    assert!(catch_unwind(|| SnapshotWords::new().name("")).is_err());
    assert!(catch_unwind(|| SnapshotWords::new().name(&"x".repeat(256))).is_err());
}

/// The record is refused with the number one past the last, and with larger ones, and the words stay as they were.
#[track_caller]
fn panics_past<T>(last: u32, add: impl Fn(&mut SnapshotWords, u32) -> T) {
    let mut words = SnapshotWords::new();
    add(&mut words, last);
    let before = words.to_bytes();
    for number in [last + 1, 1 << 29, u32::MAX - 1, u32::MAX] {
        assert!(catch_unwind(AssertUnwindSafe(|| add(&mut words, number))).is_err(), "{number}");
        assert_eq!(words.to_bytes(), before);
    }
}

#[test]
fn numbers_have_28_bits() {
    let most = (1 << 28) - 1;
    let entry = Entry::new(ModuleId(0), Namespace::Types, NameId(0), DefinitionId(0));
    panics_past(most, |words, number| words.add_entry(Entry { module: ModuleId(number), ..entry }));
    panics_past(most, |words, number| words.add_entry(Entry { name: NameId(number), ..entry }));
    panics_past(most, |words, number| words.add_entry(Entry { definition: DefinitionId(number), ..entry }));
    panics_past(most, |words, number| {
        words.add_entry(Entry { visibility: Visibility::Crate(CrateId(number)), ..entry });
    });
    panics_past(most, |words, number| words.child(ModuleId(number), ModuleId(0)));
    panics_past(most, |words, number| words.child(ModuleId(0), ModuleId(number)));
    panics_past(most, |words, number| words.prelude(MapId(number), ModuleId(0)));
    panics_past(most, |words, number| words.variant_definition(DefinitionId(0), NameId(number)));
    panics_past(most, |words, number| words.extern_prelude(CrateId(0), NameId(number), ModuleId(0)));
    let member = Member {
        parent: DefinitionId(0),
        name: NameId(0),
        definition: DefinitionId(0),
        kind: MemberKind::Function,
        hidden: true,
        unstable: true,
    };
    panics_past(most, |words, number| words.add_member(Member { parent: DefinitionId(number), ..member }));
    panics_past(most, |words, number| words.add_member(Member { definition: DefinitionId(number), ..member }));
    let import = Import {
        namespace: Namespace::Types,
        definition: DefinitionId(0),
        name: NameId(0),
        container: ModuleId(0),
        hidden: true,
        unstable: true,
    };
    panics_past(most, |words, number| words.add_import(CrateId(number), import));
    panics_past(most, |words, number| words.add_import(CrateId(0), Import { container: ModuleId(number), ..import }));
    panics_past(most, |words, number| {
        words.add_dependency(Dependency { owner: CrateId(0), on: CrateId(number), sysroot: true });
    });
    let mut words = SnapshotWords::new();
    words.child(ModuleId(most), ModuleId(most));
    assert_eq!(words.as_words(), [6 << 28 | most, most]);
}

/// A module that may be missing is written with one added.
#[test]
fn numbers_of_parents_are_below_the_last() {
    let most = (1 << 28) - 2;
    panics_past(most, |words, number| words.module(MapId(0), Some(ModuleId(number))));
    panics_past(most, |words, number| {
        words.add_map(Map { krate: CrateId(0), block_in: Some(ModuleId(number)), no_std: true })
    });
}

#[test]
fn editions_by_their_years() {
    assert_eq!(Edition::try_from(2024), Ok(Edition::Rust2024));
    for year in [2015, 2018, 2021, 2024] {
        assert_eq!(Edition::try_from(year).unwrap() as u32, year);
    }
    assert_eq!(Edition::try_from(2019).unwrap_err().kind(), RefusalKind::UnknownEdition);
}

#[test]
fn bytes_are_the_words_lowest_byte_first() {
    let mut words = SnapshotWords::new();
    words.name("ab");
    assert_eq!(words.to_bytes(), [2, 0, 0, 0x10, b'a', b'b', 0, 0]);
}

/// As many as the constants say are accepted, and one more is refused.
#[test]
fn counts_of_a_snapshot() {
    let refused = |words: &SnapshotWords| Snapshot::check(words.as_words()).err().map(|refusal| refusal.kind());
    let mut words = SnapshotWords::new();
    for number in 0..Snapshot::MAX_NAMES {
        words.name(&number.to_string());
    }
    assert_eq!(refused(&words), None);
    words.name("more");
    assert_eq!(refused(&words), Some(RefusalKind::TooManyRecords));
    for (crates, more) in [(Snapshot::MAX_CRATES, None), (Snapshot::MAX_CRATES + 1, Some(RefusalKind::TooManyRecords))]
    {
        let mut words = SnapshotWords::new();
        for _ in 0..crates {
            build::own_crate(&mut words);
        }
        assert_eq!(refused(&words), more);
    }
    for (modules, definitions, more) in [
        (Snapshot::MAX_MODULES, Snapshot::MAX_DEFINITIONS, None),
        (Snapshot::MAX_MODULES + 1, 0, Some(RefusalKind::TooManyRecords)),
        (1, Snapshot::MAX_DEFINITIONS + 1, Some(RefusalKind::TooManyRecords)),
    ] {
        let mut words = SnapshotWords::new();
        let (_, map, root) = build::own_crate(&mut words);
        for _ in 1..modules {
            words.module(map, Some(root));
        }
        for _ in 0..definitions {
            words.other_definition(root);
        }
        assert_eq!(refused(&words), more);
    }
}

/// Reports on two snapshots are the same where their paths are written the same and came about in the same way.
#[test]
fn reports_compare() {
    let words = |name: &str| {
        let mut words = SnapshotWords::new();
        let name = words.name(name);
        let (_, _, root) = build::own_crate(&mut words);
        let item = words.other_definition(root);
        words.add_entry(Entry::new(root, Namespace::Types, name, item));
        words.into_words()
    };
    let [one, same, other] = ["a", "a", "b"].map(words);
    let [one, same, other] = [&one, &same, &other].map(|words| Snapshot::check(words).unwrap());
    let question = Question::new(Namespace::Types, DefinitionId(0), ModuleId(0));
    assert!(matches!(one.find_path(&question).outcome, Outcome::Found(_)));
    assert_eq!(one.find_path(&question), same.find_path(&question));
    assert_ne!(one.find_path(&question), other.find_path(&question));
}
