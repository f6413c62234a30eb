//! Whether any path names an item.
use kelumavor::record::{Crate, Map};
use kelumavor::{
    AnyPath, DefinitionId, Entry, ModuleId, Namespace, Outcome, PathKind, Question, RefusalKind, Snapshot,
    SnapshotWords, Visibility,
};

/// `mod p { mod x { pub struct S; } pub mod a { use super::x::S as A; pub use super::x::S as B; } } mod v {}`: the snapshot, the struct, and the
/// modules `x` and `v`.
fn second_entry() -> (Snapshot, DefinitionId, ModuleId, ModuleId) {
    let mut words = SnapshotWords::new();
    let krate = words.add_crate(Crate::default());
    let map = words.add_map(Map { krate, block_in: None, no_std: false });
    let root = words.module(map, None);
    let p = words.module(map, Some(root));
    let x = words.module(map, Some(p));
    let a = words.module(map, Some(p));
    let v = words.module(map, Some(root));
    for (owner, module) in [(root, p), (p, x), (p, a), (root, v)] {
        words.child(owner, module);
    }
    let modules = [p, x, a, v].map(|module| words.module_definition(module));
    let s = words.other_definition(x);
    let names = ["p", "x", "a", "v", "S", "A", "B"].map(|text| words.name(text));
    let private = |module| Visibility::Implicit(module);
    let entry = |owner, name, definition, visibility| Entry {
        visibility,
        ..Entry::new(owner, Namespace::Types, name, definition)
    };
    words.add_entry(entry(root, names[0], modules[0], private(root)));
    words.add_entry(entry(p, names[1], modules[1], private(p)));
    words.add_entry(entry(p, names[2], modules[2], Visibility::Public));
    words.add_entry(entry(root, names[3], modules[3], private(root)));
    words.add_entry(entry(x, names[4], s, Visibility::Public));
    words.add_entry(Entry { declared: false, ..entry(a, names[5], s, private(a)) });
    words.add_entry(Entry { declared: false, ..entry(a, names[6], s, Visibility::Public) });
    (Snapshot::check(words.as_words()).unwrap(), s, x, v)
}

#[test]
fn a_path_that_the_search_passes_over() {
    let (snapshot, s, x, v) = second_entry();
    assert_eq!(snapshot.find_path(&Question::new(Namespace::Types, s, v)).outcome, Outcome::NoPath);
    let AnyPath::Found(path) = snapshot.any_path(Namespace::Types, s, v).unwrap() else { panic!("there is a path") };
    assert_eq!(path.to_string(), "crate::p::a::B");
    assert_eq!((path.kind(), path.supers(), path.ids().len()), (PathKind::Crate, 0, 3));
    assert_eq!(path.names().map(|name| name.as_bytes().to_vec()).collect::<Vec<_>>(), [b"p", b"a", b"B"]);
    // the first entry, the third, and the last
    let entries: Vec<u32> =
        (0..).zip(snapshot.words()).filter(|(_, word)| **word >> 28 == 9).map(|(place, _)| place).collect();
    assert_eq!(path.route().collect::<Vec<_>>(), [entries[0], entries[2], entries[6]]);
    let AnyPath::Found(near) = snapshot.any_path(Namespace::Types, s, x).unwrap() else { panic!("it stands there") };
    assert_eq!(near.to_string(), "self::S");
    assert_eq!(snapshot.any_path(Namespace::Values, s, v), Ok(AnyPath::Nowhere));
}

#[test]
fn refusals() {
    let (snapshot, s, _, v) = second_entry();
    let kind = |answer: Result<AnyPath, kelumavor::Refusal>| answer.unwrap_err().kind();
    assert_eq!(kind(snapshot.any_path(Namespace::Types, DefinitionId(99), v)), RefusalKind::NoSuchItem);
    assert_eq!(kind(snapshot.any_path(Namespace::Types, s, ModuleId(99))), RefusalKind::NoSuchItem);
    assert_eq!(kind(snapshot.any_path(Namespace::Macros, s, v)), RefusalKind::NoMacro);
}

/// The area of a thread serves questions before and after.
#[test]
fn questions_in_between() {
    let (snapshot, s, x, v) = second_entry();
    let found = |from| snapshot.find_path(&Question::new(Namespace::Types, s, from)).to_string();
    let before = found(x);
    assert!(snapshot.any_path(Namespace::Types, s, v).is_ok());
    assert_eq!(found(x), before);
}
