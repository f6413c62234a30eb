//! Import lists built by the library.
mod common;

use common::{WORKED, build};
use kelumavor::record::{Dependency, Member};
use kelumavor::{
    CrateId, DefinitionId, Entry, Import, MemberKind, ModuleId, NameId, Namespace, Outcome, Question, RefusalKind,
    Snapshot, SnapshotWords, with_import_lists,
};

#[test]
fn worked() {
    let list = Snapshot::check(&WORKED).unwrap().import_list(CrateId(0)).unwrap();
    assert_eq!(list.krate(), CrateId(0));
    assert_eq!(list.words(), [0xA0000000, 0, 0, 0, 0, 0, 0xA0000000, 1, 1, 1, 1, 0]);
    let import = |namespace, definition, name, container| Import {
        namespace,
        definition: DefinitionId(definition),
        name: NameId(name),
        container: ModuleId(container),
        hidden: false,
        unstable: false,
    };
    let imports: Vec<Import> = list.imports().collect();
    assert_eq!(imports, [import(Namespace::Types, 0, 0, 0), import(Namespace::Values, 1, 1, 1)]);
}

#[test]
fn unknown_crate() {
    let refusal = Snapshot::check(&WORKED).unwrap().import_list(CrateId(1)).unwrap_err();
    assert_eq!(refusal.kind(), RefusalKind::NoSuchItem);
}

#[test]
fn finished_snapshot_is_searched() {
    // Crate 0 depends on crate 1, whose root holds a function `f`: found through the import list alone.
    let mut words = SnapshotWords::new();
    let [dep, f] = ["dep", "f"].map(|text| words.name(text));
    let [(user, here), (used, there)] = [(); 2].map(|()| {
        let (krate, _, root) = build::own_crate(&mut words);
        (krate, root)
    });
    words.add_dependency(Dependency { owner: user, on: used, sysroot: false });
    let function = words.other_definition(there);
    words.add_entry(Entry::new(there, Namespace::Values, f, function));
    words.extern_prelude(user, dep, there);
    let question = Question::new(Namespace::Values, function, here);

    let bare = words.as_words();
    assert_eq!(Snapshot::check(bare).unwrap().find_path(&question).outcome, Outcome::NoPath);
    let finished = with_import_lists(bare).unwrap();
    assert_eq!(Snapshot::check(&finished).unwrap().find_path(&question).to_string(), "found dep::f 1 0");
    assert_eq!(with_import_lists(&finished).unwrap(), finished);
}

#[test]
fn lists_longer_than_a_snapshot() {
    // An enum under many names, with many variants.
    let mut words = SnapshotWords::new();
    let names: Vec<_> = (0..64).map(|k| words.name(&format!("n{k}"))).collect();
    let (krate, _, root) = build::own_crate(&mut words);
    let owner = words.other_definition(root);
    let variants: Vec<_> = names.iter().map(|&name| words.variant_definition(owner, name)).collect();
    for &name in &names {
        words.add_entry(Entry::new(root, Namespace::Types, name, owner));
    }
    for (&name, &definition) in names.iter().zip(&variants) {
        let kind = MemberKind::Variant;
        words.add_member(Member { parent: owner, name, definition, kind, hidden: false, unstable: false });
    }
    let list = Snapshot::check(words.as_words()).unwrap().import_list(krate).unwrap();
    assert_eq!(list.imports().count(), 64 * 65);
    let refusal = with_import_lists(words.as_words()).unwrap_err();
    assert_eq!(refusal.kind(), RefusalKind::TooManyWords);
}
