//! Records written in any order, read again, and reports that outlive their snapshot.
mod common;

use std::collections::HashSet;

use common::{WORKED, option_bits, printed, random};
use kelumavor::record::{Child, Crate, Definition, Dependency, Extern, Map, Member, Module, Record};
use kelumavor::{
    DefinitionId, Entry, Import, MemberKind, ModuleId, NameId, Namespace, Outcome, Question, RefusalKind, Report,
    Snapshot, SnapshotWords, Viewer, Visibility,
};

/// Adds a record to those that are written.
fn add(words: &mut SnapshotWords, record: &Record) {
    match record.clone() {
        Record::Name(text) => drop(words.try_name(text.as_bytes()).unwrap()),
        Record::Crate(it) => drop(words.add_crate(it)),
        Record::Dependency(it) => words.add_dependency(it),
        Record::Map(it) => drop(words.add_map(it)),
        Record::Module(it) => drop(words.add_module(it)),
        Record::Child(Child { owner, module }) => words.child(owner, module),
        Record::Prelude(it) => words.prelude(it.map, it.module),
        Record::Definition(it) => drop(words.add_definition(it)),
        Record::Entry(it) => words.add_entry(it),
        Record::Import(krate, it) => words.add_import(krate, it),
        Record::Extern(Extern { krate, name, root }) => words.extern_prelude(krate, name, root),
        Record::Member(it) => words.add_member(it),
        other => panic!("{other:?}"),
    }
}

/// Records read and written again are the same words, also where those of each kind come last first by kind, or mixed.
#[test]
fn records_in_any_order() {
    for seed in 0..300 {
        let mut random = random::Random::new(seed);
        let made = random::snapshot(&mut random);
        let snapshot = Snapshot::check(&made.words).unwrap();
        let records: Vec<Record> = snapshot.records().map(|(_, record)| record).collect();
        for (place, record) in snapshot.records() {
            assert_eq!(snapshot.record_at(place), Some(record));
        }
        assert_eq!(snapshot.to_bytes(), SnapshotWords::from(&snapshot).to_bytes());
        assert_eq!(Snapshot::from_bytes(&snapshot.to_bytes()).unwrap(), snapshot);
        let mut same = SnapshotWords::new();
        records.iter().for_each(|record| add(&mut same, record));
        assert_eq!(same.as_words(), made.words);
        // each record is taken from one of the kinds by chance, and those of a kind in their order
        let mut kinds: Vec<Vec<&Record>> = Vec::new();
        for record in &records {
            let kind = std::mem::discriminant(record);
            match kinds.iter_mut().find(|kinds| std::mem::discriminant(kinds[0]) == kind) {
                Some(kinds) => kinds.push(record),
                None => kinds.push(vec![record]),
            }
        }
        let mut mixed = SnapshotWords::new();
        while !kinds.is_empty() {
            let kind = random.below(u32::try_from(kinds.len()).unwrap()) as usize;
            add(&mut mixed, kinds[kind].remove(0));
            kinds.retain(|kind| !kind.is_empty());
        }
        assert_eq!(mixed.as_words(), made.words, "seed {seed}");
    }
}

/// A block's map between the modules of its crate: the words have the modules of a map together, and all that names them follows.
#[test]
fn modules_of_maps_that_are_mixed() {
    let mut words = SnapshotWords::new();
    let krate = words.add_crate(Crate::default());
    let map = words.add_map(Map { krate, block_in: None, no_std: false });
    let root = words.module(map, None);
    let block_map = words.add_map(Map { krate, block_in: Some(root), no_std: false });
    let block = words.module(block_map, None);
    let late = words.module(map, Some(root));
    words.child(root, late);
    words.prelude(map, late);
    let [item, in_block] = [late, block].map(|home| words.other_definition(home));
    let module = words.module_definition(late);
    let [m, f, g] = ["m", "f", "g"].map(|name| words.name(name));
    words.add_entry(Entry::new(root, Namespace::Types, m, module));
    words.add_entry(Entry { visibility: Visibility::Explicit(late), ..Entry::new(late, Namespace::Values, f, item) });
    words.add_entry(Entry {
        visibility: Visibility::Implicit(block),
        ..Entry::new(block, Namespace::Values, g, in_block)
    });
    let import = Import {
        namespace: Namespace::Types,
        definition: module,
        name: m,
        container: late,
        hidden: false,
        unstable: false,
    };
    words.add_import(krate, import);
    words.extern_prelude(krate, g, late);
    assert_eq!([root, block, late].map(|module| words.number_of(module)), [ModuleId(0), ModuleId(2), ModuleId(1)]);
    let snapshot = Snapshot::check(words.as_words()).unwrap();
    let line = |definition, from| {
        let question = Question::new(Namespace::Values, definition, words.number_of(from));
        snapshot.find_path(&question).to_string()
    };
    assert_eq!(line(item, late), "found f 0 0");
    assert_eq!(line(in_block, block), "found g 0 0");
    let records: Vec<Record> = snapshot.records().map(|(_, record)| record).collect();
    assert!(records.contains(&Record::Import(krate, Import { container: ModuleId(1), ..import })));
    assert!(records.contains(&Record::Extern(Extern { krate, name: g, root: ModuleId(1) })));
    assert!(records.contains(&Record::Definition(Definition::Other(ModuleId(2)))));
    assert!(records.contains(&Record::Module(Module { map, parent: Some(root) })));
}

/// What is added to the records of a snapshot comes after them, and a text that is there already is that name.
#[test]
fn records_after_those_of_a_snapshot() {
    let worked = Snapshot::check(&WORKED).unwrap();
    let mut words = SnapshotWords::from(&worked);
    assert_eq!(words.name("f"), NameId(1));
    assert_eq!(words.as_words(), WORKED);
    let g = words.name("g");
    let function = words.other_definition(ModuleId(1));
    assert_eq!((g, function), (NameId(2), DefinitionId(2)));
    words.add_entry(Entry::new(ModuleId(1), Namespace::Values, g, function));
    let snapshot = Snapshot::check(words.as_words()).unwrap();
    let line = |definition| {
        let question = Question::new(Namespace::Values, definition, ModuleId(0));
        snapshot.find_path(&question).to_string()
    };
    assert_eq!([line(DefinitionId(1)), line(function)], ["found a::f 1 0", "found a::g 1 0"]);
}

#[test]
fn names_are_interned() {
    let mut words = SnapshotWords::new();
    let names = ["a", "b", "a", "b", "a"].map(|name| words.name(name));
    assert_eq!(names.iter().collect::<HashSet<_>>().len(), 2);
    assert_eq!(Snapshot::check(words.as_words()).unwrap().counts().names, 2);
}

/// Flags have a name each, and stand in the bit of it.
#[test]
fn fields_by_their_names() {
    let mut words = SnapshotWords::new();
    let krate = words.add_crate(Crate { supports_no_std: true, ..Crate::default() });
    words.add_dependency(Dependency { owner: krate, on: krate, sysroot: true });
    let map = words.add_map(Map { krate, block_in: None, no_std: true });
    let root = words.module(map, None);
    let [parent, function] = [root, root].map(|home| words.other_definition(home));
    let name = words.name("f");
    words.add_entry(Entry { deprecated: true, hidden: true, ..Entry::new(root, Namespace::Values, name, function) });
    words.add_member(Member {
        parent,
        name,
        definition: function,
        kind: MemberKind::Function,
        hidden: false,
        unstable: true,
    });
    let expected = [
        0x1000_0001,
        0x66,
        0x2000_0008,
        2021,
        0x3000_0000,
        0,
        1,
        0x4000_0000,
        0,
        1,
        0x5000_0000,
        0,
        0x8000_0004,
        0,
        0,
        0x8000_0004,
        0,
        0,
        0x9000_0000,
        1,
        0,
        1,
        0,
        0,
        3,
        1,
        0xd000_0000,
        0,
        1,
        1,
        2,
    ];
    assert_eq!(words.as_words(), expected);
    assert!(Snapshot::check(&expected).is_ok());
}

fn report_of(words: &[u32]) -> Report {
    let snapshot = Snapshot::check(words).unwrap();
    snapshot.find_path(&Question::new(Namespace::Values, DefinitionId(1), ModuleId(0)))
}

/// The words and the snapshot are gone, the reports stand and compare.
#[test]
fn reports_outlive_their_snapshots() {
    let [one, two] = [WORKED.to_vec(), WORKED.to_vec()].map(|words| report_of(&words));
    assert_eq!(one, two);
    assert_eq!(one.to_string(), "found a::f 1 0");
    let Outcome::Found(path) = one.outcome else { panic!("{one}") };
    assert_eq!(HashSet::from([path.clone(), two.path().unwrap().clone()]).len(), 1);
    assert!(path.is_use_line());
    let kept = std::thread::spawn(move || path.to_string()).join().unwrap();
    assert_eq!(kept, "a::f");
}

#[test]
fn bytes_in_and_out() {
    let mut words = SnapshotWords::new();
    words.name("ab");
    let snapshot = Snapshot::from_bytes(&words.to_bytes()).unwrap();
    assert_eq!(snapshot.words(), words.as_words());
    let refusal = Snapshot::from_bytes(&[0; 7]).unwrap_err();
    assert_eq!((refusal.kind(), refusal.place()), (RefusalKind::InputNotWords, Some(1)));
}

/// The reach of each module as the path printer prints it, and as many items as the reports say.
#[test]
fn reach_as_printed() {
    for seed in 0..40 {
        let mut random = random::Random::new(seed);
        let made = random::snapshot(&mut random);
        let snapshot = Snapshot::check(&made.words).unwrap();
        let viewers: Vec<Viewer> = (0..=made.modules)
            .map(|module| {
                let question = random::question(&mut random, &made);
                let Question { prefix, options, fuel, limit, .. } = question;
                Viewer { from: ModuleId(module), prefix, options, fuel, limit }
            })
            .collect();
        let mut input = made.words.clone();
        for viewer in &viewers {
            let Viewer { from, prefix, options, fuel, limit } = *viewer;
            input.extend([0xf000_0000 + from.0, prefix as u32, option_bits(options), fuel, limit]);
        }
        let lines: Vec<String> = viewers
            .iter()
            .map(|viewer| match snapshot.reach(viewer) {
                Ok(reach) => {
                    let last = [reach.misleading, reach.unreachable, reach.unknown, reach.names];
                    reach.found.iter().chain(&last).map(usize::to_string).collect::<Vec<_>>().join(" ")
                }
                Err(refusal) => format!("refused {} 0 0", refusal.kind().number()),
            })
            .collect();
        assert_eq!(printed(&input).lines().collect::<Vec<_>>(), lines, "seed {seed}");
    }
}
