//! Dump and assemble.
mod common;

use common::{Random, WORKED, bytes, damage, file, kelumavor, repository, snapshot};
use kelumavor::record::{Crate, Map};
use kelumavor::{DefinitionId, Entry, Import, Namespace, Snapshot, SnapshotWords};
use kelumavor_command::assemble::assemble;
use kelumavor_command::input::Input;
use kelumavor_command::record::{Kind, Records};
use kelumavor_command::view::View;
use kelumavor_command::{dump, resolve};

fn there_and_back(bytes: &[u8]) {
    let text = dump::text(&Input::new("test", bytes.to_vec()));
    assert_eq!(assemble(&text).as_deref(), Ok(bytes), "{text}");
}

#[test]
fn a_thousand_snapshots_come_back() {
    let mut kinds = [0; 16];
    for seed in 0..1000 {
        let words = snapshot(seed);
        assert!(Snapshot::check(&words).is_ok(), "seed {seed}: {:?}", Snapshot::check(&words).err());
        there_and_back(&bytes(&words));
        let records = Records::new(&words);
        Kind::ALL.iter().for_each(|kind| kinds[*kind as usize] += records.count(*kind));
    }
    for kind in Kind::ALL.iter().filter(|kind| !kind.is_question()) {
        assert!(kinds[*kind as usize] > 1000, "few of {}", kind.word());
    }
}

#[test]
fn damaged_ones_come_back() {
    let mut refused = 0;
    for seed in 0..1000 {
        let mut random = Random::new(seed + 7000);
        let mut words = snapshot(seed);
        for _ in 0..1 + random.below(3) {
            damage(&mut random, &mut words);
        }
        refused += usize::from(Snapshot::check(&words).is_err());
        there_and_back(&bytes(&words));
    }
    assert!(refused > 700, "{refused} are refused");
}

#[test]
fn stored_refusals_and_samples_come_back() {
    let cases = std::fs::read_to_string(repository("crates/refusals/stdin")).unwrap();
    for case in cases.lines() {
        let words = case.split_once(' ').map_or("", |(_, words)| words);
        there_and_back(&bytes(&common::read_words(words)));
    }
    for sample in ["worked.snapshot", "worked.input", "routed.input", "worked.questions"] {
        there_and_back(&std::fs::read(repository("samples").join(sample)).unwrap());
    }
}

#[test]
fn any_bytes_come_back() {
    for seed in 0..500 {
        let mut random = Random::new(seed);
        let bytes: Vec<u8> = (0..random.below(200)).map(|_| random.below(256) as u8).collect();
        there_and_back(&bytes);
    }
    there_and_back(&[]);
}

#[test]
fn the_worked_snapshot() {
    let text = dump::text(&Input::new("test", bytes(&WORKED)));
    let lines: Vec<&str> = text.lines().collect();
    assert_eq!(lines[0], "# kelumavor dump: 37 words; accepted");
    assert_eq!(lines[1], "0: name 0 \"a\"");
    assert_eq!(lines[3], "4: crate 0 origin=ordinary edition=2021");
    let (entry, comment) = lines[11].split_once(" # ").unwrap();
    assert_eq!(
        entry.trim_end(),
        "29: scope 1 module=1 namespace=values name=1 definition=1 visibility=public marks=declared attributes=none"
    );
    assert_eq!(comment, "crate::a: pub f = crate::a::f");
}

/// Modules in one another, as deep as they may be, and more imports than all the rest: the dump is longer than any snapshot, and the command
/// takes it back.
#[test]
fn a_deep_snapshot_comes_back() {
    let mut words = SnapshotWords::new();
    let krate = words.add_crate(Crate::default());
    let map = words.add_map(Map { krate, block_in: None, no_std: false });
    let name = words.name("the_module_below");
    let mut module = words.module(map, None);
    for _ in 1..Snapshot::MAX_MODULES {
        let below = words.module(map, Some(module));
        words.child(module, below);
        let definition = words.module_definition(below);
        words.add_entry(Entry::new(module, Namespace::Types, name, definition));
        module = below;
    }
    let import = Import {
        namespace: Namespace::Types,
        definition: DefinitionId(500),
        name,
        container: module,
        hidden: false,
        unstable: false,
    };
    for _ in 0..1400 {
        words.add_import(krate, import);
    }
    assert!(Snapshot::check(words.as_words()).is_ok());
    let input = file("deep", &words.to_bytes());
    let text = kelumavor(&["dump", &input]).stdout;
    assert!(text.len() > 1_000_000, "{} bytes", text.len());
    let assembled = kelumavor(&["assemble", &file("deep-text", &text)]);
    assert_eq!((assembled.status.code(), assembled.stdout == words.to_bytes()), (Some(0), true));
    // modules are found again by what they are called
    let view = View::new(words.as_words());
    for module in 0..Snapshot::MAX_MODULES {
        let called = view.module(module);
        assert!(called.len() <= 500);
        assert_eq!(resolve::module(&view, &called), Ok(module), "{called}");
    }
}

/// Far more modules and variants in one another than a snapshot may have: refused, and dumped all the same.
#[test]
fn a_refused_depth_comes_back() {
    let modules = (0..100_000).flat_map(|module| [0x5000_0000, module]);
    there_and_back(&bytes(&[0x2000_0000, 2021, 0x4000_0000, 0, 0].into_iter().chain(modules).collect::<Vec<_>>()));
    let variants = (0..60_000u32).flat_map(|parent| [0x8000_0002, parent.saturating_sub(1), 0]);
    there_and_back(&bytes(&variants.collect::<Vec<_>>()));
}

/// What a person writes: no offsets or numbers, flags left out, blank lines and comments.
#[test]
fn written_by_hand() {
    let text = "
        # the worked snapshot
        name \"a\"
        name \"\\x66\"   # f
        crate edition=2021 origin=ordinary
        map crate=0 block=none no_std=no
        module map=0 parent=none
        module map=0 parent=0
        child owner=0 module=1
        definition kind=module module=1
        definition kind=4 module=1
        scope module=0 namespace=types name=0 definition=0 visibility=public marks=declared
        scope module=1 namespace=1 name=1 definition=1 visibility=0 within=0 marks=1
    ";
    assert_eq!(assemble(text), Ok(bytes(&WORKED)));
}

#[test]
fn lines_that_cannot_be_understood() {
    let cases = [
        ("nam \"a\"", "`nam` is no kind of record"),
        ("name a", "a name is a text in quotes"),
        ("name \"a", "a text that does not end"),
        ("name \"\"", "the text has 0 bytes, and a name has 1 to 255"),
        ("name \"\\q\"", "`\\q` is no escape"),
        ("name 1 \"a\"", "this is name 0, and the line says 1"),
        ("crate origin=ordinary", "`edition` is missing"),
        ("crate origin=here edition=2021", "`here` is no origin: a number below 268435456"),
        (
            "crate origin=core edition=2021 edition=2021",
            "a crate has no further `edition`; its fields: origin, edition",
        ),
        ("crate origin", "`origin` is no field: field=value"),
        ("child owner=0 module=268435456", "`268435456` is no module: a number below 268435456"),
        ("scope module=0 namespace=type", "`type` is no namespace: a number, or types, values, macros"),
        ("word", "one value is expected, and 0 are there"),
        ("word 4294967296", "`4294967296` is no number below 4294967296"),
        ("bytes 1 2 3 4", "one to three bytes stand after the last word"),
        ("bytes 256", "`256` is no byte"),
        ("bytes 1\nword 2", "nothing may follow the line of bytes"),
        ("name length=2 words=0x61,0x62", "1 word below 0x10000000 follow this head, and not 2"),
    ];
    for (text, reason) in cases {
        let (line, told) = assemble(text).unwrap_err();
        assert_eq!(line, text.lines().count());
        assert!(told.starts_with(reason), "{text}: {told}");
    }
}
