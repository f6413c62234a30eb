//! Paths: their names' texts, as each edition writes them, and paths that are kept.
mod common;

use std::collections::HashSet;
use std::hash::{DefaultHasher, Hash, Hasher};
use std::panic::{RefUnwindSafe, UnwindSafe};
use std::thread;

use common::{WORKED, build, random};
use kelumavor::record::{Crate, Member};
use kelumavor::{
    AnyPath, DefinitionId, Edition, Entry, MemberKind, ModuleId, Namespace, Options, Outcome, Path, PathKind, Prefix,
    Question, Report, Rule, ShortestPath, Snapshot, SnapshotWords, Text, Windows,
};

const EDITIONS: [Edition; 4] = [Edition::Rust2015, Edition::Rust2018, Edition::Rust2021, Edition::Rust2024];

/// A module of a crate's root that holds a function `f`: the root, and the function.
fn named(words: &mut SnapshotWords, edition: Edition, name: &[u8]) -> (ModuleId, DefinitionId) {
    let [name, f] = [name, b"f"].map(|text| words.try_name(text).unwrap());
    let krate = words.add_crate(Crate { edition, ..Crate::default() });
    let (map, root) = build::map(words, krate, None);
    let module = words.module(map, Some(root));
    words.child(root, module);
    let module_definition = words.module_definition(module);
    let function = words.other_definition(module);
    words.add_entry(Entry::new(root, Namespace::Types, name, module_definition));
    words.add_entry(Entry::new(module, Namespace::Values, f, function));
    (root, function)
}

fn found(snapshot: &Snapshot, (from, function): (ModuleId, DefinitionId)) -> Path {
    match snapshot.find_path(&Question::new(Namespace::Values, function, from)).outcome {
        Outcome::Found(path) => path,
        other => panic!("{other:?}"),
    }
}

fn shortest(snapshot: &Snapshot, (from, function): (ModuleId, DefinitionId)) -> ShortestPath {
    match snapshot.any_path(Namespace::Values, function, from).unwrap() {
        AnyPath::Found(path) => path,
        other => panic!("{other:?}"),
    }
}

/// The path of the function of a snapshot that is gone.
fn kept(edition: Edition, name: &[u8]) -> Path {
    let mut words = SnapshotWords::new();
    let asked = named(&mut words, edition, name);
    found(&Snapshot::check(words.as_words()).unwrap(), asked)
}

fn hash(value: &impl Hash) -> u64 {
    let mut hasher = DefaultHasher::new();
    value.hash(&mut hasher);
    hasher.finish()
}

fn is_same<T: Eq + Hash>(one: &T, other: &T) -> bool {
    assert!(one != other || hash(one) == hash(other));
    one == other
}

/// One name of one snapshot, seen from a crate of each edition, whichever is asked first.
#[test]
fn each_edition_writes_a_name_in_its_way() {
    let rows = [
        ("type", [true; 4]),
        ("async", [false, true, true, true]),
        ("dyn", [false, true, true, true]),
        ("gen", [false, false, false, true]),
        ("union", [false; 4]),
        ("crate", [false; 4]),
        ("Type", [false; 4]),
        ("r#type", [false; 4]),
    ];
    for (name, raw) in rows {
        let mut words = SnapshotWords::new();
        let asked = EDITIONS.map(|edition| named(&mut words, edition, name.as_bytes()));
        for first in 0..4 {
            let snapshot = Snapshot::check(words.as_words()).unwrap();
            for place in (0..8).map(|step| (first + step) % 4) {
                let (path, any) = (found(&snapshot, asked[place]), shortest(&snapshot, asked[place]));
                let written = format!("{}{name}", if raw[place] { "r#" } else { "" });
                assert_eq!(path.to_string(), format!("{written}::f"));
                assert_eq!(path.to_bytes(), format!("{written}::f").into_bytes());
                assert_eq!(any.to_string(), format!("self::{written}::f"));
                assert_eq!(path.written().collect::<Vec<_>>(), [written.as_bytes(), b"f"]);
                assert_eq!(any.written().collect::<Vec<_>>(), [written.as_bytes(), b"f"]);
                assert_eq!(path.names().map(Text::to_str).collect::<Vec<_>>(), [Ok(name), Ok("f")]);
                assert_eq!(any.names().map(Text::to_str).collect::<Vec<_>>(), [Ok(name), Ok("f")]);
            }
        }
    }
}

/// Texts of any bytes, up to the longest; the library gives the same ones by number.
#[test]
fn names_of_any_bytes() {
    let long: Vec<u8> = (1..=255).collect();
    let texts: [&[u8]; 8] =
        [&long, &long[..254], &[b'x'; 253], &[0xff; 255], b"A\xff", &[0], b"a::b", "naïve".as_bytes()];
    // as the first name and as the last
    for (text, first) in texts.into_iter().flat_map(|text| [(text, text), (text, b"f")]) {
        let mut words = SnapshotWords::new();
        words.try_name(first).unwrap();
        let asked = named(&mut words, Edition::Rust2021, text);
        let snapshot = Snapshot::check(words.as_words()).unwrap();
        let (path, any) = (found(&snapshot, asked), shortest(&snapshot, asked));
        for name in path.ids().zip(path.names()).chain(any.ids().zip(any.names())) {
            assert_eq!(snapshot.name(name.0).as_ref(), Some(name.1));
        }
        drop(snapshot);
        assert_eq!(path.names().map(Text::as_bytes).collect::<Vec<_>>(), [text, b"f"]);
        assert_eq!(path.written().collect::<Vec<_>>(), [text, b"f"]);
        assert_eq!(path.to_bytes(), [text, b"::f"].concat());
        assert_eq!(any.to_bytes(), [b"self::", text, b"::f"].concat());
        assert_eq!(path.to_string(), String::from_utf8_lossy(&[text, b"::f"].concat()));
    }
    assert_eq!(format!("{:>6}|{:<6}", kept(Edition::Rust2021, b"a"), kept(Edition::Rust2021, b"b")), "  a::f|b::f  ");
}

/// The texts are first asked for when the snapshot is gone, of paths from each call that gives them.
#[test]
fn paths_outlive_their_snapshot() {
    let mut words = SnapshotWords::new();
    let asked = named(&mut words, Edition::Rust2024, b"gen");
    let snapshot = Snapshot::check(words.as_words()).unwrap();
    let question = Question::new(Namespace::Values, asked.1, asked.0);
    let mut windows = Windows::new();
    windows.place(1, &question).unwrap();
    let reports = [
        snapshot.find_path(&question),
        snapshot.clone().find_path(&question),
        snapshot.find_paths(&[question, question]).remove(1),
        windows.turn(&snapshot).unwrap().1,
    ];
    let any = shortest(&snapshot, asked);
    drop((snapshot, words));
    assert!(reports.iter().all(|report| report.to_string() == "found r#gen::f 1 0"));
    assert!(reports.iter().all(|report| is_same(report.path().unwrap(), reports[0].path().unwrap())));
    assert_eq!(format!("{:?} {any:?}", reports[0].path().unwrap()), "Path(r#gen::f) ShortestPath(self::r#gen::f)");
    let thread = thread::spawn(move || any.clone().to_string());
    assert_eq!(thread.join().unwrap(), "self::r#gen::f");
}

/// The texts are first asked for by several threads at once.
#[test]
fn threads_share_texts() {
    let path = kept(Edition::Rust2021, b"type");
    let told: Vec<String> = thread::scope(|scope| {
        let threads: Vec<_> = (0..8).map(|_| scope.spawn(|| path.to_string())).collect();
        threads.into_iter().map(|thread| thread.join().unwrap()).collect()
    });
    assert!(told.iter().all(|text| text == "r#type::f"));
}

/// Names with the same numbers in two snapshots, and records at the same places.
#[test]
fn paths_compare_by_what_is_written() {
    let path = |edition, name: &str| kept(edition, name.as_bytes());
    let a = path(Edition::Rust2021, "a");
    assert!(is_same(&a, &a.clone()));
    assert!(is_same(&a, &path(Edition::Rust2021, "a")));
    assert!(is_same(&a, &path(Edition::Rust2015, "a")));
    assert!(!is_same(&a, &path(Edition::Rust2021, "b")));
    // the same text, written in two ways
    let [before, after] = [Edition::Rust2021, Edition::Rust2024].map(|edition| path(edition, "gen"));
    assert!(before.names().eq(after.names()) && before.route().eq(after.route()));
    assert!(!is_same(&before, &after));
    // two texts, written in the same way
    let [keyword, raw] = ["type", "r#type"].map(|name| path(Edition::Rust2021, name));
    assert!(!keyword.names().eq(raw.names()) && keyword.route().eq(raw.route()));
    assert!(is_same(&keyword, &raw));
    let all = [&a, &before, &after, &keyword, &raw, &path(Edition::Rust2018, "gen")];
    assert_eq!(all.into_iter().collect::<HashSet<_>>().len(), 4);
}

/// The names come first, by which they have other numbers or their records other places.
#[test]
fn paths_of_two_snapshots() {
    let ask = |names: &[&str]| {
        let mut words = SnapshotWords::new();
        for name in names {
            words.name(name);
        }
        let asked = named(&mut words, Edition::Rust2021, b"a");
        let snapshot = Snapshot::check(words.as_words()).unwrap();
        (found(&snapshot, asked), shortest(&snapshot, asked))
    };
    let (one, any) = ask(&["a", "f"]);
    let (other, other_any) = ask(&["f", "a"]);
    assert!(!one.ids().eq(other.ids()) && !any.ids().eq(other_any.ids()));
    assert!(is_same(&one, &other) && is_same(&any, &other_any));
    let (third, third_any) = ask(&["a", "f", "zz"]);
    assert!(one.written().eq(third.written()) && any.written().eq(third_any.written()));
    assert!(!one.route().eq(third.route()) && !any.route().eq(third_any.route()));
    assert!(!is_same(&one, &third) && !is_same(&any, &third_any));
}

/// The kind is a part of what is written: with the same names and records.
#[test]
fn prefixes_tell_paths_apart() {
    let snapshot = Snapshot::check(&WORKED).unwrap();
    let ask =
        |prefix| snapshot.find_path(&Question::new(Namespace::Values, DefinitionId(1), ModuleId(0)).prefix(prefix));
    let [own, plain] = [Prefix::BySelf, Prefix::Plain].map(|prefix| ask(prefix).path().cloned().unwrap());
    assert_eq!((own.kind(), plain.kind()), (PathKind::SelfModule, PathKind::Plain));
    assert!(own.ids().eq(plain.ids()) && own.route().eq(plain.route()));
    assert!(!is_same(&own, &plain));
}

/// Fourteen modules one in the other, and a variant through its enum: sixteen names.
#[test]
fn the_longest_path() {
    let mut words = SnapshotWords::new();
    let (_, map, root) = build::own_crate(&mut words);
    let mut last = root;
    for depth in 0..14 {
        let module = words.module(map, Some(last));
        words.child(last, module);
        let definition = words.module_definition(module);
        let name = words.name(&format!("m{depth}"));
        words.add_entry(Entry::new(last, Namespace::Types, name, definition));
        last = module;
    }
    let [e, v] = ["E", "V"].map(|text| words.name(text));
    let parent = words.other_definition(last);
    let definition = words.variant_definition(parent, v);
    words.add_entry(Entry::new(last, Namespace::Types, e, parent));
    words.add_member(Member { parent, name: v, definition, kind: MemberKind::Variant, hidden: false, unstable: false });
    let snapshot = Snapshot::check(words.as_words()).unwrap();
    let options = Options { read_back: true, ..Options::default() };
    let question = Question::new(Namespace::Types, definition, root).prefix(Prefix::ByCrate).options(options);
    let report = snapshot.find_path(&question);
    drop(snapshot);
    let path = report.path().unwrap();
    let names = (0..14).map(|depth| format!("m{depth}::")).collect::<String>();
    assert_eq!(path.to_string(), format!("crate::{names}E::V"));
    assert_eq!((path.ids().len(), path.names().len(), path.written().len()), (16, 16, 16));
    let rules: Vec<Rule> = path.route().map(|step| step.rule).collect();
    assert_eq!((rules.len(), rules[0], rules[15]), (16, Rule::Scope, Rule::Variant));
}

/// A path that is a keyword has no names, and a text of none is asked for.
#[test]
fn keywords_alone() {
    let snapshot = Snapshot::check(&WORKED).unwrap();
    let question = Question::new(Namespace::Types, DefinitionId(0), ModuleId(1)).prefix(Prefix::BySelf);
    let report = snapshot.find_path(&question);
    let path = report.path().unwrap();
    assert_eq!((path.to_string().as_str(), path.is_use_line()), ("self", false));
    assert_eq!((path.names().len(), path.written().len(), path.route().len()), (0, 0, 1));
    assert!(is_same(path, &path.clone()));
}

/// The texts that a path has are those of its numbers, on snapshots by chance.
#[test]
fn names_by_number() {
    for seed in 0..60 {
        let mut random = random::Random::new(seed);
        let made = random::snapshot(&mut random);
        let snapshot = Snapshot::check(&made.words).unwrap();
        for _ in 0..50 {
            let question = random::question(&mut random, &made);
            let report = snapshot.find_path(&question);
            if let Outcome::Found(path) | Outcome::Misleads(path) | Outcome::TankEmpty(Some(path)) = &report.outcome {
                let texts: Vec<Text> = path.ids().map(|name| snapshot.name(name).unwrap()).collect();
                assert!(path.names().eq(&texts), "seed {seed}: {question:?}");
            }
        }
    }
}

#[test]
fn reports_go_anywhere() {
    fn goes<T: Send + Sync + UnwindSafe + RefUnwindSafe + 'static>() {}
    goes::<Report>();
    goes::<AnyPath>();
    goes::<Snapshot>();
}
