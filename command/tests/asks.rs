//! Questions, trees and graphs.
mod common;

use common::{WORKED, build, bytes, file, kelumavor, out, snapshot};
use kelumavor::record::{Crate, Map};
use kelumavor::{
    DefinitionId, Entry, ModuleId, Namespace, Outcome, Question, Rule, Snapshot, SnapshotWords, Visibility,
};
use kelumavor_command::record::Kind;
use kelumavor_command::view::View;
use kelumavor_command::{ask, dot, resolve, tree};

/// The lines of an answer about the worked snapshot.
fn lines(name: &str, args: &[&str]) -> Vec<String> {
    let file = file(name, &bytes(&WORKED));
    out(&kelumavor(&[&["ask", &file][..], args].concat())).lines().map(str::to_string).collect()
}

#[test]
fn by_names_and_by_numbers() {
    let expected = [
        "a::f",
        "  a: entry of module crate, pub, word 21",
        "  f: entry of module crate::a, pub, word 29",
        "asked: item crate::a::f (definition 1) in values from crate (module 0); prefix plain, options none, fuel 10000, \
         limit 15; 1 charge",
    ];
    for item in ["a::f", "crate::a::f", "self::a::f", "crate#0::a::f", "{module 1}::f", "crate::a::{definition 1}", "1"]
    {
        for from in ["crate", "crate#0", "0", "{module 0}"] {
            assert_eq!(lines("names", &["--item", item, "--from", from]), expected, "{item} from {from}");
        }
    }
    let from_a = lines("names-a", &["--item=super::a::f", "--from=crate::a", "--prefix=crate"]);
    assert_eq!(from_a[0], "crate::a::f");
    assert_eq!(from_a[1], "  crate: a keyword, the root of the crate of crate::a");
}

#[test]
fn what_none_means() {
    let none = |more: &[&str]| lines("none", &[&["--item", "a::f", "--from", "crate"], more].concat()).swap_remove(0);
    assert_eq!(none(&["--namespace", "types"]), "none: the whole search found no path");
    let whole = lines("none", &["--item", "a::f", "--from", "crate", "--namespace", "types"]);
    assert_eq!(whole[1], "second opinion: the compiler has no path for it here either, of any length");
    let short = none(&["--namespace", "types", "--limit", "6"]);
    assert!(short.starts_with(
        "none: the whole search under the limit 6 found no path: that is a fact about paths of that length"
    ));
    let empty = none(&["--fuel", "0"]);
    assert!(empty.starts_with("not known: the fuel ran out (first looking for the item itself, with 15 names left)"));
    assert_eq!(none(&["--fuel", "10001"]), "refused 21: the fuel is above 10,000");
    assert_eq!(none(&["--limit", "0"]), "refused 46: the limit is outside 1 to 15");
}

#[test]
fn a_path_without_names_is_no_use_line() {
    let lines = lines("self", &["--item", "a", "--from", "crate::a", "--prefix", "self"]);
    assert_eq!(lines[..2], ["self", "  self: a keyword, the viewing module itself"]);
    assert!(lines[2].starts_with("note: `self` names the module, and `use self;` is no use line"));
}

#[test]
fn options_by_name_and_number() {
    let asked = |options: &str| {
        let lines = lines("options", &["--item", "a::f", "--from", "crate", "--options", options]);
        lines.last().unwrap().split("options ").nth(1).unwrap().split(", fuel").next().unwrap().to_string()
    };
    let all =
        "prefer-no-std+prefer-prelude+prefer-absolute+allow-unstable+ignore-local-imports+old-names-last+read-back";
    assert_eq!(asked(&all.replace('+', ",")), all);
    assert_eq!(asked("127"), all);
    assert_eq!(asked("allow-unstable"), "allow-unstable");
    let file = file("options-wrong", &bytes(&WORKED));
    for wrong in ["128", "unstable", "allow-unstable,"] {
        let output = kelumavor(&["ask", &file, "--item", "a::f", "--from", "crate", "--options", wrong]);
        assert_eq!(output.status.code(), Some(2), "{wrong}");
    }
}

/// Where the rules of the search pass a path over, the compiler's path is told with the records by which it is read.
#[test]
fn a_second_opinion_with_its_route() {
    let mut words = SnapshotWords::new();
    let krate = words.add_crate(Crate::default());
    let map = words.add_map(Map { krate, block_in: None, no_std: false });
    let root = words.module(map, None);
    let inner = words.module(map, Some(root));
    words.child(root, inner);
    let module = words.module_definition(inner);
    let item = words.other_definition(inner);
    let [a, hidden, seen] = ["a", "A", "B"].map(|text| words.name(text));
    words.add_entry(Entry::new(root, Namespace::Types, a, module));
    let import =
        |name, visibility| Entry { declared: false, visibility, ..Entry::new(inner, Namespace::Types, name, item) };
    words.add_entry(import(hidden, Visibility::Implicit(inner)));
    words.add_entry(import(seen, Visibility::Public));
    let file = file("opinion", &bytes(words.as_words()));
    let plain = ["ask", &file, "--item", "1", "--from", "0", "--namespace", "types"];
    let text = out(&kelumavor(&plain));
    let expected = [
        "  self: a keyword, the viewing module itself",
        "  a: entry of module crate, pub, word 23",
        "  B: entry of module crate::a, pub, import, word 39",
    ];
    let lines: Vec<&str> = text.lines().collect();
    assert!(lines[1].starts_with("second opinion: the compiler takes `self::a::B` for it here"), "{text}");
    assert_eq!(lines[2..5], expected, "{text}");
    let json = out(&kelumavor(&[&plain[..], &["--json"]].concat()));
    assert!(
        json.contains(r#"{"part":"self","word":null,"text":"self: a keyword, the viewing module itself"}"#),
        "{json}"
    );
    assert!(
        json.contains(r#"{"part":"B","word":39,"text":"B: entry of module crate::a, pub, import, word 39"}"#),
        "{json}"
    );
}

/// In a block whose own `f` hides the one around it the path is no answer, and the status says so.
#[test]
fn a_path_that_misleads() {
    let file = file("misleads", &bytes(&build::hiding().words));
    let plain = ["ask", &file, "--item", "0", "--from", "1", "--namespace", "values"];
    let ask = |more: &[&str]| kelumavor(&[&plain[..], more].concat());
    let output = ask(&["--options", "read-back"]);
    assert_eq!(output.status.code(), Some(1));
    let text = out(&output);
    assert!(text.starts_with("misleads: read from "), "{text}");
    assert!(text.lines().nth(1).unwrap().starts_with("  f: entry of module crate,"), "{text}");
    let json = out(&ask(&["--options", "read-back", "--json"]));
    assert!(json.contains("\"outcome\":\"misleads\",\"path\":\"f\",\"use_line\":false"), "{json}");
    assert_eq!(ask(&[]).status.code(), Some(0));
    let by_crate = ask(&["--options", "read-back", "--prefix", "crate"]);
    assert_eq!((by_crate.status.code(), out(&by_crate).lines().next()), (Some(0), Some("crate::f")));
}

/// Each module of a random snapshot is found again by the name that it is given.
#[test]
fn modules_by_their_names() {
    for seed in 0..300 {
        let words = snapshot(seed);
        let view = View::new(&words);
        for module in 0..view.records.count(Kind::Module) {
            assert_eq!(resolve::module(&view, &view.module(module)), Ok(module), "seed {seed}");
        }
    }
}

/// Each node of a graph's edges is one that it has; the edges of the route are as many as its steps, each begins where the one before it ended,
/// and the last ends at the item.
fn drawn(view: &View, graph: &str, steps: usize, item: usize) {
    let ends = |line: &str| {
        let (from, rest) = line.trim().split_once(" -> ")?;
        Some((from.to_string(), rest.split_once(" [")?.0.to_string()))
    };
    let is_node = |node: &str| graph.lines().any(|line| line.trim_start().starts_with(&format!("{node} [")));
    for (from, to) in graph.lines().filter_map(ends) {
        assert!(is_node(&from) && is_node(&to), "{from} -> {to}:\n{graph}");
    }
    let route: Vec<_> = graph.lines().filter(|line| line.contains("color=red")).filter_map(ends).collect();
    assert_eq!(route.len(), steps, "{graph}");
    assert!(route.windows(2).all(|pair| pair[0].1 == pair[1].0), "{route:?}");
    let record = view.records.of(Kind::Definition)[item];
    let node = if record.get(0) == 1 { format!("m{}", record.get(1)) } else { format!("d{item}") };
    assert!(route.last().is_none_or(|(_, end)| *end == node), "{route:?} to {node}");
}

/// The words around an answer are those of the library's answer.
#[test]
fn answers_are_the_librarys() {
    let (mut found, mut rules) = (0, std::collections::HashSet::new());
    for seed in 0..150 {
        let words = snapshot(seed);
        let (snapshot, view) = (Snapshot::check(&words).unwrap(), View::new(&words));
        for definition in 0..snapshot.counts().definitions as u32 {
            let from = ModuleId((definition + seed as u32) % snapshot.counts().modules as u32);
            let question = Question::new(Namespace::Types, DefinitionId(definition), from);
            let report = snapshot.find_path(&question);
            let text = ask::text(&view, &question, &report, None);
            let first = text.lines().next().unwrap();
            match &report.outcome {
                Outcome::Found(path) => {
                    found += 1;
                    let steps = ask::steps(path);
                    assert_eq!(steps.len(), path.route().len());
                    let told: Vec<_> = steps.iter().map(|(part, _)| part.as_str()).collect();
                    assert_eq!(told.join("::"), first);
                    rules.extend(path.route().map(|step| step.rule));
                    if !first.contains('\\') {
                        assert_eq!(first, path.to_string());
                    }
                }
                Outcome::NoPath => assert!(first.starts_with("none: ")),
                other => panic!("{other:?}"),
            }
            let graph = dot::graph(&view, report.path().map(|path| (from, path)));
            drawn(&view, &graph, report.path().map_or(0, |path| path.route().len()), definition as usize);
        }
    }
    assert!(found > 300, "{found}");
    for rule in [Rule::Scope, Rule::Keyword, Rule::Extern, Rule::Variant, Rule::Local, Rule::Builtin] {
        assert!(rules.contains(&rule), "{rule}");
    }
}

#[test]
fn the_tree_of_the_worked_snapshot() {
    let lines = [
        "crate: crate 0, ordinary, edition 2021",
        "└── root, module 0 (word 9)",
        "    └── a: mod, pub, module 1 (word 11)",
        "        └── f: item, pub, values, definition 1 (word 29)",
    ];
    assert_eq!(tree::text(&View::new(&WORKED)).lines().collect::<Vec<_>>(), lines);
}

/// The tree has each module once, and each entry that is no module's own.
#[test]
fn trees_are_whole() {
    for seed in 0..200 {
        let words = snapshot(seed);
        let view = View::new(&words);
        let text = tree::json(&tree::crates(&view)).to_string();
        let count = |kind: &str| text.matches(&format!("{{\"kind\":\"{kind}\"")).count();
        assert_eq!(count("module") + count("block"), view.records.count(Kind::Module));
        let called = (0..view.records.count(Kind::Module)).filter(|module| view.entry_of(*module).is_some()).count();
        assert_eq!(count("entry") + called, view.records.count(Kind::Scope));
        assert_eq!(count("crate"), view.records.count(Kind::Crate));
    }
}

#[test]
fn the_graph_of_the_worked_snapshot() {
    let file = file("graph", &bytes(&WORKED));
    let graph = out(&kelumavor(&["tree", "--dot", &file, "--item", "a::f", "--from", "crate"]));
    for line in [
        "    m0 [shape=box, peripheries=2, label=\"crate\"];",
        "  m0 -> m1 [label=\"1. a\", color=red, fontcolor=red, penwidth=2];",
        "  m1 -> d1 [label=\"2. f\", color=red, fontcolor=red, penwidth=2];",
    ] {
        assert!(graph.lines().any(|other| other == line), "{line}");
    }
    let plain = out(&kelumavor(&["tree", "--dot", &file]));
    assert!(plain.contains("  m1 -> d1 [label=\"pub f\"];") && !plain.contains("red"));
}
