//! Reach, import lists and joins.
mod common;

use std::sync::LazyLock;

use common::{WORKED, bytes, errors, file, kelumavor, out, snapshot};
use kelumavor::{Counts, ModuleId, Snapshot, Viewer, join, with_import_lists};
use kelumavor_command::view::View;
use kelumavor_command::{imports, reach};

fn worked() -> String {
    static FILE: LazyLock<String> = LazyLock::new(|| file("lists-worked", &bytes(&WORKED)));
    FILE.clone()
}

#[test]
fn reach_in_words() {
    let lines = |more: &[&str]| out(&kelumavor(&[&["reach", &worked(), "--from", "crate"], more].concat()));
    let asked = "prefix plain, options none, fuel 10000 for each item, limit 15\n";
    let all = "2 of 2 items can be named\n     1 by 1 name\n     1 by 2 names\n1.50 names a path on average\n";
    assert_eq!(lines(&[]), format!("{all}asked: from crate (module 0); {asked}"));
    let empty = lines(&["--fuel", "0"]);
    assert!(
        empty.starts_with("1 of 2 items can be named\n     1 by 1 name\n     1 not known: the fuel ran out\n1 name a")
    );
    assert!(lines(&["--limit", "1"]).contains("\n     1 without a path of that length (limit 1)\n"));
    let from_a = out(&kelumavor(&["reach", &worked(), "--from", "crate::a"]));
    assert!(from_a.contains("\n     1 by a keyword alone\n"), "{from_a}");
}

#[test]
fn imports_in_words() {
    let lines = "crate (crate 0): 2 imports\n  a in types: mod crate::a, held by module crate\n  \
                 f in values: item crate::a::f, held by module crate::a\n";
    for krate in [&[][..], &["--crate", "0"], &["--crate", "crate"], &["--crate", "crate::a"]] {
        assert_eq!(out(&kelumavor(&[&["imports", &worked()], krate].concat())), lines);
    }
    let to = file("lists-finished", b"");
    let output = kelumavor(&["imports", &worked(), "-o", &to]);
    assert_eq!(out(&output), format!("49 words, 2 imports written to {to}\n"));
    let finished = with_import_lists(&WORKED).unwrap();
    assert_eq!(std::fs::read(&to).unwrap(), bytes(&finished));
}

/// What is said are the library's numbers, on snapshots by chance.
#[test]
fn numbers_of_the_library() {
    for seed in 0..200 {
        let words = snapshot(seed);
        let (view, snapshot) = (View::new(&words), Snapshot::check(&words).unwrap());
        let Counts { modules, crates, .. } = *snapshot.counts();
        for (_, module) in (0..modules).zip(0..) {
            let viewer = Viewer::new(ModuleId(module));
            let told = snapshot.reach(&viewer).unwrap();
            let text = reach::text(&view, &viewer, &told);
            let of = |line: &str| line.trim_start().split(' ').next().and_then(|number| number.parse::<usize>().ok());
            let items = text.lines().next().and_then(|line| line.split(' ').nth(2)?.parse::<usize>().ok());
            assert_eq!(items, Some(told.items()));
            let rows: usize = text.lines().filter(|line| line.starts_with("   ")).filter_map(of).sum();
            assert_eq!(rows, told.items(), "{text}");
        }
        let lists: Vec<_> =
            (0..crates).zip(0..).map(|(_, krate)| snapshot.import_list(kelumavor::CrateId(krate)).unwrap()).collect();
        let count: usize = lists.iter().map(|list| list.imports().count()).sum();
        assert_eq!(imports::text(&view, &lists).lines().count(), count + crates, "seed {seed}");
    }
}

#[test]
fn statuses() {
    let (good, broken) = (worked(), file("lists-broken", &bytes(&WORKED[..36])));
    let (good, broken) = (good.as_str(), broken.as_str());
    let cases: [(&[&str], i32, &str); 9] = [
        (&["reach", good, "--from", "crate"], 0, ""),
        (&["reach", good, "--from", "9"], 1, ""),
        (&["reach", good], 2, "kelumavor: --from is missing: a written name, or a number\n"),
        (&["reach", broken, "--from", "0"], 1, ""),
        (&["imports", good], 0, ""),
        (&["imports", good, "--crate", "1"], 1, ""),
        (&["imports", broken], 1, ""),
        (&["imports", good, "-o", "/no/such/folder"], 2, "kelumavor: cannot write /no/such/folder: "),
        (&["imports", good, "-o", "x", "--crate", "0"], 2, "kelumavor: -o writes the lists of all crates"),
    ];
    for (args, status, said) in cases {
        let output = kelumavor(args);
        assert_eq!(output.status.code(), Some(status), "{args:?}");
        assert!(errors(&output).starts_with(said), "{args:?}: {}", errors(&output));
        assert_eq!(errors(&output).is_empty(), said.is_empty(), "{args:?}");
    }
}

/// `-o -` is standard output.
#[test]
fn words_to_standard_output() {
    let finished = bytes(&with_import_lists(&WORKED).unwrap());
    assert_eq!(kelumavor(&["imports", &worked(), "-o", "-"]).stdout, finished);
    let both = kelumavor(&["imports", &worked(), "-o", "-", "--json"]);
    assert_eq!((both.status.code(), both.stdout.len()), (Some(2), 0));
    let joined = kelumavor(&["join", &worked(), &worked()]).stdout;
    assert_eq!(kelumavor(&["join", &worked(), &worked(), "-o", "-"]).stdout, joined);
    let text = file("lists-text", &kelumavor(&["dump", &worked()]).stdout);
    assert_eq!(kelumavor(&["assemble", &text, "-o", "-"]).stdout, bytes(&WORKED));
    assert!(!std::path::Path::new("-").exists());
}

#[test]
fn joins() {
    let to = file("lists-joined", b"");
    let output = kelumavor(&["join", &worked(), &worked(), "-o", &to]);
    let second = "the second's crates begin at 1, its maps at 1, its modules at 2; the first's numbers stay";
    assert_eq!(out(&output), format!("70 words written to {to}\n{second}\n"));
    let part = Snapshot::check(&WORKED).unwrap();
    let joined = bytes(join(&part, &part).unwrap().words());
    assert_eq!(std::fs::read(&to).unwrap(), joined);
    assert_eq!(kelumavor(&["join", &worked(), &worked()]).stdout, joined);
    let json = out(&kelumavor(&["join", &worked(), &worked(), "--json", "-o", &to]));
    let second = r#""crates":[1],"maps":[1],"modules":[2,3],"names":[0,1],"definitions":[2,3]"#;
    assert_eq!(json, format!("{{\"count\":70,\"second\":{{{second}}}}}\n"));
    // each part is asked by the joined words
    let line = |file: &str, item: &str, from: &str| {
        out(&kelumavor(&["ask", file, "--item", item, "--from", from])).lines().next().unwrap().to_string()
    };
    assert_eq!(line(&to, "1", "0"), line(&worked(), "1", "0"));
    assert_eq!(line(&to, "3", "2"), line(&worked(), "1", "0"));
}

#[test]
fn joins_that_fail() {
    let (good, broken) = (worked(), file("lists-join-broken", &bytes(&WORKED[..36])));
    let (good, broken) = (good.as_str(), broken.as_str());
    let words = snapshot(1);
    let names = (0..2048).flat_map(|n: u32| [0x1000_0003, 0x30 + n % 64 + (0x30 + n / 64) * 256 + 0x7A * 65536]);
    let full = file("lists-join-full", &bytes(&names.collect::<Vec<u32>>()));
    let other = file("lists-join-other", &bytes(&words));
    let cases: [(&[&str], i32, &str, &str); 5] = [
        (&["join", good, broken], 1, "refused 31 at word 29", ""),
        (&["join", broken, good], 1, "refused 31 at word 29", ""),
        (&["join", &full, &other], 1, "refused 51: a joined snapshot that passes a limit", ""),
        (&["join", good], 2, "", "kelumavor: `join` takes two files, and 1 are given"),
        (&["join", good, good, "-o", "/no/such/folder"], 2, "", "kelumavor: cannot write /no/such/folder: "),
    ];
    for (args, status, answer, said) in cases {
        let output = kelumavor(args);
        assert_eq!(output.status.code(), Some(status), "{args:?}");
        assert!(out(&output).contains(answer), "{args:?}: {}", out(&output));
        assert!(errors(&output).starts_with(said), "{args:?}: {}", errors(&output));
    }
}
