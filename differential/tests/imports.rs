//! The stored import lists tell every wrong program; the snapshots for import lists have what they are to have.
use differential::check::Snapshot;
use differential::encode::words;
use differential::import_cases::from_text;
use differential::import_lists::{ByHand, Definitions, Totals, expected, from_rust};
use differential::import_rule::{MISTAKES, list};
use differential::import_snapshots::snapshot;

#[test]
fn stored_lists_tell_every_mistake() {
    let cases = from_text(include_str!("../stored/imports"));
    let snapshots: Vec<Snapshot> =
        cases.iter().map(|case| differential::check::check(&case.words).expect(&case.title)).collect();
    for (case, s) in cases.iter().zip(&snapshots) {
        assert_eq!(expected(s, case.krate), case.list, "{}", case.title);
    }
    for mistake in MISTAKES {
        let tells = cases.iter().zip(&snapshots).any(|(case, s)| list(s, case.krate, Some(mistake)) != case.list);
        assert!(tells, "{mistake:?} is not told");
    }
}

#[test]
fn definitions_give_the_stored_lists() {
    let mut totals = Totals::default();
    for case in from_text(include_str!("../stored/imports")) {
        totals.snapshot(&case.title, &case.words, &mut Definitions);
    }
    assert_eq!(totals.differences, 0);
}

#[test]
fn the_comparison_tells_every_mistake() {
    for mistake in MISTAKES {
        let mut totals = Totals::default();
        for seed in 0..200 {
            totals.snapshot("", &words(&snapshot(seed)), &mut ByHand(Some(mistake)));
        }
        assert!(totals.differences > 0, "{mistake:?} is not told");
    }
}

/// What the snapshots are to have, and in how many of 500 it is met at least.
#[test]
fn snapshots_have_everything() {
    let snapshots: Vec<Snapshot> = (0..500).map(snapshot).collect();
    let met = |what: &str, has: &dyn Fn(&Snapshot) -> bool| {
        let count = snapshots.iter().filter(|s| has(s)).count();
        assert!(count >= 20, "{what}: {count}");
    };
    let kind = |s: &Snapshot, d: usize| s.definitions[d].kind;
    let krate = |s: &Snapshot, m: usize| s.maps[s.modules[m].map].krate;
    for variants in [true, false] {
        met("a parent under two names", &|s| {
            let of = |d: usize| s.members.iter().any(|m| m.parent == d && (m.kind == 0) == variants);
            let names = |d: usize| s.scopes.iter().filter(|e| e.definition == d && e.visibility == 0).count();
            (0..s.definitions.len()).any(|d| of(d) && names(d) > 1)
        });
    }
    met("a module of another crate", &|s| {
        s.scopes.iter().any(|e| {
            let d = &s.definitions[e.definition];
            e.visibility == 0 && d.kind == 1 && krate(s, d.first) != krate(s, e.owner)
        })
    });
    met("a module in its own scope or above itself", &|s| {
        s.scopes.iter().any(|e| {
            e.visibility == 0 && kind(s, e.definition) == 1 && {
                let target = s.definitions[e.definition].first;
                target == e.owner || s.modules[e.owner].parent == target + 1
            }
        })
    });
    met("texts that begin alike in one scope", &|s| {
        s.scopes.iter().any(|e| {
            let begins = |f: &&differential::check::Scope| f.owner == e.owner && f.name != e.name;
            s.scopes.iter().filter(begins).any(|f| s.names[f.name].starts_with(&s.names[e.name]))
        })
    });
    met("a text beyond ASCII", &|s| s.scopes.iter().any(|e| !s.names[e.name].is_ascii()));
    met("a name in each namespace", &|s| {
        s.scopes
            .iter()
            .any(|e| (0..3).all(|ns| s.scopes.iter().any(|f| (f.owner, f.name, f.ns) == (e.owner, e.name, ns))))
    });
    met("entries of one definition with different bits", &|s| {
        s.scopes.iter().any(|e| s.scopes.iter().any(|f| f.definition == e.definition && f.bits != e.bits))
    });
    met("a member with other bits than its parent's entry", &|s| {
        s.members.iter().any(|m| s.scopes.iter().any(|e| e.definition == m.parent && e.bits != m.bits))
    });
    met("members of both sorts", &|s| !from_rust(s));
    met("a type alias", &|s| s.members.iter().any(|m| m.kind == 3));
    met("a module in values", &|s| s.scopes.iter().any(|e| e.ns == 1 && kind(s, e.definition) == 1));
    met("a private entry", &|s| s.scopes.iter().any(|e| e.visibility != 0));
}
