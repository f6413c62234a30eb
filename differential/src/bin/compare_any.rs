//! compare_any FROM TO: asks the static library whether any path names an item, for the items and modules of random snapshots, and compares
//! the answers with those of `any_path.rs`, which was written on its own: outcome, number of names, whether the path begins with a name; and the
//! library's path has to read to the item there, by records at the places of its route. Of paths that are as good as each other each
//! may give another.
use std::time::Instant;

use differential::any_path::{Answer, AnyPath, Start, Viewer};
use differential::check::{Snapshot, check, kind, payload};
use differential::generate::case;
use differential::library::path_of;
use differential::reading::{Item, item};
use differential::usage::{fail, seeds};
use kelumavor::{DefinitionId, ModuleId, Namespace};

const USAGE: &str = "compare_any FROM TO
  FROM TO   seeds, the last one not taken";

/// Pairs of an item and a module that are asked of a snapshot, at most.
const PAIRS: usize = 150;

#[derive(Default)]
struct Totals {
    found: usize,
    longer: usize,
    nowhere: usize,
    refused: usize,
    differences: usize,
}

fn main() {
    let arguments: Vec<String> = std::env::args().skip(1).collect();
    let [from, to] = &arguments[..] else { fail("", USAGE) };
    let start = Instant::now();
    let mut totals = Totals::default();
    for seed in seeds(from, to, USAGE) {
        let (_, case) = case(seed, 1, 1);
        if let Ok(s) = check(&case.words) {
            compare(seed, &case.words, &s, &mut totals);
        }
    }
    let Totals { found, longer, nowhere, refused, differences } = totals;
    let seconds = start.elapsed().as_secs_f64();
    println!(
        "{found} found, {longer} longer, {nowhere} nowhere, {refused} refused: {differences} differences, {seconds:.1} s"
    );
    if differences > 0 {
        std::process::exit(1);
    }
}

fn compare(seed: u64, words: &[u32], s: &Snapshot, totals: &mut Totals) {
    let snapshot = kelumavor::Snapshot::check(words).expect("words that both checks accept");
    let (modules, definitions) = (s.modules.len(), s.definitions.len());
    let all = modules * definitions * 3;
    let step = all.div_ceil(PAIRS).max(1);
    for place in (seed as usize % step..all).step_by(step) {
        let (ns, definition, from) = (place % 3, place / 3 % definitions, place / 3 / definitions);
        let namespace = [Namespace::Types, Namespace::Values, Namespace::Macros][ns];
        let told = snapshot.any_path(namespace, DefinitionId(definition as u32), ModuleId(from as u32));
        let Ok(told) = told else {
            let macros = ns == 2 && s.definitions[definition].kind != 5;
            totals.refused += 1;
            report(macros, seed, ns, definition, from, "refused", totals);
            continue;
        };
        let viewer = Viewer::new(s, from);
        let same = match (viewer.any_path(ns, definition), &told) {
            (Answer::None, kelumavor::AnyPath::Nowhere) => true,
            (Answer::Longer, kelumavor::AnyPath::Longer) => true,
            (Answer::Found(path), kelumavor::AnyPath::Found(shortest)) => {
                let given = path_of(shortest);
                path.names.len() == given.names.len()
                    && (path.start == Start::Plain) == (given.start == Start::Plain)
                    && viewer.reads_to(ns, &given) == Some(item(s, ns, definition))
                    && is_route(words, &viewer, ns, &given, &shortest.route().collect::<Vec<u32>>())
            }
            _ => false,
        };
        match &told {
            kelumavor::AnyPath::Found(_) => totals.found += 1,
            kelumavor::AnyPath::Longer => totals.longer += 1,
            _ => totals.nowhere += 1,
        }
        report(same, seed, ns, definition, from, &format!("{told:?}"), totals);
    }
}

/// Whether each place is that of a record by which the name is read after the names before it.
fn is_route(words: &[u32], viewer: &Viewer, ns: usize, path: &AnyPath, route: &[u32]) -> bool {
    let first = matches!(path.start, Start::Plain | Start::Extern);
    let by_record = |(k, (&name, &place)): (usize, (&usize, &u32))| {
        let record = &words[place as usize..];
        let [owner, one, two] = [payload(record[0]), record[1] as usize, record[2] as usize];
        let its = if k + 1 == path.names.len() { ns } else { 0 };
        if k == 0 && first {
            return match kind(record[0]) {
                9 => path.start == Start::Plain && (one, two) == (its, name),
                11 => its == 0 && one == name,
                _ => false,
            };
        }
        let before = viewer.reads_to(0, &AnyPath { start: path.start, names: path.names[..k].to_vec() });
        match (kind(record[0]), before) {
            (9, Some(Item::Module(module))) => (owner, one, two) == (module, its, name),
            (8, Some(Item::Other(_, definition))) => (owner, one, two) == (2, definition, name),
            _ => false,
        }
    };
    route.len() == path.names.len() && path.names.iter().zip(route).enumerate().all(by_record)
}

fn report(same: bool, seed: u64, ns: usize, definition: usize, from: usize, told: &str, totals: &mut Totals) {
    if !same {
        totals.differences += 1;
        println!("seed {seed}: definition {definition} in namespace {ns} from module {from}: {told}");
    }
}
