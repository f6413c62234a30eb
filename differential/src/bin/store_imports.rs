//! store_imports FROM TO FILE: for each mistake the smallest snapshot found in a range of seeds on which the rule by hand with it differs from the
//! Rust, written with the Rust's list.
use differential::Question;
use differential::check::Snapshot;
use differential::encode::words;
use differential::import_cases::{ImportCase, to_text};
use differential::import_lists::{expected, from_rust};
use differential::import_rule::{MISTAKES, Mistake, list};
use differential::import_snapshots::snapshot;
use differential::shrink::shrink;
use differential::usage::{fail, seeds};

const USAGE: &str = "store_imports FROM TO FILE";

fn main() {
    let arguments: Vec<String> = std::env::args().skip(1).collect();
    let [from, to, file] = &arguments[..] else { fail("", USAGE) };
    let seeds = seeds(from, to, USAGE);
    let mut cases = Vec::new();
    for mistake in MISTAKES {
        match seeds.clone().filter_map(|seed| smallest(seed, mistake)).min_by_key(|case| case.words.len()) {
            Some(case) => cases.push(case),
            None => println!("{mistake:?} is not told"),
        }
    }
    if let Err(error) = std::fs::write(file, to_text(&cases)) {
        fail(&format!("{file} can not be written: {error}"), USAGE);
    }
}

fn krate_of(s: &Snapshot, q: &Question) -> usize {
    s.maps[s.modules[q.from].map].krate
}

/// The crate is that of the question's module; nothing else is asked.
fn smallest(seed: u64, mistake: Mistake) -> Option<ImportCase> {
    let s = snapshot(seed);
    let told = |s: &Snapshot, q: &Question| {
        let krate = krate_of(s, q);
        from_rust(s) && list(s, krate, None) != list(s, krate, Some(mistake))
    };
    let all = words(&s).len();
    let question =
        |from: usize| Question { definition: usize::MAX, ns: 0, from, prefix: 1, options: 0, fuel: 0, limit: 15 };
    let q = (0..s.modules.len()).map(question).find(|q| told(&s, q)).filter(|_| all < 400)?;
    let (s, q) = shrink(s, q, told);
    let krate = krate_of(&s, &q);
    Some(ImportCase { title: format!("{mistake:?}"), krate, words: words(&s), list: expected(&s, krate) })
}
