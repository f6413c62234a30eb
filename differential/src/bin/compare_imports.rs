//! compare_imports PROGRAM FROM TO: puts the snapshots of a range of seeds to a program that builds import lists, crate by crate, and compares
//! them with the Rust's, item by item in the order in which the Rust adds them; then the stored lists.
use std::time::Instant;

use differential::damage::copies;
use differential::generate::{Case, case};
use differential::import_cases::from_text;
use differential::import_lists::{ImportLists, Totals, named};
use differential::printer::words_of;
use differential::usage::{fail, seeds};
use differential::{encode, import_snapshots};

const USAGE: &str = "compare_imports PROGRAM FROM TO
  PROGRAM   `library`, the static library (feature `library`); `rules`, the definitions; `hand`, the rule by hand
  FROM TO   seeds, the last one not taken";

fn main() {
    let arguments: Vec<String> = std::env::args().skip(1).collect();
    let [name, from, to] = &arguments[..] else { fail("", USAGE) };
    let Some(mut program) = named(name) else { fail(&format!("no program `{name}` here"), USAGE) };
    let start = Instant::now();
    let mut totals = Totals::default();
    for seed in seeds(from, to, USAGE) {
        compare(seed, &mut *program, &mut totals);
    }
    for case in from_text(include_str!("../../stored/imports")) {
        totals.snapshot(&case.title, &case.words, &mut *program);
    }
    println!("{totals}, {:.1} s", start.elapsed().as_secs_f64());
    if totals.differences > 0 {
        std::process::exit(1);
    }
}

/// The snapshot for import lists, that of the search, and for one in ten damaged copies.
fn compare(seed: u64, program: &mut dyn ImportLists, totals: &mut Totals) {
    let words = encode::words(&import_snapshots::snapshot(seed));
    totals.snapshot(&format!("seed {seed}"), &words, program);
    let (_, other) = case(seed, 1, 1);
    totals.snapshot(&format!("seed {seed} of the search"), &other.words, program);
    if seed % 10 == 0 {
        for input in copies(seed, &Case { words, questions: Vec::new() }, 1) {
            if let Ok(words) = words_of(&input) {
                totals.damaged(&format!("a damaged copy of seed {seed}"), &words, program);
            }
        }
    }
}
