//! judge PRINTER FROM TO: has the compiler judge the paths of a printer, and any path, on the workspaces of a range of seeds.
use std::time::Instant;

use differential::compare::Other;
use differential::judge::{Also, Rustc, Totals, judge};
use differential::show::snapshot_text;
use differential::usage::{fail, seeds};
use differential::workspaces::workspace;

const USAGE: &str = "judge PRINTER FROM TO [--use] [--told] [--show]
  PRINTER  a path printer that knows options bit 64, or `rules`, or `original`
  FROM TO  seeds, the last one not taken
  --use    the found paths as `use` lines too
  --show   the workspaces, as sources and as snapshots; nothing is judged
  --told   by how many paths the compiler tells each wrong reading
  Needs rustc.";

/// Contradictions that are printed.
const SHOWN: usize = 20;

fn main() {
    let (options, places): (Vec<String>, Vec<String>) = std::env::args().skip(1).partition(|a| a.starts_with("--"));
    let [printer, from, to] = &places[..] else { fail("", USAGE) };
    if let Some(option) = options.iter().find(|option| !["--use", "--told", "--show"].contains(&option.as_str())) {
        fail(&format!("no option `{option}`"), USAGE);
    }
    let printer = Other::named(printer);
    let seeds = seeds(from, to, USAGE);
    if options.iter().any(|option| option == "--show") {
        return seeds.for_each(show);
    }
    let Some(rustc) = Rustc::new("judge") else { fail("rustc does not run", USAGE) };
    let start = Instant::now();
    let mut totals = Totals::new();
    let has = |wanted: &str| options.iter().any(|option| option == wanted);
    let also = Also { uses: has("--use"), mistakes: has("--told") };
    for seed in seeds {
        judge(seed, &workspace(seed), &printer, &rustc, also, &mut totals);
    }
    for contradiction in totals.contradictions.iter().take(SHOWN) {
        println!("{contradiction}");
    }
    for (code, count) in &totals.refused {
        println!("refused workspaces: {count} by error{code}");
    }
    if also.mistakes {
        totals.told().iter().for_each(|(mistake, paths)| println!("{mistake} {paths}"));
    }
    println!("{totals}, {:.1} s", start.elapsed().as_secs_f64());
    if !totals.contradictions.is_empty() {
        std::process::exit(1);
    }
}

fn show(seed: u64) {
    let w = workspace(seed);
    for krate in 0..w.editions.len() {
        println!("seed {seed}, crate k{krate}, edition {}\n{}", w.editions[krate], w.source(krate, &[], &[]).0);
    }
    println!("{}", snapshot_text(&w.snapshot().s));
}
