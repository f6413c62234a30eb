//! compare_joins PROGRAM FROM TO: joins the snapshot of each seed with that of the next by the static library, puts the questions of both to the path printer
//! on their part and, with their numbers moved, on the joined words, and compares the lines.
use std::time::Instant;

use differential::Question;
use differential::compare::Other;
use differential::generate::{Case, case};
use differential::usage::{fail, seeds};
use kelumavor::{DefinitionId, ModuleId, Moved, Snapshot, join};

const USAGE: &str = "compare_joins PROGRAM FROM TO
  PROGRAM   the path printer
  FROM TO   seeds, the last one not taken";

/// A question that takes the Rust more steps is not asked.
const STEPS: u64 = 300_000;

/// Words of the printer's input, at most.
const MOST: usize = 16384;

#[derive(Default)]
struct Totals {
    joins: usize,
    too_large: usize,
    lines: usize,
    differences: usize,
}

fn main() {
    let arguments: Vec<String> = std::env::args().skip(1).collect();
    let [program, from, to] = &arguments[..] else { fail("", USAGE) };
    let (program, start) = (Other::named(program), Instant::now());
    let mut totals = Totals::default();
    for seed in seeds(from, to, USAGE) {
        let (first, second) = (case(seed, 120, STEPS).1, case(seed + 1, 120, STEPS).1);
        compare(seed, &first, &second, &program, &mut totals);
    }
    let Totals { joins, too_large, lines, differences } = totals;
    let seconds = start.elapsed().as_secs_f64();
    println!("{joins} joins, {too_large} too large, {lines} lines: {differences} differences, {seconds:.1} s");
    if differences > 0 {
        std::process::exit(1);
    }
}

fn compare(seed: u64, first: &Case, second: &Case, program: &Other, totals: &mut Totals) {
    let (Ok(one), Ok(two)) = (Snapshot::check(&first.words), Snapshot::check(&second.words)) else { return };
    let Ok(joined) = join(&one, &two) else {
        totals.too_large += 1;
        return;
    };
    totals.joins += 1;
    for (part, numbers) in [(first, &joined.first), (second, &joined.second)] {
        let asked: Vec<(Question, Question)> =
            part.questions.iter().filter_map(|question| Some((*question, to(numbers, question)?))).collect();
        if joined.words().len() + 7 * asked.len() > MOST || asked.is_empty() {
            continue;
        }
        let old = Case { words: part.words.clone(), questions: asked.iter().map(|pair| pair.0).collect() };
        let new = Case { words: joined.words().to_vec(), questions: asked.iter().map(|pair| pair.1).collect() };
        let (before, after) = (program.output(&old.input()), program.output(&new.input()));
        totals.lines += asked.len();
        if before != after {
            totals.differences += 1;
            println!("seed {seed}: {} questions have other lines on the joined words", asked.len());
        }
    }
}

/// The question with its numbers moved, where the part has them.
fn to(numbers: &Moved, question: &Question) -> Option<Question> {
    let definition = numbers.definition(DefinitionId(question.definition.try_into().ok()?))?;
    let from = numbers.module(ModuleId(question.from.try_into().ok()?))?;
    Some(Question { definition: definition.0 as usize, from: from.0 as usize, ..*question })
}
