//! compare PRINTER FROM TO: runs a path printer and the text of rust-analyzer on the inputs of a range of seeds.
use std::time::Instant;

use differential::compare::{Other, Totals, compare_input};
use differential::damage;
use differential::generate::case;
use differential::printer::READ_BACK;
use differential::usage::{fail, number, seeds};

const USAGE: &str = "compare PRINTER FROM TO [--damaged] [--plain] [--read-back] [--questions N] [--steps N] [--show N]
  PRINTER    a program that reads a printer's input on stdin, with its arguments; `rules` is the one that follows the
             definitions
  FROM TO    seeds, the last one not taken
  --damaged  damaged copies of the inputs, some for each seed
  --plain    no questions of kind 14: for a printer without routes
  --read-back     options bit 64 in every question
  --questions N   questions to a seed (120; damaged: 12)
  --steps N  a question that takes the Rust more steps is not asked (300000)
  --show N   how many differences are printed whole (3)";

fn main() {
    let mut places = Vec::new();
    let (mut damaged, mut plain, mut read_back, mut questions, mut steps, mut show) =
        (false, false, false, None, 300_000u64, 3);
    let mut arguments = std::env::args().skip(1);
    while let Some(argument) = arguments.next() {
        let mut number = || number::<u64>(&arguments.next().unwrap_or_default(), USAGE);
        match argument.as_str() {
            "--damaged" => damaged = true,
            "--plain" => plain = true,
            "--read-back" => read_back = true,
            "--questions" => questions = Some(number() as usize),
            "--steps" => steps = number(),
            "--show" => show = number() as usize,
            _ if argument.starts_with("--") => fail(&format!("no option `{argument}`"), USAGE),
            _ => places.push(argument),
        }
    }
    let [printer, from, to] = &places[..] else { fail("", USAGE) };
    let seeds = seeds(from, to, USAGE);
    let other = Other::named(printer);
    let start = Instant::now();
    let mut totals = Totals::default();
    for seed in seeds {
        let (_, mut case) = case(seed, questions.unwrap_or(if damaged { 12 } else { 120 }), steps);
        if read_back {
            case.questions.iter_mut().for_each(|question| question.options |= READ_BACK);
        }
        let inputs = if damaged { damage::copies(seed, &case, steps) } else { vec![case.input()] };
        for (copy, input) in inputs.iter().enumerate() {
            compare_input(&format!("seed {seed} copy {copy}"), input, &other, &mut totals, show, !plain);
        }
    }
    println!("{totals}, {:.1} s", start.elapsed().as_secs_f64());
    if totals.differences > 0 {
        std::process::exit(1);
    }
}
