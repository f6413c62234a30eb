//! tell WRONG FROM TO: how many questions of a range of seeds tell each wrong program from the right one.
use differential::generate;
use differential::usage::{fail, seeds};
use differential::wrongs::{Wrongs, table};

const USAGE: &str = "tell WRONG FROM TO
  WRONG    the program of the package `wrong`";

fn main() {
    let arguments: Vec<String> = std::env::args().skip(1).collect();
    let [path, from, to] = &arguments[..] else { fail("", USAGE) };
    let seeds = seeds(from, to, USAGE);
    let mut wrongs = Wrongs::start(path);
    let mut counts = vec![(0, 0); wrongs.programs.len()];
    let mut asked = 0;
    for seed in seeds {
        let (_, case) = generate::case(seed, 60, 30_000);
        asked += case.questions.len();
        for (program, places) in wrongs.told(&case.input()) {
            counts[program].0 += places.len();
            counts[program].1 += 1;
        }
    }
    println!("{asked} questions; each wrong program with the questions and the inputs that tell it");
    print!("{}", table(&wrongs.programs, &counts));
}
