//! compare_check PROGRAM FROM TO: runs `check_snapshot` on the snapshots of a range of seeds and on damaged copies of them,
//! and compares its first line with the check that was written from document 01 alone.
use differential::check::refused_at;
use differential::compare::Other;
use differential::generate::case;
use differential::printer::words_of;
use differential::usage::{fail, seeds};
use differential::{damage, encode};

const USAGE: &str = "compare_check PROGRAM FROM TO";

fn main() {
    let arguments: Vec<String> = std::env::args().skip(1).collect();
    let [program, from, to] = &arguments[..] else { fail("", USAGE) };
    let program = Other::named(program);
    let (mut inputs, mut accepted, mut differences) = (0, 0, 0);
    for seed in seeds(from, to, USAGE) {
        let (_, mut case) = case(seed, 1, 1);
        case.questions.clear();
        let mut all = vec![encode::bytes(&case.words)];
        all.extend(damage::copies(seed, &case, 1));
        for input in all {
            let expected = match words_of(&input) {
                Err(40) => "refused 40 at 16384".to_string(),
                Err(number) => format!("refused {number} at {}", input.len() / 4),
                Ok(words) => match refused_at(&words) {
                    Some((number, place)) => format!("refused {number} at {place}"),
                    None => "accepted".to_string(),
                },
            };
            let output = String::from_utf8_lossy(&program.output(&input)).into_owned();
            inputs += 1;
            accepted += usize::from(expected == "accepted");
            if output.lines().next() != Some(&expected) {
                differences += 1;
                if differences <= 3 {
                    println!("seed {seed}: expected {expected}, printed {:?}", output.lines().next());
                }
            }
        }
    }
    println!("{inputs} inputs, {accepted} accepted, {differences} differences");
    if differences > 0 {
        std::process::exit(1);
    }
}
