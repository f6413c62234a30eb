//! Reads inputs on stdin, each after its length in bytes as four bytes, lowest first. Prints for each input a line for every
//! wrong program that answers it otherwise than the right one: its name and the numbers of the lines that differ. An empty
//! line ends an input. With `--only` it runs the programs named. With `--list` it prints the programs, and the reason where one can not be told; with `--as NAME` it is
//! that program, a path printer.
use std::io::{Read, Write};

#[path = "../../src/budget.rs"]
mod budget;
#[allow(dead_code)]
#[path = "../../src/check.rs"]
mod check;
#[allow(dead_code)]
#[path = "../../src/keywords.rs"]
mod keywords;
#[path = "../../src/printer.rs"]
#[allow(dead_code)]
mod printer;
#[path = "../../src/question.rs"]
mod question;
#[path = "../../src/reach.rs"]
mod reach;
#[allow(dead_code)]
#[path = "../../src/reading.rs"]
mod reading;
#[allow(dead_code)]
#[path = "../../src/tables.rs"]
mod tables;
#[allow(dead_code)]
#[path = "../../src/usage.rs"]
mod usage;
pub use question::{Answer, Answers, Path, Question};

#[allow(dead_code, unused_unsafe, unused_imports)]
mod right {
    include!(concat!(env!("OUT_DIR"), "/right.rs"));
}

#[allow(warnings)]
mod wrong {
    include!(concat!(env!("OUT_DIR"), "/wrong.rs"));
}

const USAGE: &str = "wrong [--only NAME,NAME | --list | --as NAME]";

/// A wrong program may run for ever.
const STEPS: u64 = 300_000;

/// A wrong program may call itself as often as there is fuel.
const STACK: usize = 1 << 30;

fn main() {
    std::thread::Builder::new().stack_size(STACK).spawn(run).unwrap().join().unwrap();
}

fn run() {
    let arguments: Vec<String> = std::env::args().skip(1).collect();
    match &arguments[..] {
        [] => tell(|_| true),
        [only, names] if only == "--only" => tell(|name| names.split(',').any(|own| own == name)),
        [list] if list == "--list" => wrong::WRONG.iter().for_each(|(name, same, _)| println!("{name}: {same}")),
        [as_one, name] if as_one == "--as" => print(name),
        _ => usage::fail("", USAGE),
    }
}

fn print(name: &str) {
    let found = wrong::WRONG.iter().find(|(own, ..)| *own == name);
    let (_, _, fill) = found.unwrap_or_else(|| usage::fail(&format!("no program `{name}`"), USAGE));
    budget::FORGIVING.store(true, std::sync::atomic::Ordering::Relaxed);
    let mut input = Vec::new();
    std::io::stdin().read_to_end(&mut input).unwrap();
    let mut out = Vec::new();
    for line in printer::lines(&input, |s| fill(s), STEPS) {
        out.extend(line.unwrap_or(b"no end, or a panic".to_vec()));
        out.push(b'\n');
    }
    std::io::stdout().write_all(&out).unwrap();
}

fn tell(wanted: impl Fn(&str) -> bool) {
    std::panic::set_hook(Box::new(|_| ()));
    budget::FORGIVING.store(true, std::sync::atomic::Ordering::Relaxed);
    let mut stdin = std::io::stdin().lock();
    let mut length = [0; 4];
    while stdin.read_exact(&mut length).is_ok() {
        let mut input = vec![0; u32::from_le_bytes(length) as usize];
        stdin.read_exact(&mut input).unwrap();
        let right = printer::lines(&input, right::ask::Program::new, u64::MAX);
        let mut out = String::new();
        for (name, _, fill) in wrong::WRONG.iter().filter(|(name, ..)| wanted(name)) {
            let theirs = printer::lines(&input, |s| fill(s), STEPS);
            let places: Vec<String> = (0..right.len())
                .filter(|&place| right[place] != theirs[place])
                .map(|place| place.to_string())
                .collect();
            if !places.is_empty() {
                out += &format!("{name} {}\n", places.join(" "));
            }
        }
        out.push('\n');
        std::io::stdout().write_all(out.as_bytes()).unwrap();
        std::io::stdout().flush().unwrap();
    }
}
