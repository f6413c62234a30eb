//! An input put to the text of rust-analyzer and to another program, and their lines compared.
use std::fmt;
use std::io::Write;
use std::process::{Command, Stdio};

use crate::Question;
use crate::check::{Snapshot, check, kind};
use crate::encode::{bytes, head, words};
use crate::printer::{READ_BACK, lines, parts_of, words_of};
use crate::right::ask::Program;
use crate::route;
use crate::show::{hexadecimal, question_text, snapshot_text};
use crate::shrink::{input, shrink};
use crate::usage::fail;

pub enum Other {
    /// what follows the definitions
    Rules,
    /// the text of rust-analyzer itself
    Original,
    /// a program with its arguments
    Program(Vec<String>),
}

impl Other {
    /// By name: `rules`, `original`, or a program with its arguments.
    pub fn named(text: &str) -> Other {
        match text {
            "rules" => Other::Rules,
            "original" => Other::Original,
            "" => fail("a program has a name", ""),
            _ => Other::Program(text.split_whitespace().map(str::to_string).collect()),
        }
    }

    /// What the program prints for the input.
    pub fn output(&self, input: &[u8]) -> Vec<u8> {
        match self {
            Other::Rules => joined(crate::rules::lines(input)),
            Other::Original => joined(original(input)),
            Other::Program(command) => {
                let mut child = Command::new(&command[0])
                    .args(&command[1..])
                    .stdin(Stdio::piped())
                    .stdout(Stdio::piped())
                    .spawn()
                    .unwrap_or_else(|error| fail(&format!("{} does not run: {error}", command[0]), ""));
                let mut stdin = child.stdin.take().unwrap();
                let input = input.to_vec();
                // a program may end before it has read everything
                let writer = std::thread::spawn(move || drop(stdin.write_all(&input)));
                let output = child.wait_with_output().unwrap();
                writer.join().unwrap();
                output.stdout
            }
        }
    }
}

/// The lines of the text of rust-analyzer.
fn original(input: &[u8]) -> Vec<Vec<u8>> {
    lines(input, Program::new, u64::MAX).into_iter().map(|line| line.expect("no limit")).collect()
}

fn joined(lines: Vec<Vec<u8>>) -> Vec<u8> {
    lines
        .into_iter()
        .flat_map(|mut line| {
            line.push(b'\n');
            line
        })
        .collect()
}

/// What was compared, by the first word of the line and the refusal's number.
#[derive(Default)]
pub struct Totals {
    pub inputs: usize,
    pub accepted_inputs: usize,
    pub found: usize,
    pub misleads: usize,
    pub none: usize,
    pub empty: usize,
    pub refused: std::collections::BTreeMap<u32, usize>,
    pub most_charges: usize,
    /// of the accepted inputs: names, crates, modules, definitions, words
    pub largest: [usize; 5],
    /// lines of questions of kind 14
    pub routed: usize,
    /// lines of questions for a reach
    pub reaches: usize,
    pub differences: usize,
}

impl Totals {
    pub fn count(&mut self, line: &[u8]) {
        let text = String::from_utf8_lossy(line);
        if let Some(rest) = text.strip_prefix("refused ") {
            let number = rest.split(' ').next().unwrap().parse().unwrap();
            *self.refused.entry(number).or_default() += 1;
            return;
        }
        if text.starts_with("found") {
            self.found += 1;
        } else if text.starts_with("misleads") {
            self.misleads += 1;
        } else {
            self.none += 1;
        }
        let mut last = text.rsplit(' ');
        self.empty += usize::from(last.next() == Some("1"));
        self.most_charges = self.most_charges.max(last.next().and_then(|text| text.parse().ok()).unwrap_or(0));
    }
}

impl fmt::Display for Totals {
    fn fmt(&self, f: &mut fmt::Formatter<'_>) -> fmt::Result {
        let refused: usize = self.refused.values().sum();
        write!(
            f,
            "{} inputs ({} accepted), {} lines: {} found, {} misleading, {} none, {} with an empty tank, most charges {}, {} refused {:?}; at most {} names, {} crates, {} modules, {} definitions, {} words; {} lines with a route, {} of a reach; {} differences",
            self.inputs,
            self.accepted_inputs,
            self.found + self.misleads + self.none + refused,
            self.found,
            self.misleads,
            self.none,
            self.empty,
            self.most_charges,
            refused,
            self.refused,
            self.largest[0],
            self.largest[1],
            self.largest[2],
            self.largest[3],
            self.largest[4],
            self.routed,
            self.reaches,
            self.differences
        )
    }
}

/// The difference on a snapshot with as few records as it shows on.
fn show_smallest(s: Snapshot, question: Question, other: &Other) {
    let (s, question) = shrink(s, question, |s, question| {
        let input = input(s, question);
        Other::Original.output(&input) != other.output(&input)
    });
    let input = input(&s, &question);
    println!("  smallest: {}", question_text(&question));
    println!("  Rust:  {}", String::from_utf8_lossy(&Other::Original.output(&input)).trim_end());
    println!("  other: {}", String::from_utf8_lossy(&other.output(&input)).trim_end());
    print!("{}", snapshot_text(&s));
    println!("  words: {}", hexadecimal(&words(&s)));
}

/// Whether the output has these lines; a question of kind 14 has its route after the line.
fn same(words: &Result<Vec<u32>, u32>, right: &[Vec<u8>], output: &[u8]) -> bool {
    let Ok(words) = words else { return output == joined(right.to_vec()) };
    let (snapshot, questions, _) = parts_of(words);
    let asked = |place: usize| place < questions.len() && kind(words[snapshot.len() + 7 * place]) == 14;
    let theirs: Vec<&[u8]> = output.split(|&byte| byte == b'\n').collect();
    // names of the input may hold line feeds, so that only whole outputs can be compared without a route
    if !(0..questions.len()).any(asked) {
        return output == joined(right.to_vec());
    }
    theirs.len() == right.len() + 1
        && right
            .iter()
            .zip(&theirs)
            .enumerate()
            .all(|(place, (line, other))| if asked(place) { route::agrees(words, line, other) } else { line == other })
}

/// The questions once more, as kind 14.
fn compare_routes(words: &[u32], right: &[Vec<u8>], other: &Other) -> Result<(), String> {
    let (snapshot, questions, _) = parts_of(words);
    let output = other.output(&bytes(&route::routed(words, snapshot.len(), questions.len())));
    let mut rest = &output[..];
    for (place, line) in right.iter().enumerate() {
        // a name may hold a line feed: the line of kind 12 is taken off first
        let begin = rest.starts_with(line).then_some(line.len()).unwrap_or(0);
        let end = begin + rest[begin..].iter().position(|&byte| byte == b'\n').unwrap_or(rest.len() - begin);
        let theirs = &rest[..end];
        let agrees = if place < questions.len() { route::agrees(words, line, theirs) } else { line == theirs };
        if !agrees {
            return Err(format!(
                "  line {place}\n  Rust:  {}\n  other: {}",
                String::from_utf8_lossy(line),
                String::from_utf8_lossy(theirs)
            ));
        }
        rest = &rest[(end + 1).min(rest.len())..];
    }
    if rest.is_empty() { Ok(()) } else { Err("  more lines".to_string()) }
}

/// How much can be named from the first module, by shorter paths, with little fuel and with old names last, and from the last one; in every other
/// snapshot the paths are read back. A search of the Rust that takes long is not waited for.
fn compare_reach(words: &[u32], other: &Other, totals: &mut Totals) -> Result<(), String> {
    let start = parts_of(words).0.len();
    let Ok(s) = check(&words[..start]) else { return Ok(()) };
    let shorter = 1 + start as u32 % 15;
    let read = READ_BACK as u32 * (start as u32 % 2);
    for (module, asked) in [(0, [1, 32 + read, 10, shorter]), (s.modules.len() - 1, [0, read, 300, 15])] {
        let input = bytes(&[&words[..start], &[head(15, module)], &asked].concat());
        let [Some(right)] = &lines(&input, Program::new, 20_000)[..] else { continue };
        totals.reaches += 1;
        let theirs = other.output(&input);
        if theirs != joined(vec![right.clone()]) {
            return Err(format!(
                "  module {module}\n  Rust:  {}\n  other: {}",
                String::from_utf8_lossy(right),
                String::from_utf8_lossy(&theirs)
            ));
        }
    }
    Ok(())
}

/// With `routes` the questions are put a second time, as kind 14, and two for a reach after them.
pub fn compare_input(title: &str, input: &[u8], other: &Other, totals: &mut Totals, show: usize, routes: bool) {
    let right = original(input);
    totals.inputs += 1;
    for line in &right {
        totals.count(line);
    }
    let words = words_of(input);
    if let Ok(words) = &words {
        if let Ok(s) = check(parts_of(words).0) {
            totals.accepted_inputs += 1;
            let sizes = [s.names.len(), s.crates.len(), s.modules.len(), s.definitions.len(), words.len()];
            totals.largest.iter_mut().zip(sizes).for_each(|(largest, size)| *largest = size.max(*largest));
        }
    }
    let output = other.output(input);
    if let (true, Ok(words), Other::Program(_)) = (routes, &words, other) {
        totals.routed += right.len();
        if let Err(text) = compare_routes(words, &right, other) {
            totals.differences += 1;
            println!("difference: {title}, with its routes\n{text}");
            return;
        }
        if let Err(text) = compare_reach(words, other, totals) {
            totals.differences += 1;
            println!("difference: {title}, the reach\n{text}");
            return;
        }
    }
    if same(&words, &right, &output) {
        return;
    }
    totals.differences += 1;
    if totals.differences > show {
        return;
    }
    println!("difference: {title}");
    let theirs: Vec<&[u8]> = output.split(|&byte| byte == b'\n').collect();
    let place = right.iter().zip(&theirs).position(|(a, b)| a != b).unwrap_or(right.len().min(theirs.len()));
    let printed =
        |line: Option<&[u8]>| line.map_or("no line".to_string(), |line| String::from_utf8_lossy(line).into_owned());
    println!("  line {place}");
    println!("  Rust:  {}", printed(right.get(place).map(|line| &line[..])));
    println!("  other: {}", printed(theirs.get(place).copied()));
    if let Ok(words) = &words {
        let (snapshot, questions, _) = parts_of(words);
        match (check(snapshot), questions.get(place)) {
            (Ok(s), Some(question)) => show_smallest(s, *question, other),
            (Ok(s), None) => println!("{}", snapshot_text(&s)),
            (Err(number), _) => println!("  a snapshot of {} words, refused {number}: {snapshot:08X?}", snapshot.len()),
        }
    }
}
