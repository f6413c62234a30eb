//! store WRONG FROM TO FOLDER [CASES]: searches a range of seeds for inputs that tell the wrong programs, that tell the wrong readings of a path, and
//! that are refused in every way, and writes them with the lines of the text of rust-analyzer to FOLDER/list, and the counts to FOLDER/told.
use std::collections::BTreeMap;
use std::path::Path;

use differential::check::{check, kind, refused_at};
use differential::compare::Other;
use differential::damage;
use differential::encode::{bytes, question_words};
use differential::generate::{Case, case};
use differential::printer::{READ_BACK, parts_of, refusal, words_of};
use differential::random::Random;
use differential::reading::{MISTAKES, misleads};
use differential::right::ask::Program;
use differential::stored::{Entry, from_bytes, to_bytes};
use differential::usage::{fail, seeds};
use differential::wrongs::{Wrongs, table};
use differential::{Answers, Question};

const USAGE: &str = "store WRONG FROM TO FOLDER [CASES]
  WRONG    the program of the package `wrong`
  CASES    a list of inputs by hand, which are counted too";

/// Inputs that tell a wrong program.
const WANTED: usize = 8;
/// Further questions to an input.
const FURTHER: usize = 8;
/// Words of a snapshot.
const LARGEST: usize = 500;
/// Damaged inputs to a number and a kind of record.
const DAMAGED: usize = 6;

fn main() {
    let arguments: Vec<String> = std::env::args().skip(1).collect();
    let [wrong, from, to, folder, rest @ ..] = &arguments[..] else { fail("", USAGE) };
    let cases = match rest {
        [] => Vec::new(),
        [file] => from_bytes(&std::fs::read(file).unwrap_or_else(|error| fail(&format!("{file}: {error}"), USAGE))),
        _ => fail("", USAGE),
    };
    let std::ops::Range { start: from, end: to } = seeds(from, to, USAGE);
    let mut wrongs = Wrongs::start(wrong);
    let mut inputs = telling(&mut wrongs, from, to);
    inputs.extend(misread(from, to));
    inputs.extend(refused(from, to));
    let entries: Vec<Entry> =
        inputs.into_iter().map(|input| Entry { output: Other::Original.output(&input), input }).collect();
    let mut wrongs = Wrongs::start(wrong);
    let mut counts = vec![(0, 0); wrongs.programs.len()];
    for entry in entries.iter().chain(&cases) {
        for (program, places) in wrongs.told(&entry.input) {
            counts[program].0 += places.len();
            counts[program].1 += 1;
        }
    }
    let lines: usize = entries.iter().map(|entry| entry.output.iter().filter(|&&byte| byte == b'\n').count()).sum();
    let list = to_bytes(&entries);
    let longest = entries.iter().map(|entry| entry.input.len()).max().unwrap_or(0);
    let most = entries.iter().map(|entry| entry.output.len()).max().unwrap_or(0);
    let summary = format!(
        "{} inputs, {lines} lines, {} bytes; the longest input has {longest} bytes, the longest output {most}",
        entries.len(),
        list.len()
    );
    let folder = Path::new(folder);
    std::fs::create_dir_all(folder).unwrap();
    std::fs::write(folder.join("list"), list).unwrap();
    let told = format!(
        "{summary}; {} inputs by hand after them\nEach wrong program with the questions and the inputs that tell it.\n\n{}",
        cases.len(),
        table(&wrongs.programs, &counts)
    );
    std::fs::write(folder.join("told"), told).unwrap();
    println!("{summary}");
}

/// Inputs with the questions that tell some program that few others told, and some further ones.
fn telling(wrongs: &mut Wrongs, from: u64, to: u64) -> Vec<Vec<u8>> {
    let mut counts = vec![0; wrongs.programs.len()];
    let mut inputs = Vec::new();
    for seed in from..to {
        if (seed - from) % 200 == 0 {
            let wanted: Vec<usize> =
                (0..counts.len()).filter(|&p| counts[p] < WANTED && wrongs.programs[p].1.is_empty()).collect();
            if wanted.is_empty() {
                break;
            }
            println!("seed {seed}: {} inputs, {} programs to tell", inputs.len(), wanted.len());
            wrongs.only(&wanted);
        }
        let (_, case) = case(seed, 60, 20_000);
        if case.words.len() > LARGEST {
            continue;
        }
        let told = wrongs.told(&case.input());
        let mut chosen: Vec<usize> = Vec::new();
        for (program, places) in &told {
            if counts[*program] < WANTED {
                chosen.extend(places.iter().take(2));
                counts[*program] += 1;
            }
        }
        if !chosen.is_empty() {
            let mut r = Random::new(seed);
            chosen.extend((0..FURTHER).map(|_| r.below(case.questions.len())));
            chosen.sort();
            chosen.dedup();
            let questions = chosen.iter().map(|&place| case.questions[place]).collect();
            inputs.push(Case { words: case.words, questions }.input());
        }
    }
    inputs
}

/// Inputs with a question that a wrong reading of its path answers otherwise, some for each mistake.
fn misread(from: u64, to: u64) -> Vec<Vec<u8>> {
    let mut counts = vec![0; MISTAKES.len()];
    let mut inputs = Vec::new();
    for seed in from..to {
        let (_, case) = case(seed, 60, 20_000);
        let Some(s) = check(&case.words).ok().filter(|_| case.words.len() <= LARGEST) else { continue };
        let (program, snapshot) = (Program::new(&s), Ok(s.clone()));
        let mut questions = Vec::new();
        for q in case.questions.iter().filter(|q| q.options & READ_BACK != 0 && refusal(&snapshot, q).is_none()) {
            let Some(path) = program.put(q).path else { continue };
            let right = misleads(&s, q, &path, None);
            let tells = |place: &usize| misleads(&s, q, &path, Some(MISTAKES[*place])) != right;
            let told: Vec<usize> = (0..MISTAKES.len()).filter(|&place| counts[place] < WANTED).filter(tells).collect();
            told.iter().for_each(|&place| counts[place] += 1);
            questions.extend((!told.is_empty()).then_some(*q));
        }
        if !questions.is_empty() {
            inputs.push(Case { words: case.words, questions }.input());
        }
    }
    inputs
}

/// Damaged inputs, some for each number and kind of record, with few questions. Long ones are few.
fn refused(from: u64, to: u64) -> Vec<Vec<u8>> {
    let mut counts: BTreeMap<(u32, usize, bool), usize> = BTreeMap::new();
    let mut inputs = Vec::new();
    for seed in from..to.min(from + 3000) {
        let (_, case) = case(seed, 3, 20_000);
        if case.words.len() > 250 {
            continue;
        }
        for input in damage::copies(seed, &case, 20_000) {
            let (number, kind) = sort(&input);
            let long = input.len() > 1500;
            let wanted = match (number, long) {
                (_, false) => DAMAGED,
                (36, true) => 2,
                (40, true) => 1,
                (_, true) => usize::from(input.len() == 65_536),
            };
            let count = counts.entry((number, kind, long)).or_default();
            if *count < wanted {
                *count += 1;
                inputs.push(input);
            }
        }
    }
    for fuel in [10_000, 10_001] {
        let question = Question { definition: 1, ns: 1, from: 0, prefix: 1, options: 0, fuel, limit: 15 };
        inputs.push(bytes(&question_words(&question)));
    }
    inputs
}

/// The number of the refusal and the kind of the record; 0 where nothing is refused.
fn sort(input: &[u8]) -> (u32, usize) {
    let words = match words_of(input) {
        Err(number) => return (number, 0),
        Ok(words) => words,
    };
    let (snapshot, _, outside) = parts_of(&words);
    match refused_at(snapshot) {
        Some((number, place)) => (number, snapshot.get(place).map_or(0, |&word| kind(word))),
        None => (if outside { 42 } else { 0 }, 0),
    }
}
