//! Damaged copies of an input: words changed, cut, inserted, swapped; questions too; and lengths at their limits.
use crate::check::{check, kind};
use crate::encode::{bytes, head, question_words};
use crate::generate::Case;
use crate::printer::{parts_of, refusal};
use crate::random::Random;
use crate::right::ask::Program;
use crate::{Answers, Question};

/// Some damaged copies. Questions that take the Rust more steps are left out, and limits that it does not have.
pub fn copies(seed: u64, case: &Case, steps: u64) -> Vec<Vec<u8>> {
    let mut r = Random::new(seed ^ 0x0DDB_A11D_EAD0_0001);
    let mut copies = Vec::new();
    for _ in 0..16 {
        let mut words = case.words.clone();
        let times = r.pick(&[1, 1, 1, 1, 2, 3]);
        for _ in 0..times {
            spoil(&mut r, &mut words);
        }
        copies.push(asked(&words, &case.questions, steps));
    }
    copies.push(spoiled_questions(&mut r, case, steps));
    if r.below(10) == 0 {
        copies.push(long(&mut r, case));
    }
    if r.below(25) == 0 {
        copies.push(full(&mut r));
    }
    copies
}

/// One change of the words; most leave heads and arguments in their places.
fn spoil(r: &mut Random, words: &mut Vec<u32>) {
    if words.is_empty() {
        words.push(r.next() as u32);
        return;
    }
    let place = r.below(words.len());
    let other = r.below(words.len());
    if r.below(25) == 0 {
        return spoil_edition(r, words);
    }
    match r.below(20) {
        0..=3 => words[place] = words[place].wrapping_add(1),
        4..=6 => words[place] = words[place].wrapping_sub(1),
        7 => words[place] ^= 1 << r.below(32),
        8..=11 => words[place] = (words[place] & 0xF000_0000) | (small(r) & 0x0FFF_FFFF),
        12 => words[place] = small(r),
        13 => words[place] = head([0, 1, 2, 3, 4, 5, 6, 7, 8, 9, 10, 11, 13][r.below(13)], r.below(6)),
        14 => words.truncate(place),
        15 => {
            words.remove(place);
        }
        16 => words.insert(place, r.pick(&[0, 1, words[other]])),
        17 => words.swap(place, other),
        _ => spoil_record(r, words),
    }
}

/// Another edition, a known one or not.
fn spoil_edition(r: &mut Random, words: &mut [u32]) {
    let crates: Vec<usize> = (0..words.len().saturating_sub(1)).filter(|&place| kind(words[place]) == 2).collect();
    if !crates.is_empty() {
        words[r.pick(&crates) + 1] = r.pick(&[0, 1, 2014, 2015, 2016, 2017, 2018, 2019, 2021, 2022, 2024, 2025, 2027]);
    }
}

/// A record again, left out, or swapped with the next.
fn spoil_record(r: &mut Random, words: &mut Vec<u32>) {
    let heads: Vec<usize> = (0..words.len()).filter(|&place| kind(words[place]) != 0).collect();
    if heads.is_empty() {
        return;
    }
    let which = r.below(heads.len());
    let start = heads[which];
    let end = heads.get(which + 1).copied().unwrap_or(words.len());
    let record = words[start..end].to_vec();
    match r.below(3) {
        0 => drop(words.splice(end..end, record)),
        1 => drop(words.drain(start..end)),
        _ => {
            let next = heads.get(which + 2).copied().unwrap_or(words.len());
            words.splice(next..next, record);
            words.drain(start..end);
        }
    }
}

fn small(r: &mut Random) -> u32 {
    r.pick(&[
        0,
        1,
        2,
        3,
        4,
        5,
        7,
        8,
        9,
        15,
        63,
        64,
        127,
        128,
        255,
        256,
        511,
        512,
        2047,
        2048,
        2015,
        2024,
        0x00FF_FFFF,
        0x0100_0000,
        0x0FFF_FFFF,
        0x1000_0000,
        0xC000_0000,
        0xF000_0000,
    ])
}

/// The words with the questions that the Rust answers in time.
fn asked(words: &[u32], questions: &[Question], steps: u64) -> Vec<u8> {
    let (snapshot, own, _) = parts_of(words);
    let checked = check(snapshot);
    let program = checked.as_ref().ok().map(Program::new);
    let in_time = |question: &Question| match &program {
        Some(program) if refusal(&checked, question).is_none() => {
            crate::budget::within(steps, || program.put(question)).is_some()
        }
        _ => true,
    };
    let mut input = words.to_vec();
    if !own.iter().all(in_time) {
        input.truncate(snapshot.len());
    }
    for question in questions.iter().filter(|question| in_time(question)) {
        if input.len() + 7 <= 16_384 {
            input.extend(question_words(question));
        }
    }
    bytes(&input)
}

/// The Rust answers every question of the words in time.
fn in_time(words: &[u32], steps: u64) -> bool {
    let (snapshot, questions, _) = parts_of(words);
    let checked = check(snapshot);
    let Some(program) = checked.as_ref().ok().map(Program::new) else { return true };
    questions.iter().all(|question| {
        refusal(&checked, question).is_some() || crate::budget::within(steps, || program.put(question)).is_some()
    })
}

/// A good snapshot with questions that are not whole, or bytes past the last word.
fn spoiled_questions(r: &mut Random, case: &Case, steps: u64) -> Vec<u8> {
    let mut words: Vec<u32> = case.questions.iter().flat_map(question_words).collect();
    if !words.is_empty() {
        let place = r.below(words.len());
        match r.below(6) {
            0 => words.truncate(place),
            1 => drop(words.remove(place)),
            2 => words.insert(place, small(r) & 0x0FFF_FFFF),
            3 => words.insert(place, head(12, 0)),
            4 => words.push(head(r.from_to(1, 15), 0)),
            _ => words.push(head(12, 1)),
        }
    }
    words.splice(0..0, case.words.iter().copied());
    if !in_time(&words, steps) {
        words.truncate(case.words.len());
        words.push(head(12, 1));
    }
    let mut input = bytes(&words);
    if r.below(4) == 0 {
        let extra = r.from_to(1, 3);
        input.extend(std::iter::repeat_n(0, extra));
    }
    input
}

/// A table that is full, or has one record more, which may have a fault of its own.
fn full(r: &mut Random) -> Vec<u8> {
    let (which, more, fault) = (r.below(4), r.below(3).min(1), r.below(3) == 0);
    let names = if which == 0 { 2048 + more } else { 3 };
    let crates = if which == 1 { 64 + more } else { 1 };
    let modules = if which == 2 { 512 + more } else { crates };
    let definitions = if which == 3 { 2048 + more } else { 3 };
    let mut words = Vec::new();
    for n in 0..names {
        let text = if fault && n == 2048 { 0 } else { n };
        words.extend([head(1, 2), 0x6161 + (text % 200) as u32 + ((text / 200) << 8) as u32]);
    }
    for c in 0..crates {
        words.extend([head(2, 0), if fault && c == 64 { 2019 } else { 2021 }]);
    }
    for c in 0..crates.min(64) {
        words.extend([head(4, c), 0, 0, head(5, c), 0]);
    }
    let last = crates.min(64) - 1;
    for m in crates..modules {
        words.extend([head(5, last), if fault && m == 512 { 0 } else { m as u32 }]);
    }
    for d in 0..definitions {
        words.extend([head(8, 4), if fault && d == 2048 { 600 } else { 0 }, 0]);
    }
    for definition in [0, 2] {
        let question = Question { definition, ns: 0, from: 0, prefix: 1, options: 0, fuel: 5, limit: 15 };
        words.extend(question_words(&question));
    }
    bytes(&words)
}

/// Inputs of nearly, exactly and more than 65,536 bytes: long names after those of the case.
fn long(r: &mut Random, case: &Case) -> Vec<u8> {
    let mut words = case.words.clone();
    let questions: Vec<u32> = case.questions.iter().flat_map(question_words).collect();
    let mut place = 0;
    while place < words.len() && kind(words[place]) == 1 {
        place += 1 + (words[place] & 0x0FFF_FFFF).div_ceil(3) as usize;
    }
    let size = 16_384 + r.pick(&[0, 0, 0, 1, 2, 7]) - r.pick(&[0, 0, 1, 5]);
    while words.len() + questions.len() + 2 <= size {
        let gap = size - words.len() - questions.len();
        let text = if gap > 90 { 85 } else { gap.min(85) - 1 };
        let number = words.len() as u32;
        let mut name = vec![0x0020_2020; text];
        name[0] = 0x0030_3030 + (number & 0xFF) + (number >> 8 << 16);
        name.insert(0, head(1, 3 * text));
        words.splice(place..place, name);
    }
    words.extend(questions);
    let mut input = bytes(&words);
    let extra = r.pick(&[0, 0, 0, 1, 2, 3]);
    input.extend(std::iter::repeat_n(0, extra));
    input
}
