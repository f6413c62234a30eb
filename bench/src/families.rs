//! Snapshots on which the plain rules take a time that grows exponentially with the number of modules, each with one question.
mod snapshots;

use kelumavor::{Snapshot, SnapshotWords};

use crate::library::Library;
use crate::questions::{self, Answer, Answers, Question};
use crate::timing;

/// A family: its snapshot by a number of modules, numbers for the table, whether there is a path, and the charges.
struct Family {
    name: &'static str,
    make: fn(usize) -> (SnapshotWords, Question),
    sizes: &'static [usize],
    found: bool,
    charges: u32,
}

impl Family {
    /// One of one charge.
    const fn new(
        name: &'static str,
        make: fn(usize) -> (SnapshotWords, Question),
        sizes: &'static [usize],
        found: bool,
    ) -> Self {
        Family { name, make, sizes, found, charges: 1 }
    }

    /// The answer to its question.
    fn answer(&self) -> Answer {
        Answer { found: self.found, charges: self.charges, empty: self.charges == Question::MAX_FUEL }
    }
}

/// Those whose search is bounded. The last number is the largest for which the words are few enough.
const BOUNDED: [Family; 8] = [
    Family::new("unreached", snapshots::unreached, &[5, 10, 20, 44], false),
    Family::new("globs", snapshots::globs, &[5, 10, 20, 44], false),
    Family::new("ignored", snapshots::ignored, &[5, 10, 20, 44], false),
    Family::new("shadowed", snapshots::shadowed, &[5, 10, 20, 44], false),
    Family::new("renamed", snapshots::renamed, &[5, 10, 20, 44], false),
    Family::new("layers", snapshots::layers, &[2, 4, 6, 12], true),
    Family::new("clique", snapshots::clique, &[5, 10, 20, 44], true),
    Family::new("repeats", snapshots::repeats, &[5, 10, 20, 43], true),
];

/// Those whose search still grows beyond what anybody waits for.
const GROWING: [Family; 3] = [
    Family::new("detour", snapshots::detour, &[1, 2, 3], true),
    Family::new("prelude", snapshots::prelude, &[1, 2, 3, 4], true),
    Family::new("preferred", snapshots::preferred, &[4, 7, 10, 13], true),
];

/// Those whose search takes all the fuel.
const CHARGED: [Family; 2] = [
    Family { charges: Question::MAX_FUEL, ..Family::new("charged", snapshots::charged, &[5, 10, 20, 44], false) },
    Family { charges: Question::MAX_FUEL, ..Family::new("hidden", snapshots::hidden, &[5, 10, 20], false) },
];

fn all() -> impl Iterator<Item = &'static Family> {
    BOUNDED.iter().chain(&GROWING).chain(&CHARGED)
}

/// The words of a family and its question, where they are a snapshot.
fn made(name: &str, size: usize) -> Option<(Vec<u32>, Question)> {
    let family = all().find(|family| family.name == name)?;
    if !(1..=Snapshot::MAX_MODULES).contains(&size) {
        return None;
    }
    let (words, question) = (family.make)(size);
    let words = words.into_words();
    Snapshot::check(&words).ok().map(|_| (words, question))
}

/// One question of a family, so many times.
pub fn ask(name: &str, size: usize, count: usize) -> Option<()> {
    let (words, question) = made(name, size)?;
    let mut library = Library::new(&words);
    for _ in 0..count {
        std::hint::black_box(library.put(&question).found);
    }
    Some(())
}

/// The input of the path printer with the question of a family.
pub fn input(name: &str, size: usize) -> Option<Vec<u8>> {
    let (mut words, question) = made(name, size)?;
    words.extend(question.words());
    Some(questions::bytes(&words))
}

/// Times of the library alone: the Rust does not come to an end on most of these.
pub fn print() {
    print_table("Families whose search is bounded", &BOUNDED);
    print_table("Families whose search grows", &GROWING);
    print_table("Families whose search takes all the fuel", &CHARGED);
}

fn print_table(title: &str, families: &[Family]) {
    println!("{title}\n");
    println!("| family | modules | words | µs a question |");
    println!("|---|---|---|---|");
    for family in families {
        for &size in family.sizes {
            let (words, question) = (family.make)(size);
            let words = words.into_words();
            let mut library = Library::new(&words);
            let ns = timing::nanoseconds(|| library.put(&question) == family.answer());
            println!("| {} | {size} | {} | {:.1} |", family.name, words.len(), ns / 1000.0);
        }
    }
    println!();
}

#[cfg(test)]
mod tests {
    use super::*;

    /// The plain rules take longer than anybody waits from eight modules on.
    #[test]
    fn the_largest_are_answered_at_once() {
        for family in BOUNDED {
            let (words, question) = (family.make)(family.sizes[family.sizes.len() - 1]);
            let words = words.into_words();
            let start = std::time::Instant::now();
            let answer = Library::new(&words).put(&question);
            assert_eq!(answer, family.answer(), "{}", family.name);
            assert!(start.elapsed().as_millis() < 1000, "{}: {:?}", family.name, start.elapsed());
        }
    }

    #[test]
    fn the_smallest_of_all_are_answered() {
        for family in all() {
            let (words, question) = (family.make)(family.sizes[0]);
            let answer = Library::new(&words.into_words()).put(&question);
            assert_eq!(answer, family.answer(), "{}", family.name);
        }
    }
}
