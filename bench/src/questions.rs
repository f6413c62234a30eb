//! Times of questions, by what they come to.
use crate::shapes::{self, Shape};
use crate::timing;

/// A definition in the types namespace, seen from a module, with no options and all the fuel.
#[derive(Clone, Copy)]
pub struct Question {
    pub definition: u32,
    pub from: u32,
    /// 0 by `self`, 1 plain, 2 by `crate`.
    pub prefix: u32,
    /// As the bits of the format.
    pub options: u32,
}

/// Words of a question in an input.
const WORDS: usize = 7;

impl Question {
    pub const MAX_FUEL: u32 = 10_000;

    /// Those of an input of the path printer.
    pub fn words(self) -> [u32; WORDS] {
        [12 << 28 | self.definition, 0, self.from, self.prefix, self.options, Question::MAX_FUEL, 15]
    }
}

/// The bytes of words.
pub fn bytes(words: &[u32]) -> Vec<u8> {
    words.iter().flat_map(|word| word.to_le_bytes()).collect()
}

#[derive(Clone, Copy, Debug, PartialEq, Eq)]
pub struct Answer {
    pub found: bool,
    pub charges: u32,
    pub empty: bool,
}

impl Answer {
    /// What the question came to, in words.
    fn class(self) -> &'static str {
        match self {
            Answer { empty: true, .. } => "tank empty",
            Answer { found: false, .. } => "none",
            Answer { charges: 0, .. } => "found at once",
            Answer { .. } => "found by a search",
        }
    }
}

/// A program that answers questions on one snapshot.
pub trait Answers {
    fn put(&mut self, question: &Question) -> Answer;
}

/// A program, and the head of its column.
struct Program<'w> {
    name: &'static str,
    answers: Box<dyn Answers + 'w>,
}

/// The programs that this one is built with.
fn programs(words: &[u32]) -> Vec<Program<'_>> {
    vec![
        #[cfg(feature = "original")]
        Program { name: "the Rust", answers: Box::new(crate::original::Original::new(words)) },
        Program { name: "the library", answers: Box::new(crate::library::Library::new(words)) },
        Program { name: "with the check", answers: Box::new(crate::library::Checking::new(words)) },
    ]
}

pub fn print_all() {
    let columns: String = programs(&[]).iter().map(|program| format!(" ns, {} |", program.name)).collect();
    println!("Questions\n");
    println!("| snapshot | question | how many | charges |{columns}");
    println!("|---|---|---|---|{}", "---|".repeat(programs(&[]).len()));
    for shape in shapes::all() {
        let mut programs = programs(&shape.words);
        let mut asked: Vec<(Question, Answer)> =
            questions(&shape).map(|question| (question, programs[0].answers.put(&question))).collect();
        asked.sort_by_key(|(_, answer)| answer.class());
        for chosen in asked.chunk_by(|(_, one), (_, next)| one.class() == next.class()) {
            print_row(&shape.name, chosen, &mut programs);
        }
    }
    println!();
}

/// An input of the path printer with so many questions; a workspace fills it.
pub fn input(shape: &str, count: usize) -> Option<Vec<u8>> {
    let shape = shapes::beside(shape, WORDS * count)?;
    let every = (questions(&shape).count() / count.max(1)).max(1);
    let mut words = shape.words.clone();
    for question in questions(&shape).step_by(every).take(count) {
        words.extend(question.words());
    }
    Some(bytes(&words))
}

/// Questions of a rewritten file.
const FILE: usize = 40;

/// The questions of a file, one at a time and all at once, on checked words, and all at once with the check.
pub fn print_files() {
    println!("{FILE} questions at once\n");
    println!(
        "| snapshot | ns a question, one at a time | ns a question, at once | ns a question, at once with the check |"
    );
    println!("|---|---|---|---|");
    for shape in shapes::all() {
        let all: Vec<Question> = questions(&shape).collect();
        if all.len() < FILE {
            continue;
        }
        let file: Vec<Question> = all.iter().step_by(all.len() / FILE).take(FILE).copied().collect();
        let mut library = crate::library::Library::new(&shape.words);
        let answers = library.put_all(&file);
        let single = timing::nanoseconds(|| file.iter().zip(&answers).all(|(one, answer)| library.put(one) == *answer));
        let at_once = timing::nanoseconds(|| library.put_all(&file) == answers);
        let mut checking = crate::library::Checking::new(&shape.words);
        let checked = timing::nanoseconds(|| checking.put_all(&file) == answers);
        let [single, at_once, checked] = [single, at_once, checked].map(|time| time / FILE as f64);
        println!("| {} | {single:.0} | {at_once:.0} | {checked:.0} |", shape.name);
    }
    println!();
}

/// Puts so many questions to a program.
pub fn ask(shape: &Shape, count: usize, program: &mut impl Answers) {
    for question in questions(shape).cycle().take(count) {
        std::hint::black_box(program.put(&question));
    }
}

/// Some fifty definitions, each from two modules, as a plain path and by `crate`.
fn questions(shape: &Shape) -> impl Iterator<Item = Question> + Clone {
    let snapshot = kelumavor::Snapshot::check(&shape.words).expect(&shape.name);
    let definitions = snapshot.counts().definitions as u32;
    let modules = snapshot.counts().modules as u32;
    (0..definitions).step_by((definitions as usize / 50) | 1).flat_map(move |definition| {
        let from = [definition % modules, modules - 1];
        from.into_iter().flat_map(move |from| [1, 2].map(|prefix| Question { definition, from, prefix, options: 0 }))
    })
}

fn print_row(shape: &str, chosen: &[(Question, Answer)], programs: &mut [Program<'_>]) {
    let count = chosen.len() as f64;
    let charges: u32 = chosen.iter().map(|(_, answer)| answer.charges).sum();
    print!("| {shape} | {} | {count} | {:.1} |", chosen[0].1.class(), f64::from(charges) / count);
    for program in programs {
        let all = || chosen.iter().all(|(question, answer)| program.answers.put(question) == *answer);
        print!(" {:.0} |", timing::nanoseconds(all) / count);
    }
    println!();
}

#[cfg(test)]
mod tests {
    /// Bytes that the path printer takes.
    const INPUT: usize = 65_536;

    #[test]
    fn inputs_are_full_and_not_too_long() {
        for count in [1, 40, 100] {
            let bytes = super::input("workspace", count).unwrap().len();
            assert!((INPUT - 200..=INPUT).contains(&bytes), "{count} questions: {bytes} bytes");
        }
    }

    #[test]
    fn inputs_have_their_questions() {
        let input = super::input("workspace", 40).unwrap();
        let heads = input.chunks(4).filter(|word| word[3] >> 4 == 12).count();
        assert_eq!(heads, 40);
    }

    #[test]
    fn no_input_of_an_unknown_shape_or_without_room() {
        assert!(super::input("worksapce", 40).is_none());
        assert!(super::input("workspace", 2400).is_none());
    }
}
