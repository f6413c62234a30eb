//! Questions on checked words against the calls that check: the same reports, whatever the area was used for before.
mod common;

use std::thread;

use common::{WORKED, random};
use kelumavor::{ModuleId, Question, Report, Snapshot, Viewer, Windows, WorkArea};

mod raw {
    unsafe extern "C" {
        pub fn kelumavor_check(
            words: *const u32,
            words_len: usize,
            area: *mut u32,
            area_len: usize,
            answer: *mut [usize; 14],
        ) -> usize;
        pub fn kelumavor_table_words() -> usize;
        pub fn kelumavor_find_path(
            words: *const u32,
            words_len: usize,
            area: *mut u32,
            area_len: usize,
            question: *const [u32; 7],
            report: *mut u32,
            report_len: usize,
        ) -> bool;
        pub fn kelumavor_find_path_checked(
            words: *const u32,
            words_len: usize,
            area: *mut u32,
            area_len: usize,
            checked: *const [usize; 14],
            question: *const [u32; 7],
            report: *mut u32,
            report_len: usize,
        ) -> bool;
        pub fn kelumavor_find_paths_checked(
            words: *const u32,
            words_len: usize,
            area: *mut u32,
            area_len: usize,
            checked: *const [usize; 14],
            questions: *const u32,
            questions_len: usize,
            reports: *mut u32,
            reports_len: usize,
        ) -> usize;
    }
}

const FILL: u32 = 0xABCD_EF01;

/// Words that were checked, and the area that the check left, with words past it.
struct Checked<'w> {
    words: &'w [u32],
    area: Vec<u32>,
    answer: [usize; 14],
}

impl<'w> Checked<'w> {
    fn new(words: &'w [u32]) -> Self {
        let mut area = vec![FILL; WorkArea::WORDS + 5];
        let mut answer = [0; 14];
        // SAFETY: each pointer and length is that of a vector or a slice.
        let number = unsafe {
            raw::kelumavor_check(words.as_ptr(), words.len(), area.as_mut_ptr(), area.len(), &raw mut answer)
        };
        assert_eq!(number, 0);
        Checked { words, area, answer }
    }

    /// The same with all but the tables spoiled.
    fn spoiled(mut self) -> Self {
        // SAFETY: it takes nothing.
        let tables = unsafe { raw::kelumavor_table_words() };
        self.area[tables..].fill(FILL);
        self
    }

    fn find_path(&mut self, question: &[u32; 7], report: &mut [u32]) -> bool {
        let Checked { words, area, answer } = self;
        // SAFETY: the words were checked, and only calls on checked words used the area.
        unsafe {
            raw::kelumavor_find_path_checked(
                words.as_ptr(),
                words.len(),
                area.as_mut_ptr(),
                area.len(),
                answer,
                question,
                report.as_mut_ptr(),
                report.len(),
            )
        }
    }

    fn find_paths(&mut self, questions: &[u32], reports: &mut [u32]) -> usize {
        let Checked { words, area, answer } = self;
        // SAFETY: as in `find_path`.
        unsafe {
            raw::kelumavor_find_paths_checked(
                words.as_ptr(),
                words.len(),
                area.as_mut_ptr(),
                area.len(),
                answer,
                questions.as_ptr(),
                questions.len(),
                reports.as_mut_ptr(),
                reports.len(),
            )
        }
    }
}

/// The report by the call that checks.
fn report(words: &[u32], question: &[u32; 7]) -> [u32; 42] {
    let (mut area, mut report) = (vec![FILL; WorkArea::WORDS], [0; 42]);
    // SAFETY: each pointer and length is that of a vector, a slice or an array.
    let written = unsafe {
        raw::kelumavor_find_path(
            words.as_ptr(),
            words.len(),
            area.as_mut_ptr(),
            area.len(),
            question,
            report.as_mut_ptr(),
            report.len(),
        )
    };
    assert!(written);
    report
}

fn words_of(question: &Question) -> [u32; 7] {
    let Question { namespace, definition, from, prefix, fuel, limit, options } = *question;
    [namespace as u32, definition.0, from.0, prefix as u32, common::option_bits(options), fuel, limit]
}

/// Random questions, and a few that are refused.
fn questions(random: &mut random::Random, made: &random::Snapshot, count: usize) -> Vec<Question> {
    let mut questions: Vec<Question> = (0..count).map(|_| random::question(random, made)).collect();
    if let Some(first) = questions.first().copied() {
        let unknown = Question { from: ModuleId(9999), ..first };
        questions.extend([first.fuel(10_001), first.limit(0), first.limit(16), unknown]);
    }
    questions
}

#[test]
fn reports_are_those_of_the_calls_that_check() {
    for seed in 0..200 {
        let mut random = random::Random::new(seed);
        let made = random::snapshot(&mut random);
        let questions = questions(&mut random, &made, 50);
        let mut checked = Checked::new(&made.words);
        let mut other = Checked::new(&made.words).spoiled();
        let mut all = vec![FILL; 42 * questions.len() + 3];
        let asked: Vec<u32> = questions.iter().flat_map(words_of).collect();
        assert_eq!(other.find_paths(&asked, &mut all), 0);
        assert_eq!(all[42 * questions.len()..], [FILL; 3]);
        for (question, told) in questions.iter().zip(all.chunks(42)) {
            let mut one = [FILL; 43];
            assert!(checked.find_path(&words_of(question), &mut one));
            assert_eq!(one[..42], report(&made.words, &words_of(question)), "seed {seed}: {question:?}");
            assert_eq!((&one[..42], one[42]), (told, FILL), "seed {seed}: {question:?}");
        }
        assert_eq!(checked.area[WorkArea::WORDS..], [FILL; 5]);
        assert_eq!(other.area[WorkArea::WORDS..], [FILL; 5]);
    }
}

#[test]
fn what_does_not_fit() {
    let question = [1, 1, 0, 1, 0, 9, 15];
    let mut checked = Checked::new(&WORKED);
    let before = checked.area.clone();
    let mut short = [FILL; 41];
    assert!(!checked.find_path(&question, &mut short));
    assert_eq!(short, [FILL; 41]);
    assert_eq!(checked.find_paths(&question, &mut short), 44);
    assert_eq!(checked.find_paths(&question[..6], &mut [FILL; 42]), 44);
    assert_eq!(checked.find_paths(&question.repeat(65), &mut vec![FILL; 65 * 42]), 44);
    assert_eq!(short, [FILL; 41]);
    assert_eq!(checked.find_paths(&[], &mut []), 0);
    // SAFETY: it takes nothing.
    let tables = unsafe { raw::kelumavor_table_words() };
    assert_eq!(checked.area[..tables], before[..tables]);
}

fn lines(reports: &[Report]) -> Vec<String> {
    reports.iter().map(ToString::to_string).collect()
}

/// The area of a thread serves several snapshots, and other calls between the questions.
#[test]
fn snapshots_by_turns() {
    let mut random = random::Random::new(7);
    let made: Vec<random::Snapshot> = (0..4).map(|_| random::snapshot(&mut random)).collect();
    let snapshots: Vec<Snapshot> = made.iter().map(|made| Snapshot::check(&made.words).unwrap()).collect();
    let asked: Vec<Vec<Question>> = made.iter().map(|made| questions(&mut random, made, 30)).collect();
    let mut area = WorkArea::new();
    for round in 0..30 {
        for (number, (snapshot, asked)) in snapshots.iter().zip(&asked).enumerate() {
            let question = &asked[round];
            let alone = Snapshot::check(&made[number].words).unwrap().find_path_in(question, &mut WorkArea::new());
            assert_eq!(snapshot.find_path(question), alone);
            assert_eq!(snapshot.find_path_in(question, &mut area), alone);
            assert_eq!(snapshot.clone().find_path(question), alone);
            match round % 4 {
                0 => drop(snapshot.reach_in(&Viewer::new(question.from), &mut area)),
                1 => drop(Snapshot::check_in(&made[0].words, &mut area)),
                2 => drop(Snapshot::check_in(&[0], &mut area)),
                _ => {
                    let mut windows = Windows::new();
                    windows.place(0, question).unwrap();
                    assert_eq!(windows.turn_in(snapshot, &mut area), Some((0, alone)));
                }
            }
        }
    }
}

/// A snapshot is asked by several threads at once.
#[test]
fn threads() {
    let mut random = random::Random::new(3);
    let made = random::snapshot(&mut random);
    let asked = questions(&mut random, &made, 100);
    let snapshot = Snapshot::check(&made.words).unwrap();
    let told = lines(&snapshot.find_paths(&asked));
    thread::scope(|scope| {
        for _ in 0..4 {
            scope.spawn(|| {
                let alone: Vec<Report> = asked.iter().map(|question| snapshot.find_path(question)).collect();
                assert_eq!(lines(&alone), told);
            });
        }
    });
}

#[test]
fn snapshots_compare_by_their_words() {
    let [one, two] = [0, 1].map(|_| Snapshot::check(&WORKED).unwrap());
    assert_eq!(one, two);
    assert_eq!(one, one.clone());
    assert_ne!(one, Snapshot::check(&[]).unwrap());
}
