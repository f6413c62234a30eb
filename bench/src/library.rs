//! The static library: by way of the Rust bindings, on words that were checked before, and by its functions that check in every call.
use kelumavor::{DefinitionId, ModuleId, Namespace, Options, Outcome, Prefix, Report, Snapshot, WorkArea};

use crate::questions::{Answer, Answers, Question};

pub struct Library {
    snapshot: Snapshot,
    area: WorkArea,
}

impl Library {
    pub fn new(words: &[u32]) -> Self {
        Library { snapshot: Snapshot::check(words).expect("an accepted snapshot"), area: WorkArea::new() }
    }

    /// Puts questions in one call.
    pub fn put_all(&mut self, questions: &[Question]) -> Vec<Answer> {
        let asked: Vec<_> = questions.iter().map(asked).collect();
        self.snapshot.find_paths_in(&asked, &mut self.area).iter().map(answer).collect()
    }
}

impl Answers for Library {
    fn put(&mut self, question: &Question) -> Answer {
        answer(&self.snapshot.find_path_in(&asked(question), &mut self.area))
    }
}

fn asked(question: &Question) -> kelumavor::Question {
    let prefix = [Prefix::BySelf, Prefix::Plain, Prefix::ByCrate][question.prefix as usize];
    kelumavor::Question::new(Namespace::Types, DefinitionId(question.definition), ModuleId(question.from))
        .prefix(prefix)
        .options(options(question.options))
        .fuel(Question::MAX_FUEL)
}

fn options(bits: u32) -> Options {
    let has = |bit| bits & bit != 0;
    Options {
        prefer_no_std: has(1),
        prefer_prelude: has(2),
        prefer_absolute: has(4),
        allow_unstable: has(8),
        ignore_local_imports: has(16),
        old_names_last: has(32),
        read_back: has(64),
    }
}

fn answer(report: &Report) -> Answer {
    Answer {
        found: report.path().is_some(),
        charges: report.charges,
        empty: matches!(report.outcome, Outcome::TankEmpty(_)),
    }
}

/// Words of a question, and of a report.
const QUESTION: usize = 7;
const REPORT: usize = 42;

unsafe extern "C" {
    fn kelumavor_find_paths(
        words: *const u32,
        words_len: usize,
        area: *mut u32,
        area_len: usize,
        questions: *const u32,
        questions_len: usize,
        reports: *mut u32,
        reports_len: usize,
    ) -> usize;
}

/// Each call checks the words, and clears the area.
pub struct Checking {
    words: Vec<u32>,
    area: Vec<u32>,
}

impl Checking {
    pub fn new(words: &[u32]) -> Self {
        Checking { words: words.into(), area: vec![0; WorkArea::WORDS] }
    }

    /// Puts questions in one call.
    pub fn put_all(&mut self, questions: &[Question]) -> Vec<Answer> {
        let words = |question: &Question| -> [u32; QUESTION] {
            [0, question.definition, question.from, question.prefix, question.options, Question::MAX_FUEL, 15]
        };
        let asked: Vec<u32> = questions.iter().flat_map(words).collect();
        let mut reports = vec![0; REPORT * questions.len()];
        // SAFETY: each pointer and length is that of a vector.
        let refusal = unsafe {
            kelumavor_find_paths(
                self.words.as_ptr(),
                self.words.len(),
                self.area.as_mut_ptr(),
                self.area.len(),
                asked.as_ptr(),
                asked.len(),
                reports.as_mut_ptr(),
                reports.len(),
            )
        };
        assert_eq!(refusal, 0);
        let answer = |report: &[u32]| Answer { found: report[0] == 0, charges: report[20], empty: report[21] != 0 };
        reports.chunks(REPORT).map(answer).collect()
    }
}

impl Answers for Checking {
    fn put(&mut self, question: &Question) -> Answer {
        self.put_all(&[*question])[0]
    }
}
