//! The text of the Rust over stand-ins, whose tables are filled once.
use differential::Answers as _;
use differential::right::ask::Program;

use crate::questions::{Answer, Answers, Question};

pub struct Original(Program);

impl Original {
    pub fn new(words: &[u32]) -> Self {
        let snapshot = differential::check::check(words).expect("an accepted snapshot");
        Original(Program::new(&snapshot))
    }
}

impl Answers for Original {
    fn put(&mut self, question: &Question) -> Answer {
        let answer = self.0.put(&differential::Question {
            definition: question.definition as usize,
            ns: 0,
            from: question.from as usize,
            prefix: question.prefix as usize,
            options: question.options as usize,
            fuel: Question::MAX_FUEL as usize,
            limit: 15,
        });
        Answer { found: answer.path.is_some(), charges: answer.charges as u32, empty: answer.empty }
    }
}
