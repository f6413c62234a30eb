//! Questions and answers.

#[derive(Clone, Copy, PartialEq, Eq, Debug, Hash)]
pub struct Question {
    pub definition: usize,
    pub ns: usize,
    pub from: usize,
    pub prefix: usize,
    pub options: usize,
    pub fuel: usize,
    /// The length left at the start.
    pub limit: usize,
}

/// A path kind (0 plain, 1 `self`, 2 `super`, 3 `crate`, 4 leading `::`) and the numbers of the names.
#[derive(Clone, PartialEq, Eq, Debug)]
pub struct Path {
    pub kind: usize,
    pub names: Vec<usize>,
}

#[derive(Clone, PartialEq, Eq, Debug)]
pub struct Answer {
    pub path: Option<Path>,
    pub charges: usize,
    pub empty: bool,
}

/// A program that answers questions on one accepted snapshot. A question names a definition and a module that are there,
/// and no other definition than a macro in the macros namespace.
pub trait Answers {
    fn put(&self, question: &Question) -> Answer;
}

impl Answers for Box<dyn Answers> {
    fn put(&self, question: &Question) -> Answer {
        (**self).put(question)
    }
}
