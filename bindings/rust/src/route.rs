//! How a path came about.
use std::fmt;

/// The rule by which a path's start or a further name of it was found.
#[derive(Clone, Copy, Debug, PartialEq, Eq, Hash)]
#[non_exhaustive]
pub enum Rule {
    /// A builtin is its name.
    Builtin = 0,
    /// A name in the scope of the viewing module, or around its blocks.
    Scope = 1,
    /// A name in the prelude.
    Prelude = 2,
    /// An extern name of the viewer's crate.
    Extern = 3,
    /// `self`, `super` or `crate` without a name.
    Keyword = 4,
    /// A variant after its enum.
    Variant = 5,
    /// A name in a module of the viewer's crate.
    Local = 6,
    /// An import of another crate.
    Import = 7,
}

impl Rule {
    fn from_number(number: u32) -> Self {
        match number {
            0 => Self::Builtin,
            1 => Self::Scope,
            2 => Self::Prelude,
            3 => Self::Extern,
            4 => Self::Keyword,
            5 => Self::Variant,
            6 => Self::Local,
            _ => Self::Import,
        }
    }
}

impl fmt::Display for Rule {
    fn fmt(&self, f: &mut fmt::Formatter<'_>) -> fmt::Result {
        f.pad(match self {
            Self::Builtin => "builtin",
            Self::Scope => "scope",
            Self::Prelude => "prelude",
            Self::Extern => "extern",
            Self::Keyword => "keyword",
            Self::Variant => "variant",
            Self::Local => "local",
            Self::Import => "import",
        })
    }
}

/// A step of a path's route. It prints as the path printer prints it.
#[derive(Clone, Copy, Debug, PartialEq, Eq, Hash)]
pub struct Step {
    /// By which rule it was made.
    pub rule: Rule,
    /// The word at which the record used begins: the scope, extern or import record, or the definition of a variant or builtin; 0
    /// for a keyword.
    pub place: u32,
}

impl Step {
    pub(crate) fn new(word: u32) -> Self {
        Step { rule: Rule::from_number(word % 8), place: word / 8 }
    }
}

impl fmt::Display for Step {
    fn fmt(&self, f: &mut fmt::Formatter<'_>) -> fmt::Result {
        write!(f, "{}@{}", self.rule, self.place)
    }
}
