//! A question.
use crate::ids::{DefinitionId, ModuleId, Namespace};
use crate::sys;

/// How the path should begin.
#[derive(Clone, Copy, Debug, Default, PartialEq, Eq, Hash)]
pub enum Prefix {
    /// With `self`, `super` or `crate` where the item is of this crate.
    BySelf = 0,
    /// With its first name.
    #[default]
    Plain = 1,
    /// With `crate` where the item is of this crate.
    ByCrate = 2,
}

/// What is preferred, allowed or left out.
#[derive(Clone, Copy, Debug, Default, PartialEq, Eq, Hash)]
#[allow(clippy::struct_excessive_bools)]
pub struct Options {
    /// Paths through `core` and `alloc` before those through `std`.
    pub prefer_no_std: bool,
    /// Paths through a module called `prelude` before others.
    pub prefer_prelude: bool,
    /// Paths that begin with an extern name are written with a leading `::`.
    pub prefer_absolute: bool,
    /// Items that are unstable may be named.
    pub allow_unstable: bool,
    /// Names that a scope has by an import do not count.
    pub ignore_local_imports: bool,
    /// A deprecated name only where the scope has no other that can be used.
    pub old_names_last: bool,
    /// A found path is read from the viewing module. Where it means another thing there, or nothing, the outcome is
    /// [`Outcome::Misleads`](crate::Outcome::Misleads).
    pub read_back: bool,
}

impl Options {
    pub(crate) fn bits(self) -> u32 {
        u32::from(self.prefer_no_std)
            + 2 * u32::from(self.prefer_prelude)
            + 4 * u32::from(self.prefer_absolute)
            + 8 * u32::from(self.allow_unstable)
            + 16 * u32::from(self.ignore_local_imports)
            + 32 * u32::from(self.old_names_last)
            + 64 * u32::from(self.read_back)
    }
}

/// Which path names a definition in a module?
#[derive(Clone, Copy, Debug, PartialEq, Eq, Hash)]
pub struct Question {
    /// The namespace in which the item is to be named.
    pub namespace: Namespace,
    /// The item.
    pub definition: DefinitionId,
    /// The module in which the path is to stand.
    pub from: ModuleId,
    /// How the path should begin.
    pub prefix: Prefix,
    /// What is preferred, allowed or left out.
    pub options: Options,
    /// Charges that the search may make.
    pub fuel: u32,
    /// The length left at the start: how many names the path may have, or one more for a variant found through its enum.
    pub limit: u32,
}

impl Question {
    /// Fuel of a question, at most.
    pub const MAX_FUEL: u32 = 10_000;

    /// The limit of a question, at most.
    pub const MAX_LIMIT: u32 = 15;

    /// A question with a plain prefix, no options, all the fuel and the largest limit.
    #[must_use]
    pub fn new(namespace: Namespace, definition: DefinitionId, from: ModuleId) -> Self {
        Question {
            namespace,
            definition,
            from,
            prefix: Prefix::default(),
            options: Options::default(),
            fuel: Self::MAX_FUEL,
            limit: Self::MAX_LIMIT,
        }
    }

    /// The question with another prefix.
    #[must_use]
    pub fn prefix(self, prefix: Prefix) -> Self {
        Question { prefix, ..self }
    }

    /// The question with other options.
    #[must_use]
    pub fn options(self, options: Options) -> Self {
        Question { options, ..self }
    }

    /// The question with other fuel, at most [`Question::MAX_FUEL`].
    #[must_use]
    pub fn fuel(self, fuel: u32) -> Self {
        Question { fuel, ..self }
    }

    /// The question with another limit, 1 to [`Question::MAX_LIMIT`]. With a smaller one than that, [`Outcome::NoPath`](crate::Outcome::NoPath)
    /// is a fact about paths of that length alone.
    #[must_use]
    pub fn limit(self, limit: u32) -> Self {
        Question { limit, ..self }
    }

    pub(crate) fn words(&self) -> [u32; sys::QUESTION] {
        [
            self.namespace as u32,
            self.definition.0,
            self.from.0,
            self.prefix as u32,
            self.options.bits(),
            self.fuel,
            self.limit,
        ]
    }
}
