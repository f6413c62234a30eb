//! How much can be named from a module.
use crate::area::{self, WorkArea};
use crate::ids::ModuleId;
use crate::path::Path;
use crate::question::{Options, Prefix, Question};
use crate::refusal::Refusal;
use crate::snapshot::Snapshot;
use crate::sys;

/// Who asks for a reach.
#[derive(Clone, Copy, Debug, PartialEq, Eq, Hash)]
pub struct Viewer {
    /// The module in which the paths are to stand.
    pub from: ModuleId,
    /// How they should begin.
    pub prefix: Prefix,
    /// What is preferred, allowed or left out.
    pub options: Options,
    /// Charges that each search may make.
    pub fuel: u32,
    /// The limit of each search.
    pub limit: u32,
}

impl Viewer {
    /// A viewer with a plain prefix, no options, all the fuel and the largest limit.
    #[must_use]
    pub fn new(from: ModuleId) -> Self {
        Viewer {
            from,
            prefix: Prefix::default(),
            options: Options::default(),
            fuel: Question::MAX_FUEL,
            limit: Question::MAX_LIMIT,
        }
    }

    fn words(&self) -> [u32; sys::VIEWER] {
        [self.from.0, self.prefix as u32, self.options.bits(), self.fuel, self.limit]
    }
}

/// What can be named from a module, counted over the distinct items of the scope entries.
#[derive(Clone, Copy, Debug, PartialEq, Eq, Hash)]
#[non_exhaustive]
pub struct Reach {
    /// Items with a path, by its number of names.
    pub found: [usize; Path::MAX_NAMES + 1],
    /// Items whose path would mislead.
    pub misleading: usize,
    /// Items without a path.
    pub unreachable: usize,
    /// Items for which the fuel ran out before a path was found: nothing is known of them.
    pub unknown: usize,
    /// The names of all paths together.
    pub names: usize,
}

impl Reach {
    /// The items that were asked for.
    #[must_use]
    pub fn items(&self) -> usize {
        self.found.iter().sum::<usize>() + self.misleading + self.unreachable + self.unknown
    }
}

impl Snapshot {
    /// How much can be named from a module: a search for each distinct item among the scope entries.
    ///
    /// # Errors
    ///
    /// Those of a question: 21, 22, 46, and 23 for a module that the snapshot does not have.
    ///
    /// ```
    /// use kelumavor::{ModuleId, Snapshot, Viewer};
    ///
    /// # let words = [
    /// #     0x10000001, 0x61, 0x10000001, 0x66, 0x20000000, 2021, 0x40000000, 0, 0, 0x50000000, 0, 0x50000000, 1, 0x60000000, 1,
    /// #     0x80000001, 1, 0, 0x80000004, 1, 0, 0x90000000, 0, 0, 0, 0, 0, 1, 0, 0x90000001, 1, 1, 1, 0, 0, 1, 0,
    /// # ];
    /// // A crate with a module `a` that holds a function `f`: `a` has a path of one name, `a::f` has two.
    /// let reach = Snapshot::check(&words)?.reach(&Viewer::new(ModuleId(0)))?;
    /// assert_eq!((reach.items(), &reach.found[..3], reach.names), (2, &[0, 1, 1][..], 3));
    /// # Ok::<(), kelumavor::Refusal>(())
    /// ```
    pub fn reach(&self, viewer: &Viewer) -> Result<Reach, Refusal> {
        area::lent(|area| self.reach_in(viewer, area))
    }

    /// The same, in a work area of the caller's.
    ///
    /// # Errors
    ///
    /// Those of [`Snapshot::reach`].
    pub fn reach_in(&self, viewer: &Viewer, area: &mut WorkArea) -> Result<Reach, Refusal> {
        let counts = sys::reach(self.words(), area.words(), &viewer.words());
        let [found @ .., misleading, unreachable, unknown, names] =
            counts.map_err(|number| Refusal::by(number, None))?;
        Ok(Reach { found, misleading, unreachable, unknown, names })
    }
}
