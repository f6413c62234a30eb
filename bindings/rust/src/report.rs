//! The answer to a question.
use std::fmt;

use crate::ids::ModuleId;
use crate::names::PathNames;
use crate::path::Path;
use crate::refusal::Refusal;
use crate::snapshot::Snapshot;
use crate::sys;

/// What a question came to.
#[derive(Clone, Debug, PartialEq, Eq)]
#[non_exhaustive]
pub enum Outcome {
    /// The path of a search that went through.
    Found(Path),
    /// A search that went through, and found no path. With a limit below [`Question::MAX_LIMIT`](crate::Question::MAX_LIMIT) that is a fact
    /// about paths of that length alone: a longer one may be there. The rules of the search, which are rust-analyzer's, pass some paths over:
    /// ask [`Snapshot::any_path`](crate::Snapshot::any_path) before an item is made public.
    NoPath,
    /// The fuel ran out before the search was through. A path that was found so far names the item, but a whole search may
    /// find another; without one, nothing is known.
    TankEmpty(Option<Path>),
    /// The path that was found means another thing in the viewing module, or nothing: a name there hides it, or an entry on it cannot
    /// be seen from there. No `use` line is to be made of it; a question with another [`Prefix`](crate::Prefix) may find a path that
    /// holds. Only with [`Options::read_back`](crate::Options::read_back). Where the fuel ran out as well, [`Report::first_empty`] says
    /// so, and a whole search may find another path.
    Misleads(Path),
    /// There was no search.
    Refused(Refusal),
}

/// The first search that found the tank empty.
#[derive(Clone, Copy, Debug, PartialEq, Eq)]
pub struct FirstEmpty {
    /// The length left there.
    pub length_left: u32,
    /// The module that it looked for; none where it was the question's own item, at any depth, or its enum.
    pub module: Option<ModuleId>,
}

/// The answer to a question: its outcome, the charges that the search made, and where its tank was first found empty.
///
/// It prints as the line of the path printer:
///
/// ```
/// use kelumavor::{DefinitionId, FirstEmpty, ModuleId, Namespace, Outcome, Question, Snapshot};
///
/// // The worked snapshot: a crate with a module `a` that holds a function `f`.
/// let words = [
///     0x10000001, 0x61, 0x10000001, 0x66, 0x20000000, 2021, 0x40000000, 0, 0, 0x50000000, 0, 0x50000000, 1, 0x60000000, 1,
///     0x80000001, 1, 0, 0x80000004, 1, 0, 0x90000000, 0, 0, 0, 0, 0, 1, 0, 0x90000001, 1, 1, 1, 0, 0, 1, 0,
/// ];
/// let snapshot = Snapshot::check(&words)?;
/// let question = Question::new(Namespace::Values, DefinitionId(1), ModuleId(0));
///
/// let report = snapshot.find_path(&question);
/// assert_eq!(report.to_string(), "found a::f 1 0");
/// let Outcome::Found(path) = report.outcome else { panic!() };
/// assert_eq!(path.to_string(), "a::f");
/// assert_eq!(path.names().map(|name| name.to_string()).collect::<Vec<_>>(), ["a", "f"]);
/// // `a` by the scope record at word 21, `f` by the one at word 29, which the search in the crate found.
/// assert_eq!(path.route().map(|step| step.to_string()).collect::<Vec<_>>(), ["scope@21", "local@29"]);
///
/// // Without fuel nothing is known, and the outcome says so.
/// let report = snapshot.find_path(&question.fuel(0));
/// assert!(matches!(report.outcome, Outcome::TankEmpty(None)));
/// assert_eq!(report.first_empty, Some(FirstEmpty { length_left: 15, module: None }));
/// # Ok::<(), kelumavor::Refusal>(())
/// ```
#[derive(Clone, Debug, PartialEq, Eq)]
pub struct Report {
    /// What the question came to.
    pub outcome: Outcome,
    /// Charges that the search made; 0 where the question was refused.
    pub charges: u32,
    /// There exactly where the fuel ran out: of an [`Outcome::TankEmpty`] always, of an [`Outcome::Misleads`] perhaps.
    pub first_empty: Option<FirstEmpty>,
}

impl Report {
    /// The report on a question that was asked from a module.
    pub(crate) fn new(snapshot: &Snapshot, from: ModuleId, words: &[u32; sys::REPORT]) -> Self {
        let &[outcome, number, kind, ref rest @ ..] = words;
        let (names, rest) = rest.split_first_chunk().expect("as many as a report has");
        let &[count, charges, empty, left, sought, steps, ref route @ ..]: &[u32; 6 + Path::MAX_STEPS] =
            rest.try_into().expect("as many as a report has");
        let path = || Path::new(PathNames::new(snapshot, from, *names, count as usize), kind, *route, steps);
        let outcome = match (outcome, empty) {
            (0, 0) => Outcome::Found(path()),
            (1, 0) => Outcome::NoPath,
            (0, _) => Outcome::TankEmpty(Some(path())),
            (1, _) => Outcome::TankEmpty(None),
            (3, _) => Outcome::Misleads(path()),
            _ => Outcome::Refused(Refusal::new(number, None)),
        };
        let module = sought.checked_sub(1).map(ModuleId);
        let first_empty = (empty != 0).then_some(FirstEmpty { length_left: left, module });
        Report { outcome, charges, first_empty }
    }

    /// The path of a search that went through, or the one found so far where the fuel ran out. A path that misleads is not given here.
    #[must_use]
    pub fn path(&self) -> Option<&Path> {
        match &self.outcome {
            Outcome::Found(path) | Outcome::TankEmpty(Some(path)) => Some(path),
            _ => None,
        }
    }
}

impl Report {
    /// Why there was no search.
    #[must_use]
    pub fn refusal(&self) -> Option<Refusal> {
        match &self.outcome {
            Outcome::Refused(refusal) => Some(*refusal),
            _ => None,
        }
    }
}

impl fmt::Display for Report {
    fn fmt(&self, f: &mut fmt::Formatter<'_>) -> fmt::Result {
        let charges = self.charges;
        match &self.outcome {
            Outcome::Found(path) => write!(f, "found {path} {charges} 0"),
            Outcome::NoPath => write!(f, "none - {charges} 0"),
            Outcome::TankEmpty(Some(path)) => write!(f, "found {path} {charges} 1"),
            Outcome::TankEmpty(None) => write!(f, "none - {charges} 1"),
            Outcome::Misleads(path) => {
                write!(f, "misleads {path} {charges} {}", u32::from(self.first_empty.is_some()))
            }
            Outcome::Refused(refusal) => {
                write!(f, "refused {} {charges} 0", refusal.kind().number())
            }
        }
    }
}
