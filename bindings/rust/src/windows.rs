//! Windows that share one search.
use crate::area::{self, WorkArea};
use crate::ids::ModuleId;
use crate::question::Question;
use crate::refusal::Refusal;
use crate::report::Report;
use crate::snapshot::Snapshot;
use crate::sys;

/// Up to eight windows, each with a question that waits or none. A turn serves one of them, counting round, so that each question is
/// served within eight turns, whatever the other windows ask.
///
/// ```
/// use kelumavor::{DefinitionId, ModuleId, Namespace, Question, Snapshot, Windows};
///
/// # let words = [
/// #     0x10000001, 0x61, 0x10000001, 0x66, 0x20000000, 2021, 0x40000000, 0, 0, 0x50000000, 0, 0x50000000, 1, 0x60000000, 1,
/// #     0x80000001, 1, 0, 0x80000004, 1, 0, 0x90000000, 0, 0, 0, 0, 0, 1, 0, 0x90000001, 1, 1, 1, 0, 0, 1, 0,
/// # ];
/// // A crate with a module `a` that holds a function `f`.
/// let snapshot = Snapshot::check(&words)?;
/// let question = Question::new(Namespace::Values, DefinitionId(1), ModuleId(0));
/// let mut windows = Windows::new();
/// windows.place(5, &question)?;
/// windows.place(2, &question.fuel(10_001))?;
///
/// let (window, report) = windows.turn(&snapshot).unwrap();
/// assert_eq!((window, report.to_string().as_str()), (2, "refused 21 0 0"));
/// let (window, report) = windows.turn(&snapshot).unwrap();
/// assert_eq!((window, report.to_string().as_str()), (5, "found a::f 1 0"));
/// assert!(windows.turn(&snapshot).is_none());
/// # Ok::<(), kelumavor::Refusal>(())
/// ```
#[derive(Clone, Debug, PartialEq, Eq)]
pub struct Windows {
    state: [u32; sys::STATE],
}

impl Windows {
    /// Windows that share the search.
    pub const COUNT: usize = sys::WINDOWS;

    /// No question waits, and the first turn counts from window 0.
    #[must_use]
    pub fn new() -> Self {
        Windows { state: [0; sys::STATE] }
    }

    /// Places a question.
    ///
    /// # Errors
    ///
    /// 49 for a window above 7, 50 for one whose question waits already; nothing is changed then.
    pub fn place(&mut self, window: usize, question: &Question) -> Result<(), Refusal> {
        match sys::place(&mut self.state, window, &question.words()) {
            0 => Ok(()),
            number => Err(Refusal::by(number, None)),
        }
    }

    /// Serves the next window that waits, counting round from the one after that served last: the window, and the report of its
    /// question on this snapshot. `None` where no question waits.
    pub fn turn(&mut self, snapshot: &Snapshot) -> Option<(usize, Report)> {
        area::lent(|area| self.turn_in(snapshot, area))
    }

    /// Serves the next window in a work area of the caller's.
    pub fn turn_in(&mut self, snapshot: &Snapshot, area: &mut WorkArea) -> Option<(usize, Report)> {
        let before = self.state;
        let (window, report) = sys::turn(&mut self.state, snapshot.words(), area.words())?;
        let from = ModuleId(before[1 + window * (1 + sys::QUESTION) + 3]);
        Some((window, Report::new(snapshot, from, &report)))
    }
}

impl Default for Windows {
    fn default() -> Self {
        Self::new()
    }
}
