//! The work area.
use std::cell::Cell;
use std::fmt;

use crate::snapshot::Snapshot;

/// Words that the library works in. Any call may be given any area. One that answered a question keeps the tables of that snapshot, so that the
/// next question on it costs the search alone.
pub struct WorkArea {
    words: Box<[u32]>,
    /// The number of the snapshot whose tables are in the first words, if any.
    holds: Option<u64>,
}

impl WorkArea {
    /// Words of a work area.
    pub const WORDS: usize = 16384;

    /// An area of that many words.
    #[must_use]
    pub fn new() -> Self {
        WorkArea { words: vec![0; Self::WORDS].into_boxed_slice(), holds: None }
    }

    /// The words, for a call that leaves no tables in them.
    pub(crate) fn words(&mut self) -> &mut [u32] {
        self.holds = None;
        &mut self.words
    }

    /// The words, with the tables of a snapshot in the first of them, for a call that leaves the tables.
    pub(crate) fn words_with_tables(&mut self, snapshot: &Snapshot) -> &mut [u32] {
        if self.holds != Some(snapshot.number()) {
            let tables = snapshot.tables();
            self.words[..tables.len()].copy_from_slice(tables);
            self.holds = Some(snapshot.number());
        }
        &mut self.words
    }
}

thread_local! {
    static LENT: Cell<Option<WorkArea>> = const { Cell::new(None) };
}

/// Calls with the area of this thread; with a new one for the first call, and while the thread ends.
pub(crate) fn lent<R>(call: impl FnOnce(&mut WorkArea) -> R) -> R {
    let mut area = LENT.try_with(Cell::take).ok().flatten().unwrap_or_default();
    let told = call(&mut area);
    // a thread that ends keeps none
    LENT.try_with(|lent| lent.set(Some(area))).ok();
    told
}

impl fmt::Debug for WorkArea {
    fn fmt(&self, f: &mut fmt::Formatter<'_>) -> fmt::Result {
        f.debug_struct("WorkArea").finish_non_exhaustive()
    }
}

impl Default for WorkArea {
    fn default() -> Self {
        Self::new()
    }
}
