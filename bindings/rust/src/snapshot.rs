//! A checked snapshot.
use std::sync::Arc;
use std::sync::atomic::{AtomicU64, Ordering};

use crate::area::{self, WorkArea};
use crate::ids::{ModuleId, NameId};
use crate::names::Names;
use crate::question::Question;
use crate::record::Record;
use crate::refusal::{Refusal, RefusalKind};
use crate::report::Report;
use crate::sys;
use crate::text::Text;
use crate::words::Edition;

/// How many records of each kind a snapshot has.
#[derive(Clone, Copy, Debug, PartialEq, Eq, Hash)]
pub struct Counts {
    /// Records of kind 1.
    pub names: usize,
    /// Records of kind 2.
    pub crates: usize,
    /// Records of kind 3.
    pub dependencies: usize,
    /// Records of kind 4.
    pub maps: usize,
    /// Records of kind 5.
    pub modules: usize,
    /// Records of kind 6.
    pub children: usize,
    /// Records of kind 7.
    pub preludes: usize,
    /// Records of kind 8.
    pub definitions: usize,
    /// Records of kind 9, entries of all scopes.
    pub scopes: usize,
    /// Records of kind 10.
    pub imports: usize,
    /// Records of kind 11.
    pub externs: usize,
    /// Records of kind 13.
    pub members: usize,
}

/// A snapshot that the check accepted. Its words never change, so no question checks them again.
#[derive(Clone)]
pub struct Snapshot {
    words: Box<[u32]>,
    /// The first words of the area as the check left it.
    tables: Box<[u32]>,
    /// What the check answered.
    answer: [usize; sys::CHECKED],
    counts: Counts,
    names: Arc<Names>,
    /// The edition of each module's crate.
    editions: Box<[Edition]>,
    /// No two checks give the same; clones have the same words and tables, and this number.
    number: u64,
}

/// The words say all.
impl PartialEq for Snapshot {
    fn eq(&self, other: &Self) -> bool {
        self.words == other.words
    }
}

impl Eq for Snapshot {}

static CHECKS: AtomicU64 = AtomicU64::new(0);

impl std::fmt::Debug for Snapshot {
    fn fmt(&self, f: &mut std::fmt::Formatter<'_>) -> std::fmt::Result {
        f.debug_struct("Snapshot").field("counts", &self.counts).finish_non_exhaustive()
    }
}

/// The edition of each module's crate, of the words after the names. Arguments have no kind, so each other word is a head.
fn editions(words: &[u32]) -> Box<[Edition]> {
    let (mut crates, mut maps, mut modules) = (Vec::new(), Vec::new(), Vec::new());
    for (at, word) in words.iter().enumerate().take_while(|(_, word)| **word >> 28 <= 5) {
        let payload = (word & 0x0FFF_FFFF) as usize;
        match word >> 28 {
            2 => crates.push(Edition::try_from(words[at + 1]).expect("an edition that the check accepted")),
            4 => maps.push(crates[payload]),
            5 => modules.push(maps[payload]),
            _ => (),
        }
    }
    modules.into()
}

/// The records of words that the check accepted, with their places.
fn records(words: &[u32]) -> impl Iterator<Item = (usize, Record)> + '_ {
    let mut place = 0;
    std::iter::from_fn(move || {
        let (record, count) = Record::read(words.get(place..)?)?;
        place += count;
        Some((place - count, record))
    })
}

impl Snapshot {
    /// Words of a snapshot, at most.
    pub const MAX_WORDS: usize = 16_384;

    /// Names of a snapshot, at most.
    pub const MAX_NAMES: usize = 2048;

    /// Crates of a snapshot, at most.
    pub const MAX_CRATES: usize = 64;

    /// Modules of a snapshot, those of blocks included, at most.
    pub const MAX_MODULES: usize = 512;

    /// Definitions of a snapshot, at most.
    pub const MAX_DEFINITIONS: usize = 2048;

    /// Checks the words.
    ///
    /// # Errors
    ///
    /// The first record that is refused, by 31 to 36 or 43, or 30 for too many words.
    ///
    /// ```
    /// # use kelumavor::Snapshot;
    /// let empty = Snapshot::check(&[])?;
    /// assert_eq!(empty.counts().modules, 0);
    ///
    /// let refusal = Snapshot::check(&[0]).unwrap_err();
    /// assert_eq!(
    ///     refusal.to_string(),
    ///     "refused 31 at word 0: an unknown or falling kind, or an argument that is missing or has a kind"
    /// );
    /// # Ok::<(), kelumavor::Refusal>(())
    /// ```
    pub fn check(words: &[u32]) -> Result<Self, Refusal> {
        area::lent(|area| Self::check_in(words, area))
    }

    /// Checks the words in a work area of the caller's.
    ///
    /// # Errors
    ///
    /// Those of [`Snapshot::check`].
    pub fn check_in(words: &[u32], area: &mut WorkArea) -> Result<Self, Refusal> {
        let area = area.words();
        let answer = sys::check(words, area);
        let [number, place, counts @ ..] = answer;
        if number != 0 {
            return Err(Refusal::by(number, Some(place)));
        }
        let [
            names,
            crates,
            dependencies,
            maps,
            modules,
            children,
            preludes,
            definitions,
            scopes,
            imports,
            externs,
            members,
        ] = counts;
        let counts = Counts {
            names,
            crates,
            dependencies,
            maps,
            modules,
            children,
            preludes,
            definitions,
            scopes,
            imports,
            externs,
            members,
        };
        let names = Names::new(words, &area[..counts.names]);
        Ok(Snapshot {
            editions: editions(&words[names.word_count()..]),
            words: words.into(),
            tables: area[..sys::table_words()].into(),
            answer,
            counts,
            names: names.into(),
            number: CHECKS.fetch_add(1, Ordering::Relaxed),
        })
    }

    /// Checks words that stand in bytes, the lowest byte first.
    ///
    /// # Errors
    ///
    /// Those of [`Snapshot::check`], and 41 for bytes that are no whole words.
    ///
    /// ```
    /// # use kelumavor::{RefusalKind, Snapshot};
    /// assert_eq!(Snapshot::from_bytes(&[1, 0, 0, 0x10, b'a', 0, 0, 0])?.counts().names, 1);
    /// assert_eq!(Snapshot::from_bytes(&[1, 0]).unwrap_err().kind(), RefusalKind::InputNotWords);
    /// # Ok::<(), kelumavor::Refusal>(())
    /// ```
    pub fn from_bytes(bytes: &[u8]) -> Result<Self, Refusal> {
        let (words, rest) = bytes.as_chunks();
        if !rest.is_empty() {
            return Err(Refusal::new(RefusalKind::InputNotWords.number(), Some(words.len())));
        }
        let words: Vec<u32> = words.iter().map(|word| u32::from_le_bytes(*word)).collect();
        Self::check(&words)
    }

    /// The words that were checked.
    #[must_use]
    pub fn words(&self) -> &[u32] {
        &self.words
    }

    /// The words as the programs read them, lowest byte first.
    #[must_use]
    pub fn to_bytes(&self) -> Vec<u8> {
        self.words.iter().flat_map(|word| word.to_le_bytes()).collect()
    }

    /// The record that begins at a word, such as one of a path's route; none where no record does.
    ///
    /// ```
    /// use kelumavor::record::{Module, Record};
    /// use kelumavor::{MapId, ModuleId, Snapshot};
    ///
    /// # let words = [
    /// #     0x10000001, 0x61, 0x10000001, 0x66, 0x20000000, 2021, 0x40000000, 0, 0, 0x50000000, 0, 0x50000000, 1, 0x60000000, 1,
    /// #     0x80000001, 1, 0, 0x80000004, 1, 0, 0x90000000, 0, 0, 0, 0, 0, 1, 0, 0x90000001, 1, 1, 1, 0, 0, 1, 0,
    /// # ];
    /// // A crate with a module `a` that holds a function `f`.
    /// let snapshot = Snapshot::check(&words)?;
    /// assert_eq!(snapshot.record_at(11), Some(Record::Module(Module { map: MapId(0), parent: Some(ModuleId(0)) })));
    /// assert_eq!(snapshot.record_at(12), None);
    /// # Ok::<(), kelumavor::Refusal>(())
    /// ```
    #[must_use]
    pub fn record_at(&self, place: usize) -> Option<Record> {
        Some(Record::read(self.words.get(place..)?)?.0)
    }

    /// The records, each with the word at which it begins.
    pub fn records(&self) -> impl Iterator<Item = (usize, Record)> + '_ {
        records(&self.words)
    }

    /// How many records there are.
    #[must_use]
    pub fn counts(&self) -> &Counts {
        &self.counts
    }

    /// The text of a name, where the snapshot has that name.
    #[must_use]
    pub fn name(&self, name: NameId) -> Option<Text> {
        self.names.read(name)
    }

    /// The edition of a module's crate, where the snapshot has that module.
    #[must_use]
    pub fn edition(&self, module: ModuleId) -> Option<Edition> {
        self.editions.get(module.0 as usize).copied()
    }

    pub(crate) fn names(&self) -> &Arc<Names> {
        &self.names
    }

    pub(crate) fn tables(&self) -> &[u32] {
        &self.tables
    }

    pub(crate) fn number(&self) -> u64 {
        self.number
    }

    /// Answers a question: the words were checked, so it costs the search alone. It works in an area of its thread's, of
    /// [`WorkArea::WORDS`] words, which it takes at the thread's first question.
    #[must_use]
    pub fn find_path(&self, question: &Question) -> Report {
        area::lent(|area| self.find_path_in(question, area))
    }

    /// Answers a question in a work area of the caller's.
    pub fn find_path_in(&self, question: &Question, area: &mut WorkArea) -> Report {
        let area = area.words_with_tables(self);
        let mut report = [0; sys::REPORT];
        // SAFETY: the words were accepted with this answer, they never change, and their tables are in the area.
        unsafe { sys::find_path_checked(&self.words, area, &self.answer, &question.words(), &mut report) };
        Report::new(self, question.from, &report)
    }

    /// Answers questions in order, each as [`Snapshot::find_path`] does, a refused one included.
    ///
    /// ```
    /// use kelumavor::{DefinitionId, ModuleId, Namespace, Question, Snapshot};
    ///
    /// # let words = [
    /// #     0x10000001, 0x61, 0x10000001, 0x66, 0x20000000, 2021, 0x40000000, 0, 0, 0x50000000, 0, 0x50000000, 1, 0x60000000, 1,
    /// #     0x80000001, 1, 0, 0x80000004, 1, 0, 0x90000000, 0, 0, 0, 0, 0, 1, 0, 0x90000001, 1, 1, 1, 0, 0, 1, 0,
    /// # ];
    /// // A crate with a module `a` that holds a function `f`.
    /// let snapshot = Snapshot::check(&words)?;
    /// let question = Question::new(Namespace::Values, DefinitionId(1), ModuleId(0));
    /// let reports = snapshot.find_paths(&[question, question.fuel(10_001), question.fuel(0)]);
    /// let lines: Vec<String> = reports.iter().map(|report| report.to_string()).collect();
    /// assert_eq!(lines, ["found a::f 1 0", "refused 21 0 0", "none - 0 1"]);
    /// # Ok::<(), kelumavor::Refusal>(())
    /// ```
    #[must_use]
    pub fn find_paths(&self, questions: &[Question]) -> Vec<Report> {
        area::lent(|area| self.find_paths_in(questions, area))
    }

    /// Answers questions in order in a work area of the caller's.
    pub fn find_paths_in(&self, questions: &[Question], area: &mut WorkArea) -> Vec<Report> {
        let area = area.words_with_tables(self);
        let mut reports = Vec::with_capacity(questions.len());
        for call in questions.chunks(sys::QUESTIONS) {
            let asked: Vec<_> = call.iter().map(Question::words).collect();
            // SAFETY: as in `find_path_in`.
            let told = unsafe { sys::find_paths_checked(&self.words, area, &self.answer, &asked) };
            let answered = call.iter().zip(&told);
            reports.extend(answered.map(|(question, words)| Report::new(self, question.from, words)));
        }
        reports
    }
}
