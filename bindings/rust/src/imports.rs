//! Import lists, built from the maps.
use crate::area::{self, WorkArea};
use crate::ids::{CrateId, DefinitionId, ModuleId, NameId, Namespace};
use crate::record::namespace;
use crate::refusal::{Refusal, RefusalKind};
use crate::snapshot::Snapshot;
use crate::sys;

/// An import of a crate: an item that can be named through it.
#[derive(Clone, Copy, Debug, PartialEq, Eq, Hash)]
pub struct Import {
    /// The namespace of the item.
    pub namespace: Namespace,
    /// What is imported.
    pub definition: DefinitionId,
    /// By which name.
    pub name: NameId,
    /// The module that holds it.
    pub container: ModuleId,
    /// It is left out of the documentation.
    pub hidden: bool,
    /// It can be named by a question that allows it alone.
    pub unstable: bool,
}

impl Import {
    /// The import with these five arguments.
    pub(crate) fn read(arguments: &[u32]) -> Option<Self> {
        let &[ns, definition, name, container, bits] = arguments else { return None };
        Some(Import {
            namespace: namespace(ns)?,
            definition: DefinitionId(definition),
            name: NameId(name),
            container: ModuleId(container),
            hidden: bits & 1 == 1,
            unstable: bits & 2 == 2,
        })
    }
}

/// The import list of a crate, in the order in which rust-analyzer adds its imports.
#[derive(Clone, Debug, PartialEq, Eq)]
pub struct ImportList {
    krate: CrateId,
    words: Vec<u32>,
}

impl ImportList {
    /// The crate whose list it is.
    #[must_use]
    pub fn krate(&self) -> CrateId {
        self.krate
    }

    /// The import records, as they stand in a snapshot.
    #[must_use]
    pub fn words(&self) -> &[u32] {
        &self.words
    }

    /// The imports.
    pub fn imports(&self) -> impl Iterator<Item = Import> + '_ {
        self.words.chunks_exact(sys::IMPORT).filter_map(|record| Import::read(&record[1..]))
    }
}

impl Snapshot {
    /// Builds the import list of a crate from the scope entries and members of the snapshot, as rust-analyzer's `collect_import_map` does.
    /// The list may be longer than a snapshot has room for.
    ///
    /// # Errors
    ///
    /// 23 for a crate that the snapshot does not have.
    ///
    /// ```
    /// use kelumavor::{CrateId, DefinitionId, Snapshot};
    ///
    /// # let words = [
    /// #     0x10000001, 0x61, 0x10000001, 0x66, 0x20000000, 2021, 0x40000000, 0, 0, 0x50000000, 0, 0x50000000, 1, 0x60000000, 1,
    /// #     0x80000001, 1, 0, 0x80000004, 1, 0, 0x90000000, 0, 0, 0, 0, 0, 1, 0, 0x90000001, 1, 1, 1, 0, 0, 1, 0,
    /// # ];
    /// // A crate with a module `a` that holds a function `f`: first `a`, then in it `f`.
    /// let list = Snapshot::check(&words)?.import_list(CrateId(0))?;
    /// let definitions: Vec<DefinitionId> = list.imports().map(|import| import.definition).collect();
    /// assert_eq!(definitions, [DefinitionId(0), DefinitionId(1)]);
    /// # Ok::<(), kelumavor::Refusal>(())
    /// ```
    pub fn import_list(&self, krate: CrateId) -> Result<ImportList, Refusal> {
        area::lent(|area| self.import_list_in(krate, area))
    }

    /// The same, in a work area of the caller's.
    ///
    /// # Errors
    ///
    /// Those of [`Snapshot::import_list`].
    pub fn import_list_in(&self, krate: CrateId, area: &mut WorkArea) -> Result<ImportList, Refusal> {
        let mut words = vec![0; WorkArea::WORDS];
        loop {
            match sys::import_list(self.words(), area.words(), krate.0 as usize, &mut words) {
                Ok(count) => {
                    words.truncate(count);
                    return Ok(ImportList { krate, words });
                }
                Err(number) if number == RefusalKind::TargetTooShort.number() as usize => {
                    words.resize(words.len() * 4, 0);
                }
                Err(number) => return Err(Refusal::by(number, None)),
            }
        }
    }
}

/// The words of a snapshot with the import lists of all its crates in place of the import records that it has: for an exporter that
/// writes none. The lists stand one after the other, by crate. The words are checked before and after.
///
/// # Errors
///
/// Those of [`Snapshot::check`]; 30 where the lists make more words than a snapshot may have.
///
/// ```
/// use kelumavor::{Snapshot, with_import_lists};
///
/// # let words = [
/// #     0x10000001, 0x61, 0x10000001, 0x66, 0x20000000, 2021, 0x40000000, 0, 0, 0x50000000, 0, 0x50000000, 1, 0x60000000, 1,
/// #     0x80000001, 1, 0, 0x80000004, 1, 0, 0x90000000, 0, 0, 0, 0, 0, 1, 0, 0x90000001, 1, 1, 1, 0, 0, 1, 0,
/// # ];
/// let finished = with_import_lists(&words)?;
/// assert_eq!(Snapshot::check(&finished)?.counts().imports, 2);
/// # Ok::<(), kelumavor::Refusal>(())
/// ```
pub fn with_import_lists(words: &[u32]) -> Result<Vec<u32>, Refusal> {
    let area = &mut WorkArea::new();
    let snapshot = Snapshot::check_in(words, area)?;
    let place = |kind: u32| words.iter().position(|word| word >> 28 >= kind).unwrap_or(words.len());
    let (from, to) = (place(10), place(11));
    let mut finished = words[..from].to_vec();
    for (_, number) in (0..snapshot.counts().crates).zip(0..) {
        let list = snapshot.import_list_in(CrateId(number), area)?;
        finished.extend_from_slice(list.words());
        if WorkArea::WORDS < finished.len() {
            return Err(Refusal::new(RefusalKind::TooManyWords.number(), Some(WorkArea::WORDS)));
        }
    }
    finished.extend_from_slice(&words[to..]);
    Snapshot::check_in(&finished, area)?;
    Ok(finished)
}
