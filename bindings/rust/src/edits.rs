//! A snapshot whose scope entries come and go.
use crate::area::{self, WorkArea};
use crate::ids::{DefinitionId, ModuleId, NameId, Namespace};
use crate::record::{bits, namespace};
use crate::refusal::Refusal;
use crate::sys;
use crate::words::Visibility;

/// An entry of a module's scope.
#[derive(Clone, Copy, Debug, PartialEq, Eq, Hash)]
#[allow(clippy::struct_excessive_bools)]
pub struct Entry {
    /// The module whose scope it is in.
    pub module: ModuleId,
    /// Its namespace in that scope.
    pub namespace: Namespace,
    /// By which name it is there.
    pub name: NameId,
    /// What the name means.
    pub definition: DefinitionId,
    /// Where it can be seen.
    pub visibility: Visibility,
    /// It is no import.
    pub declared: bool,
    /// Its name is an old one.
    pub deprecated: bool,
    /// It is left out of the documentation.
    pub hidden: bool,
    /// It can be named by a question that allows it alone.
    pub unstable: bool,
}

impl Entry {
    /// A public entry that its module declares; the fields say what is otherwise.
    #[must_use]
    pub fn new(module: ModuleId, namespace: Namespace, name: NameId, definition: DefinitionId) -> Self {
        Entry {
            module,
            namespace,
            name,
            definition,
            visibility: Visibility::Public,
            declared: true,
            deprecated: false,
            hidden: false,
            unstable: false,
        }
    }

    /// The entry of a module with these seven arguments.
    pub(crate) fn read(module: u32, arguments: &[u32]) -> Option<Self> {
        let &[ns, name, definition, visibility, number, declared, bits] = arguments else { return None };
        Some(Entry {
            module: ModuleId(module),
            namespace: namespace(ns)?,
            name: NameId(name),
            definition: DefinitionId(definition),
            visibility: Visibility::read(visibility, number)?,
            declared: declared & 1 == 1,
            deprecated: declared & 2 == 2,
            hidden: bits & 1 == 1,
            unstable: bits & 2 == 2,
        })
    }

    pub(crate) fn words(&self) -> [u32; sys::ENTRY] {
        let (kind, number) = self.visibility.numbers();
        let declared = u32::from(self.declared) + 2 * u32::from(self.deprecated);
        let bits = bits(self.hidden, self.unstable);
        [self.module.0, self.namespace as u32, self.name.0, self.definition.0, kind, number, declared, bits]
    }
}

/// The words of a snapshot, kept while `use` lines come and go. Each report on them is the one for a snapshot written afresh with its
/// scope entries in this order.
///
/// ```
/// use kelumavor::{DefinitionId, EditedWords, Entry, ModuleId, NameId, Namespace, Question, Snapshot, Visibility};
///
/// # let words = [
/// #     0x10000001, 0x61, 0x10000001, 0x66, 0x20000000, 2021, 0x40000000, 0, 0, 0x50000000, 0, 0x50000000, 1, 0x60000000, 1,
/// #     0x80000001, 1, 0, 0x80000004, 1, 0, 0x90000000, 0, 0, 0, 0, 0, 1, 0, 0x90000001, 1, 1, 1, 0, 0, 1, 0,
/// # ];
/// // A crate with a module `a` that holds a function `f`; the root imports `f`.
/// let mut edited = EditedWords::new(&words);
/// let entry = Entry {
///     visibility: Visibility::Implicit(ModuleId(0)),
///     declared: false,
///     ..Entry::new(ModuleId(0), Namespace::Values, NameId(1), DefinitionId(1))
/// };
/// edited.add(&entry)?;
/// let question = Question::new(Namespace::Values, DefinitionId(1), ModuleId(0));
/// assert_eq!(Snapshot::check(edited.words())?.find_path(&question).to_string(), "found f 0 0");
///
/// edited.remove(ModuleId(0), Namespace::Values, NameId(1))?;
/// assert_eq!(edited.words(), words);
/// # Ok::<(), kelumavor::Refusal>(())
/// ```
#[derive(Clone, Debug, PartialEq, Eq)]
pub struct EditedWords {
    slice: Vec<u32>,
    count: usize,
}

impl EditedWords {
    /// The words of a snapshot, with room for as many more as a snapshot may have. They are checked by each edit.
    #[must_use]
    pub fn new(words: &[u32]) -> Self {
        let mut slice = words.to_vec();
        slice.resize(words.len().max(WorkArea::WORDS), 0);
        EditedWords { slice, count: words.len() }
    }

    /// The words of the snapshot as they are now.
    #[must_use]
    pub fn words(&self) -> &[u32] {
        &self.slice[..self.count]
    }

    /// Adds an entry after the last one.
    ///
    /// # Errors
    ///
    /// Those of the snapshot's own check; 32, 33 and 35 for the entry; 47 for a name that is there already; 48 where there is no room.
    /// A refusal changes nothing.
    pub fn add(&mut self, entry: &Entry) -> Result<(), Refusal> {
        let (slice, count) = (&mut self.slice, &mut self.count);
        refusal(area::lent(|area| sys::add_entry(slice, count, area.words(), &entry.words())))
    }

    /// Removes an entry.
    ///
    /// # Errors
    ///
    /// Those of the snapshot's own check; 47 for a name that is not there. A refusal changes nothing.
    pub fn remove(&mut self, module: ModuleId, namespace: Namespace, name: NameId) -> Result<(), Refusal> {
        let key = [module.0 as usize, namespace as usize, name.0 as usize];
        let (slice, count) = (&mut self.slice, &mut self.count);
        refusal(area::lent(|area| sys::remove_entry(slice, count, area.words(), key)))
    }
}

fn refusal(number: usize) -> Result<(), Refusal> {
    match number {
        0 => Ok(()),
        number => Err(Refusal::by(number, None)),
    }
}
