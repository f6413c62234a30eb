//! Writing the words of a snapshot.
use std::cell::OnceCell;
use std::collections::HashMap;

use crate::edits::Entry;
use crate::ids::{CrateId, DefinitionId, MapId, ModuleId, NameId};
use crate::imports::Import;
use crate::record::{Child, Crate, Definition, Dependency, Extern, Map, Member, Module, Prelude, Record};
use crate::refusal::{Refusal, RefusalKind};
use crate::snapshot::Snapshot;
use crate::text::Text;

/// Where a crate comes from.
#[derive(Clone, Copy, Debug, Default, PartialEq, Eq, Hash)]
#[non_exhaustive]
pub enum Origin {
    /// Of the workspace, or a library from elsewhere.
    #[default]
    Ordinary = 0,
    /// `core`
    Core = 1,
    /// `alloc`
    Alloc = 2,
    /// `std`
    Std = 3,
    /// Another crate of the language's own.
    OtherLanguage = 4,
}

/// The edition of a crate.
#[derive(Clone, Copy, Debug, Default, PartialEq, Eq, Hash)]
#[non_exhaustive]
pub enum Edition {
    /// 2015, in which the path of a `use` line begins at the crate's root.
    Rust2015 = 2015,
    /// 2018
    Rust2018 = 2018,
    /// 2021
    #[default]
    Rust2021 = 2021,
    /// 2024
    Rust2024 = 2024,
}

impl Edition {
    pub(crate) const ALL: [Self; 4] = [Self::Rust2015, Self::Rust2018, Self::Rust2021, Self::Rust2024];
}

/// From its year.
impl TryFrom<u32> for Edition {
    type Error = Refusal;

    fn try_from(year: u32) -> Result<Self, Refusal> {
        match year {
            2015 => Ok(Self::Rust2015),
            2018 => Ok(Self::Rust2018),
            2021 => Ok(Self::Rust2021),
            2024 => Ok(Self::Rust2024),
            _ => Err(Refusal::new(RefusalKind::UnknownEdition.number(), None)),
        }
    }
}

/// The visibility of an entry of a scope. `Explicit` and `Implicit` say whether the module was written out.
#[derive(Clone, Copy, Debug, PartialEq, Eq, Hash)]
pub enum Visibility {
    /// `pub`
    Public,
    /// Within a crate.
    Crate(CrateId),
    /// Within a module, as `pub(in ..)`, `pub(super)` or `pub(self)` says.
    Explicit(ModuleId),
    /// Within a module, as nothing is written.
    Implicit(ModuleId),
}

/// What a member is.
#[derive(Clone, Copy, Debug, PartialEq, Eq, Hash)]
#[non_exhaustive]
pub enum MemberKind {
    /// A variant of an enum.
    Variant = 0,
    /// A function of a trait.
    Function = 1,
    /// A constant of a trait.
    Constant = 2,
    /// A type of a trait.
    TypeAlias = 3,
}

impl Visibility {
    /// Its number, and that of the crate or the module.
    pub(crate) fn numbers(self) -> (u32, u32) {
        match self {
            Visibility::Public => (0, 0),
            Visibility::Crate(krate) => (1, krate.0),
            Visibility::Explicit(module) => (2, module.0),
            Visibility::Implicit(module) => (3, module.0),
        }
    }

    pub(crate) fn read(kind: u32, number: u32) -> Option<Self> {
        Some(match kind {
            0 => Visibility::Public,
            1 => Visibility::Crate(CrateId(number)),
            2 => Visibility::Explicit(ModuleId(number)),
            3 => Visibility::Implicit(ModuleId(number)),
            _ => return None,
        })
    }
}

/// Kinds of records, with 0 and 12 for none.
const KINDS: usize = 14;

/// Writes the words of a snapshot. Records may come in any order: the words have them by kind, and the modules of a map after it. A text is one
/// name, however often it is added. What is wrong with the records is found by [`Snapshot::check`].
///
/// Each number given out is the one that the words have, but for modules: where one is added to a map after those of a later map,
/// [`SnapshotWords::number_of`] says which number it has in the words.
///
/// No record holds a number of more than 28 bits, and no snapshot has so many records: a function that gets one panics and adds nothing.
/// Smaller numbers of what is not there are found by the check, as records may come before those that they name.
///
/// ```
/// use kelumavor::record::{Crate, Definition, Map, Module};
/// use kelumavor::{Entry, Namespace, Snapshot, SnapshotWords};
///
/// let mut words = SnapshotWords::new();
/// let krate = words.add_crate(Crate { supports_no_std: true, ..Crate::default() });
/// let map = words.add_map(Map { krate, block_in: None, no_std: false });
/// let root = words.add_module(Module { map, parent: None });
/// let function = words.add_definition(Definition::Other(root));
/// let name = words.name("f");
/// words.add_entry(Entry { unstable: true, ..Entry::new(root, Namespace::Values, name, function) });
/// assert_eq!(words.name("f"), name);
///
/// let snapshot = Snapshot::check(words.as_words())?;
/// assert_eq!(Snapshot::from_bytes(&words.to_bytes())?.words(), snapshot.words());
/// # Ok::<(), kelumavor::Refusal>(())
/// ```
#[derive(Clone, Debug, Default)]
pub struct SnapshotWords {
    /// The records of each kind, in the order in which they came.
    records: [Vec<Record>; KINDS],
    names: HashMap<Vec<u8>, NameId>,
    /// The words, as long as no record comes.
    written: OnceCell<Vec<u32>>,
}

/// Those with the same words are the same.
impl PartialEq for SnapshotWords {
    fn eq(&self, other: &Self) -> bool {
        self.as_words() == other.as_words()
    }
}

impl Eq for SnapshotWords {}

/// The records of a snapshot, each with its number there, to go on from.
///
/// ```
/// use kelumavor::{Snapshot, SnapshotWords};
///
/// let snapshot = Snapshot::from_bytes(&[1, 0, 0, 0x10, b'a', 0, 0, 0])?;
/// let mut words = SnapshotWords::from(&snapshot);
/// assert_eq!(words.as_words(), snapshot.words());
/// words.name("b");
/// assert_eq!(Snapshot::check(words.as_words())?.counts().names, 2);
/// # Ok::<(), kelumavor::Refusal>(())
/// ```
impl From<&Snapshot> for SnapshotWords {
    fn from(snapshot: &Snapshot) -> Self {
        let mut words = Self::new();
        for (_, record) in snapshot.records() {
            if let Record::Name(Text(text)) = &record {
                let number = u32::try_from(words.names.len()).expect("as many names as a snapshot may have");
                words.names.insert(text.to_vec(), NameId(number));
            }
            words.add(record);
        }
        words
    }
}

impl SnapshotWords {
    /// No words.
    #[must_use]
    pub fn new() -> Self {
        Self::default()
    }

    /// The words of the records so far.
    pub fn as_words(&self) -> &[u32] {
        self.written.get_or_init(|| self.write())
    }

    /// The words as the programs read them, lowest byte first.
    #[must_use]
    pub fn to_bytes(&self) -> Vec<u8> {
        self.as_words().iter().flat_map(|word| word.to_le_bytes()).collect()
    }

    /// The words.
    #[must_use]
    pub fn into_words(self) -> Vec<u32> {
        let written = self.write();
        self.written.into_inner().unwrap_or(written)
    }

    /// The number that a module has in the words.
    #[must_use]
    pub fn number_of(&self, module: ModuleId) -> ModuleId {
        self.numbers().get(module.0 as usize).copied().unwrap_or(module)
    }

    /// The number of each module in the words: those of a map stand together.
    fn numbers(&self) -> Vec<ModuleId> {
        let map = |record: &Record| match record {
            Record::Module(module) => module.map,
            _ => MapId(0),
        };
        let modules = &self.records[5];
        let mut order: Vec<usize> = (0..modules.len()).collect();
        order.sort_by_key(|module| map(&modules[*module]));
        let mut numbers = vec![ModuleId(0); modules.len()];
        for (module, number) in order.into_iter().zip(0..) {
            numbers[module] = ModuleId(number);
        }
        numbers
    }

    fn write(&self) -> Vec<u32> {
        let numbers = self.numbers();
        let number = |module: ModuleId| numbers.get(module.0 as usize).copied().unwrap_or(module);
        let mut words = Vec::new();
        let mut put = |record: &Record| {
            let (kind, payload, arguments) = record.clone().with_modules(number).parts();
            words.push(kind << 28 | payload);
            words.extend_from_slice(&arguments);
        };
        for kind in [1, 2, 3] {
            self.records[kind].iter().for_each(&mut put);
        }
        let modules = |of: MapId| {
            self.records[5].iter().filter(move |record| matches!(record, Record::Module(module) if module.map == of))
        };
        for (record, map) in self.records[4].iter().zip(0..) {
            put(record);
            modules(MapId(map)).for_each(&mut put);
        }
        let is_lost = |record: &&Record| matches!(record, Record::Module(module) if module.map.0 as usize >= self.records[4].len());
        self.records[5].iter().filter(is_lost).for_each(&mut put);
        for kind in [6, 7, 8, 9, 10, 11, 13] {
            self.records[kind].iter().for_each(&mut put);
        }
        words
    }

    /// Adds a record; answers its number among those of its kind.
    #[track_caller]
    fn add(&mut self, record: Record) -> u32 {
        let (kind, payload, arguments) = record.parts();
        for number in arguments.iter().chain([&payload]) {
            assert!(number >> 28 == 0, "{number} is no number of a record: it has more than 28 bits");
        }
        self.written.take();
        let records = &mut self.records[kind as usize];
        records.push(record);
        u32::try_from(records.len() - 1).expect("fewer records than a number can count")
    }

    /// A name, which is the same for the same text.
    ///
    /// # Panics
    ///
    /// A text that is empty, or longer than [`Text::MAX_BYTES`]; [`try_name`](Self::try_name) answers an error for it.
    #[track_caller]
    pub fn name(&mut self, text: &str) -> NameId {
        self.try_name(text.as_bytes()).expect("a name has 1 to 255 bytes")
    }

    /// A name of any bytes, which is the same for the same bytes.
    ///
    /// # Errors
    ///
    /// 32 for no bytes, or more than [`Text::MAX_BYTES`].
    pub fn try_name(&mut self, text: &[u8]) -> Result<NameId, Refusal> {
        if !(1..=Text::MAX_BYTES).contains(&text.len()) {
            return Err(Refusal::new(RefusalKind::WrongField.number(), None));
        }
        if let Some(name) = self.names.get(text) {
            return Ok(*name);
        }
        let name = NameId(self.add(Record::Name(Text(text.into()))));
        self.names.insert(text.to_vec(), name);
        Ok(name)
    }

    /// A crate.
    pub fn add_crate(&mut self, krate: Crate) -> CrateId {
        CrateId(self.add(Record::Crate(krate)))
    }

    /// A crate that another depends on.
    ///
    /// # Panics
    ///
    /// A number of more than 28 bits.
    #[track_caller]
    pub fn add_dependency(&mut self, dependency: Dependency) {
        self.add(Record::Dependency(dependency));
    }

    /// A map of a crate: its own, or that of a block in a module.
    ///
    /// # Panics
    ///
    /// A number of more than 28 bits, where one is added to that of `block_in`.
    #[track_caller]
    pub fn add_map(&mut self, map: Map) -> MapId {
        MapId(self.add(Record::Map(map)))
    }

    /// A module of a map; its first is its root.
    ///
    /// # Panics
    ///
    /// A number of more than 28 bits, where one is added to that of `parent`.
    #[track_caller]
    pub fn add_module(&mut self, module: Module) -> ModuleId {
        ModuleId(self.add(Record::Module(module)))
    }

    /// The same, by its fields.
    ///
    /// # Panics
    ///
    /// A number of more than 28 bits, where one is added to that of `parent`.
    #[track_caller]
    pub fn module(&mut self, map: MapId, parent: Option<ModuleId>) -> ModuleId {
        self.add_module(Module { map, parent })
    }

    /// A module among the children of its parent.
    ///
    /// # Panics
    ///
    /// A number of more than 28 bits.
    #[track_caller]
    pub fn child(&mut self, owner: ModuleId, module: ModuleId) {
        self.add(Record::Child(Child { owner, module }));
    }

    /// The prelude of a map.
    ///
    /// # Panics
    ///
    /// A number of more than 28 bits.
    #[track_caller]
    pub fn prelude(&mut self, map: MapId, module: ModuleId) {
        self.add(Record::Prelude(Prelude { map, module }));
    }

    /// A definition.
    ///
    /// # Panics
    ///
    /// A number of more than 28 bits.
    #[track_caller]
    pub fn add_definition(&mut self, definition: Definition) -> DefinitionId {
        DefinitionId(self.add(Record::Definition(definition)))
    }

    /// The definition of a module.
    ///
    /// # Panics
    ///
    /// A number of more than 28 bits.
    #[track_caller]
    pub fn module_definition(&mut self, module: ModuleId) -> DefinitionId {
        self.add_definition(Definition::Module(module))
    }

    /// A variant, of a definition by [`other_definition`](Self::other_definition).
    ///
    /// # Panics
    ///
    /// A number of more than 28 bits.
    #[track_caller]
    pub fn variant_definition(&mut self, parent: DefinitionId, name: NameId) -> DefinitionId {
        self.add_definition(Definition::Variant { parent, name })
    }

    /// A builtin type, by its name.
    ///
    /// # Panics
    ///
    /// A number of more than 28 bits.
    #[track_caller]
    pub fn builtin_definition(&mut self, name: NameId) -> DefinitionId {
        self.add_definition(Definition::Builtin(name))
    }

    /// A definition that is no module, variant, builtin or macro.
    ///
    /// # Panics
    ///
    /// A number of more than 28 bits.
    #[track_caller]
    pub fn other_definition(&mut self, home: ModuleId) -> DefinitionId {
        self.add_definition(Definition::Other(home))
    }

    /// A macro.
    ///
    /// # Panics
    ///
    /// A number of more than 28 bits.
    #[track_caller]
    pub fn macro_definition(&mut self, home: ModuleId) -> DefinitionId {
        self.add_definition(Definition::Macro(home))
    }

    /// An entry of a module's scope.
    ///
    /// # Panics
    ///
    /// A number of more than 28 bits.
    #[track_caller]
    pub fn add_entry(&mut self, entry: Entry) {
        self.add(Record::Entry(entry));
    }

    /// An entry of a crate's import map.
    ///
    /// # Panics
    ///
    /// A number of more than 28 bits.
    #[track_caller]
    pub fn add_import(&mut self, krate: CrateId, import: Import) {
        self.add(Record::Import(krate, import));
    }

    /// An entry of a crate's extern prelude.
    ///
    /// # Panics
    ///
    /// A number of more than 28 bits.
    #[track_caller]
    pub fn extern_prelude(&mut self, krate: CrateId, name: NameId, root: ModuleId) {
        self.add(Record::Extern(Extern { krate, name, root }));
    }

    /// A member of an enum or a trait.
    ///
    /// # Panics
    ///
    /// A number of more than 28 bits.
    #[track_caller]
    pub fn add_member(&mut self, member: Member) {
        self.add(Record::Member(member));
    }
}
