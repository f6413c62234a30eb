//! The records of a snapshot, each with its fields by name.
use crate::edits::Entry;
use crate::ids::{CrateId, DefinitionId, MapId, ModuleId, NameId, Namespace};
use crate::imports::Import;
use crate::text::Text;
use crate::words::{Edition, MemberKind, Origin, Visibility};

/// A crate.
#[derive(Clone, Copy, Debug, Default, PartialEq, Eq, Hash)]
pub struct Crate {
    /// Where it comes from.
    pub origin: Origin,
    /// Its edition.
    pub edition: Edition,
    /// It can be used without `std`.
    pub supports_no_std: bool,
}

/// A crate that another depends on.
#[derive(Clone, Copy, Debug, PartialEq, Eq, Hash)]
pub struct Dependency {
    /// The crate that depends.
    pub owner: CrateId,
    /// The one that it depends on.
    pub on: CrateId,
    /// It comes with the sysroot.
    pub sysroot: bool,
}

/// A map of a crate: its own, or that of a block.
#[derive(Clone, Copy, Debug, PartialEq, Eq, Hash)]
pub struct Map {
    /// The crate.
    pub krate: CrateId,
    /// The module in which the block stands; none for the crate's own map.
    pub block_in: Option<ModuleId>,
    /// It is compiled without `std`.
    pub no_std: bool,
}

/// A module of a map; the first one is the map's root.
#[derive(Clone, Copy, Debug, PartialEq, Eq, Hash)]
pub struct Module {
    /// The map.
    pub map: MapId,
    /// The module in which it stands; none for a root.
    pub parent: Option<ModuleId>,
}

/// A module among the children of its parent.
#[derive(Clone, Copy, Debug, PartialEq, Eq, Hash)]
pub struct Child {
    /// The parent.
    pub owner: ModuleId,
    /// The module.
    pub module: ModuleId,
}

/// The prelude of a map.
#[derive(Clone, Copy, Debug, PartialEq, Eq, Hash)]
pub struct Prelude {
    /// The map.
    pub map: MapId,
    /// The module whose names are in scope everywhere in it.
    pub module: ModuleId,
}

/// What can be named.
#[derive(Clone, Copy, Debug, PartialEq, Eq, Hash)]
#[non_exhaustive]
pub enum Definition {
    /// A module.
    Module(ModuleId),
    /// A variant of an enum, which is a definition of another kind.
    Variant {
        /// The enum.
        parent: DefinitionId,
        /// Its name in the enum.
        name: NameId,
    },
    /// A builtin type, by its name.
    Builtin(NameId),
    /// Anything else but a macro, and the module that declares it.
    Other(ModuleId),
    /// A macro, and the module that declares it.
    Macro(ModuleId),
}

/// An entry of a crate's extern prelude.
#[derive(Clone, Copy, Debug, PartialEq, Eq, Hash)]
pub struct Extern {
    /// The crate in which the name can be used.
    pub krate: CrateId,
    /// The name.
    pub name: NameId,
    /// The root that it means.
    pub root: ModuleId,
}

/// A member of an enum or a trait.
#[derive(Clone, Copy, Debug, PartialEq, Eq, Hash)]
pub struct Member {
    /// The enum or the trait.
    pub parent: DefinitionId,
    /// Its name there.
    pub name: NameId,
    /// The member.
    pub definition: DefinitionId,
    /// What it is.
    pub kind: MemberKind,
    /// It is left out of the documentation.
    pub hidden: bool,
    /// It can be named by a question that allows it alone.
    pub unstable: bool,
}

/// A record of any kind.
#[derive(Clone, Debug, PartialEq, Eq, Hash)]
#[non_exhaustive]
pub enum Record {
    /// Kind 1, a name's text.
    Name(Text),
    /// Kind 2
    Crate(Crate),
    /// Kind 3
    Dependency(Dependency),
    /// Kind 4
    Map(Map),
    /// Kind 5
    Module(Module),
    /// Kind 6
    Child(Child),
    /// Kind 7
    Prelude(Prelude),
    /// Kind 8
    Definition(Definition),
    /// Kind 9, an entry of a module's scope.
    Entry(Entry),
    /// Kind 10, an import of a crate.
    Import(CrateId, Import),
    /// Kind 11
    Extern(Extern),
    /// Kind 13
    Member(Member),
}

/// The bits of a head that are no kind.
const PAYLOAD: u32 = 0x0FFF_FFFF;

const NAMESPACES: [Namespace; 3] = [Namespace::Types, Namespace::Values, Namespace::Macros];
const ORIGINS: [Origin; 5] = [Origin::Ordinary, Origin::Core, Origin::Alloc, Origin::Std, Origin::OtherLanguage];
const MEMBERS: [MemberKind; 4] =
    [MemberKind::Variant, MemberKind::Function, MemberKind::Constant, MemberKind::TypeAlias];

pub(crate) fn bits(hidden: bool, unstable: bool) -> u32 {
    u32::from(hidden) + 2 * u32::from(unstable)
}

fn plus_one(module: Option<ModuleId>) -> u32 {
    module.map_or(0, |module| module.0.saturating_add(1))
}

/// The words of a name's text: three bytes each, from the low end.
fn packed(text: &[u8]) -> Vec<u32> {
    text.chunks(3).map(|bytes| bytes.iter().rev().fold(0, |word, byte| word << 8 | u32::from(*byte))).collect()
}

impl Record {
    /// Its kind, the payload of its head, and its arguments.
    pub(crate) fn parts(&self) -> (u32, u32, Vec<u32>) {
        match self {
            // A text has at most 255 bytes.
            Record::Name(Text(text)) => (1, u32::try_from(text.len()).unwrap_or(u32::MAX), packed(text)),
            Record::Crate(it) => (2, it.origin as u32 + 8 * u32::from(it.supports_no_std), vec![it.edition as u32]),
            Record::Dependency(it) => (3, it.owner.0, vec![it.on.0, it.sysroot.into()]),
            Record::Map(it) => (4, it.krate.0, vec![plus_one(it.block_in), it.no_std.into()]),
            Record::Module(it) => (5, it.map.0, vec![plus_one(it.parent)]),
            Record::Child(it) => (6, it.owner.0, vec![it.module.0]),
            Record::Prelude(it) => (7, it.map.0, vec![it.module.0]),
            Record::Definition(it) => {
                let (kind, first, second) = it.numbers();
                (8, kind, vec![first, second])
            }
            Record::Entry(it) => {
                let [module, rest @ ..] = it.words();
                (9, module, rest.into())
            }
            Record::Import(krate, it) => {
                let bits = bits(it.hidden, it.unstable);
                (10, krate.0, vec![it.namespace as u32, it.definition.0, it.name.0, it.container.0, bits])
            }
            Record::Extern(it) => (11, it.krate.0, vec![it.name.0, it.root.0]),
            Record::Member(it) => {
                let bits = bits(it.hidden, it.unstable);
                (13, it.parent.0, vec![it.name.0, it.definition.0, it.kind as u32, bits])
            }
        }
    }

    /// The record whose head is the first of these words, and how many words it has. The words are those of a snapshot that was accepted;
    /// none where the first is an argument.
    pub(crate) fn read(words: &[u32]) -> Option<(Self, usize)> {
        let head = *words.first()?;
        let payload = head & PAYLOAD;
        let at = |place: usize| words.get(place).copied();
        let (record, count) = match head >> 28 {
            1 => {
                let length = payload as usize;
                let packed = words.get(1..=length.div_ceil(3))?;
                let bytes = packed.iter().flat_map(|word| word.to_le_bytes().into_iter().take(3));
                (Record::Name(Text(bytes.take(length).collect())), 1 + packed.len())
            }
            2 => {
                let origin = ORIGINS.get(payload as usize % 8).copied()?;
                let edition = Edition::try_from(at(1)?).ok()?;
                (Record::Crate(Crate { origin, edition, supports_no_std: payload >= 8 }), 2)
            }
            3 => {
                let (owner, on) = (CrateId(payload), CrateId(at(1)?));
                (Record::Dependency(Dependency { owner, on, sysroot: at(2)? != 0 }), 3)
            }
            4 => {
                let block_in = at(1)?.checked_sub(1).map(ModuleId);
                (Record::Map(Map { krate: CrateId(payload), block_in, no_std: at(2)? != 0 }), 3)
            }
            5 => (Record::Module(Module { map: MapId(payload), parent: at(1)?.checked_sub(1).map(ModuleId) }), 2),
            6 => (Record::Child(Child { owner: ModuleId(payload), module: ModuleId(at(1)?) }), 2),
            7 => (Record::Prelude(Prelude { map: MapId(payload), module: ModuleId(at(1)?) }), 2),
            8 => (Record::Definition(Definition::read(payload, at(1)?, at(2)?)?), 3),
            9 => (Record::Entry(Entry::read(payload, words.get(1..8)?)?), 8),
            10 => (Record::Import(CrateId(payload), Import::read(words.get(1..6)?)?), 6),
            11 => {
                let (krate, name, root) = (CrateId(payload), NameId(at(1)?), ModuleId(at(2)?));
                (Record::Extern(Extern { krate, name, root }), 3)
            }
            13 => {
                let (parent, name, definition) = (DefinitionId(payload), NameId(at(1)?), DefinitionId(at(2)?));
                let kind = MEMBERS.get(at(3)? as usize).copied()?;
                let (hidden, unstable) = (at(4)? & 1 == 1, at(4)? & 2 == 2);
                (Record::Member(Member { parent, name, definition, kind, hidden, unstable }), 5)
            }
            _ => return None,
        };
        Some((record, count))
    }

    /// The record with other numbers for its modules.
    pub(crate) fn with_modules(self, number: impl Fn(ModuleId) -> ModuleId) -> Self {
        match self {
            Record::Map(it) => Record::Map(Map { block_in: it.block_in.map(number), ..it }),
            Record::Module(it) => Record::Module(Module { parent: it.parent.map(number), ..it }),
            Record::Child(it) => Record::Child(Child { owner: number(it.owner), module: number(it.module) }),
            Record::Prelude(it) => Record::Prelude(Prelude { module: number(it.module), ..it }),
            Record::Definition(it) => Record::Definition(it.with_modules(number)),
            Record::Entry(it) => {
                let visibility = match it.visibility {
                    Visibility::Explicit(module) => Visibility::Explicit(number(module)),
                    Visibility::Implicit(module) => Visibility::Implicit(number(module)),
                    other => other,
                };
                Record::Entry(Entry { module: number(it.module), visibility, ..it })
            }
            Record::Import(krate, it) => Record::Import(krate, Import { container: number(it.container), ..it }),
            Record::Extern(it) => Record::Extern(Extern { root: number(it.root), ..it }),
            other => other,
        }
    }
}

impl Definition {
    /// Its kind and its two arguments.
    fn numbers(self) -> (u32, u32, u32) {
        match self {
            Definition::Module(module) => (1, module.0, 0),
            Definition::Variant { parent, name } => (2, parent.0, name.0),
            Definition::Builtin(name) => (3, name.0, 0),
            Definition::Other(home) => (4, home.0, 0),
            Definition::Macro(home) => (5, home.0, 0),
        }
    }

    fn read(kind: u32, first: u32, second: u32) -> Option<Self> {
        Some(match kind {
            1 => Definition::Module(ModuleId(first)),
            2 => Definition::Variant { parent: DefinitionId(first), name: NameId(second) },
            3 => Definition::Builtin(NameId(first)),
            4 => Definition::Other(ModuleId(first)),
            5 => Definition::Macro(ModuleId(first)),
            _ => return None,
        })
    }

    fn with_modules(self, number: impl Fn(ModuleId) -> ModuleId) -> Self {
        match self {
            Definition::Module(module) => Definition::Module(number(module)),
            Definition::Other(home) => Definition::Other(number(home)),
            Definition::Macro(home) => Definition::Macro(number(home)),
            other => other,
        }
    }
}

pub(crate) fn namespace(number: u32) -> Option<Namespace> {
    NAMESPACES.get(number as usize).copied()
}
