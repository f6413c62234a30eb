//! Two snapshots joined.
use crate::area::{self, WorkArea};
use crate::ids::{CrateId, DefinitionId, MapId, ModuleId, NameId};
use crate::question::Question;
use crate::refusal::Refusal;
use crate::snapshot::{Counts, Snapshot};
use crate::sys;

/// Where the numbers of a part are in the joined snapshot. A number that the part does not have goes nowhere.
#[derive(Clone, Debug, PartialEq, Eq)]
pub struct Moved {
    /// The part's own.
    counts: Counts,
    /// Records of the other part before its own.
    crates: usize,
    maps: usize,
    modules: usize,
    names: Box<[usize]>,
    definitions: Box<[usize]>,
}

fn moved(number: u32, count: usize, before: usize) -> Option<u32> {
    ((number as usize) < count).then(|| before + number as usize)?.try_into().ok()
}

impl Moved {
    /// The new number of a crate.
    #[must_use]
    pub fn krate(&self, krate: CrateId) -> Option<CrateId> {
        moved(krate.0, self.counts.crates, self.crates).map(CrateId)
    }

    /// The new number of a map.
    #[must_use]
    pub fn map(&self, map: MapId) -> Option<MapId> {
        moved(map.0, self.counts.maps, self.maps).map(MapId)
    }

    /// The new number of a module.
    #[must_use]
    pub fn module(&self, module: ModuleId) -> Option<ModuleId> {
        moved(module.0, self.counts.modules, self.modules).map(ModuleId)
    }

    /// The new number of a name: of one that both parts have that of the first.
    #[must_use]
    pub fn name(&self, name: NameId) -> Option<NameId> {
        self.names.get(name.0 as usize).and_then(|number| (*number).try_into().ok()).map(NameId)
    }

    /// The new number of a definition: of a builtin that both parts have that of the first.
    #[must_use]
    pub fn definition(&self, definition: DefinitionId) -> Option<DefinitionId> {
        self.definitions.get(definition.0 as usize).and_then(|number| (*number).try_into().ok()).map(DefinitionId)
    }

    /// A question on the part, put to the joined snapshot: its line is the same.
    #[must_use]
    pub fn question(&self, question: &Question) -> Option<Question> {
        let (definition, from) = (self.definition(question.definition)?, self.module(question.from)?);
        Some(Question { definition, from, ..*question })
    }
}

/// Two snapshots joined, and where the numbers of each went.
#[derive(Clone, Debug, PartialEq, Eq)]
pub struct Joined {
    /// The joined snapshot.
    pub snapshot: Snapshot,
    /// The numbers of the first part, which stay.
    pub first: Moved,
    /// The numbers of the second.
    pub second: Moved,
}

impl Joined {
    /// The words of the joined snapshot.
    #[must_use]
    pub fn words(&self) -> &[u32] {
        self.snapshot.words()
    }
}

/// Joins two unrelated snapshots in one: the records of the first keep their numbers, those of the second follow, each kind in its old order; equal
/// names are one name, equal builtins one definition. Every question on a part has the same line on the joined words, put with its numbers moved
/// ([`Moved::question`]).
///
/// # Errors
///
/// 51 where the result would pass a limit of a snapshot.
///
/// ```
/// use kelumavor::{DefinitionId, ModuleId, Namespace, Question, Snapshot, join};
///
/// # let words = [
/// #     0x10000001, 0x61, 0x10000001, 0x66, 0x20000000, 2021, 0x40000000, 0, 0, 0x50000000, 0, 0x50000000, 1, 0x60000000, 1,
/// #     0x80000001, 1, 0, 0x80000004, 1, 0, 0x90000000, 0, 0, 0, 0, 0, 1, 0, 0x90000001, 1, 1, 1, 0, 0, 1, 0,
/// # ];
/// // A crate with a module `a` that holds a function `f`, twice: four modules, and two names.
/// let snapshot = Snapshot::check(&words)?;
/// let joined = join(&snapshot, &snapshot)?;
/// assert_eq!((joined.snapshot.counts().modules, joined.snapshot.counts().names), (4, 2));
/// let question = Question::new(Namespace::Values, DefinitionId(1), ModuleId(0));
/// let moved = joined.second.question(&question).unwrap();
/// assert_eq!((moved.definition, moved.from), (DefinitionId(3), ModuleId(2)));
/// assert_eq!(joined.snapshot.find_path(&moved).to_string(), snapshot.find_path(&question).to_string());
/// # Ok::<(), kelumavor::Refusal>(())
/// ```
pub fn join(first: &Snapshot, second: &Snapshot) -> Result<Joined, Refusal> {
    let mut target = vec![0; WorkArea::WORDS];
    let (one, two) = (first.words(), second.words());
    let count = area::lent(|area| sys::join(one, two, area.words(), &mut target));
    target.truncate(count.map_err(|number| Refusal::by(number, None))?);
    let snapshot = Snapshot::check(&target)?;
    let (counts, others) = (*second.counts(), first.counts());
    let (names, definitions) = area::lent(|area| {
        let area = area.words();
        let refusal = sys::join_numbers(one, two, area);
        debug_assert_eq!(refusal, 0, "both are accepted");
        let names = (0..counts.names).map(|name| sys::new_name(area, name)).collect();
        let definitions = (0..counts.definitions).map(|definition| sys::new_definition(area, definition)).collect();
        (names, definitions)
    });
    let Counts { crates, maps, modules, .. } = *others;
    let stays = Moved {
        counts: *others,
        crates: 0,
        maps: 0,
        modules: 0,
        names: (0..others.names).collect(),
        definitions: (0..others.definitions).collect(),
    };
    Ok(Joined { snapshot, first: stays, second: Moved { counts, crates, maps, modules, names, definitions } })
}
