//! A path read back from the viewing module, written from request L10 alone: not from the definition, and with nothing of the search. With a
//! mistake it is a wrong program.
use crate::check::{Module, Scope, Snapshot};
use crate::{Path, Question};

/// What a name stands for.
#[derive(Clone, Copy, PartialEq, Eq, PartialOrd, Ord, Debug, Hash)]
pub enum Item {
    Module(usize),
    /// a namespace and a definition
    Other(usize, usize),
}

pub fn item(s: &Snapshot, ns: usize, definition: usize) -> Item {
    let d = &s.definitions[definition];
    if ns == 0 && d.kind == 1 { Item::Module(d.first) } else { Item::Other(ns, definition) }
}

#[derive(Clone, Copy, PartialEq, Eq, Debug)]
pub enum Mistake {
    InvisibleEntryPassedOver,
    InvisibleEntryTaken,
    SeenFromTheScopesModule,
    NoBlockLeft,
    OneBlockLeft,
    BlockLeftFromItsModules,
    LaterNamesLeaveBlocks,
    NoExterns,
    ExternsFirst,
    ExternsInEveryNamespace,
    ExternsOfEveryCrate,
    NoPrelude,
    PreludeFirst,
    PreludeBeforeExterns,
    PreludeOfTheCrate,
    LastNameInTypes,
    EveryNameInTheItemsNamespace,
    SelfKeepsTheBlock,
    SuperKeepsTheBlock,
    SuperEndsInABlock,
    CrateOfTheMap,
    KeywordsReadExterns,
    ScopeForTwoColons,
    VariantsByDefinition,
    LastVariant,
    EveryMember,
    VariantsInTypesAlone,
    BuiltinsRead,
}

use Mistake::*;

pub const MISTAKES: [Mistake; 28] = [
    InvisibleEntryPassedOver,
    InvisibleEntryTaken,
    SeenFromTheScopesModule,
    NoBlockLeft,
    OneBlockLeft,
    BlockLeftFromItsModules,
    LaterNamesLeaveBlocks,
    NoExterns,
    ExternsFirst,
    ExternsInEveryNamespace,
    ExternsOfEveryCrate,
    NoPrelude,
    PreludeFirst,
    PreludeBeforeExterns,
    PreludeOfTheCrate,
    LastNameInTypes,
    EveryNameInTheItemsNamespace,
    SelfKeepsTheBlock,
    SuperKeepsTheBlock,
    SuperEndsInABlock,
    CrateOfTheMap,
    KeywordsReadExterns,
    ScopeForTwoColons,
    VariantsByDefinition,
    LastVariant,
    EveryMember,
    VariantsInTypesAlone,
    BuiltinsRead,
];

/// Whether the path found for a question names something else there, or nothing.
pub fn misleads(s: &Snapshot, q: &Question, path: &Path, mistake: Option<Mistake>) -> bool {
    let builtin = q.ns == 0 && s.definitions[q.definition].kind == 3;
    if builtin && mistake != Some(BuiltinsRead) {
        return false;
    }
    reads_to(s, q.from, q.ns, path, mistake) != Some(item(s, q.ns, q.definition))
}

/// What a path names in a module, its last name in that namespace.
pub fn reads_to(s: &Snapshot, from: usize, ns: usize, path: &Path, mistake: Option<Mistake>) -> Option<Item> {
    Reader { s, from, mistake }.read(ns, path)
}

struct Reader<'s> {
    s: &'s Snapshot,
    from: usize,
    mistake: Option<Mistake>,
}

/// What a place says of a name: nothing, or that this is what it means, which may be nothing.
type Said = Option<Option<Item>>;

impl Reader<'_> {
    fn has(&self, mistake: Mistake) -> bool {
        self.mistake == Some(mistake)
    }

    fn krate(&self, module: usize) -> usize {
        self.s.maps[self.s.modules[module].map].krate
    }

    fn root(&self, map: usize) -> usize {
        self.s.modules.iter().position(|module| module.map == map).unwrap()
    }

    /// The crate's own map.
    fn own_map(&self) -> usize {
        let krate = self.krate(self.from);
        self.s.maps.iter().position(|map| map.krate == krate && map.block == 0).unwrap()
    }

    /// The parent of the block whose map has this module as its root.
    fn block_parent(&self, module: usize) -> Option<usize> {
        let Module { map, parent } = self.s.modules[module];
        if parent == 0 { self.s.maps[map].block.checked_sub(1) } else { None }
    }

    fn out_of_blocks(&self, mut module: usize) -> usize {
        while let Some(parent) = self.block_parent(module) {
            module = parent;
        }
        module
    }

    /// The viewing module, then the parents of the blocks whose roots are tried.
    fn tried(&self, from: usize) -> Vec<usize> {
        let mut tried = vec![from];
        let mut at = from;
        loop {
            let next = if self.has(BlockLeftFromItsModules) {
                self.s.maps[self.s.modules[at].map].block.checked_sub(1)
            } else {
                self.block_parent(at)
            };
            let Some(next) = next else { return tried };
            if self.has(NoBlockLeft) || self.has(OneBlockLeft) && tried.len() == 2 {
                return tried;
            }
            tried.push(next);
            at = next;
        }
    }

    fn entry(&self, module: usize, ns: usize, name: usize) -> Said {
        let e = self.s.scopes.iter().find(|e| (e.owner, e.ns, e.name) == (module, ns, name))?;
        let viewer = if self.has(SeenFromTheScopesModule) { module } else { self.from };
        if visible(self.s, viewer, e) || self.has(InvisibleEntryTaken) {
            Some(Some(item(self.s, ns, e.definition)))
        } else if self.has(InvisibleEntryPassedOver) {
            None
        } else {
            Some(None)
        }
    }

    fn in_scope(&self, ns: usize, name: usize) -> Said {
        self.tried(self.from).into_iter().find_map(|module| self.entry(module, ns, name))
    }

    fn in_externs(&self, ns: usize, name: usize) -> Said {
        if self.has(NoExterns) || ns != 0 && !self.has(ExternsInEveryNamespace) {
            return None;
        }
        let krate = self.krate(self.from);
        let own = |owner: usize| owner == krate || self.has(ExternsOfEveryCrate);
        let e = self.s.externs.iter().find(|e| own(e.owner) && e.name == name)?;
        Some(Some(Item::Module(e.target)))
    }

    fn in_prelude(&self, ns: usize, name: usize) -> Said {
        if self.has(NoPrelude) {
            return None;
        }
        let map = if self.has(PreludeOfTheCrate) { self.own_map() } else { self.s.modules[self.from].map };
        let prelude = self.s.preludes.iter().find(|prelude| prelude.map == map)?;
        self.entry(prelude.target, ns, name)
    }

    fn first(&self, ns: usize, name: usize) -> Option<Item> {
        let scope = || self.in_scope(ns, name);
        let externs = || self.in_externs(ns, name);
        let prelude = || self.in_prelude(ns, name);
        let places: [&dyn Fn() -> Said; 3] = match self.mistake {
            Some(ExternsFirst) => [&externs, &scope, &prelude],
            Some(PreludeFirst) => [&prelude, &scope, &externs],
            Some(PreludeBeforeExterns) => [&scope, &prelude, &externs],
            _ => [&scope, &externs, &prelude],
        };
        places.iter().find_map(|place| place())?
    }

    fn later(&self, at: Item, ns: usize, name: usize) -> Option<Item> {
        match at {
            Item::Module(module) if self.has(LaterNamesLeaveBlocks) => {
                self.tried(module).into_iter().find_map(|module| self.entry(module, ns, name))?
            }
            Item::Module(module) => self.entry(module, ns, name)?,
            Item::Other(_, definition) => self.variant(definition, ns, name),
        }
    }

    fn variant(&self, parent: usize, ns: usize, name: usize) -> Option<Item> {
        if ns == 2 || ns == 1 && self.has(VariantsInTypesAlone) {
            return None;
        }
        let found = if self.has(VariantsByDefinition) {
            self.s.definitions.iter().position(|d| d.kind == 2 && (d.first, d.second) == (parent, name))
        } else {
            let counts = |kind: usize| kind == 0 || self.has(EveryMember);
            let mut named = self.s.members.iter().filter(|m| counts(m.kind) && (m.parent, m.name) == (parent, name));
            let member = if self.has(LastVariant) { named.last() } else { named.next() };
            member.map(|member| member.definition)
        };
        found.map(|definition| item(self.s, ns, definition))
    }

    fn above(&self, module: usize) -> Option<usize> {
        let start = if self.has(SuperKeepsTheBlock) { module } else { self.out_of_blocks(module) };
        let parent = self.s.modules[start].parent.checked_sub(1)?;
        Some(if self.has(SuperEndsInABlock) { parent } else { self.out_of_blocks(parent) })
    }

    /// The module of a keyword (1 `self`, 2 `super`, 3 `crate`).
    fn keyword(&self, kind: usize) -> Option<usize> {
        match kind {
            1 if self.has(SelfKeepsTheBlock) => Some(self.from),
            1 => Some(self.out_of_blocks(self.from)),
            2 => self.above(self.from),
            _ if self.has(CrateOfTheMap) => Some(self.root(self.s.modules[self.from].map)),
            _ => Some(self.root(self.own_map())),
        }
    }

    fn read(&self, ns: usize, path: &Path) -> Option<Item> {
        let last = path.names.len().checked_sub(1);
        let ns_of = |place: usize| match self.mistake {
            Some(LastNameInTypes) => 0,
            Some(EveryNameInTheItemsNamespace) => ns,
            _ => {
                if Some(place) == last {
                    ns
                } else {
                    0
                }
            }
        };
        let mut at = match path.kind {
            1..=3 => Some(Item::Module(self.keyword(path.kind)?)),
            _ => None,
        };
        for (place, &name) in path.names.iter().enumerate() {
            let ns = ns_of(place);
            at = Some(match at {
                Some(at) => match self.later(at, ns, name) {
                    None if place == 0 && self.has(KeywordsReadExterns) => self.in_externs(ns, name)??,
                    next => next?,
                },
                None if path.kind == 4 && !self.has(ScopeForTwoColons) => self.in_externs(ns, name)??,
                None => self.first(ns, name)?,
            });
        }
        // what was looked up in types though it is asked for elsewhere
        match at? {
            Item::Other(0, definition) if self.has(LastNameInTypes) => Some(Item::Other(ns, definition)),
            at => Some(at),
        }
    }
}

/// The walk of the search, as document 01 describes it.
pub fn visible(s: &Snapshot, viewer: usize, e: &Scope) -> bool {
    let map = |module: usize| s.modules[module].map;
    let krate = |module: usize| s.maps[map(module)].krate;
    match e.visibility {
        0 => return true,
        1 => return krate(viewer) == e.number,
        _ if viewer == e.number => return true,
        _ if krate(viewer) != krate(e.number) => return false,
        _ => (),
    }
    let mut target = e.number;
    while map(target) != map(viewer) && s.maps[map(target)].block != 0 {
        target = s.maps[map(target)].block - 1;
    }
    let mut at = viewer;
    while at != target {
        let next = if s.modules[at].parent != 0 { s.modules[at].parent } else { s.maps[map(at)].block };
        if next == 0 {
            return false;
        }
        at = next - 1;
    }
    true
}
