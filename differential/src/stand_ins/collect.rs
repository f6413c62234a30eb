// What `collect_import_map` needs from outside its functions, filled from a snapshot. An id has the number of what it stands for and the
// attributes that a query for it gives, so that the rule that selects them is the text's.
use std::hash::{Hash, Hasher};

use super::{cov_mark, tracing};
use super::hir_expand::name::Name;
use crate::check::{Import, Snapshot};
use crate::tables::{IndexMap, Map};

pub trait SourceDatabase {
    fn store(&self) -> &Store;
}

pub struct Store {
    maps: Vec<DefMap>,
    own: Vec<usize>,
    places: Vec<(usize, Crate)>,
    variants: Vec<Variants>,
    items: Vec<TraitItems>,
}

impl SourceDatabase for Store {
    fn store(&self) -> &Store {
        self
    }
}

#[derive(Clone, Copy, PartialEq, Eq, Debug)]
pub struct Crate(usize);

/// A number and attributes: 1 hidden, 2 unstable.
#[derive(Clone, Copy, Debug)]
pub struct Id {
    number: usize,
    bits: usize,
}

impl PartialEq for Id {
    fn eq(&self, other: &Id) -> bool {
        self.number == other.number
    }
}
impl Eq for Id {}
impl Hash for Id {
    fn hash<H: Hasher>(&self, state: &mut H) {
        self.number.hash(state);
    }
}

macro_rules! ids {
    ($($name:ident)*) => {
        $(
            #[derive(Clone, Copy, PartialEq, Eq, Hash, Debug)]
            pub struct $name(Id);
            impl From<$name> for AttrDefId {
                fn from(id: $name) -> AttrDefId {
                    AttrDefId::Other(id.0)
                }
            }
        )*
    };
}
ids! { ModuleId FunctionId EnumId EnumVariantId ConstId StaticId TypeAliasId MacroId UseId ExternCrateId BuiltinType }

#[derive(Clone, Copy, PartialEq, Eq, Hash, Debug)]
pub struct TraitId(Id);
impl From<TraitId> for AttrDefId {
    fn from(id: TraitId) -> AttrDefId {
        AttrDefId::TraitId(id)
    }
}

#[derive(Clone, Copy, Debug)]
pub enum AttrDefId {
    ModuleId(ModuleId),
    TraitId(TraitId),
    Other(Id),
}

#[derive(Clone, Copy, PartialEq, Eq, Hash, Debug)]
pub enum AdtId {
    EnumId(EnumId),
}
impl From<AdtId> for AttrDefId {
    fn from(AdtId::EnumId(id): AdtId) -> AttrDefId {
        id.into()
    }
}

#[derive(Clone, Copy, PartialEq, Eq, Hash, Debug)]
pub enum ModuleDefId {
    ModuleId(ModuleId),
    FunctionId(FunctionId),
    AdtId(AdtId),
    EnumVariantId(EnumVariantId),
    ConstId(ConstId),
    StaticId(StaticId),
    TraitId(TraitId),
    TypeAliasId(TypeAliasId),
    BuiltinType(BuiltinType),
    MacroId(MacroId),
}
impl From<FunctionId> for ModuleDefId {
    fn from(id: FunctionId) -> ModuleDefId {
        ModuleDefId::FunctionId(id)
    }
}
impl From<ConstId> for ModuleDefId {
    fn from(id: ConstId) -> ModuleDefId {
        ModuleDefId::ConstId(id)
    }
}
impl From<EnumVariantId> for ModuleDefId {
    fn from(id: EnumVariantId) -> ModuleDefId {
        ModuleDefId::EnumVariantId(id)
    }
}

#[derive(Clone, Copy, Debug)]
pub enum AssocItemId {
    FunctionId(FunctionId),
    ConstId(ConstId),
    TypeAliasId(TypeAliasId),
}
impl From<AssocItemId> for AttrDefId {
    fn from(id: AssocItemId) -> AttrDefId {
        match id {
            AssocItemId::FunctionId(id) => id.into(),
            AssocItemId::ConstId(id) => id.into(),
            AssocItemId::TypeAliasId(id) => id.into(),
        }
    }
}

#[derive(Clone, Copy, Debug)]
pub struct ImportId {
    use_: UseId,
}
#[derive(Clone, Copy, Debug)]
pub enum ImportOrExternCrate {
    Glob(ImportId),
    Import(ImportId),
    ExternCrate(ExternCrateId),
}

#[derive(Clone, Copy)]
pub struct AttrFlags(usize);

impl AttrFlags {
    const IS_DOC_HIDDEN: usize = 1;
    const IS_UNSTABLE: usize = 2;

    fn query(_: &dyn SourceDatabase, id: AttrDefId) -> AttrFlags {
        match id {
            AttrDefId::ModuleId(ModuleId(id)) | AttrDefId::TraitId(TraitId(id)) | AttrDefId::Other(id) => AttrFlags(id.bits),
        }
    }
    fn contains(self, flag: usize) -> bool {
        self.0 & flag != 0
    }
}

/// What completion is told; nothing here asks for it.
#[derive(Clone, Copy)]
pub enum Complete {
    Yes,
}

impl Complete {
    fn extract(_: bool, _: AttrFlags) -> Complete {
        Complete::Yes
    }
    fn for_trait_item(_: Complete, _: Complete) -> Complete {
        Complete::Yes
    }
}

#[derive(Clone, Copy, PartialEq, Eq, Debug)]
pub enum Visibility {
    Public,
    Other,
}

#[derive(Clone, Copy, Debug)]
pub struct Item<Def> {
    def: Def,
    vis: Visibility,
    import: Option<ImportOrExternCrate>,
}

pub struct PerNs {
    types: Option<Item<ModuleDefId>>,
    values: Option<Item<ModuleDefId>>,
    macros: Option<Item<MacroId>>,
}

impl PerNs {
    fn filter_visibility(self, f: impl Fn(Visibility) -> bool) -> PerNs {
        PerNs {
            types: self.types.filter(|item| f(item.vis)),
            values: self.values.filter(|item| f(item.vis)),
            macros: self.macros.filter(|item| f(item.vis)),
        }
    }
    fn is_none(&self) -> bool {
        self.types.is_none() && self.values.is_none() && self.macros.is_none()
    }
    /// Types, values, macros.
    fn iter_items(self) -> impl Iterator<Item = (ItemInNs, Option<ImportOrExternCrate>)> {
        let types = self.types.map(|item| (ItemInNs::Types(item.def), item.import));
        let values = self.values.map(|item| (ItemInNs::Values(item.def), item.import));
        let macros = self.macros.map(|item| (ItemInNs::Macros(item.def), item.import));
        types.into_iter().chain(values).chain(macros)
    }
}

#[derive(Default)]
pub struct ItemScope {
    types: IndexMap<Name, Item<ModuleDefId>>,
    values: IndexMap<Name, Item<ModuleDefId>>,
    macros: IndexMap<Name, Item<MacroId>>,
    unresolved: Vec<Name>,
}

/// `itertools`, as far as it is asked for.
trait Itertools: Iterator + Sized {
    fn sorted(self) -> std::vec::IntoIter<Self::Item>
    where
        Self::Item: Ord,
    {
        let mut all: Vec<Self::Item> = self.collect();
        all.sort();
        all.into_iter()
    }
    fn dedup(self) -> std::vec::IntoIter<Self::Item>
    where
        Self::Item: PartialEq,
    {
        let mut all: Vec<Self::Item> = self.collect();
        all.dedup();
        all.into_iter()
    }
}
impl<I: Iterator> Itertools for I {}

pub struct ModuleData {
    scope: ItemScope,
}

#[derive(Default)]
pub struct DefMap {
    root: usize,
    modules: Map<usize, ModuleData>,
}

impl DefMap {
    fn root_module_id(&self) -> ModuleId {
        ModuleId(Id { number: self.root, bits: 0 })
    }
}

impl std::ops::Index<ModuleId> for DefMap {
    type Output = ModuleData;
    fn index(&self, module: ModuleId) -> &ModuleData {
        &self.modules[&module.0.number]
    }
}

fn crate_def_map(db: &dyn SourceDatabase, krate: Crate) -> &DefMap {
    &db.store().maps[db.store().own[krate.0]]
}

impl ModuleId {
    /// A module of a block's map is not of the crate's own map: it is looked up where it stands.
    fn krate(self, db: &dyn SourceDatabase) -> Crate {
        let (map, krate) = db.store().places[self.0.number];
        if db.store().own[krate.0] == map { krate } else { Crate(usize::MAX) }
    }
    fn def_map(self, db: &dyn SourceDatabase) -> &DefMap {
        &db.store().maps[db.store().places[self.0.number].0]
    }
}

/// Variants by their names, in record order; a name may stand twice.
#[derive(Default)]
pub struct Variants {
    variants: Pairs,
}
#[derive(Default)]
pub struct Pairs(Vec<(Name, (EnumVariantId, ()))>);

impl<'a> IntoIterator for &'a Pairs {
    type Item = (&'a Name, &'a (EnumVariantId, ()));
    type IntoIter = Box<dyn Iterator<Item = Self::Item> + 'a>;
    fn into_iter(self) -> Self::IntoIter {
        Box::new(self.0.iter().map(|(name, variant)| (name, variant)))
    }
}

impl EnumId {
    fn enum_variants(self, db: &dyn SourceDatabase) -> &Variants {
        &db.store().variants[self.0.number]
    }
}

#[derive(Default)]
pub struct TraitItems {
    items: Vec<(Name, AssocItemId)>,
}

impl TraitItems {
    fn query(db: &dyn SourceDatabase, id: TraitId) -> &TraitItems {
        &db.store().items[id.0.number]
    }
}

pub struct ImportInfo {
    name: Name,
    container: ModuleId,
    is_doc_hidden: bool,
    is_unstable: bool,
    #[allow(dead_code)]
    complete: Complete,
}

enum IsTraitAssocItem {
    Yes,
    No,
}

std::thread_local! {
    static ADDED: std::cell::Cell<usize> = const { std::cell::Cell::new(0) };
}

/// The infos of an item, each with its place in the order of all.
#[derive(Default)]
pub struct SmallVec(Vec<(usize, ImportInfo)>);

impl SmallVec {
    fn new() -> SmallVec {
        SmallVec::default()
    }
    fn reserve_exact(&mut self, _: usize) {}
    fn push(&mut self, info: ImportInfo) {
        self.0.push((ADDED.replace(ADDED.get() + 1), info));
    }
}

type FxIndexMap<K, V> = Map<K, V>;
type FxHashSet<T> = crate::tables::Set<T>;
type ImportMapIndex = FxIndexMap<ItemInNs, (SmallVec, IsTraitAssocItem)>;

pub struct ImportMap;

/// What a definition is; one with members is a trait, or an enum where they are variants.
fn definition(s: &Snapshot, d: usize, bits: usize) -> ModuleDefId {
    let id = Id { number: d, bits };
    let member = s.members.iter().find(|m| m.parent == d);
    match s.definitions[d].kind {
        1 => ModuleDefId::ModuleId(ModuleId(Id { number: s.definitions[d].first, bits })),
        2 => ModuleDefId::EnumVariantId(EnumVariantId(id)),
        3 => ModuleDefId::BuiltinType(BuiltinType(id)),
        5 => ModuleDefId::MacroId(MacroId(id)),
        _ => match member.map(|m| m.kind) {
            Some(0) => ModuleDefId::AdtId(AdtId::EnumId(EnumId(id))),
            Some(_) => ModuleDefId::TraitId(TraitId(id)),
            None => match d % 4 {
                0 => ModuleDefId::FunctionId(FunctionId(id)),
                1 => ModuleDefId::ConstId(ConstId(id)),
                2 => ModuleDefId::StaticId(StaticId(id)),
                _ => ModuleDefId::TypeAliasId(TypeAliasId(id)),
            },
        },
    }
}

fn store(s: &Snapshot, names: &[Name]) -> Store {
    let krate = |m: usize| Crate(s.maps[s.modules[m].map].krate);
    let mut store = Store {
        maps: s.maps.iter().map(|_| DefMap::default()).collect(),
        own: s.crates.iter().enumerate().map(|(c, _)| s.maps.iter().position(|map| map.krate == c && map.block == 0).unwrap()).collect(),
        places: (0..s.modules.len()).map(|m| (s.modules[m].map, krate(m))).collect(),
        variants: s.definitions.iter().map(|_| Variants::default()).collect(),
        items: s.definitions.iter().map(|_| TraitItems::default()).collect(),
    };
    for (m, module) in s.modules.iter().enumerate() {
        let map = &mut store.maps[module.map];
        if map.modules.is_empty() {
            map.root = m;
        }
        map.modules.insert(m, ModuleData { scope: ItemScope::default() });
    }
    for e in &s.scopes {
        // an import's attributes are its own: the definition then has others
        let import = (!e.declared).then(|| {
            let id = Id { number: e.definition, bits: e.bits };
            match (e.name + e.definition) % 3 {
                0 => ImportOrExternCrate::Import(ImportId { use_: UseId(id) }),
                1 => ImportOrExternCrate::Glob(ImportId { use_: UseId(id) }),
                _ => ImportOrExternCrate::ExternCrate(ExternCrateId(id)),
            }
        });
        let bits = if e.declared { e.bits } else { 3 - e.bits };
        let vis = if e.visibility == 0 { Visibility::Public } else { Visibility::Other };
        let name = names[e.name].clone();
        let scope = &mut store.maps[s.modules[e.owner].map].modules.get_mut(&e.owner).unwrap().scope;
        match e.ns {
            0 => scope.types.insert(name, Item { def: definition(s, e.definition, bits), vis, import }),
            1 => scope.values.insert(name, Item { def: definition(s, e.definition, bits), vis, import }),
            _ => scope.macros.insert(name, Item { def: MacroId(Id { number: e.definition, bits }), vis, import }),
        }
    }
    for m in &s.members {
        let (name, id) = (names[m.name].clone(), Id { number: m.definition, bits: m.bits });
        match m.kind {
            0 => store.variants[m.parent].variants.0.push((name, (EnumVariantId(id), ()))),
            1 => store.items[m.parent].items.push((name, AssocItemId::FunctionId(FunctionId(id)))),
            2 => store.items[m.parent].items.push((name, AssocItemId::ConstId(ConstId(id)))),
            _ => store.items[m.parent].items.push((name, AssocItemId::TypeAliasId(TypeAliasId(id)))),
        }
    }
    store
}

/// The number of an item's definition in the snapshot.
fn number(modules: &Map<usize, usize>, def: ModuleDefId) -> usize {
    match def {
        ModuleDefId::ModuleId(ModuleId(id)) => modules[&id.number],
        ModuleDefId::FunctionId(FunctionId(id))
        | ModuleDefId::AdtId(AdtId::EnumId(EnumId(id)))
        | ModuleDefId::EnumVariantId(EnumVariantId(id))
        | ModuleDefId::ConstId(ConstId(id))
        | ModuleDefId::StaticId(StaticId(id))
        | ModuleDefId::TraitId(TraitId(id))
        | ModuleDefId::TypeAliasId(TypeAliasId(id))
        | ModuleDefId::BuiltinType(BuiltinType(id))
        | ModuleDefId::MacroId(MacroId(id)) => id.number,
    }
}

/// A snapshot's tables, filled once.
pub struct Collector {
    store: Store,
    numbers: Map<Name, usize>,
    modules: Map<usize, usize>,
}

impl Collector {
    pub fn new(s: &Snapshot) -> Collector {
        let names: Vec<Name> = s.names.iter().map(|text| Name(text[..].into())).collect();
        let modules = (0..s.definitions.len()).filter(|&d| s.definitions[d].kind == 1).map(|d| (s.definitions[d].first, d));
        Collector {
            store: store(s, &names),
            modules: modules.collect(),
            numbers: names.into_iter().enumerate().map(|(n, name)| (name, n)).collect(),
        }
    }

    /// How many imports the text collects for a crate.
    pub fn count(&self, krate: usize) -> usize {
        let map = ImportMap::collect_import_map(&self.store, Crate(krate));
        map.values().map(|(infos, _)| infos.0.len()).sum()
    }

    /// The imports that the text collects for a crate, in the order in which it adds them.
    pub fn collected(&self, krate: usize) -> Vec<Import> {
        ADDED.set(0);
        let mut all = Vec::new();
        for (item, (infos, _)) in ImportMap::collect_import_map(&self.store, Crate(krate)) {
            let (ns, definition) = match item {
                ItemInNs::Types(def) => (0, number(&self.modules, def)),
                ItemInNs::Values(def) => (1, number(&self.modules, def)),
                ItemInNs::Macros(MacroId(id)) => (2, id.number),
            };
            for (place, info) in infos.0 {
                let bits = usize::from(info.is_doc_hidden) + 2 * usize::from(info.is_unstable);
                let (name, container) = (self.numbers[&info.name], info.container.0.number);
                all.push((place, Import { owner: krate, ns, definition, name, container, bits }));
            }
        }
        all.sort_by_key(|&(place, _)| place);
        all.into_iter().map(|(_, import)| import).collect()
    }
}

