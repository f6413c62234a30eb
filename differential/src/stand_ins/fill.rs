// The stand-ins, filled from a snapshot.
use std::cell::Cell;

use super::base_db::{Crate, CrateData, CrateOrigin, Dependency, LangCrateOrigin, SourceDatabase};
use super::hir_expand::name::Name;
use super::import_map::{ImportInfo, ImportMap};
use super::item_scope::{ImportOrExternCrate, ItemInNs, ItemScope};
use super::nameres::{BlockInfo, Children, DefMap, DefMapCrateData, LocalDefMap, ModuleData};
use super::per_ns::Item;
use super::visibility::{Visibility, VisibilityExplicitness};
use super::{BlockIdLt, BlockId, BuiltinType, EnumId, EnumVariantId, MacroId, ModuleDefId, ModuleId, module_id};
use crate::check::{BUILTINS, Snapshot};
use crate::tables::{IndexMap, Map};

pub struct Store {
    pub crates: Vec<CrateData>,
    pub own_maps: Vec<usize>,
    pub locals: Vec<LocalDefMap>,
    pub imports: Vec<ImportMap>,
    pub maps: Vec<DefMap>,
    pub blocks: Vec<Option<ModuleId>>,
    pub modules: Vec<Place>,
    pub homes: Vec<Option<ModuleId>>,
    pub variants: Vec<Option<(EnumId, Name)>>,
    pub tank: Tank,
    /// the length left at the start
    pub limit: Cell<usize>,
    /// options bit 32
    pub old_names_last: Cell<bool>,
}

pub struct Place {
    pub krate: Crate,
    pub block: Option<BlockId>,
    pub parent: Option<ModuleId>,
}

#[derive(Default)]
pub struct Tank {
    pub fuel: Cell<usize>,
    pub charges: Cell<usize>,
    pub empty: Cell<bool>,
}

impl Tank {
    pub fn charge(&self) {
        self.charges.set(self.charges.get() + 1);
    }
}

impl SourceDatabase for Store {
    fn store(&self) -> &Store {
        self
    }
}

pub struct Filled {
    pub store: Store,
    pub definitions: Vec<ModuleDefId>,
    pub names: Map<Name, usize>,
}

fn number_below(plus_one: usize) -> Option<ModuleId> {
    plus_one.checked_sub(1).map(module_id)
}

impl Filled {
    pub fn new(s: &Snapshot) -> Filled {
        let names: Vec<Name> = s.names.iter().map(|text| Name(text.as_slice().into())).collect();
        let definitions: Vec<ModuleDefId> = (0..s.definitions.len()).map(|d| definition(s, d)).collect();
        let block = |map: usize| (s.maps[map].block != 0).then(|| BlockIdLt(map, std::marker::PhantomData));
        let own_map = |krate| s.maps.iter().position(|map| map.krate == krate && map.block == 0).expect("an own map");
        Filled {
            store: Store {
                crates: crates(s),
                own_maps: (0..s.crates.len()).map(own_map).collect(),
                locals: locals(s, &names),
                imports: imports(s, &names, &definitions),
                maps: maps(s, &names, &definitions),
                blocks: s.maps.iter().map(|map| number_below(map.block)).collect(),
                modules: s
                    .modules
                    .iter()
                    .map(|module| Place {
                        krate: Crate(s.maps[module.map].krate),
                        block: block(module.map),
                        parent: number_below(module.parent),
                    })
                    .collect(),
                homes: (0..s.definitions.len()).map(|d| home(s, d)).collect(),
                variants: s
                    .definitions
                    .iter()
                    .map(|d| (d.kind == 2).then(|| (EnumId(d.first), names[d.second].clone())))
                    .collect(),
                tank: Tank::default(),
                limit: Cell::default(),
                old_names_last: Cell::default(),
            },
            definitions,
            names: names.iter().enumerate().map(|(number, name)| (name.clone(), number)).collect(),
        }
    }
}

fn definition(s: &Snapshot, d: usize) -> ModuleDefId {
    let record = &s.definitions[d];
    match record.kind {
        1 => ModuleDefId::ModuleId(module_id(record.first)),
        2 => ModuleDefId::EnumVariantId(EnumVariantId(d)),
        3 => {
            let text = &s.names[record.first];
            let place = BUILTINS.iter().position(|name| name.as_bytes() == text.as_slice());
            ModuleDefId::BuiltinType(BuiltinType(place.expect("a builtin's name")))
        }
        5 => ModuleDefId::MacroId(MacroId(d)),
        _ => ModuleDefId::Other(EnumId(d)),
    }
}

fn home(s: &Snapshot, d: usize) -> Option<ModuleId> {
    let record = &s.definitions[d];
    match record.kind {
        2 => home(s, record.first),
        3 => None,
        _ => Some(module_id(record.first)),
    }
}

pub fn item(ns: usize, definition: ModuleDefId) -> ItemInNs {
    match (ns, definition) {
        (0, definition) => ItemInNs::Types(definition),
        (1, definition) => ItemInNs::Values(definition),
        (_, ModuleDefId::MacroId(id)) => ItemInNs::Macros(id),
        _ => panic!("a definition that is no macro, in the macros namespace"),
    }
}

fn crates(s: &Snapshot) -> Vec<CrateData> {
    let origin = |number| match number {
        0 => CrateOrigin::Ordinary,
        1 => CrateOrigin::Lang(LangCrateOrigin::Core),
        2 => CrateOrigin::Lang(LangCrateOrigin::Alloc),
        3 => CrateOrigin::Lang(LangCrateOrigin::Std),
        _ => CrateOrigin::Lang(LangCrateOrigin::Other),
    };
    let mut crates: Vec<CrateData> = s
        .crates
        .iter()
        .map(|krate| CrateData { origin: origin(krate.origin), dependencies: Vec::new(), supports_no_std: krate.no_std })
        .collect();
    for dependency in &s.dependencies {
        crates[dependency.owner]
            .dependencies
            .push(Dependency { crate_id: Crate(dependency.krate), sysroot: dependency.sysroot });
    }
    crates
}

fn locals(s: &Snapshot, names: &[Name]) -> Vec<LocalDefMap> {
    let mut locals: Vec<LocalDefMap> =
        s.crates.iter().map(|_| LocalDefMap { extern_prelude: IndexMap::default() }).collect();
    for e in &s.externs {
        locals[e.owner].extern_prelude.insert(names[e.name].clone(), (module_id(e.target), None));
    }
    locals
}

fn imports(s: &Snapshot, names: &[Name], definitions: &[ModuleDefId]) -> Vec<ImportMap> {
    let mut imports: Vec<ImportMap> = s.crates.iter().map(|_| ImportMap::default()).collect();
    for import in &s.imports {
        let item = item(import.ns, definitions[import.definition]);
        imports[import.owner].item_to_info_map.entry(item).or_default().0.push(ImportInfo {
            name: names[import.name].clone(),
            container: module_id(import.container),
            is_doc_hidden: import.bits & 1 != 0,
            is_unstable: import.bits & 2 != 0,
        });
    }
    imports
}

fn maps(s: &Snapshot, names: &[Name], definitions: &[ModuleDefId]) -> Vec<DefMap> {
    let mut scopes: Vec<ItemScope> = s.modules.iter().map(|_| ItemScope::default()).collect();
    for entry in &s.scopes {
        let vis = match entry.visibility {
            0 => Visibility::Public,
            1 => Visibility::PubCrate(Crate(entry.number)),
            2 => Visibility::Module(module_id(entry.number), VisibilityExplicitness::Explicit),
            _ => Visibility::Module(module_id(entry.number), VisibilityExplicitness::Implicit),
        };
        let import = (!entry.declared).then_some(ImportOrExternCrate);
        let deprecated = entry.deprecated;
        let name = names[entry.name].clone();
        let scope = &mut scopes[entry.owner];
        match item(entry.ns, definitions[entry.definition]) {
            ItemInNs::Types(def) => scope.types.insert(name, Item { def, vis, import, deprecated }),
            ItemInNs::Values(def) => scope.values.insert(name, Item { def, vis, import, deprecated }),
            ItemInNs::Macros(def) => scope.macros.insert(name, Item { def, vis, import, deprecated }),
        }
    }
    let mut children: Vec<Children> = s.modules.iter().map(|_| Children::default()).collect();
    for child in &s.children {
        children[child.owner].0.push(module_id(child.child));
    }
    let mut maps: Vec<DefMap> = s.maps.iter().enumerate().map(|(number, _)| map(s, number)).collect();
    for (number, ((module, scope), children)) in s.modules.iter().zip(scopes).zip(children).enumerate() {
        let data = ModuleData { parent: number_below(module.parent), children, scope };
        maps[module.map].modules.insert(module_id(number), data);
    }
    maps
}

fn map(s: &Snapshot, number: usize) -> DefMap {
    let record = &s.maps[number];
    let block = BlockIdLt(number, std::marker::PhantomData);
    DefMap {
        krate: Crate(record.krate),
        block: number_below(record.block).map(|parent| BlockInfo { block, parent }),
        root: module_id(s.modules.iter().position(|module| module.map == number).expect("a map's root")),
        modules: Map::default(),
        prelude: s.preludes.iter().find(|prelude| prelude.map == number).map(|prelude| (module_id(prelude.target), None)),
        data: DefMapCrateData { no_core: false, no_std: record.no_std },
    }
}
