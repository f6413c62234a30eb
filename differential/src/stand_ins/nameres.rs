use super::base_db::{Crate, SourceDatabase};
use super::hir_expand::name::Name;
use super::item_scope::ItemScope;
use super::{BlockId, BlockIdLt, ModuleId, ModuleIdLt};
use crate::tables::{IndexMap, Map};

#[derive(Clone, Copy, Debug)]
pub struct UseId;
#[derive(Clone, Copy, Debug)]
pub struct ExternCrateId;

pub struct LocalDefMap {
    pub extern_prelude: IndexMap<Name, (ModuleId, Option<ExternCrateId>)>,
}

pub struct DefMap {
    pub krate: Crate,
    pub block: Option<BlockInfo>,
    pub root: ModuleId,
    pub modules: Map<ModuleId, ModuleData>,
    pub prelude: Option<(ModuleId, Option<UseId>)>,
    pub data: DefMapCrateData,
}

/// A snapshot has one bit for both, and a bit for each map.
pub struct DefMapCrateData {
    pub no_core: bool,
    pub no_std: bool,
}

#[derive(Clone, Copy)]
pub struct BlockInfo {
    pub block: BlockId,
    pub parent: ModuleId,
}

pub struct ModuleData {
    pub parent: Option<ModuleId>,
    pub children: Children,
    pub scope: ItemScope,
}

/// The child modules in record order. A snapshot gives them no names.
#[derive(Default)]
pub struct Children(pub Vec<ModuleId>);

impl Children {
    pub fn values(&self) -> std::slice::Iter<'_, ModuleId> {
        self.0.iter()
    }
}

pub struct DefMapPair(Crate);

impl DefMapPair {
    pub fn def_map<'db>(&self, db: &'db dyn SourceDatabase) -> &'db DefMap {
        let store = db.store();
        &store.maps[store.own_maps[self.0.0]]
    }
    pub fn local<'db>(&self, db: &'db dyn SourceDatabase) -> &'db LocalDefMap {
        &db.store().locals[self.0.0]
    }
}

pub fn crate_local_def_map(_db: &dyn SourceDatabase, krate: Crate) -> DefMapPair {
    DefMapPair(krate)
}

pub fn block_def_map<'db>(db: &'db dyn SourceDatabase, block: BlockIdLt<'_>) -> &'db DefMap {
    &db.store().maps[block.0]
}
