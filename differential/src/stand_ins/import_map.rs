use super::ModuleId;
use super::base_db::{Crate, SourceDatabase};
use super::hir_expand::name::Name;
use super::item_scope::ItemInNs;
use crate::tables::Map;

pub struct ImportInfo {
    pub name: Name,
    pub container: ModuleId,
    pub is_doc_hidden: bool,
    pub is_unstable: bool,
}

/// The imports of a crate, by item and in record order.
#[derive(Default)]
pub struct ImportMap {
    pub item_to_info_map: Map<ItemInNs, (Vec<ImportInfo>, ())>,
}

impl ImportMap {
    pub fn of(db: &dyn SourceDatabase, krate: Crate) -> &ImportMap {
        &db.store().imports[krate.0]
    }
}
