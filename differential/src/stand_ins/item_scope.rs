use super::base_db::{Crate, SourceDatabase};
use super::hir_expand::name::Name;
use super::per_ns::{MacrosItem, PerNs, TypesItem, ValuesItem};
use super::visibility::Visibility;
use super::{MacroId, ModuleDefId, ModuleId};
use crate::tables::IndexMap;

/// What an entry came by, where it came by an import.
#[derive(Debug, Copy, Clone, PartialEq, Eq)]
pub struct ImportOrExternCrate;

/// The entries of a module, in record order.
#[derive(Default)]
pub struct ItemScope {
    pub types: IndexMap<Name, TypesItem>,
    pub values: IndexMap<Name, ValuesItem>,
    pub macros: IndexMap<Name, MacrosItem>,
}

