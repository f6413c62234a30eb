// Old names last (options bit 32), which the Rust has none of: where the bit is set, the entries of an item that are not deprecated are tried
// first, in record order, and then it goes as in the text.
use super::base_db::SourceDatabase;
use super::hir_expand::name::Name;
use super::item_scope::{ItemInNs, ItemScope};
use super::per_ns::Item;
use super::visibility::Visibility;
use crate::tables::IndexMap;

type Entry<'a> = (&'a Name, Visibility, /*declared*/ bool);

fn not_deprecated<Def: PartialEq>(entries: &IndexMap<Name, Item<Def>>, def: Def) -> Vec<Entry<'_>> {
    let new = entries.iter().filter(|(_, item)| item.def == def && !item.deprecated);
    new.map(|(name, item)| (name, item.vis, item.import.is_none())).collect()
}

/// None where the bit is clear.
pub fn new_names<'a>(db: &dyn SourceDatabase, scope: &'a ItemScope, item: ItemInNs) -> Vec<Entry<'a>> {
    if !db.store().old_names_last.get() {
        return Vec::new();
    }
    match item {
        ItemInNs::Types(def) => not_deprecated(&scope.types, def),
        ItemInNs::Values(def) => not_deprecated(&scope.values, def),
        ItemInNs::Macros(def) => not_deprecated(&scope.macros, def),
    }
}

/// In place of `name_of`: what is put to the rule's other tests, one after the other until something passes.
pub fn tried<'a>(db: &dyn SourceDatabase, scope: &'a ItemScope, item: ItemInNs) -> Vec<Option<Entry<'a>>> {
    new_names(db, scope, item).into_iter().map(Some).chain([scope.name_of(item)]).collect()
}

/// In place of `names_of`.
pub fn names_tried<T>(
    db: &dyn SourceDatabase,
    scope: &ItemScope,
    item: ItemInNs,
    mut cb: impl FnMut(&Name, Visibility, /*declared*/ bool) -> Option<T>,
) -> Option<T> {
    let new = new_names(db, scope, item).into_iter().find_map(|(name, vis, declared)| cb(name, vis, declared));
    new.or_else(|| scope.names_of(item, cb))
}
