//! Parts of snapshots that several tests write.
#![allow(dead_code)]
use kelumavor::record::Map;
use kelumavor::{CrateId, DefinitionId, Entry, MapId, ModuleId, Namespace, SnapshotWords};

/// A map of a crate, its own or that of a block in a module, and the map's root.
pub fn map(words: &mut SnapshotWords, krate: CrateId, block_in: Option<ModuleId>) -> (MapId, ModuleId) {
    let map = words.add_map(Map { krate, block_in, no_std: false });
    (map, words.module(map, None))
}

/// A crate with its own map, and the map's root.
pub fn own_crate(words: &mut SnapshotWords) -> (CrateId, MapId, ModuleId) {
    let krate = words.add_crate(Default::default());
    let (map, root) = map(words, krate, None);
    (krate, map, root)
}

/// A block whose own function hides the one of the same name around it.
pub struct Hiding {
    pub words: Vec<u32>,
    pub block: ModuleId,
    pub outer: DefinitionId,
    pub inner: DefinitionId,
}

pub fn hiding() -> Hiding {
    let mut words = SnapshotWords::new();
    let f = words.name("f");
    let (krate, _, root) = own_crate(&mut words);
    let (_, block) = map(&mut words, krate, Some(root));
    let [outer, inner] = [root, block].map(|module| {
        let function = words.other_definition(module);
        words.add_entry(Entry::new(module, Namespace::Values, f, function));
        function
    });
    Hiding { words: words.into_words(), block, outer, inner }
}
