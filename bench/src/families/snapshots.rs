//! The snapshots of the families: each maker gives the words of one by a number of modules, and its question.
use kelumavor::record::{Crate, Dependency, Map};
use kelumavor::{CrateId, DefinitionId, Entry, Import, MapId, ModuleId, NameId, Namespace, SnapshotWords, Visibility};

use crate::questions::Question;

/// The prefixes of questions.
const PLAIN: u32 = 1;
const BY_CRATE: u32 = 2;

/// The options of questions: a path with a name `prelude` first; imports of the viewing module do not count.
const PREFER_PRELUDE: u32 = 2;
const IGNORE_IMPORTS: u32 = 16;

/// The layers of `layers`, `detour` and `prelude`.
const LAYERS: usize = 13;
const DETOUR: usize = 12;
const BEHIND_PRELUDE: usize = 8;

/// A module of a crate, with the name that all entries have for it.
#[derive(Clone, Copy)]
struct Named {
    name: NameId,
    module: ModuleId,
    definition: DefinitionId,
}

/// A crate whose root, or a block in it, is the viewing module and has children; an item of the root.
struct Made {
    words: SnapshotWords,
    krate: CrateId,
    map: MapId,
    from: ModuleId,
    all: Vec<Named>,
    name: NameId,
    item: DefinitionId,
}

/// A dependency with two modules.
struct Other {
    krate: CrateId,
    modules: [DefinitionId; 2],
}

/// An import that is not hidden.
fn import(definition: DefinitionId, name: NameId, container: ModuleId) -> Import {
    Import { namespace: Namespace::Types, definition, name, container, hidden: false, unstable: false }
}

impl Made {
    fn new(count: usize, in_block: bool) -> Self {
        let mut words = SnapshotWords::new();
        let names: Vec<NameId> = (0..count).map(|k| words.name(&format!("m{k}"))).collect();
        let name = words.name("Item");
        let krate = words.add_crate(Crate::default());
        let own = words.add_map(Map { krate, block_in: None, no_std: false });
        let root = words.module(own, None);
        let (map, from) = if in_block {
            let map = words.add_map(Map { krate, block_in: Some(root), no_std: false });
            (map, words.module(map, None))
        } else {
            (own, root)
        };
        let modules: Vec<ModuleId> = (0..count).map(|_| words.module(map, Some(from))).collect();
        for module in &modules {
            words.child(from, *module);
        }
        let definitions: Vec<DefinitionId> = modules.iter().map(|module| words.module_definition(*module)).collect();
        let item = words.other_definition(root);
        let all =
            (0..count).map(|k| Named { name: names[k], module: modules[k], definition: definitions[k] }).collect();
        Made { words, krate, map, from, all, name, item }
    }

    /// One more module behind the others, below a parent.
    fn module(&mut self, text: &str, parent: ModuleId) -> Named {
        let module = self.words.module(self.map, Some(parent));
        self.words.child(parent, module);
        Named { name: self.words.name(text), module, definition: self.words.module_definition(module) }
    }

    /// A public entry of a module for another.
    fn entry(&mut self, owner: ModuleId, to: Named, declared: bool) {
        let entry = Entry::new(owner, Namespace::Types, to.name, to.definition);
        self.words.add_entry(Entry { declared, ..entry });
    }

    /// Entries of a module for all.
    fn entries(&mut self, owner: ModuleId, declared: bool) {
        for k in 0..self.all.len() {
            self.entry(owner, self.all[k], declared);
        }
    }

    /// Imports of each module for all, and the item in the first.
    fn import_each_other(&mut self) {
        for k in 0..self.all.len() {
            self.entries(self.all[k].module, false);
        }
        self.hold(self.all[0].module);
    }

    /// Layers of so many modules, each with an entry for all of the next; the place behind the last.
    fn layers(&mut self, count: usize, layers: usize) -> usize {
        let end = count * layers;
        for k in 0..end - count {
            let next = (k / count + 1) * count;
            for to in next..next + count {
                self.entry(self.all[k].module, self.all[to], true);
            }
        }
        end
    }

    fn hold(&mut self, owner: ModuleId) {
        self.words.add_entry(Entry::new(owner, Namespace::Types, self.name, self.item));
    }

    /// An import of a crate, by the item's name.
    fn import(&mut self, krate: CrateId, definition: DefinitionId, container: ModuleId) {
        self.words.add_import(krate, import(definition, self.name, container));
    }

    /// A dependency, its own map and its root.
    fn dependency(&mut self) -> (CrateId, MapId, ModuleId) {
        let krate = self.words.add_crate(Crate::default());
        self.words.add_dependency(Dependency { owner: self.krate, on: krate, sysroot: false });
        let map = self.words.add_map(Map { krate, block_in: None, no_std: false });
        let root = self.words.module(map, None);
        (krate, map, root)
    }

    /// A dependency with two modules that it imports into each other and themselves, and an item of it that it imports into the first: this is the
    /// one that is asked for.
    fn other(&mut self) -> Other {
        let (krate, map, root) = self.dependency();
        let inner = [(); 2].map(|()| self.words.module(map, Some(root)));
        for module in inner {
            self.words.child(root, module);
        }
        let modules = inner.map(|module| self.words.module_definition(module));
        self.item = self.words.other_definition(root);
        self.import(krate, self.item, inner[0]);
        for definition in modules {
            for container in inner {
                self.import(krate, definition, container);
            }
        }
        Other { krate, modules }
    }

    /// The words, and the question for the item.
    fn asked(self, prefix: u32, options: u32) -> (SnapshotWords, Question) {
        (self.words, Question { definition: self.item.0, from: self.from.0, prefix, options })
    }
}

/// Children of the crate's root that import each other and that nothing else names: the first holds the item.
pub fn unreached(count: usize) -> (SnapshotWords, Question) {
    let mut made = Made::new(count, false);
    made.import_each_other();
    made.asked(PLAIN, 0)
}

/// Modules of a block, each with `pub use super::*`: the first holds the item, which is asked for by `crate`.
pub fn globs(count: usize) -> (SnapshotWords, Question) {
    let mut made = Made::new(count, true);
    made.entries(made.from, true);
    made.import_each_other();
    made.asked(BY_CRATE, 0)
}

/// Children of the crate's root that import each other; the root has the last in scope, and the first holds the item.
pub fn clique(count: usize) -> (SnapshotWords, Question) {
    let mut made = Made::new(count, false);
    made.entry(made.from, made.all[count - 1], true);
    made.import_each_other();
    made.asked(PLAIN, 0)
}

/// Layers of so many modules; the root has the first in scope, and the last hold the item.
pub fn layers(count: usize) -> (SnapshotWords, Question) {
    let mut made = Made::new(count * LAYERS, false);
    for k in 0..count {
        made.entry(made.from, made.all[k], true);
    }
    let end = made.layers(count, LAYERS);
    for k in end - count..end {
        made.hold(made.all[k].module);
    }
    made.asked(PLAIN, 0)
}

/// As `clique`, but the root imports the last, in a question for which imports do not count: nothing is found.
pub fn ignored(count: usize) -> (SnapshotWords, Question) {
    let mut made = Made::new(count, false);
    made.entry(made.from, made.all[count - 1], false);
    made.import_each_other();
    made.asked(PLAIN, IGNORE_IMPORTS)
}

/// As `clique`, but it is the prelude that names the last, by a name that is the item's in the root: nothing is found.
pub fn shadowed(count: usize) -> (SnapshotWords, Question) {
    let mut made = Made::new(count, false);
    let prelude = made.module("p", made.from);
    made.words.prelude(made.map, prelude.module);
    let other = made.words.other_definition(made.from);
    let last = made.all[count - 1];
    made.words.add_entry(Entry::new(made.from, Namespace::Types, last.name, other));
    made.entry(prelude.module, last, true);
    made.import_each_other();
    made.asked(PLAIN, 0)
}

/// As `clique`, but it is a module in the root's scope that names the last: it imports it for itself, and then for all by another name. The
/// first of a module's names for another is the one that is taken, so nothing is found.
pub fn renamed(count: usize) -> (SnapshotWords, Question) {
    let mut made = Made::new(count, false);
    let near = made.module("near", made.from);
    made.entry(made.from, near, true);
    let last = made.all[count - 1];
    let private = Entry::new(near.module, Namespace::Types, last.name, last.definition);
    made.words.add_entry(Entry { declared: false, visibility: Visibility::Implicit(near.module), ..private });
    let again = Named { name: made.words.name("again"), ..last };
    made.entry(near.module, again, false);
    made.import_each_other();
    made.asked(PLAIN, 0)
}

/// Children of the crate's root that import each other, the first of which holds the item. Its child, which the root imports and nothing else
/// names, has the first in scope.
pub fn repeats(count: usize) -> (SnapshotWords, Question) {
    let mut made = Made::new(count, false);
    let first = made.all[0].module;
    let inner = made.module("inner", first);
    made.entry(made.from, inner, false);
    made.entry(first, inner, true);
    made.entry(inner.module, made.all[0], false);
    made.import_each_other();
    made.asked(PLAIN, 0)
}

/// Layers of so many modules that all lead to one more, which a module in the root's scope names as well: that one holds the item.
pub fn detour(count: usize) -> (SnapshotWords, Question) {
    let mut made = Made::new(count * DETOUR, false);
    let near = made.module("near", made.from);
    let short = made.module("short", made.from);
    for k in 0..count {
        made.entry(made.from, made.all[k], true);
    }
    made.entry(made.from, short, true);
    let end = made.layers(count, DETOUR);
    for k in end - count..end {
        made.entry(made.all[k].module, near, true);
    }
    made.entry(short.module, near, true);
    made.hold(near.module);
    made.asked(PLAIN, 0)
}

/// Layers of so many modules; the root has `a` and `prelude` in scope, and `prelude` and `a::b` have the first. The last hold the item.
pub fn prelude(count: usize) -> (SnapshotWords, Question) {
    let mut made = Made::new(count * BEHIND_PRELUDE, false);
    let [a, b, short] = ["a", "b", "prelude"].map(|text| made.module(text, made.from));
    made.entry(made.from, short, true);
    made.entry(made.from, a, true);
    made.entry(a.module, b, true);
    for k in 0..count {
        made.entry(short.module, made.all[k], true);
        made.entry(b.module, made.all[k], true);
    }
    let end = made.layers(count, BEHIND_PRELUDE);
    for k in end - count..end {
        made.hold(made.all[k].module);
    }
    made.asked(PLAIN, 0)
}

/// As `clique`, but the first is called `prelude`, and a path by it is preferred.
pub fn preferred(count: usize) -> (SnapshotWords, Question) {
    let mut made = Made::new(count, false);
    made.all[0].name = made.words.name("prelude");
    made.entry(made.from, made.all[count - 1], true);
    made.import_each_other();
    made.asked(PLAIN, PREFER_PRELUDE)
}

/// As `unreached`, but the item is a dependency's, and the modules that the dependency imports into each other it imports into the first of the
/// root's children too. So a third of the charges have a local search, until no fuel is left.
pub fn charged(count: usize) -> (SnapshotWords, Question) {
    let mut made = Made::new(count, false);
    made.import_each_other();
    let other = made.other();
    for definition in other.modules {
        made.import(other.krate, definition, made.all[0].module);
    }
    made.asked(PLAIN, 0)
}

/// Dependencies that each hide so many imports of one module, which is imported into itself and another until no fuel is left: each charge looks for
/// its imports in each dependency.
pub fn hidden(count: usize) -> (SnapshotWords, Question) {
    let mut made = Made::new(count, false);
    let other = made.other();
    let mut crates = vec![other.krate];
    crates.extend((1..count).map(|_| made.dependency().0));
    for krate in crates {
        for k in 0..count {
            let import = import(other.modules[0], made.all[k].name, made.from);
            made.words.add_import(krate, Import { hidden: true, ..import });
        }
    }
    made.asked(PLAIN, 0)
}
