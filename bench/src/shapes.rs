//! Snapshots to be timed.
use kelumavor::record::{Dependency, Map};
use kelumavor::{CrateId, DefinitionId, Entry, Import, MapId, ModuleId, NameId, Namespace, SnapshotWords, Visibility};

pub struct Shape {
    pub name: String,
    pub words: Vec<u32>,
}

impl Shape {
    fn new(name: impl Into<String>, words: SnapshotWords) -> Self {
        Shape { name: name.into(), words: words.into_words() }
    }
}

/// Workspaces of several sizes.
pub fn growing() -> Vec<Shape> {
    [2000, 4000, 6000, 8000, 12000, 16384].map(|size| Shape::new(format!("workspace-{size}"), workspace(size))).into()
}

pub fn all() -> Vec<Shape> {
    vec![
        Shape::new("small", workspace(300)),
        Shape::new("workspace", workspace(16384)),
        Shape::new("chain", chain(500)),
        Shape::new("dependencies", dependencies()),
        Shape::new("names", names()),
        Shape::new("scope", one_scope()),
    ]
}

/// The shape of that name, if there is one, where so many words are wanted for something else.
pub fn beside(name: &str, others: usize) -> Option<Shape> {
    match name {
        "workspace" => Some(Shape::new(name, workspace(16384usize.checked_sub(others)?))),
        _ => all().into_iter().find(|shape| shape.name == name),
    }
}

/// Crates of some forty modules, each with a handful of items, of which most are public: at most so many words, 65 a module.
pub fn workspace(size: usize) -> SnapshotWords {
    let modules = (size / 65).max(2);
    let mut items = 0;
    let mut words = workspace_of(modules, items);
    loop {
        let more = workspace_of(modules, items + 1);
        if more.as_words().len() > size {
            return words;
        }
        words = more;
        items += 1 + (size - words.as_words().len()) / 40;
        while workspace_of(modules, items).as_words().len() > size {
            items -= 1;
        }
    }
}

/// Modules of a crate, at most.
const IN_A_CRATE: usize = 42;

/// An item, and the module that declares it.
struct Item {
    krate: CrateId,
    home: ModuleId,
    name: NameId,
    definition: DefinitionId,
    public: bool,
}

fn workspace_of(modules: usize, items: usize) -> SnapshotWords {
    let mut words = SnapshotWords::new();
    let module_names = numbered(&mut words, "module_", modules);
    let item_names = numbered(&mut words, "Item", items);
    let crates = crates(&mut words, modules.div_ceil(IN_A_CRATE));
    let homes = tree(&mut words, &crates, modules);
    let mut entries = Vec::new();
    for (k, (module, parent)) in homes.iter().enumerate() {
        let definition = words.module_definition(*module);
        let krate = crates[k / IN_A_CRATE];
        entries.extend(parent.map(|home| {
            let (name, public) = (module_names[k], k % 7 != 0);
            Item { krate, home, name, definition, public }
        }));
    }
    for (k, name) in item_names.iter().enumerate() {
        let module = k * modules / items;
        let home = homes[module].0;
        let definition = words.other_definition(home);
        let (krate, name, public) = (crates[module / IN_A_CRATE], *name, k % 4 != 0);
        entries.push(Item { krate, home, name, definition, public });
    }
    scopes_and_imports(&mut words, &entries);
    for krate in &crates {
        for root in (0..modules).step_by(IN_A_CRATE) {
            words.extern_prelude(*krate, module_names[root], homes[root].0);
        }
    }
    words
}

fn numbered(words: &mut SnapshotWords, text: &str, count: usize) -> Vec<NameId> {
    (0..count).map(|k| words.name(&format!("{text}{k}"))).collect()
}

/// Crates that depend on all before them.
fn crates(words: &mut SnapshotWords, count: usize) -> Vec<CrateId> {
    let crates: Vec<CrateId> = (0..count).map(|_| words.add_crate(Default::default())).collect();
    for (k, owner) in crates.iter().enumerate() {
        for on in &crates[..k] {
            words.add_dependency(Dependency { owner: *owner, on: *on, sysroot: false });
        }
    }
    crates
}

fn own_map(words: &mut SnapshotWords, krate: CrateId) -> MapId {
    words.add_map(Map { krate, block_in: None, no_std: false })
}

fn public_type(words: &mut SnapshotWords, module: ModuleId, name: NameId, definition: DefinitionId) {
    words.add_entry(Entry::new(module, Namespace::Types, name, definition));
}

fn import(definition: DefinitionId, name: NameId, container: ModuleId) -> Import {
    Import { namespace: Namespace::Types, definition, name, container, hidden: false, unstable: false }
}

/// Each item in the scope of its home, and the public ones in their crate's import map.
fn scopes_and_imports(words: &mut SnapshotWords, items: &[Item]) {
    for item in items {
        let private = Visibility::Implicit(item.home);
        let visibility = if item.public { Visibility::Public } else { private };
        words.add_entry(Entry { visibility, ..Entry::new(item.home, Namespace::Types, item.name, item.definition) });
    }
    for (k, item) in items.iter().enumerate().filter(|(_, item)| item.public) {
        let unstable = k % 16 == 0;
        words.add_import(item.krate, Import { unstable, ..import(item.definition, item.name, item.home) });
    }
}

/// The maps and modules: in each crate a tree in which a module has four children. Answers each module and its parent.
fn tree(words: &mut SnapshotWords, crates: &[CrateId], modules: usize) -> Vec<(ModuleId, Option<ModuleId>)> {
    let mut homes: Vec<(ModuleId, Option<ModuleId>)> = Vec::new();
    for (c, krate) in crates.iter().enumerate() {
        let map = own_map(words, *krate);
        for k in 0..IN_A_CRATE.min(modules - c * IN_A_CRATE) {
            let parent = (k > 0).then(|| homes[c * IN_A_CRATE + (k - 1) / 4].0);
            homes.push((words.module(map, parent), parent));
        }
    }
    for (module, parent) in &homes {
        if let Some(parent) = parent {
            words.child(*parent, *module);
        }
    }
    homes
}

/// Modules one in the other.
pub fn chain(modules: usize) -> SnapshotWords {
    let mut words = SnapshotWords::new();
    let names = numbered(&mut words, "m", modules);
    let krate = words.add_crate(Default::default());
    let map = own_map(&mut words, krate);
    let mut homes: Vec<ModuleId> = Vec::new();
    for _ in 0..modules {
        homes.push(words.module(map, homes.last().copied()));
    }
    for pair in homes.windows(2) {
        words.child(pair[0], pair[1]);
    }
    let definitions: Vec<DefinitionId> = homes.iter().map(|module| words.module_definition(*module)).collect();
    for k in 1..modules {
        public_type(&mut words, homes[k - 1], names[k], definitions[k]);
    }
    words
}

/// Crates that depend on all before them and name them.
pub fn dependencies() -> SnapshotWords {
    const CRATES: usize = 64;
    let mut words = SnapshotWords::new();
    let names = numbered(&mut words, "crate_", CRATES);
    let crates = crates(&mut words, CRATES);
    let roots: Vec<ModuleId> = crates
        .iter()
        .map(|krate| {
            let map = own_map(&mut words, *krate);
            words.module(map, None)
        })
        .collect();
    let items: Vec<DefinitionId> = roots.iter().map(|root| words.other_definition(*root)).collect();
    for k in 0..CRATES {
        public_type(&mut words, roots[k], names[k], items[k]);
    }
    for k in 0..CRATES {
        words.add_import(crates[k], import(items[k], names[k], roots[k]));
    }
    for (k, krate) in crates.iter().enumerate() {
        for (name, root) in names.iter().zip(&roots).take(k) {
            words.extern_prelude(*krate, *name, *root);
        }
    }
    words
}

/// As many names as there may be, all of one length.
pub fn names() -> SnapshotWords {
    let mut words = SnapshotWords::new();
    for k in 0..2048 {
        words.name(&format!("name_{k:05}"));
    }
    words
}

/// One scope with as many entries as fit.
pub fn one_scope() -> SnapshotWords {
    const ENTRIES: usize = 1160;
    let mut words = SnapshotWords::new();
    let names: Vec<NameId> = (0..ENTRIES).map(|k| words.name(&format!("n{k:05}"))).collect();
    let krate = words.add_crate(Default::default());
    let map = own_map(&mut words, krate);
    let root = words.module(map, None);
    let items: Vec<DefinitionId> = names.iter().map(|_| words.other_definition(root)).collect();
    for (name, item) in names.iter().zip(&items) {
        public_type(&mut words, root, *name, *item);
    }
    words
}
