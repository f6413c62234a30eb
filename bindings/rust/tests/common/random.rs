//! Snapshots that the check accepts, by chance.
use std::collections::HashSet;

use kelumavor::record::{Crate, Dependency, Map};
use kelumavor::{
    CrateId, DefinitionId, Edition, Entry, Import, MapId, ModuleId, NameId, Namespace, Options, Origin, Prefix,
    Question, SnapshotWords, Visibility,
};

pub struct Random(u64);

impl Random {
    pub fn new(seed: u64) -> Self {
        Random(seed.wrapping_mul(0x9e37_79b9_7f4a_7c15) | 1)
    }

    /// A number below n.
    pub fn below(&mut self, n: u32) -> u32 {
        self.0 ^= self.0 << 13;
        self.0 ^= self.0 >> 7;
        self.0 ^= self.0 << 17;
        (((self.0 >> 32) * u64::from(n)) >> 32) as u32
    }

    /// True in so many of a hundred cases.
    pub fn chance(&mut self, percent: u32) -> bool {
        self.below(100) < percent
    }

    fn of<T: Copy>(&mut self, list: &[T]) -> T {
        list[self.below(list.len() as u32) as usize]
    }
}

const NAMES: [&str; 17] = [
    "a",
    "bb",
    "c",
    "dd",
    "e",
    "f",
    "prelude",
    "std",
    "core",
    "u8",
    "Long_name",
    "r#type",
    "type",
    "async",
    "gen",
    "union",
    "self",
];
const EDITIONS: [Edition; 4] = [Edition::Rust2015, Edition::Rust2018, Edition::Rust2021, Edition::Rust2024];
const ORIGINS: [Origin; 5] = [Origin::Ordinary, Origin::Core, Origin::Alloc, Origin::Std, Origin::OtherLanguage];
const NAMESPACES: [Namespace; 3] = [Namespace::Types, Namespace::Values, Namespace::Macros];

#[derive(Clone, Copy)]
struct Module {
    id: ModuleId,
    krate: CrateId,
    parent: Option<ModuleId>,
}

pub struct Snapshot {
    pub words: Vec<u32>,
    pub modules: u32,
    pub definitions: u32,
}

struct Writer<'r> {
    random: &'r mut Random,
    words: SnapshotWords,
    names: Vec<NameId>,
    crates: Vec<CrateId>,
    maps: Vec<MapId>,
    modules: Vec<Module>,
    /// Each definition, and whether it is a macro.
    definitions: Vec<(DefinitionId, bool)>,
    /// The entries of the scopes so far.
    taken: HashSet<(u32, u32, u32)>,
}

pub fn snapshot(random: &mut Random) -> Snapshot {
    let mut writer = Writer {
        random,
        words: SnapshotWords::new(),
        names: Vec::new(),
        crates: Vec::new(),
        maps: Vec::new(),
        modules: Vec::new(),
        definitions: Vec::new(),
        taken: HashSet::new(),
    };
    writer.names();
    writer.crates();
    writer.maps();
    writer.children();
    let homes = writer.definitions();
    writer.scopes(&homes);
    writer.imports();
    Snapshot {
        modules: writer.modules.len() as u32,
        definitions: writer.definitions.len() as u32,
        words: writer.words.into_words(),
    }
}

/// A question on a snapshot, some of them refused.
pub fn question(random: &mut Random, snapshot: &Snapshot) -> Question {
    let options = Options {
        prefer_no_std: random.chance(20),
        prefer_prelude: random.chance(30),
        prefer_absolute: random.chance(30),
        allow_unstable: random.chance(50),
        ignore_local_imports: random.chance(30),
        old_names_last: random.chance(40),
        read_back: random.chance(40),
    };
    let fuel = if random.chance(30) { random.below(8) } else { Question::MAX_FUEL };
    let limit = if random.chance(50) { random.below(18) } else { Question::MAX_LIMIT };
    let namespace = NAMESPACES[random.below(20) as usize % 3];
    let definition = DefinitionId(random.below(snapshot.definitions + 1));
    let from = ModuleId(random.below(snapshot.modules + 1));
    let prefix = random.of(&[Prefix::BySelf, Prefix::Plain, Prefix::ByCrate]);
    Question::new(namespace, definition, from).prefix(prefix).fuel(fuel).options(options).limit(limit)
}

impl Writer<'_> {
    fn names(&mut self) {
        self.names = NAMES.iter().map(|name| self.words.name(name)).collect();
    }

    fn crates(&mut self) {
        for _ in 0..1 + self.random.below(4) {
            let origin = if self.random.chance(60) { Origin::Ordinary } else { self.random.of(&ORIGINS) };
            let supports_no_std = self.random.chance(30);
            let edition = self.random.of(&EDITIONS);
            self.crates.push(self.words.add_crate(Crate { origin, edition, supports_no_std }));
        }
        for _ in 0..self.random.below(6) {
            let owner = self.random.of(&self.crates);
            let on = self.random.of(&self.crates);
            let sysroot = self.random.chance(30);
            self.words.add_dependency(Dependency { owner, on, sysroot });
        }
    }

    /// The own map of each crate, with blocks after it.
    fn maps(&mut self) {
        for krate in self.crates.clone() {
            let first = self.modules.len();
            self.map(krate, None);
            for _ in 0..self.random.below(3) {
                let block = self.random.of(&self.modules[first..]).id;
                self.map(krate, Some(block));
            }
        }
    }

    fn map(&mut self, krate: CrateId, block_in: Option<ModuleId>) {
        let no_std = self.random.chance(20);
        let map = self.words.add_map(Map { krate, block_in, no_std });
        self.maps.push(map);
        let first = self.modules.len();
        for k in 0..1 + self.random.below(5) {
            let parent = (k > 0).then(|| self.random.of(&self.modules[first..]).id);
            let id = self.words.module(map, parent);
            self.modules.push(Module { id, krate, parent });
        }
    }

    fn children(&mut self) {
        for module in self.modules.clone() {
            if let Some(parent) = module.parent
                && self.random.chance(90)
            {
                self.words.child(parent, module.id);
            }
        }
        for map in self.maps.clone() {
            if self.random.chance(50) {
                let module = self.random.of(&self.modules).id;
                self.words.prelude(map, module);
            }
        }
    }

    /// Answers where each definition stands, where it has a place.
    fn definitions(&mut self) -> Vec<(DefinitionId, ModuleId)> {
        let mut homes = Vec::new();
        for module in self.modules.clone() {
            if self.random.chance(80) {
                let id = self.words.module_definition(module.id);
                self.definitions.push((id, false));
                homes.extend(module.parent.map(|parent| (id, parent)));
            }
        }
        let mut others = Vec::new();
        for _ in 0..1 + self.random.below(8) {
            let home = self.random.of(&self.modules).id;
            let id = self.words.other_definition(home);
            self.definitions.push((id, false));
            homes.push((id, home));
            others.push(id);
        }
        for _ in 0..self.random.below(3) {
            let parent = self.random.of(&others);
            let name = self.random.of(&self.names);
            self.definitions.push((self.words.variant_definition(parent, name), false));
        }
        self.definitions.push((self.words.builtin_definition(self.names[9]), false));
        for _ in 0..self.random.below(3) {
            let home = self.random.of(&self.modules).id;
            let id = self.words.macro_definition(home);
            self.definitions.push((id, true));
            homes.push((id, home));
        }
        homes
    }

    fn scopes(&mut self, homes: &[(DefinitionId, ModuleId)]) {
        for (definition, home) in homes {
            if self.random.chance(85) {
                self.entry(*home, *definition, true);
            }
        }
        for _ in 0..self.random.below(16) {
            let module = self.random.of(&self.modules).id;
            let definition = self.random.of(&self.definitions).0;
            self.entry(module, definition, false);
        }
    }

    fn entry(&mut self, module: ModuleId, definition: DefinitionId, declared: bool) {
        let name = self.random.of(&self.names);
        let namespace = self.namespace(definition);
        if !self.taken.insert((module.0, namespace as u32, name.0)) {
            return;
        }
        let visibility = match self.random.below(8) {
            0..=3 => Visibility::Public,
            4 => Visibility::Crate(self.random.of(&self.crates)),
            5 => Visibility::Explicit(self.random.of(&self.modules).id),
            6 => Visibility::Implicit(self.random.of(&self.modules).id),
            _ => Visibility::Implicit(module),
        };
        let deprecated = self.random.chance(30);
        let entry = Entry::new(module, namespace, name, definition);
        self.words.add_entry(Entry { visibility, declared, deprecated, ..entry });
    }

    /// A namespace in which the definition may stand.
    fn namespace(&mut self, definition: DefinitionId) -> Namespace {
        let any = if self.definitions[definition.0 as usize].1 { 3 } else { 2 };
        NAMESPACES[self.random.below(any) as usize]
    }

    fn imports(&mut self) {
        for _ in 0..self.random.below(16) {
            let krate = self.random.of(&self.crates);
            let definition = self.random.of(&self.definitions).0;
            let namespace = self.namespace(definition);
            let name = self.random.of(&self.names);
            let container = self.random.of(&self.modules).id;
            let hidden = self.random.chance(20);
            let unstable = self.random.chance(20);
            self.words.add_import(krate, Import { namespace, definition, name, container, hidden, unstable });
        }
        let mut externs = HashSet::new();
        for _ in 0..self.random.below(6) {
            let krate = self.random.of(&self.crates);
            let name = self.random.of(&self.names);
            let root = self.random.of(&self.modules).id;
            if externs.insert((krate.0, name.0)) {
                self.words.extern_prelude(krate, name, root);
            }
        }
    }
}
