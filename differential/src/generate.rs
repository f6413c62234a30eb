//! Accepted snapshots with questions, from a seed. The shapes together reach every rule of the search.
use crate::check::{
    BUILTINS, Child, DefMap, Definition, Dependency, EDITIONS, Extern, Import, Krate, Member, Module, Prelude, Scope,
    Snapshot,
};
use crate::keywords::pool;
use crate::printer::{MOST_OPTIONS, READ_BACK, refusal};
use crate::random::Random;
use crate::right::ask::Program;
use crate::tables::Set;
use crate::{Answers, Question};

/// A snapshot and questions on it.
pub struct Case {
    pub words: Vec<u32>,
    pub questions: Vec<Question>,
}

impl Case {
    pub fn input(&self) -> Vec<u8> {
        let questions = self.questions.iter().flat_map(crate::encode::question_words);
        crate::encode::bytes(&self.words.iter().copied().chain(questions).collect::<Vec<_>>())
    }
}

#[derive(Clone, Copy, PartialEq, Debug)]
pub enum Shape {
    Mixed,
    Small,
    Std,
    Chain,
    Cycle,
    Blocks,
    Hiding,
    Ties,
    Preludes,
    Root,
    Knot,
    Stairs,
    Limits,
}

/// What a shape asks for. Percentages, and ranges from to.
struct Plan {
    crates: (usize, usize),
    lang: usize,
    modules: (usize, usize),
    /// the next module below the latest, and not below any
    deep: usize,
    blocks: (usize, usize),
    names: (usize, usize),
    longest_name: usize,
    long_names: usize,
    items: (usize, usize),
    /// entries and imports that are no item's own
    more_entries: (usize, usize),
    more_imports: (usize, usize),
    /// a module, an item has its own entry and import
    declared: usize,
    exported: usize,
    unstable: usize,
    hidden: usize,
    externs: usize,
    preludes: usize,
    public: usize,
    /// names of one length, names beyond ASCII
    same_length: usize,
    wide: usize,
    /// a further entry or import is of an item, and not of any definition
    item_entries: usize,
    /// an exported item is exported by another crate too
    reexported: usize,
    /// a module of another crate stands in the scope of the first crate's root
    outside: usize,
    /// the name of an extern stands in a scope
    occupied: usize,
    no_std: usize,
    /// a name is `prelude`, where there is one
    prelude_names: usize,
}

const MIXED: Plan = Plan {
    crates: (1, 4),
    lang: 30,
    modules: (1, 6),
    deep: 40,
    blocks: (0, 3),
    names: (4, 14),
    longest_name: 8,
    long_names: 3,
    items: (3, 14),
    more_entries: (0, 24),
    more_imports: (0, 16),
    declared: 80,
    exported: 70,
    unstable: 18,
    hidden: 8,
    externs: 80,
    preludes: 40,
    public: 55,
    same_length: 40,
    wide: 6,
    item_entries: 30,
    reexported: 10,
    outside: 5,
    occupied: 30,
    no_std: 12,
    prelude_names: 8,
};

fn plan(shape: Shape, r: &mut Random) -> Plan {
    match shape {
        Shape::Mixed => MIXED,
        Shape::Small => Plan {
            crates: (1, 2),
            modules: (1, 4),
            items: (1, 4),
            more_entries: (0, 6),
            more_imports: (0, 5),
            blocks: (0, 1),
            names: (3, 6),
            ..MIXED
        },
        Shape::Std => Plan {
            crates: (3, 7),
            lang: 85,
            modules: (1, 4),
            blocks: (0, 3),
            more_imports: (4, 30),
            unstable: 40,
            exported: 85,
            reexported: 60,
            no_std: 25,
            item_entries: 60,
            ..MIXED
        },
        Shape::Chain => Plan {
            crates: (1, 2),
            modules: (12, 18),
            deep: 93,
            blocks: (0, 1),
            items: (4, 8),
            more_entries: (0, 4),
            more_imports: (0, 3),
            declared: 97,
            exported: 97,
            unstable: 4,
            hidden: 2,
            public: 85,
            preludes: 10,
            names: (8, 24),
            ..MIXED
        },
        Shape::Cycle => Plan {
            crates: (2, 3),
            lang: 20,
            modules: (2, 7),
            deep: 30,
            blocks: (0, 1),
            items: (1, 4),
            more_entries: (0, 10),
            more_imports: (6, 24),
            exported: 60,
            externs: 25,
            hidden: 4,
            ..MIXED
        },
        Shape::Blocks => Plan {
            crates: (1, 3),
            lang: 5,
            occupied: 65,
            externs: 90,
            modules: (1, 4),
            blocks: (2, 6),
            more_entries: (6, 30),
            more_imports: (0, 4),
            public: 30,
            ..MIXED
        },
        Shape::Hiding => Plan {
            crates: (1, 3),
            lang: 5,
            modules: (1, 3),
            blocks: (3, 6),
            names: (2, 5),
            long_names: 0,
            items: (3, 9),
            more_entries: (8, 34),
            more_imports: (0, 6),
            public: 45,
            preludes: 80,
            externs: 85,
            occupied: 60,
            item_entries: 45,
            prelude_names: 3,
            ..MIXED
        },
        Shape::Ties => Plan {
            crates: (1, 3),
            modules: (3, 9),
            deep: 15,
            blocks: (0, 1),
            names: (5, 14),
            items: (1, 4),
            more_entries: (10, 50),
            more_imports: (0, 30),
            public: 85,
            long_names: 0,
            same_length: 85,
            wide: 30,
            item_entries: 75,
            declared: 90,
            unstable: 10,
            prelude_names: 20,
            ..MIXED
        },
        Shape::Preludes => Plan {
            crates: (1, 4),
            preludes: 95,
            modules: (2, 6),
            more_entries: (6, 24),
            names: (3, 7),
            prelude_names: 20,
            ..MIXED
        },
        Shape::Root => Plan {
            crates: (2, 3),
            lang: 10,
            modules: (2, 6),
            blocks: (0, 0),
            items: (1, 4),
            more_entries: (0, 16),
            more_imports: (6, 30),
            externs: 60,
            outside: 45,
            item_entries: 40,
            public: 75,
            preludes: 70,
            same_length: 20,
            longest_name: 5,
            prelude_names: 12,
            ..MIXED
        },
        Shape::Knot | Shape::Stairs => Plan {
            crates: (1, 1),
            modules: (7, 9),
            deep: 0,
            blocks: (0, 0),
            names: (6, 12),
            long_names: 0,
            items: (1, 3),
            more_entries: (0, 4),
            more_imports: (0, 0),
            declared: 0,
            public: 97,
            preludes: 5,
            prelude_names: 5,
            ..MIXED
        },
        Shape::Limits => {
            let big = r.below(4);
            Plan {
                crates: if big == 0 { (64, 64) } else { (1, 6) },
                lang: 10,
                modules: if big == 1 { (r.pick(&[90, 512]), 512) } else { (1, 7) },
                names: if big == 2 { (2048, 2048) } else { (10, 60) },
                items: if big == 3 { (2040, 2047) } else { (20, 200) },
                more_entries: (0, 700),
                more_imports: (0, 300),
                ..MIXED
            }
        }
    }
}

struct Builder {
    r: Random,
    shape: Shape,
    plan: Plan,
    s: Snapshot,
    /// entries taken: module, namespace, name
    entries: Set<(usize, usize, usize)>,
    /// the module's own name
    own_names: Vec<usize>,
}

/// The snapshot of a seed.
pub fn snapshot(seed: u64) -> (Shape, Snapshot) {
    let mut r = Random::new(seed);
    let shapes = [
        (Shape::Mixed, 10),
        (Shape::Small, 10),
        (Shape::Knot, 2),
        (Shape::Stairs, 3),
        (Shape::Std, 13),
        (Shape::Chain, 8),
        (Shape::Cycle, 6),
        (Shape::Blocks, 7),
        (Shape::Hiding, 10),
        (Shape::Ties, 13),
        (Shape::Preludes, 9),
        (Shape::Root, 9),
        (Shape::Limits, 1),
    ];
    let mut draw = r.below(100);
    let mut shape = Shape::Mixed;
    for (one, weight) in shapes {
        shape = one;
        if draw < weight {
            break;
        }
        draw -= weight;
    }
    let plan = plan(shape, &mut r);
    let mut b = Builder { r, shape, plan, s: Snapshot::default(), entries: Set::default(), own_names: Vec::new() };
    b.names();
    b.crates();
    b.modules();
    b.definitions();
    b.externs();
    match shape {
        Shape::Knot => b.knot(),
        Shape::Stairs => b.stairs(),
        Shape::Hiding => b.hide(),
        _ => (),
    }
    b.scopes();
    b.imports();
    b.trim();
    b.members();
    (shape, b.s)
}

/// Hidden and unstable, mostly neither.
fn bits_of(draw: usize) -> usize {
    [0, 1, 0, 2, 0, 3, 0][draw % 7]
}

/// Words of a snapshot, at most.
const ROOM: usize = 15_600;

impl Builder {
    fn range(&mut self, range: (usize, usize)) -> usize {
        self.r.from_to(range.0, range.1)
    }

    fn name(&mut self) -> usize {
        if self.r.percent(self.plan.prelude_names)
            && let Some(prelude) = self.prelude()
        {
            return prelude;
        }
        self.r.below(self.s.names.len())
    }

    /// The number of the name `prelude`.
    fn prelude(&self) -> Option<usize> {
        self.s.names.iter().position(|text| text == b"prelude")
    }

    fn names(&mut self) {
        let count = self.range(self.plan.names);
        let mut texts: Vec<Vec<u8>> = Vec::new();
        if self.r.percent(70) {
            texts.push(b"prelude".to_vec());
        }
        for near in ["prelud", "preludes", "Prelude", "prelude\0"] {
            if self.r.percent(6) {
                texts.push(near.as_bytes().to_vec());
            }
        }
        let builtins = if self.r.percent(60) { self.r.from_to(1, 3) } else { 0 };
        for _ in 0..builtins {
            texts.push(self.r.pick(&BUILTINS).as_bytes().to_vec());
        }
        for _ in 0..self.r.below(4) {
            texts.push(self.r.pick(&pool()).as_bytes().to_vec());
        }
        let same_length = self.r.percent(self.plan.same_length).then(|| self.r.from_to(1, 3));
        while texts.len() < count {
            let length = match same_length {
                Some(length) if self.r.percent(80) => length,
                _ if self.r.percent(self.plan.long_names) => self.r.from_to(200, 255),
                _ => self.r.from_to(1, self.plan.longest_name),
            };
            texts.push(self.text(length));
        }
        self.r.shuffle(&mut texts);
        let mut seen = Set::default();
        texts.retain(|text| seen.insert(text.clone()));
        // room for the texts of a full table
        if texts.len() > 1000 {
            texts.iter_mut().for_each(|text| text.truncate(3));
            let mut seen = Set::default();
            texts.retain(|text| seen.insert(text.clone()));
            let mut next = 0usize;
            while texts.len() < count {
                let text =
                    vec![b'0' + (next % 10) as u8, b'a' + (next / 10 % 26) as u8, b'A' + (next / 260 % 26) as u8];
                if seen.insert(text.clone()) {
                    texts.push(text);
                }
                next += 1;
            }
        }
        self.s.names = texts;
    }

    /// A text of that length, or a bit longer where it is beyond ASCII.
    fn text(&mut self, length: usize) -> Vec<u8> {
        if self.r.percent(self.plan.wide) {
            let letters = ['é', 'ß', 'λ', 'ж', '字', '𝔸', 'x'];
            let text: String = (0..length.min(60)).map(|_| self.r.pick(&letters)).collect();
            return text.into_bytes();
        }
        let any_bytes = self.r.percent(2);
        (0..length)
            .map(|_| if any_bytes { self.r.from_to(11, 255) as u8 } else { b'a' + self.r.below(26) as u8 })
            .collect()
    }

    fn crates(&mut self) {
        let count = self.range(self.plan.crates);
        for c in 0..count {
            let lang = self.r.percent(if c == 0 { 5 } else { self.plan.lang });
            let origin = if lang { self.r.pick(&[1, 1, 2, 2, 3, 3, 3, 4]) } else { 0 };
            let no_std = self.r.percent(self.plan.no_std);
            let edition = self.r.pick(&EDITIONS);
            self.s.crates.push(Krate { origin, no_std, edition });
        }
        let mut pairs = Vec::new();
        for owner in 0..count.min(8) {
            for krate in 0..count.min(20) {
                if owner != krate && self.r.percent(if owner == 0 { 85 } else { 25 }) {
                    pairs.push((owner, krate));
                }
            }
        }
        for _ in 0..self.r.below(3) {
            let any = (self.r.below(count), self.r.below(count));
            pairs.push(any);
        }
        self.r.shuffle(&mut pairs);
        for (owner, krate) in pairs {
            let lang = self.s.crates[krate].origin != 0;
            let sysroot = self.r.percent(if lang { 85 } else { 10 });
            self.s.dependencies.push(Dependency { owner, krate, sysroot });
        }
    }

    fn add_map(&mut self, krate: usize, block: usize, modules: usize) {
        let map = self.s.maps.len();
        let no_std = self.r.percent(self.plan.no_std);
        self.s.maps.push(DefMap { krate, block, no_std });
        let first = self.s.modules.len();
        for k in 0..modules {
            let parent = match k {
                0 => 0,
                _ if self.r.percent(self.plan.deep) => first + k,
                _ => first + 1 + self.r.below(k),
            };
            self.s.modules.push(Module { map, parent });
            let name = self.name();
            self.own_names.push(name);
        }
    }

    fn modules(&mut self) {
        let crates = self.s.crates.len();
        let many = crates > 8;
        for krate in 0..crates {
            let mut modules = self.range(self.plan.modules);
            if many || (modules > 30 && krate > 0) {
                modules = 1 + modules % 3;
            }
            let room = 512 - self.s.modules.len() - (crates - krate - 1);
            self.add_map(krate, 0, modules.min(room));
        }
        for _ in 0..self.range(self.plan.blocks) {
            // in the latest block, below a `mod` of it or not, in the viewer's crate, or anywhere
            let all = self.s.modules.len();
            let parent = match self.r.below(10) {
                0..=2 if self.shape == Shape::Hiding => self.latest_root(),
                0..=4 => all - 1,
                5..=8 => self.module_of(0),
                _ => self.r.below(all),
            };
            let krate = self.s.maps[self.s.modules[parent].map].krate;
            let modules = self.r.pick(&[1, 1, 2, 3]);
            if self.s.modules.len() + modules <= 512 {
                self.add_map(krate, parent + 1, modules);
            }
        }
        self.children();
        for map in 0..self.s.maps.len() {
            if self.r.percent(self.plan.preludes) {
                let target = self.r.below(self.s.modules.len());
                self.s.preludes.push(Prelude { map, target });
            }
        }
        let mut preludes = std::mem::take(&mut self.s.preludes);
        self.r.shuffle(&mut preludes);
        self.s.preludes = preludes;
    }

    /// The root of the latest map.
    fn latest_root(&self) -> usize {
        let map = self.s.maps.len() - 1;
        self.s.modules.iter().position(|module| module.map == map).unwrap()
    }

    fn children(&mut self) {
        let mut children = Vec::new();
        for (child, module) in self.s.modules.iter().enumerate() {
            if module.parent != 0 && self.r.percent(90) {
                children.push(Child { owner: module.parent - 1, child });
            }
        }
        if self.r.percent(60) {
            self.r.shuffle(&mut children);
        }
        self.s.children = children;
    }

    fn krate_of(&self, module: usize) -> usize {
        self.s.maps[self.s.modules[module].map].krate
    }

    fn module_of(&mut self, krate: usize) -> usize {
        let modules: Vec<usize> = (0..self.s.modules.len()).filter(|&m| self.krate_of(m) == krate).collect();
        self.r.pick(&modules)
    }

    fn definitions(&mut self) {
        let mut definitions = Vec::new();
        for module in 0..self.s.modules.len() {
            if self.r.percent(90) {
                definitions.push(Definition { kind: 1, first: module, second: 0 });
            }
        }
        let builtins: Vec<usize> = (0..self.s.names.len())
            .filter(|&n| BUILTINS.iter().any(|builtin| builtin.as_bytes() == &self.s.names[n][..]))
            .collect();
        for name in builtins {
            if self.r.percent(80) {
                definitions.push(Definition { kind: 3, first: name, second: 0 });
            }
        }
        for _ in 0..self.range(self.plan.items) {
            let kind = self.r.pick(&[4, 4, 4, 4, 5]);
            // in a long chain the last modules are the interesting ones
            let all = self.s.modules.len();
            let low = if self.plan.deep > 90 && self.r.percent(70) { all - all.min(6) } else { 0 };
            let first = self.r.from_to(low, all - 1);
            definitions.push(Definition { kind, first, second: 0 });
        }
        self.r.shuffle(&mut definitions);
        for definition in definitions {
            self.s.definitions.push(definition);
            if self.r.percent(12) {
                self.variant();
            }
        }
        for _ in 0..self.r.below(3) {
            self.variant();
        }
        self.s.definitions.truncate(2048);
    }

    fn variant(&mut self) {
        let parents: Vec<usize> = (0..self.s.definitions.len()).filter(|&d| self.s.definitions[d].kind == 4).collect();
        if !parents.is_empty() {
            let first = self.r.pick(&parents);
            let second = self.name();
            self.s.definitions.push(Definition { kind: 2, first, second });
        }
    }

    fn home(&self, d: usize) -> Option<usize> {
        let definition = &self.s.definitions[d];
        match definition.kind {
            2 => self.home(definition.first),
            3 => None,
            _ => Some(definition.first),
        }
    }

    /// A definition, of an item as often as the plan says.
    fn any_definition(&mut self) -> usize {
        let items: Vec<usize> = (0..self.s.definitions.len()).filter(|&d| self.s.definitions[d].kind == 4).collect();
        if !items.is_empty() && self.r.percent(self.plan.item_entries) {
            self.r.pick(&items)
        } else {
            self.r.below(self.s.definitions.len())
        }
    }

    /// A namespace for a definition.
    fn ns(&mut self, d: usize) -> usize {
        match self.s.definitions[d].kind {
            1 => self.r.pick(&[0, 0, 0, 0, 0, 0, 0, 1]),
            5 => self.r.pick(&[2, 2, 2, 0, 1]),
            2 => self.r.pick(&[0, 1]),
            _ => self.r.pick(&[0, 0, 1]),
        }
    }

    fn visibility(&mut self, owner: usize) -> (usize, usize) {
        if self.r.percent(self.plan.public) {
            return (0, 0);
        }
        let krate = self.krate_of(owner);
        if self.r.percent(15) {
            let any = self.r.below(self.s.crates.len());
            return (1, if self.r.percent(85) { krate } else { any });
        }
        let module = match self.r.below(10) {
            0..=3 => owner,
            4..=5 if self.s.modules[owner].parent != 0 => self.s.modules[owner].parent - 1,
            4..=8 => self.module_of(krate),
            _ => self.r.below(self.s.modules.len()),
        };
        (self.r.pick(&[2, 3]), module)
    }

    fn entry(&mut self, owner: usize, ns: usize, name: usize, definition: usize, declared: bool) {
        if ns == 2 && self.s.definitions[definition].kind != 5 {
            return;
        }
        if self.entries.insert((owner, ns, name)) {
            let (visibility, number) = self.visibility(owner);
            // without a draw, so that a seed gives the same records but for this
            let deprecated = (owner + name + definition) % 4 == 0;
            // the attributes of a builtin are not asked for
            let builtin = declared && self.s.definitions[definition].kind == 3;
            let bits = if builtin { 0 } else { bits_of(owner + 3 * name + 5 * definition) };
            self.s.scopes.push(Scope { owner, ns, name, definition, visibility, number, declared, deprecated, bits });
        }
    }

    fn scopes(&mut self) {
        for d in 0..self.s.definitions.len() {
            let Definition { kind, first, .. } = self.s.definitions[d];
            if !self.r.percent(self.plan.declared) {
                continue;
            }
            if kind == 1 {
                let parent = self.s.modules[first].parent;
                if parent != 0 {
                    let name = self.own_names[first];
                    let declared = self.r.percent(90);
                    self.entry(parent - 1, 0, name, d, declared);
                }
            } else if let Some(home) = self.home(d)
                && kind != 2
            {
                let (ns, name, declared) = (self.ns(d), self.name(), self.r.percent(90));
                self.entry(home, ns, name, d, declared);
                if self.r.percent(15) {
                    let (ns, name) = (self.ns(d), self.name());
                    self.entry(home, ns, name, d, false);
                }
            }
        }
        for _ in 0..self.range(self.plan.more_entries) {
            let d = self.any_definition();
            let owner = if self.r.percent(60) { self.module_of(0) } else { self.r.below(self.s.modules.len()) };
            let (ns, name, declared) = (self.ns(d), self.name(), self.r.percent(25));
            self.entry(owner, ns, name, d, declared);
        }
        self.more_scopes();
        // what the preludes lead to
        for p in 0..self.s.preludes.len() {
            let target = self.s.preludes[p].target;
            for _ in 0..self.r.below(5) {
                let d = self.r.below(self.s.definitions.len());
                let (ns, name, declared) = (self.ns(d), self.name(), self.r.percent(50));
                self.entry(target, ns, name, d, declared);
            }
        }
        if self.r.percent(60) {
            let mut scopes = std::mem::take(&mut self.s.scopes);
            self.r.shuffle(&mut scopes);
            self.s.scopes = scopes;
        }
    }

    /// The entry of a module in another, where it has a definition.
    fn put_module(&mut self, owner: usize, module: usize, prelude: bool) {
        let d = self.s.definitions.iter().position(|d| d.kind == 1 && d.first == module);
        let name = self.prelude().filter(|_| prelude).unwrap_or_else(|| self.r.below(self.s.names.len()));
        if let Some(d) = d {
            self.entry(owner, 0, name, d, true);
        }
    }

    /// A module found by a long path through `prelude`, by a short one, and by one that leads through itself: only the
    /// visited set keeps the last one out.
    fn knot(&mut self) {
        let mut places: Vec<usize> = (1..7).collect();
        if self.r.percent(40) {
            self.r.shuffle(&mut places);
        }
        let [long, short, through, prelude, inside, target] = places[..] else { unreachable!() };
        self.put_module(0, short, false);
        self.put_module(0, prelude, true);
        self.put_module(prelude, inside, false);
        self.put_module(inside, long, false);
        for owner in [long, short, through] {
            self.put_module(owner, target, false);
        }
        self.put_module(target, through, true);
    }

    /// Paths from the root that are one longer than the length left.
    fn stairs(&mut self) {
        let mut places: Vec<usize> = (1..7).collect();
        if self.r.percent(20) {
            self.r.shuffle(&mut places);
        }
        let [first, second, prelude, inside, last, _] = places[..] else { unreachable!() };
        self.put_module(0, first, false);
        self.put_module(0, second, false);
        self.put_module(0, prelude, true);
        self.put_module(prelude, inside, false);
        self.put_module(second, last, false);
        self.put_module(inside, last, false);
        for d in 0..self.s.definitions.len() {
            if self.s.definitions[d].kind == 4 {
                for owner in [first, last] {
                    let name = self.name();
                    self.entry(owner, 0, name, d, true);
                }
            }
        }
    }

    /// A module's name outside a block, and inside it the same name for the root of a block of that module: what the root has not, the module may
    /// have.
    fn hide(&mut self) {
        let blocks: Vec<usize> = (0..self.s.modules.len()).filter(|&m| self.block_parent(m).is_some()).collect();
        let (Some(&first), Some(&last)) = (blocks.first(), blocks.last()) else { return };
        let (viewer, root) = if self.r.percent(50) { (first, last) } else { (last, first) };
        let (outside, hidden) = (self.block_parent(viewer), self.block_parent(root));
        let definition = |m: Option<usize>| self.s.definitions.iter().position(|d| d.kind == 1 && Some(d.first) == m);
        if let (Some(outside), Some(hidden), Some(root)) = (outside, definition(hidden), definition(Some(root))) {
            let name = self.name();
            self.entry(outside, 0, name, hidden, true);
            self.entry(viewer, 0, name, root, true);
        }
    }

    /// The parent of the block whose root the module is.
    fn block_parent(&self, module: usize) -> Option<usize> {
        let Module { map, parent } = self.s.modules[module];
        if parent == 0 { self.s.maps[map].block.checked_sub(1) } else { None }
    }

    /// Modules of other crates in the first root, and the names of externs.
    fn more_scopes(&mut self) {
        for d in 0..self.s.definitions.len() {
            let outside = self.s.definitions[d].kind == 1 && self.krate_of(self.s.definitions[d].first) != 0;
            if outside && self.r.percent(self.plan.outside) {
                let name = self.name();
                self.entry(0, 0, name, d, false);
            }
        }
        for e in 0..self.s.externs.len().min(20) {
            let Extern { owner, name, target } = self.s.externs[e];
            let root = self.s.definitions.iter().position(|d| d.kind == 1 && d.first == target);
            while self.r.percent(self.plan.occupied) {
                let module = self.module_of(owner);
                let any = self.any_definition();
                let d = root.filter(|_| self.r.percent(50)).unwrap_or(any);
                self.entry(module, 0, name, d, false);
            }
        }
    }

    fn import(&mut self, owner: usize, ns: usize, definition: usize, name: usize, container: usize) {
        if ns == 2 && self.s.definitions[definition].kind != 5 {
            return;
        }
        let bits = usize::from(self.r.percent(self.plan.hidden)) + 2 * usize::from(self.r.percent(self.plan.unstable));
        self.s.imports.push(Import { owner, ns, definition, name, container, bits });
    }

    fn imports(&mut self) {
        for d in 0..self.s.definitions.len() {
            let Some(home) = self.home(d) else { continue };
            let krate = self.krate_of(home);
            if !self.r.percent(self.plan.exported) || (krate == 0 && self.r.percent(85)) {
                continue;
            }
            if self.s.definitions[d].kind == 1 {
                let parent = self.s.modules[home].parent;
                if parent != 0 {
                    let name = self.own_names[home];
                    self.import(krate, 0, d, name, parent - 1);
                }
            } else {
                let (ns, name) = (self.ns(d), self.name());
                self.import(krate, ns, d, name, home);
                if self.r.percent(self.plan.reexported) {
                    let other = self.another_crate(krate);
                    let container = if self.r.percent(60) { self.root(other) } else { self.module_of(other) };
                    self.import(other, ns, d, name, container);
                }
            }
        }
        for _ in 0..self.range(self.plan.more_imports) {
            let d = self.any_definition();
            let crates = self.s.crates.len();
            let owner = self.r.below(crates);
            let container = if self.r.percent(85) { self.module_of(owner) } else { self.r.below(self.s.modules.len()) };
            let (ns, name) = (self.ns(d), self.name());
            self.import(owner, ns, d, name, container);
        }
        if self.r.percent(60) {
            let mut imports = std::mem::take(&mut self.s.imports);
            self.r.shuffle(&mut imports);
            self.s.imports = imports;
        }
    }

    /// Another crate, of the standard library if there is one.
    fn another_crate(&mut self, krate: usize) -> usize {
        let others: Vec<usize> = (0..self.s.crates.len()).filter(|&c| c != krate).collect();
        let langs: Vec<usize> = others.iter().copied().filter(|&c| self.s.crates[c].origin != 0).collect();
        match (others.is_empty(), langs.is_empty()) {
            (true, _) => krate,
            (_, false) if self.r.percent(80) => self.r.pick(&langs),
            _ => self.r.pick(&others),
        }
    }

    fn root(&self, krate: usize) -> usize {
        let map = self.s.maps.iter().position(|map| map.krate == krate && map.block == 0).unwrap();
        self.s.modules.iter().position(|module| module.map == map).unwrap()
    }

    fn externs(&mut self) {
        let mut taken = Set::default();
        let mut externs = Vec::new();
        for d in 0..self.s.dependencies.len() {
            let Dependency { owner, krate, .. } = self.s.dependencies[d];
            while self.r.percent(self.plan.externs) && externs.len() < 200 {
                let target = if self.r.percent(92) { self.root(krate) } else { self.r.below(self.s.modules.len()) };
                let name = self.name();
                if taken.insert((owner, name)) {
                    externs.push(Extern { owner, name, target });
                }
                if self.r.percent(60) {
                    break;
                }
            }
        }
        self.r.shuffle(&mut externs);
        self.s.externs = externs;
    }

    /// Most variants, and others of kind 4, as members, without a draw: the other records are those of the seed without members. Some variants that
    /// hide names have a function of their name before them.
    fn members(&mut self) {
        let definitions = self.s.definitions.len();
        let names = self.s.names.len();
        let enums: Set<usize> = self.s.definitions.iter().filter(|d| d.kind == 2).map(|d| d.first).collect();
        let mut room = ROOM.saturating_sub(crate::encode::words(&self.s).len()) / 5;
        for d in 0..definitions {
            let Definition { kind, first, second } = self.s.definitions[d];
            if kind == 2 && self.shape == Shape::Hiding && d % 3 == 1 && room > 1 {
                let function = self.s.definitions.iter().position(|d| d.kind == 4).unwrap();
                self.s.members.push(Member { parent: first, name: second, definition: function, kind: 1, bits: 0 });
                room -= 1;
            }
            let member = match kind {
                2 if d % 5 != 0 => Member { parent: first, name: second, definition: d, kind: 0, bits: bits_of(d) },
                4 if d % 2 == 0 && !enums.contains(&((7 * d + 3) % (d + 1))) => {
                    let parent = (7 * d + 3) % (d + 1);
                    Member {
                        parent,
                        name: (3 * d + 1) % names,
                        definition: d,
                        kind: 1 + d / 2 % 3,
                        bits: bits_of(d + 1),
                    }
                }
                _ => continue,
            };
            if room > 0 && self.s.definitions[member.parent].kind == 4 {
                self.s.members.push(member);
                room -= 1;
            }
        }
    }

    /// No more words than leave room for questions.
    fn trim(&mut self) {
        while crate::encode::words(&self.s).len() > ROOM {
            let imports = self.s.imports.len();
            let scopes = self.s.scopes.len();
            if imports > 20 {
                self.s.imports.truncate(imports * 3 / 4);
            } else if scopes > 20 {
                self.s.scopes.truncate(scopes * 3 / 4);
            } else {
                let definitions = self.s.definitions.len() * 3 / 4;
                self.s.definitions.truncate(definitions);
                self.s.scopes.retain(|e| e.definition < definitions);
                self.s.imports.retain(|i| i.definition < definitions);
            }
        }
    }
}

/// Questions on a snapshot, none of which takes more steps than given.
pub fn questions(seed: u64, s: &Snapshot, shape: Shape, count: usize, steps: u64) -> Vec<Question> {
    let mut r = Random::new(seed ^ 0xA5A5_5A5A_1234_4321);
    let program = Program::new(s);
    let snapshot = Ok(s.clone());
    let targets = Targets::new(s);
    let mut questions = Vec::new();
    let mut tries = 0;
    while questions.len() < count && tries < 4 * count {
        tries += 1;
        let mut question = targets.question(&mut r, s, shape);
        if refusal(&snapshot, &question).is_none() {
            let Some(answer) = crate::budget::within(steps, || program.put(&question)) else { continue };
            question.fuel = match r.below(20) {
                0..=2 => answer.charges,
                3..=5 => answer.charges.saturating_sub(1),
                6..=7 => answer.charges + 1,
                8 => r.below(2),
                9 if answer.charges > 0 => r.below(answer.charges),
                _ => 10_000,
            };
            question.fuel = question.fuel.min(10_000);
        }
        if r.below(70) == 0 {
            spoil(&mut r, s, &mut question);
        }
        questions.push(question);
    }
    questions
}

/// A question that may be refused.
fn spoil(r: &mut Random, s: &Snapshot, q: &mut Question) {
    for _ in 0..r.from_to(1, 2) {
        match r.below(9) {
            0 => q.fuel = r.pick(&[10_001, 10_001, 20_000, 0x0FFF_FFFF]),
            1 => q.ns = r.pick(&[3, 4, 0x0FFF_FFFF]),
            2 => q.prefix = r.pick(&[3, 4, 0x0FFF_FFFF]),
            3 => q.options = r.pick(&[128, 129, 256, 0x0FFF_FFFF]),
            4 => q.definition = s.definitions.len() + r.below(2),
            5 => q.from = s.modules.len() + r.below(2),
            6 => q.ns = 2,
            7 => q.limit = r.pick(&[0, 16, 17, 0x0FFF_FFFF]),
            _ => q.definition = 0x0FFF_FFFF,
        }
    }
}

/// Definitions with the namespaces in which something names them.
struct Targets {
    named: Vec<(usize, usize)>,
    of_viewer: Vec<usize>,
}

impl Targets {
    fn new(s: &Snapshot) -> Targets {
        let entries = s.scopes.iter().map(|e| (e.definition, e.ns));
        let imports = s.imports.iter().map(|i| (i.definition, i.ns));
        let of_viewer = (0..s.modules.len()).filter(|&m| s.maps[s.modules[m].map].krate == 0).collect();
        Targets { named: entries.chain(imports).collect(), of_viewer }
    }

    fn question(&self, r: &mut Random, s: &Snapshot, shape: Shape) -> Question {
        let (mut definition, mut ns) = if !self.named.is_empty() && r.percent(70) {
            self.named[r.below(self.named.len())]
        } else {
            (r.below(s.definitions.len().max(1)), r.pick(&[0, 0, 1]))
        };
        let variants: Vec<usize> = (0..s.definitions.len()).filter(|&d| s.definitions[d].kind == 2).collect();
        if !variants.is_empty() && r.percent(15) {
            (definition, ns) = (r.pick(&variants), r.below(2));
        }
        if s.definitions.get(definition).is_some_and(|d| d.kind == 5) && r.percent(50) {
            ns = 2;
        }
        let all = s.modules.len().max(1);
        let from = match r.below(10) {
            0..=2 if shape == Shape::Chain => 0,
            0..=6 if matches!(shape, Shape::Root | Shape::Knot | Shape::Stairs) => 0,
            0..=5 if !self.of_viewer.is_empty() => r.pick(&self.of_viewer),
            7 if shape == Shape::Std => all - 1,
            6 => all - 1,
            _ => r.below(all),
        };
        let plain = if shape == Shape::Std { 55 } else { 35 };
        let options = if r.percent(plain) { r.pick(&[0, READ_BACK]) } else { r.below(MOST_OPTIONS + 1) };
        let prefix = if matches!(shape, Shape::Root | Shape::Stairs) && r.percent(50) { 2 } else { r.below(3) };
        let limit = if r.percent(70) { 15 } else { r.from_to(1, 15) };
        Question { definition, ns, from, prefix, options, fuel: 10_000, limit }
    }
}

/// The case of a seed.
pub fn case(seed: u64, count: usize, steps: u64) -> (Shape, Case) {
    let (shape, s) = snapshot(seed);
    let words = crate::encode::words(&s);
    let room = (crate::check::WORDS - words.len()) / 7;
    let questions = questions(seed, &s, shape, count.min(room), steps);
    (shape, Case { words, questions })
}
