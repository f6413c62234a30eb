//! Accepted snapshots for import lists, from a seed: parents with members under several names, modules of other crates and in values, cycles, texts
//! that begin alike or lie beyond ASCII, a name in each namespace, private entries.
use crate::check::{BUILTINS, DefMap, Definition, Krate, Member, Module, Scope, Snapshot, WORDS};
use crate::random::Random;
use crate::tables::Set;

/// Texts that begin alike, in bytes and in packed words.
const TEXTS: [&str; 22] = [
    "a", "aa", "a_", "aaa", "aaaa", "aab", "ab", "a\0", "b", "ba", "b_", "B", "_", "aé", "é", "éa", "è", "ß", "字",
    "字a", "𝔸", "Z",
];

struct Builder {
    r: Random,
    s: Snapshot,
    entries: Set<(usize, usize, usize)>,
    /// definitions by kind
    kinds: [Vec<usize>; 6],
}

pub fn snapshot(seed: u64) -> Snapshot {
    let r = Random::new(seed ^ 0x1357_9BDF_0246_8ACE);
    let mut b = Builder { r, s: Snapshot::default(), entries: Set::default(), kinds: Default::default() };
    // one in a hundred is large
    let size = if seed % 100 == 99 { 12 } else { 1 };
    b.names(size);
    b.modules(size);
    b.definitions(size);
    b.scopes(size);
    while crate::encode::words(&b.s).len() > WORDS {
        b.s.scopes.truncate(b.s.scopes.len() * 9 / 10);
    }
    b.s
}

impl Builder {
    fn names(&mut self, size: usize) {
        let mut texts: Vec<Vec<u8>> = Vec::new();
        let count = self.r.from_to(4, 14);
        for _ in 0..count {
            texts.push(self.r.pick(&TEXTS).as_bytes().to_vec());
        }
        for _ in 0..self.r.from_to(0, 3) * size * size {
            let length = self.r.from_to(1, 7);
            let letters = ['a', 'a', 'b', '_', 'é', '\0', 'A'];
            let text: String = (0..length).map(|_| self.r.pick(&letters)).collect();
            texts.push(text.into_bytes());
        }
        if self.r.percent(20) {
            let length = self.r.from_to(200, 255);
            texts.extend([vec![b'a'; length], vec![b'a'; length - 1]]);
        }
        if self.r.percent(40) {
            texts.push(self.r.pick(&BUILTINS).as_bytes().to_vec());
        }
        self.r.shuffle(&mut texts);
        let mut seen = Set::default();
        texts.retain(|text| seen.insert(text.clone()));
        self.s.names = texts;
    }

    fn modules(&mut self, size: usize) {
        let crates = self.r.from_to(1, 4);
        for krate in 0..crates {
            self.s.crates.push(Krate { origin: 0, no_std: false, edition: 2021 });
            let count = self.r.from_to(1, 5) * size;
            self.map(krate, 0, count);
        }
        for _ in 0..self.r.below(3) {
            let parent = self.r.below(self.s.modules.len());
            let krate = self.s.maps[self.s.modules[parent].map].krate;
            let count = self.r.from_to(1, 2);
            self.map(krate, parent + 1, count);
        }
    }

    fn map(&mut self, krate: usize, block: usize, count: usize) {
        let map = self.s.maps.len();
        self.s.maps.push(DefMap { krate, block, no_std: false });
        let first = self.s.modules.len();
        for k in 0..count {
            let parent = if k == 0 { 0 } else { first + 1 + self.r.below(k) };
            self.s.modules.push(Module { map, parent });
        }
    }

    fn define(&mut self, kind: usize, first: usize, second: usize) -> usize {
        let d = self.s.definitions.len();
        self.s.definitions.push(Definition { kind, first, second });
        self.kinds[kind].push(d);
        d
    }

    fn definitions(&mut self, size: usize) {
        for module in 0..self.s.modules.len() {
            if self.r.percent(93) {
                self.define(1, module, 0);
            }
        }
        let builtin = |text: &[u8]| BUILTINS.iter().any(|builtin| builtin.as_bytes() == text);
        if let Some(name) = self.s.names.iter().position(|text| builtin(text)) {
            self.define(3, name, 0);
        }
        for kind in [5, 4] {
            for _ in 0..self.r.from_to(1, 4) * size {
                let module = self.r.below(self.s.modules.len());
                self.define(kind, module, 0);
            }
        }
        for parent in self.kinds[4].clone() {
            let sort = match self.r.below(20) {
                0 => 1,
                1..=8 => 0,
                9..=16 => 2,
                _ => continue,
            };
            for _ in 0..self.r.from_to(1, 4) {
                self.member(parent, sort);
            }
        }
        if self.r.percent(50) {
            let mut members = std::mem::take(&mut self.s.members);
            self.r.shuffle(&mut members);
            self.s.members = members;
        }
    }

    /// A variant (0), an item of a trait (2), or either (1).
    fn member(&mut self, parent: usize, sort: usize) {
        let (name, bits) = (self.r.below(self.s.names.len()), self.r.below(4));
        let variant = sort == 0 || sort == 1 && self.r.percent(50);
        let member = if variant {
            let definition = self.define(2, parent, name);
            Member { parent, name, definition, kind: 0, bits }
        } else {
            let module = self.s.definitions[parent].first;
            let any = self.r.pick(&self.kinds[4].clone());
            let definition = if self.r.percent(80) { self.define(4, module, 0) } else { any };
            Member { parent, name, definition, kind: self.r.from_to(1, 3), bits }
        };
        self.s.members.push(member);
    }

    fn entry(&mut self, owner: usize, ns: usize, name: usize, definition: usize) {
        if !self.entries.insert((owner, ns, name)) {
            return;
        }
        let declared = self.r.percent(50);
        let builtin = declared && self.s.definitions[definition].kind == 3;
        let bits = if builtin { 0 } else { self.r.below(4) };
        let visibility = if self.r.percent(80) { 0 } else { self.r.from_to(1, 3) };
        let number = match visibility {
            0 => 0,
            1 => self.r.below(self.s.crates.len()),
            _ => self.r.below(self.s.modules.len()),
        };
        let deprecated = self.r.percent(20);
        self.s.scopes.push(Scope { owner, ns, name, definition, visibility, number, declared, deprecated, bits });
    }

    /// A namespace in which the definition may stand.
    fn ns(&mut self, d: usize) -> usize {
        match self.s.definitions[d].kind {
            1 => self.r.pick(&[0, 0, 0, 1]),
            5 => self.r.pick(&[2, 2, 0, 1]),
            _ => self.r.below(2),
        }
    }

    fn scopes(&mut self, size: usize) {
        let modules = self.s.modules.len();
        for _ in 0..self.r.from_to(1, 6) * modules {
            let kind = self.r.pick(&[1, 1, 1, 2, 3, 4, 4, 4, 5]);
            let Some(&d) = self.kinds[kind].get(self.r.below(self.kinds[kind].len().max(1))) else { continue };
            let (ns, name) = (self.ns(d), self.r.below(self.s.names.len()));
            // the first modules are met more often
            let owner = if self.r.percent(30) { self.r.below(modules.min(3)) } else { self.r.below(modules) };
            self.entry(owner, ns, name, d);
        }
        for _ in 0..self.r.from_to(0, 3) * size {
            let (owner, name) = (self.r.below(modules), self.r.below(self.s.names.len()));
            for (ns, kind) in [(0, 1), (1, 4), (2, 5)] {
                if !self.kinds[kind].is_empty() {
                    let d = self.r.pick(&self.kinds[kind].clone());
                    self.entry(owner, ns, name, d);
                }
            }
        }
        let mut scopes = std::mem::take(&mut self.s.scopes);
        self.r.shuffle(&mut scopes);
        self.s.scopes = scopes;
    }
}
