//! Snapshots by chance, damage, and the command itself.
#![allow(dead_code)]
#[path = "../../../bindings/rust/tests/common/build.rs"]
pub mod build;

use std::collections::HashSet;
use std::path::PathBuf;
use std::process::{Command, Output};

/// The worked snapshot: a crate with a module `a` that holds a function `f`.
pub const WORKED: [u32; 37] = [
    0x10000001, 0x61, 0x10000001, 0x66, 0x20000000, 2021, 0x40000000, 0, 0, 0x50000000, 0, 0x50000000, 1, 0x60000000,
    1, 0x80000001, 1, 0, 0x80000004, 1, 0, 0x90000000, 0, 0, 0, 0, 0, 1, 0, 0x90000001, 1, 1, 1, 0, 0, 1, 0,
];

pub fn bytes(words: &[u32]) -> Vec<u8> {
    words.iter().flat_map(|word| word.to_le_bytes()).collect()
}

pub fn repository(file: &str) -> PathBuf {
    PathBuf::from(env!("CARGO_MANIFEST_DIR")).join("..").join(file)
}

/// The words of a line of `crates/refusals/stdin`, of which `crates/streams` says how it is written.
pub fn read_words(text: &str) -> Vec<u32> {
    let mut words = Vec::new();
    for part in text.split_ascii_whitespace() {
        if part != "*" {
            words.push(u32::from_str_radix(part, 16).unwrap());
            continue;
        }
        let [k, n, heads, arguments] = words.split_off(words.len() - 4).try_into().unwrap();
        for _ in 0..n {
            let word = words[words.len() - k as usize];
            words.push(word.wrapping_add(if word < 1 << 28 { arguments } else { heads }));
        }
    }
    words
}

pub fn kelumavor(args: &[&str]) -> Output {
    Command::new(env!("CARGO_BIN_EXE_kelumavor")).args(args).output().unwrap()
}

/// A file below the folder of the tests' own.
pub fn file(name: &str, bytes: &[u8]) -> String {
    let folder = PathBuf::from(env!("CARGO_TARGET_TMPDIR"));
    let path = folder.join(name);
    std::fs::write(&path, bytes).unwrap();
    path.to_str().unwrap().to_string()
}

pub fn out(output: &Output) -> String {
    String::from_utf8(output.stdout.clone()).unwrap()
}

pub fn errors(output: &Output) -> String {
    String::from_utf8(output.stderr.clone()).unwrap()
}

pub struct Random(u64);

impl Random {
    pub fn new(seed: u64) -> Self {
        Random(seed.wrapping_mul(0x9e37_79b9_7f4a_7c15) ^ 0x5851_f42d_4c95_7f2d)
    }

    pub fn next(&mut self) -> u64 {
        self.0 = self.0.wrapping_add(0x9e37_79b9_7f4a_7c15);
        let mut z = self.0;
        z = (z ^ (z >> 30)).wrapping_mul(0xbf58_476d_1ce4_e5b9);
        z = (z ^ (z >> 27)).wrapping_mul(0x94d0_49bb_1331_11eb);
        z ^ (z >> 31)
    }

    /// A number below n, which is above 0.
    pub fn below(&mut self, n: usize) -> usize {
        (self.next() % n as u64) as usize
    }

    pub fn chance(&mut self, percent: usize) -> bool {
        self.below(100) < percent
    }

    pub fn pick<T: Copy>(&mut self, list: &[T]) -> T {
        list[self.below(list.len())]
    }
}

/// An accepted snapshot with records of every kind.
pub fn snapshot(seed: u64) -> Vec<u32> {
    let mut writer = Writer { random: Random::new(seed), ..Writer::default() };
    writer.names();
    writer.crates();
    writer.maps();
    writer.children();
    writer.definitions();
    writer.scopes();
    writer.imports();
    writer.members();
    writer.words
}

#[derive(Default)]
struct Writer {
    random: Random,
    words: Vec<u32>,
    names: usize,
    crates: usize,
    /// The crate of each map.
    maps: Vec<usize>,
    /// The map of each module, and its parent.
    modules: Vec<(usize, Option<usize>)>,
    /// The kind of each definition and its two numbers.
    definitions: Vec<[usize; 3]>,
}

impl Default for Random {
    fn default() -> Self {
        Random::new(0)
    }
}

impl Writer {
    fn record(&mut self, kind: u32, numbers: &[usize]) {
        self.words.push(kind << 28 | numbers[0] as u32);
        self.words.extend(numbers[1..].iter().map(|number| *number as u32));
    }

    fn text(&mut self) -> Vec<u8> {
        let length = if self.random.chance(3) { 255 } else { 1 + self.random.below(9) };
        let wild = self.random.chance(25);
        let mut letter = || if wild { self.random.below(256) as u8 } else { b'a' + self.random.below(26) as u8 };
        (0..length).map(|_| letter()).collect()
    }

    fn names(&mut self) {
        let mut texts: Vec<Vec<u8>> =
            [&b"u8"[..], b"bool", b"type", "na\u{ef}ve".as_bytes()].map(<[u8]>::to_vec).into();
        for _ in 0..1 + self.random.below(20) {
            let text = self.text();
            if !texts.contains(&text) {
                texts.push(text);
            }
        }
        self.names = texts.len();
        for text in texts {
            let packed: Vec<usize> =
                text.chunks(3).map(|part| part.iter().rev().fold(0, |word, byte| word << 8 | *byte as usize)).collect();
            self.record(1, &[vec![text.len()], packed].concat());
        }
    }

    fn crates(&mut self) {
        self.crates = 1 + self.random.below(4);
        for _ in 0..self.crates {
            let origin = self.random.pick(&[0, 0, 0, 1, 2, 3, 4]) + 8 * self.random.below(2);
            let edition = self.random.pick(&[2015, 2018, 2021, 2024]);
            self.record(2, &[origin, edition]);
        }
        for _ in 0..self.random.below(5) {
            let numbers = [self.random.below(self.crates), self.random.below(self.crates), self.random.below(2)];
            self.record(3, &numbers);
        }
    }

    fn maps(&mut self) {
        for krate in 0..self.crates {
            let first = self.modules.len();
            self.map(krate, 0);
            for _ in 0..self.random.below(3) {
                let block = first + self.random.below(self.modules.len() - first);
                self.map(krate, block + 1);
            }
        }
    }

    fn map(&mut self, krate: usize, block: usize) {
        let no_std = self.random.below(2);
        self.record(4, &[krate, block, no_std]);
        self.maps.push(krate);
        let first = self.modules.len();
        for number in 0..1 + self.random.below(5) {
            let parent = (number > 0).then(|| first + self.random.below(self.modules.len() - first));
            self.record(5, &[self.maps.len() - 1, parent.map_or(0, |parent| parent + 1)]);
            self.modules.push((self.maps.len() - 1, parent));
        }
    }

    fn children(&mut self) {
        for module in 0..self.modules.len() {
            if let Some(parent) = self.modules[module].1
                && self.random.chance(90)
            {
                self.record(6, &[parent, module]);
            }
        }
        for map in 0..self.maps.len() {
            if self.random.chance(50) {
                let module = self.module();
                self.record(7, &[map, module]);
            }
        }
    }

    fn module(&mut self) -> usize {
        self.random.below(self.modules.len())
    }

    fn name(&mut self) -> usize {
        self.random.below(self.names)
    }

    fn define(&mut self, numbers: [usize; 3]) {
        self.record(8, &numbers);
        self.definitions.push(numbers);
    }

    fn definitions(&mut self) {
        for module in 0..self.modules.len() {
            if self.random.chance(80) {
                self.define([1, module, 0]);
            }
        }
        let first = self.definitions.len();
        for _ in 0..1 + self.random.below(8) {
            let module = self.module();
            self.define([4, module, 0]);
        }
        let others = self.definitions.len() - first;
        for _ in 0..self.random.below(4) {
            let (parent, name) = (first + self.random.below(others), self.name());
            self.define([2, parent, name]);
        }
        for builtin in 0..self.random.below(3) {
            self.define([3, builtin, 0]);
        }
        for _ in 0..self.random.below(3) {
            let module = self.module();
            self.define([5, module, 0]);
        }
    }

    /// A namespace in which a definition may stand.
    fn namespace(&mut self, definition: usize) -> usize {
        let any = if self.definitions[definition][0] == 5 { 3 } else { 2 };
        self.random.below(any)
    }

    fn scopes(&mut self) {
        let mut taken = HashSet::new();
        for number in 0..self.definitions.len() + self.random.below(16) {
            let definition =
                if number < self.definitions.len() { number } else { self.random.below(self.definitions.len()) };
            let [kind, first, _] = self.definitions[definition];
            let home = match kind {
                1 => self.modules[first].1,
                4 | 5 => Some(first),
                _ => None,
            };
            let at_home = number < self.definitions.len() && home.is_some();
            let module = if at_home { home.unwrap() } else { self.module() };
            let (namespace, name) = (if kind == 1 { 0 } else { self.namespace(definition) }, self.name());
            let visibility = self.random.pick(&[0, 0, 0, 1, 2, 3]);
            let of = match visibility {
                0 => 0,
                1 => self.random.below(self.crates),
                _ => self.module(),
            };
            let marks = usize::from(at_home) + 2 * usize::from(self.random.chance(20));
            if taken.insert((module, namespace, name)) {
                let attributes = self.random.below(4);
                self.record(9, &[module, namespace, name, definition, visibility, of, marks, attributes]);
            }
        }
    }

    fn imports(&mut self) {
        for _ in 0..self.random.below(12) {
            let definition = self.random.below(self.definitions.len());
            let (krate, namespace) = (self.random.below(self.crates), self.namespace(definition));
            let (name, module, attributes) = (self.name(), self.module(), self.random.below(4));
            self.record(10, &[krate, namespace, definition, name, module, attributes]);
        }
        let mut taken = HashSet::new();
        for _ in 0..self.random.below(6) {
            let (krate, name, module) = (self.random.below(self.crates), self.name(), self.module());
            if taken.insert((krate, name)) {
                self.record(11, &[krate, name, module]);
            }
        }
    }

    fn members(&mut self) {
        let others: Vec<usize> =
            (0..self.definitions.len()).filter(|number| self.definitions[*number][0] == 4).collect();
        for (number, [kind, parent, name]) in self.definitions.clone().into_iter().enumerate() {
            let attributes = self.random.below(4);
            if kind == 2 {
                self.record(13, &[parent, name, number, 0, attributes]);
            } else if kind == 4 && self.random.chance(30) {
                let (parent, name) = (self.random.pick(&others), self.name());
                let kind = 1 + self.random.below(3);
                self.record(13, &[parent, name, number, kind, attributes]);
            }
        }
    }
}

/// One change of the words; most leave heads and arguments in their places.
pub fn damage(random: &mut Random, words: &mut Vec<u32>) {
    let (place, other) = (random.below(words.len()), random.below(words.len()));
    let small =
        random.pick(&[0, 1, 2, 3, 4, 5, 6, 7, 8, 9, 15, 64, 255, 256, 512, 2015, 2019, 2048, 0x0100_0000, 0x0FFF_FFFF]);
    match random.below(18) {
        0..=3 => words[place] = words[place].wrapping_add(1),
        4..=6 => words[place] = words[place].wrapping_sub(1),
        7 => words[place] ^= 1 << random.below(32),
        8..=11 => words[place] = words[place] & 0xF000_0000 | small,
        12 => words[place] = (random.below(16) as u32) << 28 | small,
        13 if place > 0 => words.truncate(place),
        14 if words.len() > 1 => drop(words.remove(place)),
        15 => words.insert(place, words[other]),
        16 => words.swap(place, other),
        _ => damage_record(random, words),
    }
}

/// A record again, left out, or after the next one.
fn damage_record(random: &mut Random, words: &mut Vec<u32>) {
    let heads: Vec<usize> = (0..words.len()).filter(|place| words[*place] >> 28 != 0).collect();
    if heads.len() < 2 {
        return;
    }
    let which = random.below(heads.len());
    let start = heads[which];
    let end = heads.get(which + 1).copied().unwrap_or(words.len());
    let record = words[start..end].to_vec();
    match random.below(3) {
        0 => drop(words.splice(end..end, record)),
        1 => drop(words.drain(start..end)),
        _ => {
            let next = heads.get(which + 2).copied().unwrap_or(words.len());
            words.splice(next..next, record);
            words.drain(start..end);
        }
    }
}
