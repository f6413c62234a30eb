//! Maps and sets for the stand-ins, with a plain fast hash.
use std::collections::{HashMap, HashSet};
use std::hash::{BuildHasherDefault, Hash, Hasher};

#[derive(Default, Clone)]
pub struct Fast(u64);

impl Fast {
    fn mix(&mut self, value: u64) {
        self.0 = (self.0.rotate_left(5) ^ value).wrapping_mul(0x9E37_79B9_7F4A_7C15);
    }
}

impl Hasher for Fast {
    fn finish(&self) -> u64 {
        self.0 ^ (self.0 >> 29)
    }
    fn write(&mut self, bytes: &[u8]) {
        for chunk in bytes.chunks(8) {
            self.mix(chunk.iter().fold(0, |sum, &byte| sum << 8 | u64::from(byte)));
        }
    }
    fn write_u8(&mut self, value: u8) {
        self.mix(value.into());
    }
    fn write_u64(&mut self, value: u64) {
        self.mix(value);
    }
    fn write_usize(&mut self, value: usize) {
        self.mix(value as u64);
    }
    fn write_isize(&mut self, value: isize) {
        self.mix(value as u64);
    }
}

pub type Map<K, V> = HashMap<K, V, BuildHasherDefault<Fast>>;
pub type Set<T> = HashSet<T, BuildHasherDefault<Fast>>;

/// A map that keeps its entries in the order in which they came.
pub struct IndexMap<K, V> {
    entries: Vec<(K, V)>,
    places: Map<K, usize>,
}

impl<K, V> Default for IndexMap<K, V> {
    fn default() -> Self {
        IndexMap { entries: Vec::new(), places: Map::default() }
    }
}

impl<K: Hash + Eq + Clone, V> IndexMap<K, V> {
    /// The key must be new.
    pub fn insert(&mut self, key: K, value: V) {
        assert!(self.places.insert(key.clone(), self.entries.len()).is_none(), "a repeated key");
        self.entries.push((key, value));
    }
    pub fn get(&self, key: &K) -> Option<&V> {
        self.places.get(key).map(|&place| &self.entries[place].1)
    }
    pub fn iter(&self) -> impl DoubleEndedIterator<Item = (&K, &V)> {
        self.entries.iter().map(|(key, value)| (key, value))
    }
    pub fn keys(&self) -> impl DoubleEndedIterator<Item = &K> {
        self.entries.iter().map(|(key, _)| key)
    }
    pub fn values(&self) -> impl DoubleEndedIterator<Item = &V> {
        self.entries.iter().map(|(_, value)| value)
    }
}
