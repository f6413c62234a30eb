//! Snapshots and questions as words and bytes.
use crate::Question;
use crate::check::Snapshot;

pub fn head(kind: usize, payload: usize) -> u32 {
    (kind as u32) << 28 | payload as u32
}

/// The words of a snapshot, kinds in order. Modules stand in order of their maps.
pub fn words(s: &Snapshot) -> Vec<u32> {
    let mut words = Vec::new();
    let mut put = |kind: usize, payload: usize, arguments: &[usize]| {
        words.push(head(kind, payload));
        words.extend(arguments.iter().map(|&word| word as u32));
    };
    for text in &s.names {
        let pack = |part: &[u8]| part.iter().rev().fold(0, |sum, &byte| sum << 8 | byte as usize);
        put(1, text.len(), &text.chunks(3).map(pack).collect::<Vec<_>>());
    }
    for krate in &s.crates {
        put(2, krate.origin + 8 * usize::from(krate.no_std), &[krate.edition]);
    }
    for d in &s.dependencies {
        put(3, d.owner, &[d.krate, d.sysroot.into()]);
    }
    for (number, map) in s.maps.iter().enumerate() {
        put(4, map.krate, &[map.block, map.no_std.into()]);
        for module in s.modules.iter().filter(|module| module.map == number) {
            put(5, module.map, &[module.parent]);
        }
    }
    for c in &s.children {
        put(6, c.owner, &[c.child]);
    }
    for p in &s.preludes {
        put(7, p.map, &[p.target]);
    }
    for d in &s.definitions {
        put(8, d.kind, &[d.first, d.second]);
    }
    for e in &s.scopes {
        let declared = usize::from(e.declared) + 2 * usize::from(e.deprecated);
        put(9, e.owner, &[e.ns, e.name, e.definition, e.visibility, e.number, declared, e.bits]);
    }
    for i in &s.imports {
        put(10, i.owner, &[i.ns, i.definition, i.name, i.container, i.bits]);
    }
    for e in &s.externs {
        put(11, e.owner, &[e.name, e.target]);
    }
    for m in &s.members {
        put(13, m.parent, &[m.name, m.definition, m.kind, m.bits]);
    }
    words
}

pub fn question_words(q: &Question) -> [u32; 7] {
    let arguments = [q.ns, q.from, q.prefix, q.options, q.fuel, q.limit];
    std::array::from_fn(|place| if place == 0 { head(12, q.definition) } else { arguments[place - 1] as u32 })
}

pub fn bytes(words: &[u32]) -> Vec<u8> {
    words.iter().flat_map(|word| word.to_le_bytes()).collect()
}
