//! Snapshots: the records, and the check of document 01. Written from document 01, not from the definitions.
use crate::tables::{Map, Set};

pub const BUILTINS: [&str; 19] = [
    "char", "bool", "str", "isize", "i8", "i16", "i32", "i64", "i128", "usize", "u8", "u16", "u32", "u64", "u128",
    "f16", "f32", "f64", "f128",
];

pub const EDITIONS: [usize; 4] = [2015, 2018, 2021, 2024];

pub const WORDS: usize = 16_384;

#[derive(Clone, Debug)]
pub struct Krate {
    pub origin: usize,
    pub no_std: bool,
    pub edition: usize,
}
#[derive(Clone, Debug)]
pub struct Dependency {
    pub owner: usize,
    pub krate: usize,
    pub sysroot: bool,
}
/// `block` is the parent module of the block, +1.
#[derive(Clone, Debug)]
pub struct DefMap {
    pub krate: usize,
    pub block: usize,
    pub no_std: bool,
}
/// `parent` is +1.
#[derive(Clone, Debug)]
pub struct Module {
    pub map: usize,
    pub parent: usize,
}
#[derive(Clone, Debug)]
pub struct Child {
    pub owner: usize,
    pub child: usize,
}
#[derive(Clone, Debug)]
pub struct Prelude {
    pub map: usize,
    pub target: usize,
}
#[derive(Clone, Debug)]
pub struct Definition {
    pub kind: usize,
    pub first: usize,
    pub second: usize,
}
#[derive(Clone, Debug)]
pub struct Scope {
    pub owner: usize,
    pub ns: usize,
    pub name: usize,
    pub definition: usize,
    pub visibility: usize,
    pub number: usize,
    pub declared: bool,
    pub deprecated: bool,
    pub bits: usize,
}
#[derive(Clone, Debug, PartialEq, Eq)]
pub struct Import {
    pub owner: usize,
    pub ns: usize,
    pub definition: usize,
    pub name: usize,
    pub container: usize,
    pub bits: usize,
}
#[derive(Clone, Debug)]
pub struct Extern {
    pub owner: usize,
    pub name: usize,
    pub target: usize,
}
#[derive(Clone, Debug)]
pub struct Member {
    pub parent: usize,
    pub name: usize,
    pub definition: usize,
    pub kind: usize,
    pub bits: usize,
}

#[derive(Clone, Debug, Default)]
pub struct Snapshot {
    pub names: Vec<Vec<u8>>,
    pub crates: Vec<Krate>,
    pub dependencies: Vec<Dependency>,
    pub maps: Vec<DefMap>,
    pub modules: Vec<Module>,
    pub children: Vec<Child>,
    pub preludes: Vec<Prelude>,
    pub definitions: Vec<Definition>,
    pub scopes: Vec<Scope>,
    pub imports: Vec<Import>,
    pub externs: Vec<Extern>,
    pub members: Vec<Member>,
}

pub fn kind(word: u32) -> usize {
    (word >> 28) as usize
}

pub fn payload(word: u32) -> usize {
    (word & 0x0FFF_FFFF) as usize
}

fn arguments(kind: usize, payload: usize) -> usize {
    match kind {
        1 => payload.div_ceil(3),
        2 | 5..=7 => 1,
        3 | 4 | 8 | 11 => 2,
        9 => 7,
        10 => 5,
        13 => 4,
        _ => unreachable!(),
    }
}

/// Numbers as they stand, before any is judged.
struct Record<'a> {
    payload: usize,
    arguments: &'a [u32],
}

impl Record<'_> {
    fn argument(&self, place: usize) -> usize {
        self.arguments[place] as usize
    }
}

/// The tests of a record, each number where its test fails.
struct Judged {
    range: bool,
    edition: bool,
    defined: bool,
    repeated: bool,
    placed: bool,
    room: bool,
}

impl Judged {
    const FINE: Judged =
        Judged { range: true, edition: true, defined: true, repeated: false, placed: true, room: true };

    fn refusal(&self) -> Option<u32> {
        let tests = [
            (self.range, 32),
            (self.edition, 43),
            (self.defined, 33),
            (!self.repeated, 34),
            (self.placed, 35),
            (self.room, 36),
        ];
        tests.iter().find(|(passed, _)| !passed).map(|&(_, number)| number)
    }
}

/// What is known beside the records, to find repeats.
#[derive(Default)]
struct Known {
    texts: Map<Vec<u8>, usize>,
    own_maps: Set<usize>,
    roots: Map<usize, usize>,
    children: Set<usize>,
    preludes: Set<usize>,
    definitions: Set<(usize, usize)>,
    entries: Set<(usize, usize, usize)>,
    externs: Set<(usize, usize)>,
}

/// An accepted snapshot, or the number of its refusal (30 to 36, 43).
pub fn check(words: &[u32]) -> Result<Snapshot, u32> {
    checked(words).map_err(|(number, _)| number)
}

/// The refusal with the place of the record.
pub fn refused_at(words: &[u32]) -> Option<(u32, usize)> {
    checked(words).err()
}

fn checked(words: &[u32]) -> Result<Snapshot, (u32, usize)> {
    if words.len() > WORDS {
        return Err((30, WORDS));
    }
    let mut s = Snapshot::default();
    let mut known = Known::default();
    let mut at = 0;
    let mut last = 0;
    while at < words.len() {
        let (kind, payload) = (kind(words[at]), payload(words[at]));
        let falls = kind < last && !(last == 5 && kind == 4);
        if kind == 0 || kind == 12 || kind > 13 || falls {
            return Err((31, at));
        }
        let end = at + 1 + arguments(kind, payload);
        if end > words.len() || words[at + 1..end].iter().any(|&word| self::kind(word) != 0) {
            return Err((31, at));
        }
        let record = Record { payload, arguments: &words[at + 1..end] };
        if let Some(number) = add(&mut s, &mut known, kind, &record).refusal() {
            return Err((number, at));
        }
        at = end;
        last = kind;
    }
    let empty_map = (0..s.maps.len()).any(|map| !known.roots.contains_key(&map));
    let no_own_map = (0..s.crates.len()).any(|krate| !known.own_maps.contains(&krate));
    if empty_map || no_own_map { Err((35, words.len())) } else { Ok(s) }
}

fn add(s: &mut Snapshot, known: &mut Known, kind: usize, record: &Record) -> Judged {
    match kind {
        1 => add_name(s, known, record),
        2 => add_crate(s, record),
        3 => add_dependency(s, record),
        4 => add_map(s, known, record),
        5 => add_module(s, known, record),
        6 => add_child(s, known, record),
        7 => add_prelude(s, known, record),
        8 => add_definition(s, known, record),
        9 => add_scope(s, known, record),
        10 => add_import(s, record),
        11 => add_extern(s, known, record),
        _ => add_member(s, record),
    }
}

fn add_name(s: &mut Snapshot, known: &mut Known, record: &Record) -> Judged {
    let bytes = record.payload;
    let mut text: Vec<u8> = record.arguments.iter().flat_map(|word| word.to_le_bytes()[..3].to_vec()).collect();
    let high = record.arguments.iter().any(|word| word >> 24 != 0);
    let padded = text[bytes.min(text.len())..].iter().all(|&byte| byte == 0);
    text.truncate(bytes);
    let judged = Judged {
        range: (1..=255).contains(&bytes) && !high && padded,
        repeated: known.texts.contains_key(&text),
        room: s.names.len() < 2048,
        ..Judged::FINE
    };
    known.texts.entry(text.clone()).or_insert(s.names.len());
    s.names.push(text);
    judged
}

fn add_crate(s: &mut Snapshot, record: &Record) -> Judged {
    let (origin, flag, edition) = (record.payload % 8, record.payload / 8, record.argument(0));
    s.crates.push(Krate { origin, no_std: flag == 1, edition });
    Judged {
        range: origin <= 4 && flag <= 1,
        edition: EDITIONS.contains(&edition),
        room: s.crates.len() <= 64,
        ..Judged::FINE
    }
}

fn add_dependency(s: &mut Snapshot, record: &Record) -> Judged {
    let (owner, krate, sysroot) = (record.payload, record.argument(0), record.argument(1));
    s.dependencies.push(Dependency { owner, krate, sysroot: sysroot == 1 });
    Judged { range: sysroot <= 1, defined: owner < s.crates.len() && krate < s.crates.len(), ..Judged::FINE }
}

fn add_map(s: &mut Snapshot, known: &mut Known, record: &Record) -> Judged {
    let (krate, block, no_std) = (record.payload, record.argument(0), record.argument(1));
    let range = no_std <= 1;
    let defined = krate < s.crates.len() && block <= s.modules.len();
    let mut judged = Judged { range, defined, ..Judged::FINE };
    if range && defined {
        if block == 0 {
            judged.repeated = !known.own_maps.insert(krate);
        } else {
            judged.placed = s.maps[s.modules[block - 1].map].krate == krate;
        }
    }
    s.maps.push(DefMap { krate, block, no_std: no_std == 1 });
    judged
}

fn add_module(s: &mut Snapshot, known: &mut Known, record: &Record) -> Judged {
    let (map, parent) = (record.payload, record.argument(0));
    let defined = map < s.maps.len() && parent <= s.modules.len();
    let mut judged = Judged { defined, room: s.modules.len() < 512, ..Judged::FINE };
    if defined {
        let latest = map + 1 == s.maps.len();
        let first = !known.roots.contains_key(&map);
        let same_map = parent == 0 || s.modules[parent - 1].map == map;
        judged.placed = latest && first == (parent == 0) && same_map;
        known.roots.entry(map).or_insert(s.modules.len());
    }
    s.modules.push(Module { map, parent });
    judged
}

fn add_child(s: &mut Snapshot, known: &mut Known, record: &Record) -> Judged {
    let (owner, child) = (record.payload, record.argument(0));
    let defined = owner < s.modules.len() && child < s.modules.len();
    let mut judged = Judged { defined, ..Judged::FINE };
    if defined {
        judged.repeated = !known.children.insert(child);
        judged.placed = s.modules[child].map == s.modules[owner].map && s.modules[child].parent == owner + 1;
    }
    s.children.push(Child { owner, child });
    judged
}

fn add_prelude(s: &mut Snapshot, known: &mut Known, record: &Record) -> Judged {
    let (map, target) = (record.payload, record.argument(0));
    let defined = map < s.maps.len() && target < s.modules.len();
    let repeated = !known.preludes.insert(map);
    s.preludes.push(Prelude { map, target });
    Judged { defined, repeated, ..Judged::FINE }
}

fn add_definition(s: &mut Snapshot, known: &mut Known, record: &Record) -> Judged {
    let (kind, first, second) = (record.payload, record.argument(0), record.argument(1));
    let not_builtin =
        kind == 3 && s.names.get(first).is_some_and(|text| !BUILTINS.iter().any(|name| name.as_bytes() == &text[..]));
    let range = (1..=5).contains(&kind) && (kind == 2 || second == 0) && !not_builtin;
    let defined = match kind {
        2 => first < s.definitions.len() && second < s.names.len(),
        3 => first < s.names.len(),
        _ => first < s.modules.len(),
    };
    let mut judged = Judged { range, defined, room: s.definitions.len() < 2048, ..Judged::FINE };
    if range && defined {
        judged.repeated = (kind == 1 || kind == 3) && !known.definitions.insert((kind, first));
        judged.placed = kind != 2 || s.definitions[first].kind == 4;
    }
    s.definitions.push(Definition { kind, first, second });
    judged
}

/// In the macros namespace stand macros alone.
fn ns_placed(s: &Snapshot, ns: usize, definition: usize) -> bool {
    ns != 2 || s.definitions.get(definition).is_some_and(|definition| definition.kind == 5)
}

fn add_scope(s: &mut Snapshot, known: &mut Known, record: &Record) -> Judged {
    let owner = record.payload;
    let [ns, name, definition, visibility, number, declared, bits] =
        std::array::from_fn(|place| record.argument(place));
    let range = ns <= 2 && visibility <= 3 && (visibility != 0 || number == 0) && declared <= 3 && bits <= 3;
    let number_defined = match visibility {
        0 => true,
        1 => number < s.crates.len(),
        _ => number < s.modules.len(),
    };
    let defined = owner < s.modules.len() && name < s.names.len() && definition < s.definitions.len() && number_defined;
    let repeated = !known.entries.insert((owner, ns, name));
    let placed = ns_placed(s, ns, definition);
    let (declared, deprecated) = (declared % 2 == 1, declared >= 2);
    s.scopes.push(Scope { owner, ns, name, definition, visibility, number, declared, deprecated, bits });
    Judged { range, defined, repeated, placed, ..Judged::FINE }
}

fn add_import(s: &mut Snapshot, record: &Record) -> Judged {
    let owner = record.payload;
    let [ns, definition, name, container, bits] = std::array::from_fn(|place| record.argument(place));
    let defined = owner < s.crates.len()
        && definition < s.definitions.len()
        && name < s.names.len()
        && container < s.modules.len();
    let placed = ns_placed(s, ns, definition);
    s.imports.push(Import { owner, ns, definition, name, container, bits });
    Judged { range: ns <= 2 && bits <= 3, defined, placed, ..Judged::FINE }
}

fn add_extern(s: &mut Snapshot, known: &mut Known, record: &Record) -> Judged {
    let (owner, name, target) = (record.payload, record.argument(0), record.argument(1));
    let defined = owner < s.crates.len() && name < s.names.len() && target < s.modules.len();
    let repeated = !known.externs.insert((owner, name));
    s.externs.push(Extern { owner, name, target });
    Judged { defined, repeated, ..Judged::FINE }
}

fn add_member(s: &mut Snapshot, record: &Record) -> Judged {
    let parent = record.payload;
    let [name, definition, kind, bits] = std::array::from_fn(|place| record.argument(place));
    let defined = parent < s.definitions.len() && name < s.names.len() && definition < s.definitions.len();
    let placed = defined && s.definitions[parent].kind == 4 && {
        let d = &s.definitions[definition];
        if kind == 0 { (d.kind, d.first, d.second) == (2, parent, name) } else { d.kind == 4 }
    };
    s.members.push(Member { parent, name, definition, kind, bits });
    Judged { range: kind <= 3 && bits <= 3, defined, placed, ..Judged::FINE }
}
