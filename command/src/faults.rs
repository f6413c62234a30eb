//! What is wrong with a record, in words. The number of a refusal and its place come from the library; this finds the reason.
use kelumavor::Snapshot;

use crate::escape::quoted;
use crate::record::{DEFINITIONS, Field, Kind, MEMBERS, NAMESPACES, ORIGINS, Record, Records, Role};

const BUILTINS: [&str; 19] = [
    "char", "bool", "str", "isize", "i8", "i16", "i32", "i64", "i128", "usize", "u8", "u16", "u32", "u64", "u128",
    "f16", "f32", "f64", "f128",
];

/// A reason to refuse a record, under the number of the refusal.
#[derive(Clone, Debug, PartialEq, Eq)]
pub struct Fault {
    pub number: u32,
    pub text: String,
}

fn fault(number: u32, text: String) -> Fault {
    Fault { number, text }
}

/// A record as it is called: its kind, its number, and the number in its head.
pub fn called(record: &Record) -> String {
    let (kind, number) = (record.kind.word(), record.number);
    match record.fields().first() {
        Some((Field { role: Role::Origin, .. }, _)) | None => format!("{kind} record {number}"),
        Some((Field { role: role @ Role::Word(_), .. }, value)) => match role.text(*value) {
            text if text == value.to_string() => format!("{kind} record {number}"),
            text => format!("{kind} record {number} ({text})"),
        },
        Some((field, value)) => format!("{kind} record {number} ({} {value})", field.name),
    }
}

pub fn counted(count: usize, thing: &str) -> String {
    match (count, thing) {
        (1, _) => format!("1 {thing}"),
        (_, "dependency") => format!("{count} dependencies"),
        (_, "child") => format!("{count} children"),
        _ => format!("{count} {thing}s"),
    }
}

fn there_are(count: usize, thing: &str) -> String {
    format!("there {} {}", if count == 1 { "is" } else { "are" }, counted(count, thing))
}

/// The faults of a record after those before it, the one that refuses it first.
pub fn faults(before: &Records, record: &Record) -> Vec<Fault> {
    let mut found = if record.kind == Kind::Name { text_faults(record) } else { field_faults(before, record) };
    if found.is_empty() {
        found.extend(repeated(before, record));
        found.extend(misplaced(before, record).into_iter().map(|text| fault(35, text)));
        found.extend(room(before, record));
    }
    let order = |number: u32| [32, 43, 33, 34, 35, 36].iter().position(|other| *other == number);
    found.sort_by_key(|fault| order(fault.number));
    found
}

fn text_faults(record: &Record) -> Vec<Fault> {
    let length = record.payload() as usize;
    let mut found = Vec::new();
    if !(1..=255).contains(&length) {
        found.push(format!("its length is {length}, and goes from 1 to 255"));
    }
    if let Some(place) = (1..record.words.len()).find(|place| record.words[*place] >> 24 != 0) {
        let word = record.words[place];
        found.push(format!(
            "word {} of its text is {word:#010x}, and holds three bytes, so it is below 0x01000000",
            place
        ));
    } else if let (Some(last), over @ 1..) = (record.words[1..].last(), length % 3)
        && last >> (8 * over) != 0
    {
        found.push(format!("its last word is {last:#08x}, of which only {} of the text", bytes_are(over)));
    }
    found.into_iter().map(|text| fault(32, text)).collect()
}

fn bytes_are(count: usize) -> &'static str {
    if count == 1 { "the lowest byte is" } else { "the lowest two bytes are" }
}

fn field_faults(before: &Records, record: &Record) -> Vec<Fault> {
    let mut found: Vec<Fault> = record
        .fields()
        .into_iter()
        .filter_map(|(field, value)| field_fault(before, record.kind, field, value))
        .collect();
    if record.kind == Kind::Definition
        && record.get(0) == 3
        && let Some(text) = before.name(record.get(1))
        && !BUILTINS.iter().any(|name| name.as_bytes() == text)
    {
        found.push(fault(32, format!("name is {}, {}, which is no builtin type", record.get(1), quoted(&text))));
    }
    found
}

fn field_fault(before: &Records, kind: Kind, field: Field, value: u32) -> Option<Fault> {
    let (name, number) = (field.name, value as usize);
    let outside = |range: String| Some(fault(32, format!("{name} is {value}, and {range}")));
    match field.role {
        Role::Of(thing) if number >= before.count(thing) => {
            Some(undefined(before, kind, thing, &format!("{name} is {number}")))
        }
        Role::ModuleOrNone if number > before.count(Kind::Module) => {
            Some(undefined(before, kind, Kind::Module, &format!("{name} is {}, written as {number}", number - 1)))
        }
        Role::Word(words) if words.get(number).is_none_or(|word| word.is_empty()) => {
            let first = words.iter().position(|word| !word.is_empty()).unwrap_or(0);
            outside(format!("goes from {first} to {} ({})", words.len() - 1, words[first..].join(", ")))
        }
        Role::Flags(words) if number >= 1 << words.len() => {
            let bits: Vec<_> = words.iter().enumerate().map(|(bit, word)| format!("{} {word}", 1 << bit)).collect();
            outside(format!("goes from 0 to {} ({})", (1 << words.len()) - 1, bits.join(", ")))
        }
        Role::Origin if number >= 16 || number % 8 >= ORIGINS.len() => {
            outside(format!("goes from 0 to 4 ({}), or from 8 to 12 with no_std", ORIGINS.join(", ")))
        }
        Role::Zero if number != 0 => outside(format!(
            "must be 0 {}",
            if kind == Kind::Scope { "where the visibility is public" } else { "here" }
        )),
        Role::Edition if ![2015, 2018, 2021, 2024].contains(&number) => {
            Some(fault(43, format!("edition is {value}, and is one of 2015, 2018, 2021 and 2024")))
        }
        _ => None,
    }
}

fn undefined(before: &Records, kind: Kind, thing: Kind, what: &str) -> Fault {
    let mixed = |kind| matches!(kind, Kind::Map | Kind::Module);
    let so_far = if mixed(kind) && mixed(thing) || kind == thing { " before it" } else { "" };
    fault(33, format!("{what}, and {}{so_far}", there_are(before.count(thing), thing.word())))
}

/// The earlier record that this one repeats.
fn repeated(before: &Records, record: &Record) -> Option<Fault> {
    let same = |places: &'static [usize]| {
        before.of(record.kind).iter().find(|other| places.iter().all(|place| other.get(*place) == record.get(*place)))
    };
    let (other, what) = match record.kind {
        Kind::Name => {
            let other = before.of(Kind::Name).iter().find(|other| other.words == record.words)?;
            (other, format!("its text {}", quoted(&record.bytes())))
        }
        Kind::Map if record.get(1) == 0 => (same(&[0, 1])?, format!("the own map of crate {}", record.get(0))),
        Kind::Child => (same(&[1])?, format!("module {} as a child", record.get(1))),
        Kind::Prelude => (same(&[0])?, format!("the prelude of map {}", record.get(0))),
        Kind::Definition if [1, 3].contains(&record.get(0)) => {
            let thing = if record.get(0) == 1 { "module" } else { "builtin of name" };
            (same(&[0, 1])?, format!("the definition of the {thing} {}", record.get(1)))
        }
        Kind::Scope => {
            let text = before.name(record.get(2)).map(|text| quoted(&text)).unwrap_or_default();
            let namespace = NAMESPACES[record.get(1)];
            (same(&[0, 1, 2])?, format!("name {} ({text}) in this scope's {namespace}", record.get(2)))
        }
        Kind::Extern => {
            let text = before.name(record.get(1)).map(|text| quoted(&text)).unwrap_or_default();
            (same(&[0, 1])?, format!("the extern name {} ({text}) of the crate", record.get(1)))
        }
        _ => return None,
    };
    let kind = other.kind.word();
    Some(fault(34, format!("{what} stands already in {kind} record {} at word {}", other.number, other.place)))
}

fn room(before: &Records, record: &Record) -> Option<Fault> {
    let most = match record.kind {
        Kind::Crate => Snapshot::MAX_CRATES,
        Kind::Module => Snapshot::MAX_MODULES,
        Kind::Name => Snapshot::MAX_NAMES,
        Kind::Definition => Snapshot::MAX_DEFINITIONS,
        _ => return None,
    };
    (record.number >= most && before.count(record.kind) >= most)
        .then(|| fault(36, format!("a snapshot has at most {}", counted(most, record.kind.word()))))
}

/// Why a record does not fit those before it. Its numbers are in range and defined.
fn misplaced(before: &Records, record: &Record) -> Vec<String> {
    match record.kind {
        Kind::Map => misplaced_map(before, record).into_iter().collect(),
        Kind::Module => misplaced_module(before, record),
        Kind::Child => misplaced_child(before, record),
        Kind::Definition => misplaced_variant(before, record).into_iter().collect(),
        Kind::Scope => misplaced_macro(before, record.get(1), record.get(3)).into_iter().collect(),
        Kind::Import => misplaced_macro(before, record.get(1), record.get(2)).into_iter().collect(),
        Kind::Member => misplaced_member(before, record),
        _ => Vec::new(),
    }
}

fn map_of(before: &Records, module: usize) -> usize {
    before.of(Kind::Module)[module].get(0)
}

fn misplaced_map(before: &Records, record: &Record) -> Option<String> {
    let module = record.get(1).checked_sub(1)?;
    let krate = before.of(Kind::Map).get(map_of(before, module))?.get(0);
    (krate != record.get(0)).then(|| format!("its block stands in module {module}, which is in crate {krate}"))
}

fn misplaced_module(before: &Records, record: &Record) -> Vec<String> {
    let (map, parent) = (record.get(0), record.get(1).checked_sub(1));
    let latest = before.count(Kind::Map) - 1;
    let first = before.of(Kind::Module).iter().find(|module| module.get(0) == map);
    let mut found = Vec::new();
    if map != latest {
        found.push(format!("map is {map}, and the latest map is {latest}: the modules of a map follow it"));
    }
    match (first, parent) {
        (None, Some(parent)) => {
            found.push(format!("the first module of a map is its root and has no parent, and parent is {parent}"));
        }
        (Some(root), None) => {
            found
                .push(format!("it has no parent, and the map's root is module {} at word {}", root.number, root.place));
        }
        _ => (),
    }
    if let Some(parent) = parent
        && map_of(before, parent) != map
    {
        found.push(format!("parent is {parent}, which is in map {}", map_of(before, parent)));
    }
    found
}

fn misplaced_child(before: &Records, record: &Record) -> Vec<String> {
    let (owner, child) = (record.get(0), record.get(1));
    let mut found = Vec::new();
    if map_of(before, owner) != map_of(before, child) {
        let (own, other) = (map_of(before, owner), map_of(before, child));
        found.push(format!("module is {child}, which is in map {other}, and the owner is in map {own}"));
    }
    let parent = before.of(Kind::Module)[child].get(1);
    if parent != owner + 1 {
        let parent = parent.checked_sub(1).map_or("no parent".to_string(), |parent| format!("the parent {parent}"));
        found.push(format!("module is {child}, which has {parent}, and not the owner"));
    }
    found
}

/// A definition with its kind.
fn definition(before: &Records, number: usize) -> String {
    let kind = before.of(Kind::Definition)[number].get(0);
    format!("definition {number} is of kind {kind} ({})", DEFINITIONS.get(kind).unwrap_or(&""))
}

fn misplaced_variant(before: &Records, record: &Record) -> Option<String> {
    let (kind, parent) = (record.get(0), record.get(1));
    (kind == 2 && before.of(Kind::Definition)[parent].get(0) != 4)
        .then(|| format!("parent is {parent}, and {}, not 4 (other)", definition(before, parent)))
}

fn misplaced_macro(before: &Records, namespace: usize, number: usize) -> Option<String> {
    (namespace == 2 && before.of(Kind::Definition)[number].get(0) != 5)
        .then(|| format!("namespace is 2 (macros), and {}, not 5 (macro)", definition(before, number)))
}

fn misplaced_member(before: &Records, record: &Record) -> Vec<String> {
    let [parent, name, number, kind] = [0, 1, 2, 3].map(|place| record.get(place));
    let member = &before.of(Kind::Definition)[number];
    let mut found = Vec::new();
    if before.of(Kind::Definition)[parent].get(0) != 4 {
        found.push(format!("parent is {parent}, and {}, not 4 (other)", definition(before, parent)));
    }
    match (kind, member.get(0)) {
        (0, 2) if member.get(1) != parent => {
            found.push(format!("definition is {number}, a variant of definition {}", member.get(1)));
        }
        (0, 2) if member.get(2) != name => {
            found.push(format!("name is {name}, and the variant's name is {}", member.get(2)));
        }
        (0, 2) | (1.., 4) => (),
        (0, _) => found.push(format!("kind is 0 (variant), and {}", definition(before, number))),
        _ => {
            let (kind, definition) = (Role::Word(&MEMBERS).text(record.words[3]), definition(before, number));
            found.push(format!("kind is {} ({kind}), and {definition}, not 4 (other)", record.get(3)));
        }
    }
    found
}

/// What is left undone after the last record.
pub fn unfinished(records: &Records) -> Vec<Fault> {
    let has_modules = |map: usize| records.of(Kind::Module).iter().any(|module| module.get(0) == map);
    let has_own = |krate: usize| records.of(Kind::Map).iter().any(|map| map.get(0) == krate && map.get(1) == 0);
    let maps =
        (0..records.count(Kind::Map)).filter(|map| !has_modules(*map)).map(|map| format!("map {map} has no modules"));
    let crates = (0..records.count(Kind::Crate))
        .filter(|krate| !has_own(*krate))
        .map(|krate| format!("crate {krate} has no map of its own"));
    maps.chain(crates).map(|text| fault(35, text)).collect()
}
