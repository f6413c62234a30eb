//! Records as they stand in the words: a head, its arguments, and what each of them means.

/// Bits of a word below its kind.
pub const PAYLOAD: u32 = 0x0FFF_FFFF;

#[derive(Clone, Copy, Debug, PartialEq, Eq, PartialOrd, Ord, Hash)]
pub enum Kind {
    Name = 1,
    Crate = 2,
    Dependency = 3,
    Map = 4,
    Module = 5,
    Child = 6,
    Prelude = 7,
    Definition = 8,
    Scope = 9,
    Import = 10,
    Extern = 11,
    Question = 12,
    Member = 13,
    Routed = 14,
    Reach = 15,
}

impl Kind {
    pub const ALL: [Kind; 15] = [
        Kind::Name,
        Kind::Crate,
        Kind::Dependency,
        Kind::Map,
        Kind::Module,
        Kind::Child,
        Kind::Prelude,
        Kind::Definition,
        Kind::Scope,
        Kind::Import,
        Kind::Extern,
        Kind::Question,
        Kind::Member,
        Kind::Routed,
        Kind::Reach,
    ];

    /// The kind of a head; an argument has none.
    pub fn of(word: u32) -> Option<Kind> {
        (word >> 28).checked_sub(1).map(|number| Kind::ALL[number as usize])
    }

    pub fn word(self) -> &'static str {
        match self {
            Kind::Name => "name",
            Kind::Crate => "crate",
            Kind::Dependency => "dependency",
            Kind::Map => "map",
            Kind::Module => "module",
            Kind::Child => "child",
            Kind::Prelude => "prelude",
            Kind::Definition => "definition",
            Kind::Scope => "scope",
            Kind::Import => "import",
            Kind::Extern => "extern",
            Kind::Question => "question",
            Kind::Member => "member",
            Kind::Routed => "routed",
            Kind::Reach => "reach",
        }
    }

    /// It follows a snapshot in the path printer's input, and is no record of one.
    pub fn is_question(self) -> bool {
        matches!(self, Kind::Question | Kind::Routed | Kind::Reach)
    }

    /// How many arguments follow a head.
    pub fn arguments(self, payload: u32) -> usize {
        match self {
            Kind::Name => payload.div_ceil(3) as usize,
            Kind::Crate | Kind::Module | Kind::Child | Kind::Prelude => 1,
            Kind::Dependency | Kind::Map | Kind::Definition | Kind::Extern => 2,
            Kind::Scope => 7,
            Kind::Import => 5,
            Kind::Question | Kind::Routed => 6,
            Kind::Member | Kind::Reach => 4,
        }
    }
}

/// What the number in a field is.
#[derive(Clone, Copy, Debug, PartialEq, Eq)]
pub enum Role {
    /// Of a record of that kind.
    Of(Kind),
    /// A module +1, or 0 for none.
    ModuleOrNone,
    /// One of these words; an empty one stands for a number that is not used.
    Word(&'static [&'static str]),
    /// These words, added up by powers of two.
    Flags(&'static [&'static str]),
    /// An origin, and 8 more with no_std.
    Origin,
    Edition,
    /// 0, as it is not used here.
    Zero,
    /// Anything, as another field of the record is wrong.
    Any,
    /// From the first to the second; of a question.
    Between(u32, u32),
}

pub const ORIGINS: [&str; 5] = ["ordinary", "core", "alloc", "std", "other-language"];
pub const NAMESPACES: [&str; 3] = ["types", "values", "macros"];
pub const DEFINITIONS: [&str; 6] = ["", "module", "variant", "builtin", "other", "macro"];
pub const VISIBILITIES: [&str; 4] = ["public", "crate", "module", "private"];
pub const MARKS: [&str; 2] = ["declared", "deprecated"];
pub const ATTRIBUTES: [&str; 2] = ["hidden", "unstable"];
pub const MEMBERS: [&str; 4] = ["variant", "function", "constant", "type-alias"];
pub const PREFIXES: [&str; 3] = ["self", "plain", "crate"];
pub const OPTIONS: [&str; 7] = [
    "prefer-no-std",
    "prefer-prelude",
    "prefer-absolute",
    "allow-unstable",
    "ignore-local-imports",
    "old-names-last",
    "read-back",
];
const NO_YES: [&str; 2] = ["no", "yes"];

impl Role {
    /// A number as it is written.
    pub fn text(self, value: u32) -> String {
        let number = value as usize;
        match self {
            Role::ModuleOrNone => value.checked_sub(1).map_or("none".to_string(), |module| module.to_string()),
            Role::Word(words) if words.get(number).is_some_and(|word| !word.is_empty()) => words[number].to_string(),
            Role::Flags(_) if value == 0 => "none".to_string(),
            Role::Flags(words) if number < 1 << words.len() => {
                let set = words.iter().enumerate().filter(|(bit, _)| number >> bit & 1 == 1);
                set.map(|(_, word)| *word).collect::<Vec<_>>().join("+")
            }
            Role::Origin if number < 16 && number % 8 < ORIGINS.len() => {
                format!("{}{}", ORIGINS[number % 8], if number < 8 { "" } else { "+no_std" })
            }
            _ => value.to_string(),
        }
    }

    /// The number that is written so.
    pub fn number(self, text: &str) -> Option<u32> {
        let place = |words: &[&str], text: &str| words.iter().position(|word| *word == text && !text.is_empty());
        if let Ok(number) = text.parse::<u32>() {
            let plus = u32::from(self == Role::ModuleOrNone);
            return number.checked_add(plus).filter(|number| *number <= PAYLOAD);
        }
        match self {
            Role::ModuleOrNone | Role::Flags(_) if text == "none" => Some(0),
            Role::Word(words) => place(words, text).map(|number| number as u32),
            Role::Flags(words) => text.split('+').try_fold(0, |sum, word| place(words, word).map(|bit| sum | 1 << bit)),
            Role::Origin => {
                let (origin, more) = text.strip_suffix("+no_std").map_or((text, 0), |origin| (origin, 8));
                place(&ORIGINS, origin).map(|number| number as u32 + more)
            }
            _ => None,
        }
    }
}

#[derive(Clone, Copy, Debug, PartialEq, Eq)]
pub struct Field {
    pub name: &'static str,
    pub role: Role,
}

const fn field(name: &'static str, role: Role) -> Field {
    Field { name, role }
}

const NAMESPACE: Field = field("namespace", Role::Word(&NAMESPACES));
const NAME: Field = field("name", Role::Of(Kind::Name));
const DEFINITION: Field = field("definition", Role::Of(Kind::Definition));
const MODULE: Field = field("module", Role::Of(Kind::Module));
const CRATE: Field = field("crate", Role::Of(Kind::Crate));
const ATTRIBUTE: Field = field("attributes", Role::Flags(&ATTRIBUTES));
const ASKED: [Field; 4] = [
    field("prefix", Role::Word(&PREFIXES)),
    field("options", Role::Flags(&OPTIONS)),
    field("fuel", Role::Between(0, 10_000)),
    field("limit", Role::Between(1, 15)),
];

/// The fields of a record that is no name, the payload first. `numbers` are the ones known so far: what a definition's numbers are is
/// said by its payload, and what a visibility's number is by the visibility.
pub fn fields(kind: Kind, numbers: &[u32]) -> Vec<Field> {
    let number = |place: usize| numbers.get(place).copied();
    let asked = |first: &[Field]| [first, &ASKED[..]].concat();
    match kind {
        Kind::Name => Vec::new(),
        Kind::Crate => vec![field("origin", Role::Origin), field("edition", Role::Edition)],
        Kind::Dependency => {
            vec![CRATE, field("on", Role::Of(Kind::Crate)), field("sysroot", Role::Word(&NO_YES))]
        }
        Kind::Map => {
            vec![CRATE, field("block", Role::ModuleOrNone), field("no_std", Role::Word(&NO_YES))]
        }
        Kind::Module => vec![field("map", Role::Of(Kind::Map)), field("parent", Role::ModuleOrNone)],
        Kind::Child => vec![field("owner", Role::Of(Kind::Module)), MODULE],
        Kind::Prelude => vec![field("map", Role::Of(Kind::Map)), MODULE],
        Kind::Definition => {
            let [first, second] = definition_fields(number(0));
            vec![field("kind", Role::Word(&DEFINITIONS)), first, second]
        }
        Kind::Scope => {
            let within = match number(4) {
                Some(0) => Role::Zero,
                Some(1) => Role::Of(Kind::Crate),
                Some(2 | 3) => Role::Of(Kind::Module),
                _ => Role::Any,
            };
            let visibility = field("visibility", Role::Word(&VISIBILITIES));
            let marks = field("marks", Role::Flags(&MARKS));
            vec![MODULE, NAMESPACE, NAME, DEFINITION, visibility, field("within", within), marks, ATTRIBUTE]
        }
        Kind::Import => vec![CRATE, NAMESPACE, DEFINITION, NAME, MODULE, ATTRIBUTE],
        Kind::Extern => vec![CRATE, NAME, MODULE],
        Kind::Member => {
            let member = field("kind", Role::Word(&MEMBERS));
            vec![field("parent", Role::Of(Kind::Definition)), NAME, DEFINITION, member, ATTRIBUTE]
        }
        Kind::Question | Kind::Routed => asked(&[DEFINITION, NAMESPACE, field("from", Role::Of(Kind::Module))]),
        Kind::Reach => asked(&[field("from", Role::Of(Kind::Module))]),
    }
}

fn definition_fields(kind: Option<u32>) -> [Field; 2] {
    let none = field("second", Role::Zero);
    match kind {
        Some(1) => [MODULE, none],
        Some(2) => [field("parent", Role::Of(Kind::Definition)), NAME],
        Some(3) => [NAME, none],
        Some(4 | 5) => [MODULE, none],
        _ => [field("first", Role::Any), field("second", Role::Any)],
    }
}

/// A record: where it begins, its number among those of its kind, and its words with the head.
#[derive(Clone, Copy, Debug, PartialEq, Eq)]
pub struct Record<'w> {
    pub place: usize,
    pub kind: Kind,
    pub number: usize,
    pub words: &'w [u32],
}

impl<'w> Record<'w> {
    pub fn payload(&self) -> u32 {
        self.words[0] & PAYLOAD
    }

    /// A number of it: 0 is the payload, then the arguments.
    pub fn get(&self, place: usize) -> usize {
        (if place == 0 { self.payload() } else { self.words[place] }) as usize
    }

    pub fn numbers(&self) -> Vec<u32> {
        (0..self.words.len()).map(|place| self.get(place) as u32).collect()
    }

    /// Its fields with their numbers.
    pub fn fields(&self) -> Vec<(Field, u32)> {
        let numbers = self.numbers();
        fields(self.kind, &numbers).into_iter().zip(numbers).collect()
    }

    /// The text of a name, whatever its length and the bits past it.
    pub fn bytes(&self) -> Vec<u8> {
        let mut bytes: Vec<u8> =
            self.words[1..].iter().flat_map(|word| word.to_le_bytes().into_iter().take(3)).collect();
        bytes.truncate(self.payload() as usize);
        bytes
    }

    /// Its first argument with a kind, counted from 1.
    pub fn kinded(&self) -> Option<usize> {
        (1..self.words.len()).find(|place| self.words[*place] > PAYLOAD)
    }
}

/// The words of a name's text.
pub fn text_words(bytes: &[u8]) -> Vec<u32> {
    bytes.chunks(3).map(|bytes| bytes.iter().rev().fold(0, |word, byte| word << 8 | u32::from(*byte))).collect()
}

/// The words in order: records, and words that are in none.
#[derive(Clone, Copy, Debug, PartialEq, Eq)]
pub enum Part<'w> {
    Record(Record<'w>),
    Word(usize, u32),
}

/// Tells the records. A word that is no head, or a head whose arguments are not there, is in none.
pub fn parts(words: &[u32]) -> Vec<Part<'_>> {
    let mut parts = Vec::new();
    let mut counts = [0; 16];
    let mut at = 0;
    while at < words.len() {
        let told = Kind::of(words[at]).and_then(|kind| {
            let end = at + 1 + kind.arguments(words[at] & PAYLOAD);
            let record = Record { place: at, kind, number: counts[kind as usize], words: words.get(at..end)? };
            record.kinded().is_none().then_some(record)
        });
        match told {
            Some(record) => {
                counts[record.kind as usize] += 1;
                at += record.words.len();
                parts.push(Part::Record(record));
            }
            None => {
                parts.push(Part::Word(at, words[at]));
                at += 1;
            }
        }
    }
    parts
}

/// Records by their kinds.
#[derive(Clone, Debug, Default)]
pub struct Records<'w> {
    kinds: [Vec<Record<'w>>; 16],
}

impl<'w> Records<'w> {
    /// Those of the words.
    pub fn new(words: &'w [u32]) -> Self {
        let mut records = Self::default();
        for part in parts(words) {
            if let Part::Record(record) = part {
                records.push(record);
            }
        }
        records
    }

    pub fn push(&mut self, record: Record<'w>) {
        self.kinds[record.kind as usize].push(record);
    }

    pub fn of(&self, kind: Kind) -> &[Record<'w>] {
        &self.kinds[kind as usize]
    }

    pub fn get(&self, kind: Kind, number: usize) -> Option<&Record<'w>> {
        self.of(kind).get(number)
    }

    pub fn count(&self, kind: Kind) -> usize {
        self.of(kind).len()
    }

    /// The record that begins at a word.
    pub fn at(&self, place: usize) -> Option<&Record<'w>> {
        self.kinds.iter().find_map(|records| {
            records.binary_search_by_key(&place, |record| record.place).ok().map(|number| &records[number])
        })
    }

    /// The text of a name.
    pub fn name(&self, number: usize) -> Option<Vec<u8>> {
        self.get(Kind::Name, number).map(Record::bytes)
    }
}

#[cfg(test)]
mod tests {
    use super::*;

    #[test]
    fn numbers_and_words() {
        let roles = [
            Role::Of(Kind::Name),
            Role::ModuleOrNone,
            Role::Word(&DEFINITIONS),
            Role::Flags(&OPTIONS),
            Role::Origin,
            Role::Edition,
            Role::Zero,
            Role::Between(1, 15),
        ];
        for role in roles {
            for value in (0..100).chain([PAYLOAD - 1, PAYLOAD]) {
                assert_eq!(role.number(&role.text(value)), Some(value), "{role:?}");
            }
            assert_eq!(role.number("268435456"), None);
            assert_eq!(role.number("nothing"), None);
        }
        assert_eq!(Role::Origin.text(11), "std+no_std");
        assert_eq!(Role::Flags(&ATTRIBUTES).text(3), "hidden+unstable");
    }
}
