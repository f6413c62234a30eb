//! Modules and definitions as a person calls them. The format gives modules no names: a module is called by the entry that its parent
//! has for it. Nothing here needs the records to be accepted.
use crate::escape::in_path;
use crate::record::{Kind, Record, Records};

/// Bytes of a module's path, at most: a module below that is called by its number, and those in it from there on.
const PATH: usize = 500;

pub struct View<'w> {
    pub records: Records<'w>,
    /// The path of each module.
    paths: Vec<String>,
    /// The entry that each module is called by.
    modules: Vec<Option<Record<'w>>>,
    /// The same for definitions that are neither modules, variants nor builtins.
    definitions: Vec<Option<Record<'w>>>,
}

impl<'w> View<'w> {
    pub fn new(words: &'w [u32]) -> Self {
        let records = Records::new(words);
        let mut view = View {
            paths: Vec::new(),
            modules: vec![None; records.count(Kind::Module)],
            definitions: vec![None; records.count(Kind::Definition)],
            records,
        };
        let scopes = view.records.of(Kind::Scope).to_vec();
        for entry in &scopes {
            view.call(entry);
        }
        for number in 0..view.records.count(Kind::Module) {
            let path = view.path(number);
            view.paths.push(path);
        }
        view
    }

    /// A thing is called by its first declared entry at home; by the first there without one; a definition then by any.
    fn call(&mut self, entry: &Record<'w>) {
        let number = entry.get(3);
        let Some(definition) = self.records.get(Kind::Definition, number).copied() else { return };
        let (home, slot) = match definition.get(0) {
            1 if entry.get(1) == 0 => {
                let module = definition.get(1);
                let Some(slot) = self.modules.get_mut(module) else { return };
                (self.records.get(Kind::Module, module).and_then(|module| module.get(1).checked_sub(1)), slot)
            }
            4 | 5 => (Some(definition.get(1)), &mut self.definitions[number]),
            _ => return,
        };
        let at_home = |entry: &Record| home == Some(entry.get(0));
        let rank = |entry: &Record| if !at_home(entry) { 0 } else { 1 + entry.get(6) % 2 };
        if definition.get(0) == 1 && !at_home(entry) {
            return;
        }
        if slot.as_ref().is_none_or(|other| rank(entry) > rank(other)) {
            *slot = Some(*entry);
        }
    }

    pub fn name(&self, number: usize) -> String {
        self.records.name(number).map_or(format!("{{name {number}}}"), |text| in_path(&text))
    }

    pub fn krate(&self, number: usize) -> String {
        if self.records.count(Kind::Crate) == 1 { "crate".to_string() } else { format!("crate#{number}") }
    }

    pub fn map_of(&self, module: usize) -> Option<&Record<'w>> {
        self.records.get(Kind::Map, self.records.get(Kind::Module, module)?.get(0))
    }

    pub fn crate_of(&self, module: usize) -> Option<usize> {
        self.map_of(module).map(|map| map.get(0))
    }

    pub fn parent(&self, module: usize) -> Option<usize> {
        self.records.get(Kind::Module, module)?.get(1).checked_sub(1)
    }

    /// The module in which the block of a module's map stands, of a root alone.
    pub fn block_in(&self, module: usize) -> Option<usize> {
        match self.parent(module) {
            Some(_) => None,
            None => self.map_of(module)?.get(1).checked_sub(1),
        }
    }

    /// The path of a module from its crate on.
    pub fn module(&self, number: usize) -> String {
        self.paths.get(number).cloned().unwrap_or_else(|| format!("{{module {number}}}"))
    }

    /// The same, from the paths of the modules before it.
    fn path(&self, number: usize) -> String {
        let unnamed = format!("{{module {number}}}");
        let Some(map) = self.map_of(number) else { return unnamed };
        // A record names only what stands before it, where it is accepted.
        let before = |other: usize| self.paths.get(other);
        let path = match (self.parent(number), map.get(1).checked_sub(1)) {
            (Some(parent), _) => before(parent).map(|parent| match &self.modules[number] {
                Some(entry) => format!("{parent}::{}", self.name(entry.get(2))),
                None => format!("{parent}::{unnamed}"),
            }),
            (None, Some(block)) => before(block).map(|block| format!("{block}::{{block {number}}}")),
            (None, None) => Some(self.krate(map.get(0))),
        };
        path.filter(|path| path.len() <= PATH).unwrap_or(unnamed)
    }

    /// The entry that a module is called by.
    pub fn entry_of(&self, module: usize) -> Option<&Record<'w>> {
        self.modules.get(module)?.as_ref()
    }

    /// The path of a definition from its crate on.
    pub fn definition(&self, number: usize) -> String {
        let unknown = || format!("{{definition {number}}}");
        let Some(record) = self.records.get(Kind::Definition, number) else { return unknown() };
        match record.get(0) {
            1 => self.module(record.get(1)),
            2 => {
                let parent = record.get(1);
                // Only where the records are not accepted a variant's parent is another one.
                let path = if self.thing(parent) == "variant" {
                    format!("{{definition {parent}}}")
                } else {
                    self.definition(parent)
                };
                format!("{path}::{}", self.name(record.get(2)))
            }
            3 => self.name(record.get(1)),
            4 | 5 => match &self.definitions[number] {
                Some(entry) => format!("{}::{}", self.module(entry.get(0)), self.name(entry.get(2))),
                None => format!("{}::{}", self.module(record.get(1)), unknown()),
            },
            _ => unknown(),
        }
    }

    /// What a definition is, in a word.
    pub fn thing(&self, number: usize) -> &'static str {
        match self.records.get(Kind::Definition, number).map(|record| record.get(0)) {
            Some(1) => "mod",
            Some(2) => "variant",
            Some(3) => "builtin",
            Some(5) => "macro",
            _ => "item",
        }
    }

    /// The visibility of a scope entry, as it would be written.
    pub fn visibility(&self, entry: &Record) -> String {
        let (module, of) = (entry.get(0), entry.get(5));
        match entry.get(4) {
            0 => "pub".to_string(),
            1 if self.crate_of(module) == Some(of) => "pub(crate)".to_string(),
            1 => format!("pub(in {})", self.krate(of)),
            3 if module == of => "private".to_string(),
            3 => format!("private to {}", self.module(of)),
            _ => format!("pub(in {})", self.module(of)),
        }
    }

    /// What else is said of an entry, each after a comma.
    pub fn marks(&self, entry: &Record) -> String {
        let marks = [
            (entry.get(6) % 2 != 1, ", import"),
            (entry.get(6) / 2 % 2 == 1, ", deprecated"),
            (entry.get(7) % 2 == 1, ", hidden"),
            (entry.get(7) / 2 % 2 == 1, ", unstable"),
        ];
        marks.iter().filter(|(set, _)| *set).map(|(_, mark)| *mark).collect()
    }

    /// A record in words, with its numbers resolved.
    pub fn comment(&self, record: &Record) -> String {
        let [first, second, third] =
            [0, 1, 2].map(|place| if place < record.words.len() { record.get(place) } else { 0 });
        match record.kind {
            Kind::Name | Kind::Crate => String::new(),
            Kind::Dependency => format!("{} on {}", self.krate(first), self.krate(second)),
            Kind::Map => match second.checked_sub(1) {
                Some(module) => format!("block in {}", self.module(module)),
                None => self.krate(first),
            },
            Kind::Module => self.module(record.number),
            Kind::Child => self.module(second),
            Kind::Prelude => self.module(second),
            Kind::Definition => format!("{} {}", self.thing(record.number), self.definition(record.number)),
            Kind::Scope => {
                let (module, name) = (self.module(first), self.name(third));
                format!("{module}: {} {name} = {}", self.visibility(record), self.definition(record.get(3)))
            }
            Kind::Import => {
                let (name, module) = (self.name(record.get(3)), self.module(record.get(4)));
                format!("{}: {name} = {} in {module}", self.krate(first), self.definition(third))
            }
            Kind::Extern => format!("{}: {} = {}", self.krate(first), self.name(second), self.module(third)),
            Kind::Member => format!("{}: {} = {}", self.definition(first), self.name(second), self.definition(third)),
            Kind::Question | Kind::Routed => format!("{} from {}", self.definition(first), self.module(third)),
            Kind::Reach => format!("from {}", self.module(first)),
        }
    }
}
