//! Is there any path at all that names an item in a module? By the Reference's privacy, and with nothing of the search: a reading of its own, and the
//! shortest path that reads to the item, found breadth first. With a mistake it is a wrong program.
use crate::check::{Module, Scope, Snapshot};
use crate::reading::{Item, item, visible};
use crate::tables::Map;

/// Names of the longest path that is given.
pub const LONGEST: usize = 16;

#[derive(Clone, Copy, PartialEq, Eq, PartialOrd, Ord, Debug)]
pub enum Start {
    SelfModule,
    Super(usize),
    Crate,
    /// a leading `::`
    Extern,
    Plain,
}

#[derive(Clone, PartialEq, Eq, Debug)]
pub struct AnyPath {
    pub start: Start,
    pub names: Vec<usize>,
}

#[derive(Clone, PartialEq, Eq, Debug)]
pub enum Answer {
    Found(AnyPath),
    /// each path has more names than are given
    Longer,
    None,
}

#[derive(Clone, Copy, PartialEq, Eq, Debug)]
pub enum Mistake {
    VisibleByTheWalk,
    NoDeclaration,
    CountsEverywhere,
    UnseenEntryEnds,
    NoBlockLeft,
    BlockLeftFromItsModules,
    SelfKeepsTheBlock,
    OneSuper,
    ColonsIn2015,
    NoExterns,
    ExternsFirst,
    NoPrelude,
    HiddenPassedOver,
    FirstEntryAlone,
    VariantsInTypesAlone,
}

use Mistake::*;

pub const MISTAKES: [Mistake; 15] = [
    VisibleByTheWalk,
    NoDeclaration,
    CountsEverywhere,
    UnseenEntryEnds,
    NoBlockLeft,
    BlockLeftFromItsModules,
    SelfKeepsTheBlock,
    OneSuper,
    ColonsIn2015,
    NoExterns,
    ExternsFirst,
    NoPrelude,
    HiddenPassedOver,
    FirstEntryAlone,
    VariantsInTypesAlone,
];

/// What one module sees.
pub struct Viewer<'s> {
    s: &'s Snapshot,
    from: usize,
    mistake: Option<Mistake>,
}

impl<'s> Viewer<'s> {
    pub fn new(s: &'s Snapshot, from: usize) -> Viewer<'s> {
        Viewer { s, from, mistake: None }
    }

    pub fn mistaken(s: &'s Snapshot, from: usize, mistake: Mistake) -> Viewer<'s> {
        Viewer { s, from, mistake: Some(mistake) }
    }

    fn has(&self, mistake: Mistake) -> bool {
        self.mistake == Some(mistake)
    }

    fn krate(&self, module: usize) -> usize {
        self.s.maps[self.s.modules[module].map].krate
    }

    /// The module around a block for the block's root, else the module itself.
    fn nearest(&self, mut module: usize) -> usize {
        loop {
            let Module { map, parent } = self.s.modules[module];
            match (parent, self.s.maps[map].block) {
                (0, block) if block != 0 => module = block - 1,
                _ => return module,
            }
        }
    }

    fn above(&self, module: usize) -> Option<usize> {
        self.s.modules[self.nearest(module)].parent.checked_sub(1).map(|parent| self.nearest(parent))
    }

    /// What has this visibility may be named in the module.
    fn allowed(&self, e: &Scope, module: usize) -> bool {
        if self.has(VisibleByTheWalk) {
            return visible(self.s, module, e);
        }
        let target = match e.visibility {
            0 => return true,
            1 => return self.krate(module) == e.number,
            _ => self.nearest(e.number),
        };
        let mut at = Some(self.nearest(module));
        while let Some(module) = at {
            if module == target {
                return true;
            }
            at = self.above(module);
        }
        false
    }

    /// The entry that declares the item, where there is one.
    fn declaration(&self, item: Item) -> Option<&Scope> {
        let (home, ns, definition) = match item {
            Item::Module(module) => {
                let parent = self.s.modules[module].parent.checked_sub(1)?;
                let definition = self.s.definitions.iter().position(|d| d.kind == 1 && d.first == module)?;
                (parent, 0, definition)
            }
            Item::Other(ns, definition) => match self.s.definitions[definition].kind {
                // In values or macros it is another item, declared where the module is.
                1 => (self.s.modules[self.s.definitions[definition].first].parent.checked_sub(1)?, ns, definition),
                3 => return None,
                2 => {
                    let parent = self.s.definitions[definition].first;
                    (self.s.definitions[parent].first, 0, parent)
                }
                _ => (self.s.definitions[definition].first, ns, definition),
            },
        };
        let declares = |e: &&Scope| e.declared && (e.owner, e.ns, e.definition) == (home, ns, definition);
        self.s.scopes.iter().find(declares)
    }

    /// The entry is there for the compiler in its own module, and may be named in the viewing one.
    fn seen(&self, e: &Scope) -> bool {
        let own = item(self.s, e.ns, e.definition);
        let declared = if self.has(NoDeclaration) { None } else { self.declaration(own) };
        let modules = if self.has(CountsEverywhere) { [self.from; 2] } else { [e.owner, self.from] };
        let first = || self.s.scopes.iter().find(|f| f.owner == e.owner && item(self.s, f.ns, f.definition) == own);
        if self.has(HiddenPassedOver) && e.bits % 2 == 1
            || self.has(FirstEntryAlone) && first().is_some_and(|first| first.name != e.name)
        {
            return false;
        }
        modules
            .into_iter()
            .all(|module| self.allowed(e, module) && declared.is_none_or(|declared| self.allowed(declared, module)))
    }

    fn entry(&self, module: usize, ns: usize, name: usize) -> Option<Item> {
        let named = |e: &&Scope| (e.owner, e.ns, e.name) == (module, ns, name);
        let e = self.s.scopes.iter().find(named).filter(|e| self.seen(e))?;
        Some(item(self.s, ns, e.definition))
    }

    fn external(&self, name: usize) -> Option<Item> {
        if self.has(NoExterns) {
            return None;
        }
        let krate = self.krate(self.from);
        let e = self.s.externs.iter().find(|e| e.owner == krate && e.name == name)?;
        Some(Item::Module(e.target))
    }

    fn first(&self, ns: usize, name: usize) -> Option<Item> {
        let external = if ns == 0 { self.external(name) } else { None };
        if external.is_some() && self.has(ExternsFirst) {
            return external;
        }
        let mut at = Some(self.from);
        while let Some(module) = at {
            if let Some(found) = self.entry(module, ns, name) {
                return Some(found);
            }
            if self.has(UnseenEntryEnds) && self.s.scopes.iter().any(|e| (e.owner, e.ns, e.name) == (module, ns, name))
            {
                return None;
            }
            let Module { map, parent } = self.s.modules[module];
            let left = (parent == 0 || self.has(BlockLeftFromItsModules)) && !self.has(NoBlockLeft);
            at = if left { self.s.maps[map].block.checked_sub(1) } else { None };
        }
        external.or_else(|| {
            if self.has(NoPrelude) {
                return None;
            }
            let map = self.s.modules[self.from].map;
            let prelude = self.s.preludes.iter().find(|prelude| prelude.map == map)?;
            self.entry(prelude.target, ns, name)
        })
    }

    fn later(&self, at: Item, ns: usize, name: usize) -> Option<Item> {
        match at {
            Item::Module(module) => self.entry(module, ns, name),
            Item::Other(_, _) if ns == 2 || ns == 1 && self.has(VariantsInTypesAlone) => None,
            Item::Other(_, parent) => {
                let named = |m: &&crate::check::Member| m.kind == 0 && (m.parent, m.name) == (parent, name);
                let member = self.s.members.iter().find(named)?;
                Some(item(self.s, ns, member.definition))
            }
        }
    }

    /// The module of a keyword.
    fn keyword(&self, start: Start) -> Option<usize> {
        match start {
            Start::SelfModule if self.has(SelfKeepsTheBlock) => Some(self.from),
            Start::SelfModule => Some(self.nearest(self.from)),
            Start::Super(times) if times > 1 && self.has(OneSuper) => None,
            Start::Super(times) => (0..times).try_fold(self.nearest(self.from), |module, _| self.above(module)),
            Start::Crate => {
                let krate = self.krate(self.from);
                let own = self.s.maps.iter().position(|map| map.krate == krate && map.block == 0)?;
                self.s.modules.iter().position(|module| module.map == own)
            }
            Start::Extern | Start::Plain => None,
        }
    }

    /// The beginning of a path: a keyword, or a first name.
    fn begin(&self, start: Start, first: Option<(usize, usize)>) -> Option<Item> {
        match (start, first) {
            (Start::Extern, Some((0, name))) => self.external(name).filter(|_| self.absolute()),
            (Start::Plain, Some((ns, name))) => self.first(ns, name),
            (Start::Extern | Start::Plain, _) => None,
            (keyword, _) => self.keyword(keyword).map(Item::Module),
        }
    }

    /// A leading `::` begins at an extern, and in 2015 at the crate's root.
    fn absolute(&self) -> bool {
        self.s.crates[self.krate(self.from)].edition != 2015 || self.has(ColonsIn2015)
    }

    /// What a path names, its last name in that namespace.
    pub fn reads_to(&self, ns: usize, path: &AnyPath) -> Option<Item> {
        let last = path.names.len();
        let ns_of = |place: usize| if place == last { ns } else { 0 };
        let named = matches!(path.start, Start::Extern | Start::Plain);
        let first = path.names.first().map(|&name| (ns_of(1), name));
        let mut at = self.begin(path.start, first.filter(|_| named))?;
        for (place, &name) in path.names.iter().enumerate().skip(usize::from(named)) {
            at = self.later(at, ns_of(place + 1), name)?;
        }
        Some(at)
    }

    /// All keywords that lead to a module from here.
    pub fn keywords(&self) -> Vec<Start> {
        let supers = (1..).map(Start::Super).take_while(|&start| self.keyword(start).is_some());
        [Start::SelfModule, Start::Crate].into_iter().chain(supers).collect()
    }

    /// A shortest path to the item.
    pub fn any_path(&self, ns: usize, definition: usize) -> Answer {
        let wanted = item(self.s, ns, definition);
        let mut reached: Vec<(Item, AnyPath)> = Vec::new();
        let mut known: Map<Item, usize> = Map::default();
        let mut reach = |reached: &mut Vec<(Item, AnyPath)>, item: Item, path: AnyPath| {
            known.entry(item).or_insert_with(|| {
                reached.push((item, path));
                reached.len()
            });
        };
        for start in self.keywords() {
            let module = self.keyword(start).map(Item::Module).unwrap();
            reach(&mut reached, module, AnyPath { start, names: Vec::new() });
        }
        let mut best: Option<AnyPath> = None;
        let mut offer = |path: &AnyPath| {
            if best.as_ref().is_none_or(|best| path.names.len() < best.names.len()) {
                best = Some(path.clone());
            }
        };
        let names = 0..self.s.names.len();
        // with one name: from the keywords' modules, by a leading `::`, plain; then from what was reached
        let keywords = reached.len();
        let mut place = 0;
        while place < reached.len() || place == keywords {
            if place == keywords {
                for start in [Start::Extern, Start::Plain] {
                    for name in names.clone() {
                        let path = AnyPath { start, names: vec![name] };
                        if self.begin(start, Some((ns, name))) == Some(wanted) {
                            offer(&path);
                        }
                        if let Some(found) = self.begin(start, Some((0, name))) {
                            reach(&mut reached, found, path);
                        }
                    }
                }
                if place == reached.len() {
                    break;
                }
            }
            let (at, path) = reached[place].clone();
            place += 1;
            if at == wanted {
                offer(&path);
            }
            for name in names.clone() {
                let longer = || AnyPath { start: path.start, names: [&path.names[..], &[name]].concat() };
                if self.later(at, ns, name) == Some(wanted) {
                    offer(&longer());
                }
                if let Some(found) = self.later(at, 0, name) {
                    reach(&mut reached, found, longer());
                }
            }
        }
        match best {
            None => Answer::None,
            Some(path) if path.names.len() > LONGEST => Answer::Longer,
            Some(path) => Answer::Found(path),
        }
    }

    /// Whether some path of at most so many names reads to the item, and how many names the shortest has: each path is tried.
    pub fn tried(&self, ns: usize, definition: usize, most: usize) -> Option<usize> {
        let wanted = item(self.s, ns, definition);
        let mut starts = self.keywords();
        starts.extend([Start::Extern, Start::Plain]);
        (0..=most).find(|&length| starts.iter().any(|&start| self.try_from(start, &mut Vec::new(), length, ns, wanted)))
    }

    fn try_from(&self, start: Start, names: &mut Vec<usize>, length: usize, ns: usize, wanted: Item) -> bool {
        let read = |ns: usize, names: &[usize]| self.reads_to(ns, &AnyPath { start, names: names.to_vec() });
        if names.len() == length {
            return read(ns, names) == Some(wanted);
        }
        // what is before the last name has to be there, in types
        if !names.is_empty() && read(0, names).is_none() {
            return false;
        }
        (0..self.s.names.len()).any(|name| {
            names.push(name);
            let found = self.try_from(start, names, length, ns, wanted);
            names.pop();
            found
        })
    }
}

/// The path as it is written in a module.
pub fn text(path: &AnyPath, written: impl Fn(usize) -> String) -> String {
    let mut parts: Vec<String> = match path.start {
        Start::SelfModule => vec!["self".to_string()],
        Start::Super(times) => vec!["super".to_string(); times],
        Start::Crate => vec!["crate".to_string()],
        Start::Extern => vec![String::new()],
        Start::Plain => Vec::new(),
    };
    parts.extend(path.names.iter().map(|&name| written(name)));
    parts.join("::")
}
