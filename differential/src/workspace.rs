//! Workspaces as Rust sources and, from one model, as snapshots: crates of all editions, modules, blocks, visibilities, imports, globs, variants,
//! hidden items, a prelude. The entries of the snapshot are those of rust-analyzer's maps; which of them the compiler has too is kept beside them.
use crate::keywords::is_raw;

#[derive(Clone, Copy, PartialEq, Eq, Debug)]
pub enum Vis {
    Public,
    Crate,
    /// `pub(self)`, `pub(super)`, `pub(in path)`: visible in that scope
    Explicit(usize),
    Private,
}

/// A crate's root, a `mod` or a block.
#[derive(Clone, Debug)]
pub struct Scope {
    pub krate: usize,
    pub parent: Option<usize>,
    pub block: bool,
}

#[derive(Clone, Debug)]
pub enum Kind {
    Module(usize),
    UnitStruct,
    /// with the visibility of its field
    TupleStruct(Vis),
    Enum(Vec<usize>),
    Function,
    Constant,
}

#[derive(Clone, Debug)]
pub struct Item {
    pub scope: usize,
    pub name: usize,
    pub kind: Kind,
    pub vis: Vis,
    pub hidden: bool,
}

/// What a name stands for.
#[derive(Clone, Copy, PartialEq, Eq, Debug)]
pub enum Meaning {
    Module(usize),
    Item(usize),
    /// an item that is an enum, and the place of the variant
    Variant(usize, usize),
}

/// A name of a scope, as rust-analyzer has it.
#[derive(Clone, Debug)]
pub(crate) struct Named {
    pub(crate) scope: usize,
    pub(crate) ns: usize,
    pub(crate) name: usize,
    pub(crate) meaning: Meaning,
    pub(crate) vis: Vis,
    /// the scope of a private visibility, which an import may have taken over
    pub(crate) of: usize,
    pub(crate) declared: bool,
    pub(crate) glob: bool,
    pub(crate) hidden: bool,
    /// the compiler has it too
    pub(crate) real: bool,
}

#[derive(Clone, Debug)]
pub struct Use {
    pub scope: usize,
    pub text: String,
    pub hidden: bool,
}

#[derive(Clone)]
pub struct Workspace {
    pub editions: Vec<usize>,
    pub names: Vec<String>,
    /// for each crate its dependencies with the names of the externs
    pub externs: Vec<Vec<(usize, usize)>>,
    /// crates that have an `extern crate` for each dependency
    pub extern_crates: Vec<bool>,
    /// the module whose names are a crate's prelude
    pub preludes: Vec<Option<(usize, String)>>,
    pub scopes: Vec<Scope>,
    pub items: Vec<Item>,
    pub uses: Vec<Use>,
    pub(crate) named: Vec<Named>,
    pub(crate) globs: Vec<Glob>,
}

#[derive(Clone, Debug)]
pub(crate) struct Glob {
    pub(crate) scope: usize,
    pub(crate) from: Meaning,
    pub(crate) vis: Vis,
    pub(crate) hidden: bool,
}

/// The crates' names come after the others.
pub(crate) const FIRST_CRATE_NAME: usize = TEXTS.len();

const TEXTS: [&str; 9] = ["a", "b", "c", "d", "e", "f", "type", "gen", "try"];

impl Workspace {
    /// Crates with their roots, with names to draw from.
    pub(crate) fn empty(editions: &[usize]) -> Workspace {
        let mut w = Workspace::bare(editions);
        w.names = TEXTS.iter().map(|text| text.to_string()).collect();
        w.names.extend((0..editions.len()).map(|krate| format!("k{krate}")));
        w
    }

    /// Crates with their roots, without names.
    pub(crate) fn bare(editions: &[usize]) -> Workspace {
        let crates = editions.len();
        let mut w = Workspace {
            editions: editions.to_vec(),
            names: Vec::new(),
            externs: vec![Vec::new(); crates],
            extern_crates: vec![false; crates],
            preludes: vec![None; crates],
            scopes: Vec::new(),
            items: Vec::new(),
            uses: Vec::new(),
            named: Vec::new(),
            globs: Vec::new(),
        };
        for krate in 0..crates {
            w.scopes.push(Scope { krate, parent: None, block: false });
        }
        w
    }

    /// The module around a scope, or the scope itself.
    pub fn nearest(&self, mut scope: usize) -> usize {
        while self.scopes[scope].block {
            scope = self.scopes[scope].parent.unwrap();
        }
        scope
    }

    pub(crate) fn above(&self, scope: usize) -> Option<usize> {
        self.scopes[self.nearest(scope)].parent.map(|parent| self.nearest(parent))
    }

    pub(crate) fn within(&self, scope: usize, module: usize) -> bool {
        let mut at = Some(self.nearest(scope));
        while let Some(scope) = at {
            if scope == self.nearest(module) {
                return true;
            }
            at = self.above(scope);
        }
        false
    }

    pub(crate) fn root(&self, scope: usize) -> usize {
        self.scopes[scope].krate
    }

    /// Visible in this module and below it; none is everywhere.
    pub(crate) fn restricted(&self, vis: Vis, of: usize) -> Option<usize> {
        match vis {
            Vis::Public => None,
            Vis::Crate => Some(self.root(of)),
            Vis::Explicit(scope) => Some(self.nearest(scope)),
            Vis::Private => Some(self.nearest(of)),
        }
    }

    pub(crate) fn allowed(&self, vis: Vis, of: usize, viewer: usize) -> bool {
        self.restricted(vis, of).is_none_or(|module| self.within(viewer, module))
    }

    pub(crate) fn at_least(&self, (vis, of): (Vis, usize), (other, other_of): (Vis, usize)) -> bool {
        match (self.restricted(vis, of), self.restricted(other, other_of)) {
            (None, _) => true,
            (Some(_), None) => false,
            (Some(module), Some(other)) => self.within(other, module),
        }
    }

    /// Whether every module from the root down to this one is a `mod` outside of blocks.
    pub(crate) fn chain(&self, module: usize) -> Option<Vec<usize>> {
        let mut chain = Vec::new();
        let mut at = module;
        while let Some(parent) = self.scopes[at].parent {
            if self.scopes[at].block {
                return None;
            }
            chain.push(at);
            at = parent;
        }
        chain.reverse();
        (!self.scopes[at].block).then_some(chain)
    }

    pub(crate) fn module_item(&self, module: usize) -> Option<usize> {
        self.items.iter().position(|item| matches!(item.kind, Kind::Module(own) if own == module))
    }

    pub fn written(&self, name: usize, krate: usize) -> String {
        let text = &self.names[name];
        if is_raw(text.as_bytes(), self.editions[krate]) { format!("r#{text}") } else { text.clone() }
    }

    pub(crate) fn vis_text(&self, vis: Vis, scope: usize) -> String {
        match vis {
            Vis::Public => "pub ".to_string(),
            Vis::Crate => "pub(crate) ".to_string(),
            Vis::Private => String::new(),
            Vis::Explicit(target) if target == scope => "pub(self) ".to_string(),
            Vis::Explicit(target) if Some(target) == self.scopes[self.nearest(scope)].parent => {
                "pub(super) ".to_string()
            }
            Vis::Explicit(target) => {
                let krate = self.scopes[scope].krate;
                let names = self.chain(target).unwrap();
                let names = names.iter().map(|&m| self.written(self.items[self.module_item(m).unwrap()].name, krate));
                let path: Vec<String> = std::iter::once("crate".to_string()).chain(names).collect();
                format!("pub(in {}) ", path.join("::"))
            }
        }
    }

    pub(crate) fn free(&self, scope: usize, ns: usize, name: usize) -> bool {
        !self.named.iter().any(|n| (n.scope, n.ns, n.name) == (scope, ns, name))
    }

    /// An item that is new to its scope.
    pub(crate) fn declare(&mut self, item: Item) -> Option<usize> {
        let (types, values) = match item.kind {
            Kind::Module(_) | Kind::Enum(_) => (Some(item.vis), None),
            Kind::UnitStruct => (Some(item.vis), Some(item.vis)),
            Kind::TupleStruct(field) => {
                let least = self.at_least((item.vis, item.scope), (field, item.scope));
                (Some(item.vis), Some(if least { field } else { item.vis }))
            }
            Kind::Function | Kind::Constant => (None, Some(item.vis)),
        };
        let entries: Vec<(usize, Vis)> =
            [types.map(|vis| (0, vis)), values.map(|vis| (1, vis))].into_iter().flatten().collect();
        if entries.iter().any(|&(ns, _)| !self.free(item.scope, ns, item.name)) {
            return None;
        }
        let number = self.items.len();
        let meaning = match item.kind {
            Kind::Module(module) => Meaning::Module(module),
            _ => Meaning::Item(number),
        };
        for (ns, vis) in entries {
            let Item { scope, name, hidden, .. } = item;
            let (of, declared, glob, real) = (scope, true, false, true);
            self.named.push(Named { scope, ns, name, meaning, vis, of, declared, glob, hidden, real });
        }
        self.items.push(item);
        Some(number)
    }

    /// The smaller of two visibilities as rust-analyzer takes it for an import in a scope: that of the import where they have nothing to do with
    /// each other, or where a block is between them.
    pub(crate) fn smaller(&self, source: (Vis, usize), import: (Vis, usize), scope: usize) -> (Vis, usize) {
        let module = |(vis, of): (Vis, usize)| match vis {
            Vis::Explicit(module) => module,
            _ => of,
        };
        match (source.0, import.0) {
            (_, Vis::Public) => source,
            (Vis::Public, _) => import,
            (Vis::Crate, Vis::Crate) => import,
            (Vis::Crate, _) => import,
            (_, Vis::Crate) => {
                if self.root(source.1) == self.root(import.1) {
                    source
                } else {
                    import
                }
            }
            _ => {
                let (a, b) = (module(source), module(import));
                if a == b {
                    return if matches!(source.0, Vis::Explicit(_)) { source } else { import };
                }
                let map = self.map_root(scope);
                if self.map_root(a) != map || self.map_root(b) != map {
                    return import;
                }
                let above = |mut at: usize, other: usize| {
                    while let Some(parent) = self.scopes[at].parent.filter(|_| !self.scopes[at].block) {
                        at = parent;
                        if at == other {
                            return true;
                        }
                    }
                    false
                };
                if above(a, b) { source } else { import }
            }
        }
    }

    /// The root of the map that a scope is of.
    pub(crate) fn map_root(&self, mut scope: usize) -> usize {
        while !self.scopes[scope].block && self.scopes[scope].parent.is_some() {
            scope = self.scopes[scope].parent.unwrap();
        }
        scope
    }

    /// What rust-analyzer's walk shows.
    fn walk_shows(&self, vis: Vis, of: usize, viewer: usize) -> bool {
        let target = match vis {
            Vis::Public => return true,
            Vis::Crate => return self.root(of) == self.root(viewer),
            Vis::Explicit(scope) => scope,
            Vis::Private => of,
        };
        if self.root(target) != self.root(viewer) {
            return false;
        }
        let mut target = target;
        loop {
            let map = self.map_root(target);
            if map == self.map_root(viewer) || !self.scopes[map].block {
                break;
            }
            target = self.scopes[map].parent.unwrap();
        }
        let mut at = Some(viewer);
        while let Some(scope) = at {
            if scope == target {
                return true;
            }
            at = self.scopes[scope].parent;
        }
        false
    }

    /// The entries that a name of a module, or of an enum, brings to a scope.
    pub(crate) fn brought(&self, from: Meaning, name: Option<usize>, scope: usize) -> Vec<Named> {
        let own_crate = |at: usize| self.root(at) == self.root(scope);
        match from {
            Meaning::Module(module) => {
                let has = |n: &&Named| n.scope == module && name.is_none_or(|name| n.name == name);
                let brings = |n: &&Named| match (own_crate(module), name) {
                    (false, _) => n.vis == Vis::Public,
                    (true, None) => self.walk_shows(n.vis, n.of, scope),
                    (true, Some(_)) => true,
                };
                let there = |n: &Named| n.real && self.allowed(n.vis, n.of, scope) && self.declared_for(n, scope);
                let taken = self.named.iter().filter(has).filter(brings);
                taken.map(|n| Named { real: there(n), ..n.clone() }).collect()
            }
            Meaning::Item(item) => {
                let Kind::Enum(variants) = &self.items[item].kind else { return Vec::new() };
                let of = self.items[item].scope;
                let mut all = Vec::new();
                for (place, &variant) in variants.iter().enumerate() {
                    if name.is_none_or(|name| name == variant) {
                        let meaning = Meaning::Variant(item, place);
                        let (declared, glob, hidden) = (false, false, false);
                        let real = self.allowed(self.items[item].vis, of, scope);
                        all.extend([0, 1].map(|ns| {
                            let vis = Vis::Public;
                            Named { scope: of, ns, name: variant, meaning, vis, of, declared, glob, hidden, real }
                        }));
                    }
                }
                all
            }
            Meaning::Variant(..) => Vec::new(),
        }
    }

    /// Whether what declares it may be named in the scope.
    fn declared_for(&self, n: &Named, scope: usize) -> bool {
        let item = match n.meaning {
            Meaning::Module(module) => match self.module_item(module) {
                Some(item) => item,
                None => return true,
            },
            Meaning::Item(item) | Meaning::Variant(item, _) => item,
        };
        let Item { scope: of, vis, ref kind, .. } = self.items[item];
        let vis = match (kind, n.ns, n.meaning) {
            (Kind::TupleStruct(field), 1, _) if self.at_least((vis, of), (*field, of)) => *field,
            _ => vis,
        };
        self.allowed(vis, of, scope)
    }

    /// The names that globs bring, until nothing changes; none where two bring different things under one name, or one brings a name that the
    /// compiler dropped from a `use`.
    pub(crate) fn with_globs(&self, globs: &[Glob]) -> Option<Vec<Named>> {
        let mut w = self.clone();
        w.named.retain(|n| !n.glob);
        loop {
            let before = w.named.len();
            for glob in globs {
                for n in w.brought(glob.from, None, glob.scope) {
                    let (vis, of) = w.smaller((n.vis, n.of), (glob.vis, glob.scope), glob.scope);
                    let old = w.named.iter().position(|o| (o.scope, o.ns, o.name) == (glob.scope, n.ns, n.name));
                    match old {
                        None => w.named.push(Named {
                            scope: glob.scope,
                            vis,
                            of,
                            declared: false,
                            glob: true,
                            hidden: glob.hidden,
                            ..n
                        }),
                        Some(old) if w.named[old].glob => {
                            let o = &w.named[old];
                            if o.meaning != n.meaning || o.real != n.real {
                                return None;
                            }
                            if (o.vis, o.of) != (vis, of) && !w.at_least((o.vis, o.of), (vis, of)) {
                                return None;
                            }
                        }
                        Some(old) if !w.named[old].real => return None,
                        Some(_) => (),
                    }
                }
            }
            if w.named.len() == before {
                return Some(w.named);
            }
        }
    }
}
