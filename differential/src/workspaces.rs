//! Random workspaces.
use crate::random::Random;
use crate::workspace::{Glob, Item, Kind, Meaning, Named, Scope, Use, Vis, Workspace};

struct Builder {
    r: Random,
    w: Workspace,
    /// the latest `use`: its scope, and the module and the name that it takes
    latest: Option<(usize, usize, usize)>,
    /// modules and names that a `use` has taken: nothing more comes under such a name
    taken: Vec<(usize, usize)>,
}

/// The workspace of a seed.
pub fn workspace(seed: u64) -> Workspace {
    let mut r = Random::new(seed ^ 0x3C6E_F372_FE94_F82B);
    let crates = r.pick(&[2, 2, 2, 2, 3, 3, 4]);
    let editions: Vec<usize> = (0..crates).map(|_| r.pick(&[2015, 2018, 2018, 2021, 2021, 2024])).collect();
    let mut b = Builder { r, w: Workspace::empty(&editions), latest: None, taken: Vec::new() };
    b.dependencies();
    b.scopes();
    b.items();
    b.extern_crates();
    for _ in 0..b.r.from_to(4, 24) {
        b.single_use();
    }
    for _ in 0..b.r.from_to(0, 5) {
        b.glob_use();
    }
    b.preludes();
    b.w
}

impl Builder {
    fn dependencies(&mut self) {
        let crates = self.w.editions.len();
        for krate in 1..crates {
            for other in 0..krate {
                if self.r.percent(if other + 1 == krate { 90 } else { 50 }) {
                    let own = crate::workspace::FIRST_CRATE_NAME + other;
                    let name = if self.r.percent(65) { own } else { self.r.below(6) };
                    if self.w.externs[krate].iter().all(|&(_, taken)| taken != name) {
                        self.w.externs[krate].push((other, name));
                    }
                }
            }
        }
    }

    fn name(&mut self) -> usize {
        if self.r.percent(8) {
            return self.r.below(self.w.names.len());
        }
        self.r.pick(&[0, 0, 0, 1, 1, 2, 2, 3, 4, 5, 6, 7, 8])
    }

    fn vis(&mut self, scope: usize) -> Vis {
        let nearest = self.w.nearest(scope);
        match self.r.below(20) {
            0..=8 => Vis::Public,
            9..=10 => Vis::Crate,
            11..=12 => self.w.scopes[nearest].parent.map_or(Vis::Crate, Vis::Explicit),
            13 => Vis::Explicit(scope),
            14 if self.w.chain(nearest).is_some() => {
                let mut chain = self.w.chain(nearest).unwrap();
                chain.insert(0, self.w.root(scope));
                Vis::Explicit(self.r.pick(&chain))
            }
            _ => Vis::Private,
        }
    }

    fn add_scope(&mut self, parent: usize, block: bool) {
        let scope = self.w.scopes.len();
        let krate = self.w.scopes[parent].krate;
        if !block {
            let (name, vis, hidden) = (self.name(), self.vis(parent), self.r.percent(12));
            let item = Item { scope: parent, name, kind: Kind::Module(scope), vis, hidden };
            if self.w.declare(item).is_none() {
                return;
            }
        }
        self.w.scopes.push(Scope { krate, parent: Some(parent), block });
    }

    fn scopes(&mut self) {
        for krate in 0..self.w.editions.len() {
            for _ in 0..self.r.from_to(2, 6) {
                let own: Vec<usize> = (0..self.w.scopes.len()).filter(|&s| self.w.root(s) == krate).collect();
                let parent = if self.r.percent(50) { *own.last().unwrap() } else { self.r.pick(&own) };
                let block = self.r.percent(35);
                self.add_scope(parent, block);
            }
        }
    }

    fn items(&mut self) {
        for scope in 0..self.w.scopes.len() {
            for _ in 0..self.r.from_to(0, 4) {
                let kind = match self.r.below(10) {
                    0..=2 => Kind::UnitStruct,
                    3..=4 => Kind::TupleStruct(if self.r.percent(50) { Vis::Private } else { self.vis(scope) }),
                    5..=6 => {
                        let mut variants = vec![self.name(), self.name()];
                        variants.dedup();
                        Kind::Enum(variants)
                    }
                    7..=8 => Kind::Function,
                    _ => Kind::Constant,
                };
                let (name, vis, hidden) = (self.name(), self.vis(scope), self.r.percent(12));
                self.w.declare(Item { scope, name, kind, vis, hidden });
            }
        }
    }

    /// In 2015 a `use` line names a dependency by its `extern crate`.
    fn extern_crates(&mut self) {
        for krate in 0..self.w.editions.len() {
            let wanted = if self.w.editions[krate] == 2015 { 75 } else { 10 };
            let externs = self.w.externs[krate].clone();
            let free = externs.iter().all(|&(_, name)| self.w.free(krate, 0, name));
            if !externs.is_empty() && free && self.r.percent(wanted) {
                self.w.extern_crates[krate] = true;
                for (other, name) in externs {
                    self.w.named.push(Named {
                        scope: krate,
                        ns: 0,
                        name,
                        meaning: Meaning::Module(other),
                        vis: Vis::Private,
                        of: krate,
                        declared: false,
                        glob: false,
                        hidden: false,
                        real: true,
                    });
                }
            }
        }
    }

    /// A `use` path from a scope to a module, without names that something else may stand for.
    fn path_to(&mut self, module: usize, scope: usize) -> Option<Vec<String>> {
        let w = &self.w;
        let krate = w.root(scope);
        let chain = w.chain(module);
        let down = |from: usize, chain: &[usize]| -> Option<Vec<String>> {
            let mut at = from;
            let mut names = Vec::new();
            for &module in chain {
                let item = &w.items[w.module_item(module)?];
                if item.scope != at || !w.allowed(item.vis, item.scope, scope) {
                    return None;
                }
                names.push(w.written(item.name, krate));
                at = module;
            }
            Some(names)
        };
        let mut found: Vec<Vec<String>> = Vec::new();
        if w.root(module) != krate {
            let name = w.externs[krate].iter().find(|(other, _)| *other == w.root(module))?.1;
            let mut path = match w.editions[krate] {
                2015 if !w.extern_crates[krate] => return None,
                2015 => vec![w.written(name, krate)],
                _ => vec![String::new(), w.written(name, krate)],
            };
            path.extend(down(w.root(module), &chain?)?);
            return Some(path);
        }
        if let Some(names) = chain.and_then(|chain| down(krate, &chain)) {
            found.push(std::iter::once("crate".to_string()).chain(names).collect());
        }
        let mut up = Some(w.nearest(scope));
        let mut supers = 0;
        while let Some(at) = up {
            let mut below = Vec::new();
            let mut walk = module;
            while walk != at && !w.scopes[walk].block && w.scopes[walk].parent.is_some() {
                below.push(walk);
                walk = w.scopes[walk].parent.unwrap();
            }
            below.reverse();
            if let (true, Some(names)) = (walk == at, down(at, &below)) {
                let mut path = if supers == 0 { vec!["self".to_string()] } else { vec!["super".to_string(); supers] };
                path.extend(names);
                found.push(path);
            }
            up = w.above(at);
            supers += 1;
        }
        if found.is_empty() { None } else { Some(found.swap_remove(self.r.below(found.len()))) }
    }

    /// A visibility that the `use` of something with these may have.
    fn use_vis(&mut self, scope: usize, sources: &[(Vis, usize)]) -> Vis {
        let vis = self.vis(scope);
        let fits = sources.iter().any(|&source| self.w.at_least(source, (vis, scope)));
        if fits { vis } else { Vis::Private }
    }

    /// A `use` of one name, now and then of what the one before it named, in the same scope.
    fn single_use(&mut self) {
        let w = &self.w;
        let sources: Vec<(usize, usize)> =
            w.named.iter().filter(|n| !w.scopes[n.scope].block && n.real).map(|n| (n.scope, n.name)).collect();
        if sources.is_empty() {
            return;
        }
        let (scope, module, name) = match self.latest {
            Some(latest) if self.r.percent(25) => latest,
            _ => {
                let (module, name) = self.r.pick(&sources);
                (self.r.below(self.w.scopes.len()), module, name)
            }
        };
        self.latest = Some((scope, module, name));
        let Some(mut path) = self.path_to(module, scope) else { return };
        let krate = self.w.root(scope);
        path.push(self.w.written(name, krate));
        let mut from = (Meaning::Module(module), name);
        let mut source = None;
        // a variant of it
        let entry = self.w.named.iter().find(|n| (n.scope, n.ns, n.name) == (module, 0, name));
        if let Some(Named { meaning: meaning @ Meaning::Item(item), vis, of, .. }) = entry
            && let Kind::Enum(variants) = &self.w.items[*item].kind
            && self.w.allowed(*vis, *of, scope)
            && self.r.percent(50)
        {
            let variant = variants[self.r.below(variants.len())];
            from = (*meaning, variant);
            source = Some((self.w.items[*item].vis, self.w.items[*item].scope));
            path.push(self.w.written(variant, krate));
        }
        let brought = self.w.brought(from.0, Some(from.1), scope);
        let alias = if self.r.percent(50) { from.1 } else { self.name() };
        let there: Vec<(Vis, usize)> =
            brought.iter().filter(|n| n.real).map(|n| source.unwrap_or((n.vis, n.of))).collect();
        let free = |n: &Named| self.w.free(scope, n.ns, alias);
        if there.is_empty() || !brought.iter().all(free) || self.taken.contains(&(scope, alias)) {
            return;
        }
        self.taken.push((module, name));
        let (vis, hidden) = (self.use_vis(scope, &there), self.r.percent(10));
        for n in brought {
            let (entry_vis, of) = self.w.smaller((n.vis, n.of), (vis, scope), scope);
            self.w.named.push(Named {
                scope,
                name: alias,
                vis: entry_vis,
                of,
                declared: false,
                glob: false,
                hidden,
                ..n
            });
        }
        let vis = self.w.vis_text(vis, scope);
        let text = format!("{vis}use {} as {};", path.join("::"), self.w.written(alias, krate));
        self.w.uses.push(Use { scope, text, hidden });
    }

    fn glob_use(&mut self) {
        let scope = self.r.below(self.w.scopes.len());
        let module = self.r.below(self.w.scopes.len());
        if self.w.scopes[module].block || module == self.w.nearest(scope) {
            return;
        }
        let Some(mut path) = self.path_to(module, scope) else { return };
        let krate = self.w.root(scope);
        let mut from = Meaning::Module(module);
        let enums: Vec<(usize, Meaning)> = self
            .w
            .named
            .iter()
            .filter(|n| n.scope == module && n.ns == 0 && n.real && self.w.allowed(n.vis, n.of, scope))
            .filter(|n| matches!(n.meaning, Meaning::Item(item) if matches!(self.w.items[item].kind, Kind::Enum(_))))
            .map(|n| (n.name, n.meaning))
            .collect();
        if !enums.is_empty() && self.r.percent(50) {
            let (name, meaning) = self.r.pick(&enums);
            path.push(self.w.written(name, krate));
            from = meaning;
        }
        let (vis, hidden) = (self.vis(scope), self.r.percent(10));
        let mut globs = self.w.globs.clone();
        globs.push(Glob { scope, from, vis, hidden });
        let Some(named) = self.w.with_globs(&globs) else { return };
        if named[self.w.named.iter().filter(|n| !n.glob).count()..]
            .iter()
            .any(|n| self.taken.contains(&(n.scope, n.name)))
        {
            return;
        }
        self.w.named = named;
        self.w.globs = globs;
        let text = format!("{}use {}::*;", self.w.vis_text(vis, scope), path.join("::"));
        self.w.uses.push(Use { scope, text, hidden });
    }

    /// A module of a dependency as a crate's prelude.
    fn preludes(&mut self) {
        for krate in 0..self.w.editions.len() {
            if self.w.externs[krate].is_empty() || self.w.editions[krate] == 2015 || !self.r.percent(45) {
                continue;
            }
            let place = self.r.below(self.w.externs[krate].len());
            let (other, _) = self.w.externs[krate][place];
            let modules: Vec<usize> =
                (0..self.w.scopes.len()).filter(|&s| self.w.root(s) == other && self.w.chain(s).is_some()).collect();
            let module = self.r.pick(&modules);
            if let Some(path) = self.path_to(module, krate) {
                self.w.preludes[krate] = Some((module, path.join("::")));
            }
        }
    }
}
