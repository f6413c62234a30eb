//! A workspace as a snapshot, and as Rust sources with probes in them.
use crate::check::{
    Child, DefMap, Definition, Dependency, Extern, Krate, Member, Module, Prelude, Scope as Entry, Snapshot,
};
use crate::import_rule::list;
use crate::workspace::{Item, Kind, Meaning, Named, Vis, Workspace};

/// A snapshot with the numbers of what is in it.
pub struct Written {
    pub s: Snapshot,
    /// for each scope its module
    pub modules: Vec<usize>,
    /// for each definition what it is
    pub meanings: Vec<Meaning>,
    /// the snapshot without the entries that the compiler does not have
    pub real: Snapshot,
}

/// A line put into a scope.
pub struct Probe {
    pub scope: usize,
    pub line: String,
    /// a `use` line beside the function with the line
    pub before: Option<String>,
}

impl Workspace {
    /// The roots of the maps: crates, then blocks.
    fn map_roots(&self) -> Vec<usize> {
        (0..self.scopes.len()).filter(|&s| self.scopes[s].parent.is_none() || self.scopes[s].block).collect()
    }

    pub fn snapshot(&self) -> Written {
        let roots = self.map_roots();
        let map_of = |scope: usize| roots.iter().position(|&root| root == self.map_root(scope)).unwrap();
        let mut order: Vec<usize> = (0..self.scopes.len()).collect();
        order.sort_by_key(|&scope| (map_of(scope), scope));
        let mut modules = vec![0; order.len()];
        order.iter().enumerate().for_each(|(number, &scope)| modules[scope] = number);
        let mut s = Snapshot {
            names: self.names.iter().map(|name| name.clone().into_bytes()).collect(),
            ..Snapshot::default()
        };
        s.crates = self.editions.iter().map(|&edition| Krate { origin: 0, no_std: false, edition }).collect();
        for (owner, externs) in self.externs.iter().enumerate() {
            for &(krate, name) in externs {
                s.dependencies.push(Dependency { owner, krate, sysroot: false });
                s.externs.push(Extern { owner, name, target: modules[krate] });
            }
        }
        for &root in &roots {
            let block = self.scopes[root].parent.map_or(0, |parent| modules[parent] + 1);
            s.maps.push(DefMap { krate: self.root(root), block, no_std: false });
        }
        for &scope in &order {
            let parent = self.scopes[scope].parent.filter(|_| !self.scopes[scope].block);
            s.modules.push(Module { map: map_of(scope), parent: parent.map_or(0, |parent| modules[parent] + 1) });
            if let Some(parent) = parent {
                s.children.push(Child { owner: modules[parent], child: modules[scope] });
            }
        }
        for (map, &root) in roots.iter().enumerate() {
            if let Some((target, _)) = &self.preludes[self.root(root)] {
                s.preludes.push(Prelude { map, target: modules[*target] });
            }
        }
        let mut meanings = Vec::new();
        self.define(&mut s, &modules, &mut meanings);
        for n in &self.named {
            s.scopes.push(self.entry(n, &modules, &meanings));
        }
        for krate in 0..s.crates.len() {
            let imports = list(&s, krate, None);
            s.imports.extend(imports);
        }
        let mut real = s.clone();
        let mut named = self.named.iter();
        real.scopes.retain(|_| named.next().unwrap().real);
        Written { s, modules, meanings, real }
    }

    fn define(&self, s: &mut Snapshot, modules: &[usize], meanings: &mut Vec<Meaning>) {
        for scope in (0..self.scopes.len()).filter(|&scope| !self.scopes[scope].block) {
            s.definitions.push(Definition { kind: 1, first: modules[scope], second: 0 });
            meanings.push(Meaning::Module(scope));
        }
        for (number, item) in self.items.iter().enumerate() {
            if let Kind::Module(_) = item.kind {
                continue;
            }
            let parent = s.definitions.len();
            s.definitions.push(Definition { kind: 4, first: modules[item.scope], second: 0 });
            meanings.push(Meaning::Item(number));
            if let Kind::Enum(variants) = &item.kind {
                for (place, &name) in variants.iter().enumerate() {
                    s.members.push(Member { parent, name, definition: s.definitions.len(), kind: 0, bits: 0 });
                    s.definitions.push(Definition { kind: 2, first: parent, second: name });
                    meanings.push(Meaning::Variant(number, place));
                }
            }
        }
    }

    fn entry(&self, n: &Named, modules: &[usize], meanings: &[Meaning]) -> Entry {
        let (visibility, number) = match n.vis {
            Vis::Public => (0, 0),
            Vis::Crate => (1, self.root(n.of)),
            Vis::Explicit(scope) => (2, modules[scope]),
            Vis::Private => (3, modules[n.of]),
        };
        Entry {
            owner: modules[n.scope],
            ns: n.ns,
            name: n.name,
            definition: meanings.iter().position(|meaning| *meaning == n.meaning).unwrap(),
            visibility,
            number,
            declared: n.declared,
            deprecated: false,
            bits: usize::from(n.hidden),
        }
    }

    /// The lines of a crate with probes, and for each line the number of its probe.
    pub fn source(&self, krate: usize, probes: &[Probe], kept: &[usize]) -> (String, Vec<Option<usize>>) {
        let mut lines: Vec<(String, Option<usize>)> = Vec::new();
        let mut put = |text: String| lines.push((text, None));
        put("#![feature(no_core, prelude_import)]".to_string());
        put("#![no_core]".to_string());
        put("extern crate __m;".to_string());
        if self.extern_crates[krate] {
            for &(_, name) in &self.externs[krate] {
                put(format!("extern crate {};", self.written(name, krate)));
            }
        }
        if let Some((_, path)) = &self.preludes[krate] {
            put(format!("#[prelude_import] use {path}::*;"));
        }
        self.scope_source(krate, probes, kept, &mut lines);
        let text = lines.iter().map(|(line, _)| format!("{line}\n")).collect();
        (text, lines.into_iter().map(|(_, probe)| probe).collect())
    }

    fn scope_source(&self, scope: usize, probes: &[Probe], kept: &[usize], lines: &mut Vec<(String, Option<usize>)>) {
        if !self.scopes[scope].block {
            lines.push((
                format!("pub const __k: crate::__m::T<{}> = crate::__m::T;", self.number(Meaning::Module(scope))),
                None,
            ));
        }
        for (number, item) in self.items.iter().enumerate().filter(|(_, item)| item.scope == scope) {
            if item.hidden {
                lines.push(("#[doc(hidden)]".to_string(), None));
            }
            if let Kind::Module(module) = item.kind {
                lines.push((
                    format!("{}mod {} {{", self.vis_text(item.vis, scope), self.written(item.name, self.root(scope))),
                    None,
                ));
                self.scope_source(module, probes, kept, lines);
                lines.push(("}".to_string(), None));
            } else {
                lines.push((self.item_text(number, item), None));
            }
        }
        for line in self.uses.iter().filter(|line| line.scope == scope) {
            let hidden = if line.hidden { "#[doc(hidden)] " } else { "" };
            lines.push((format!("{hidden}{}", line.text), None));
        }
        for block in (0..self.scopes.len()).filter(|&s| self.scopes[s].block && self.scopes[s].parent == Some(scope)) {
            lines.push((format!("fn __b{block}() {{"), None));
            self.scope_source(block, probes, kept, lines);
            lines.push(("}".to_string(), None));
        }
        let own: Vec<usize> = kept.iter().copied().filter(|&probe| probes[probe].scope == scope).collect();
        for &probe in &own {
            lines.extend(probes[probe].before.iter().map(|line| (line.clone(), Some(probe))));
        }
        if !own.is_empty() {
            lines.push((format!("fn __p{scope}() {{"), None));
            lines.extend(own.into_iter().map(|probe| (probes[probe].line.clone(), Some(probe))));
            lines.push(("}".to_string(), None));
        }
    }

    /// A number for the type that only this has.
    fn number(&self, meaning: Meaning) -> usize {
        match meaning {
            Meaning::Module(scope) => scope,
            Meaning::Item(item) => 1000 + 10 * item,
            Meaning::Variant(item, place) => 1001 + 10 * item + place,
        }
    }

    fn item_text(&self, number: usize, item: &Item) -> String {
        let Item { scope, name, kind, vis, .. } = item;
        let own = self.number(Meaning::Item(number));
        let (vis, name) = (self.vis_text(*vis, *scope), self.written(*name, self.root(*scope)));
        let is = format!("impl crate::__m::Is<{own}> for {name} {{}}");
        match kind {
            Kind::Module(_) => unreachable!(),
            Kind::UnitStruct => format!("{vis}struct {name}; {is}"),
            Kind::TupleStruct(field) => {
                let field = self.vis_text(*field, *scope);
                format!("{vis}struct {name}({field}crate::__m::T<{own}>); {is}")
            }
            Kind::Enum(variants) => {
                let variant = |(place, &variant): (usize, &usize)| {
                    let payload = self.number(Meaning::Variant(number, place));
                    format!("{}(crate::__m::T<{payload}>)", self.written(variant, self.root(*scope)))
                };
                let variants: Vec<String> = variants.iter().enumerate().map(variant).collect();
                format!("{vis}enum {name} {{ {} }} {is}", variants.join(", "))
            }
            Kind::Function => format!("{vis}fn {name}() -> crate::__m::T<{own}> {{ loop {{}} }}"),
            Kind::Constant => format!("{vis}const {name}: crate::__m::T<{own}> = crate::__m::T;"),
        }
    }

    /// A line that compiles where the path names this in this namespace.
    pub fn probe(&self, scope: usize, meaning: Meaning, ns: usize, path: &str) -> Probe {
        let own = self.number(meaning);
        let line = match meaning {
            Meaning::Module(_) => format!("let _: crate::__m::T<{own}> = {path}::__k;"),
            Meaning::Variant(item, _) => {
                let of = self.number(Meaning::Item(item));
                match ns {
                    0 => format!("crate::__m::value::<_, {of}>({path} {{ 0: crate::__m::T::<{own}> }});"),
                    _ => format!("crate::__m::ctor::<_, {own}, {of}>({path});"),
                }
            }
            Meaning::Item(item) => match (&self.items[item].kind, ns) {
                (_, 0) => format!("crate::__m::ty::<{path}, {own}>();"),
                (Kind::UnitStruct, _) => format!("crate::__m::value::<_, {own}>({path});"),
                (Kind::TupleStruct(_), _) => format!("crate::__m::ctor::<_, {own}, {own}>({path});"),
                (Kind::Function, _) => format!("let _: fn() -> crate::__m::T<{own}> = {path};"),
                _ => format!("let _: crate::__m::T<{own}> = {path};"),
            },
        };
        Probe { scope, line, before: None }
    }
}

/// The crate that every other one has for its probes.
pub const PROBES: &str = r#"#![feature(no_core, lang_items, auto_traits)]
#![no_core]
#[lang = "pointee_sized"] pub trait PointeeSized {}
#[lang = "meta_sized"] pub trait MetaSized: PointeeSized {}
#[lang = "sized"] pub trait Sized: MetaSized {}
#[lang = "copy"] pub trait Copy {}
#[lang = "freeze"] pub unsafe auto trait Freeze {}
#[lang = "sync"] pub trait Sync {}
pub struct T<const N: usize>;
pub trait Is<const N: usize> {}
pub fn ty<A: Is<N>, const N: usize>() {}
pub fn value<A: Is<N>, const N: usize>(_: A) {}
pub fn ctor<A: Is<N>, const K: usize, const N: usize>(_: fn(T<K>) -> A) {}
"#;
