//! Small workspaces by hand: what the search finds, what rustc says of it, and what a none does not mean. Each is a Rust text and a snapshot.
use crate::Question;
use crate::encode::words;
use crate::printer::READ_BACK;
use crate::workspace::{Glob, Item, Kind, Meaning, Named, Scope, Use, Vis, Workspace};

/// A text of docs/DIFFERENCES.md with its snapshot and a question on it.
pub struct Example {
    pub title: &'static str,
    pub edition: usize,
    /// a dependency `dep`, or nothing
    pub dependency: &'static str,
    /// the viewing crate, with the path that the search gives, or that is there, in use
    pub source: &'static str,
    /// the error of the compiler, or nothing
    pub error: &'static str,
    pub workspace: Workspace,
    pub viewer: usize,
    pub meaning: Meaning,
    pub ns: usize,
    pub prefix: usize,
    /// the line with options bit 64, without charges
    pub line: &'static str,
    /// any path, or `none`
    pub any_path: &'static str,
}

impl Example {
    /// The words of the snapshot, and the question with options bit 64.
    pub fn question(&self) -> (Vec<u32>, Question) {
        let written = self.workspace.snapshot();
        let definition = written.meanings.iter().position(|meaning| *meaning == self.meaning).unwrap();
        let from = written.modules[self.viewer];
        let (ns, prefix) = (self.ns, self.prefix);
        let question = Question { definition, ns, from, prefix, options: READ_BACK, fuel: 10_000, limit: 15 };
        (words(&written.s), question)
    }
}

struct Hand {
    w: Workspace,
}

impl Hand {
    fn new(editions: &[usize]) -> Hand {
        Hand { w: Workspace::bare(editions) }
    }

    /// The viewing crate, 1, with a dependency `dep`, 0.
    fn with_dependency(edition: usize) -> Hand {
        let mut hand = Hand::new(&[2021, edition]);
        let name = hand.name("dep");
        hand.w.externs[1].push((0, name));
        hand
    }

    fn name(&mut self, text: &str) -> usize {
        self.w.names.iter().position(|name| name == text).unwrap_or_else(|| {
            self.w.names.push(text.to_string());
            self.w.names.len() - 1
        })
    }

    fn scope(&mut self, parent: usize, block: bool) -> usize {
        let krate = self.w.scopes[parent].krate;
        self.w.scopes.push(Scope { krate, parent: Some(parent), block });
        self.w.scopes.len() - 1
    }

    fn block(&mut self, parent: usize) -> usize {
        self.scope(parent, true)
    }

    fn module(&mut self, parent: usize, name: &str, vis: Vis) -> usize {
        let module = self.w.scopes.len();
        self.item(parent, name, Kind::Module(module), vis);
        self.scope(parent, false)
    }

    fn item(&mut self, scope: usize, name: &str, kind: Kind, vis: Vis) -> Meaning {
        let name = self.name(name);
        Meaning::Item(self.w.declare(Item { scope, name, kind, vis, hidden: false }).unwrap())
    }

    fn hide(&mut self, meaning: Meaning) {
        let Meaning::Item(item) = meaning else { return };
        self.w.items[item].hidden = true;
        self.w.named.iter_mut().filter(|n| n.meaning == meaning).for_each(|n| n.hidden = true);
    }

    fn import(&mut self, scope: usize, path: &str, from: Meaning, name: &str, alias: &str, vis: Vis) {
        let (name, alias) = (self.name(name), self.name(alias));
        for n in self.w.brought(from, Some(name), scope) {
            let (entry_vis, of) = self.w.smaller((n.vis, n.of), (vis, scope), scope);
            let named = Named { scope, name: alias, vis: entry_vis, of, declared: false, glob: false, ..n };
            self.w.named.push(named);
        }
        let text = format!("{}use {path} as {};", self.w.vis_text(vis, scope), self.w.names[alias]);
        self.w.uses.push(Use { scope, text, hidden: false });
    }

    fn glob(&mut self, scope: usize, path: &str, from: Meaning, vis: Vis) {
        self.w.globs.push(Glob { scope, from, vis, hidden: false });
        self.w.named = self.w.with_globs(&self.w.globs).unwrap();
        let text = format!("{}use {path}::*;", self.w.vis_text(vis, scope));
        self.w.uses.push(Use { scope, text, hidden: false });
    }
}

/// Found paths that rustc refuses.
pub fn refused() -> Vec<Example> {
    vec![
        hidden_by_a_block(),
        self_before_a_name_of_the_block(),
        outside_a_module_of_a_block(),
        variant_of_a_hidden_enum(),
        private_in_a_module_of_a_block(),
        private_constructor(),
        variants_of_a_private_enum(),
        use_line_of_2015(),
    ]
}

/// Nones with a path that rustc takes.
pub fn passed_over() -> Vec<Example> {
    vec![hidden_item(), own_name_of_a_hidden_item(), module_of_a_block(), later_entry()]
}

/// What no snapshot tells, though the entries do not say so.
pub fn untold() -> Vec<Example> {
    vec![dropped_name_hides_nothing(), dropped_and_imported_back()]
}

fn hidden_by_a_block() -> Example {
    let mut hand = Hand::new(&[2021]);
    let block = hand.block(0);
    let meaning = hand.item(0, "S", Kind::UnitStruct, Vis::Private);
    hand.item(block, "S", Kind::UnitStruct, Vis::Private);
    Example {
        title: "a block's inner name hides the outer one",
        edition: 2021,
        dependency: "",
        source: "struct S; fn f(_: S) {} fn o() { struct S; f(S) }",
        error: "E0308",
        workspace: hand.w,
        viewer: block,
        meaning,
        ns: 1,
        prefix: 1,
        line: "misleads S",
        any_path: "self::S",
    }
}

fn self_before_a_name_of_the_block() -> Example {
    let mut hand = Hand::new(&[2021]);
    let module = hand.module(0, "x", Vis::Private);
    let block = hand.block(0);
    let meaning = hand.item(module, "S", Kind::UnitStruct, Vis::Public);
    hand.import(block, "crate::x::S", Meaning::Module(module), "S", "T", Vis::Private);
    Example {
        title: "`self::` before a name that only the block has",
        edition: 2021,
        dependency: "",
        source: "mod x { pub struct S; } fn o() { use crate::x::S as T; let _ = self::T; }",
        error: "E0425",
        workspace: hand.w,
        viewer: block,
        meaning,
        ns: 1,
        prefix: 0,
        line: "misleads self::T",
        any_path: "T",
    }
}

fn outside_a_module_of_a_block() -> Example {
    let mut hand = Hand::new(&[2021]);
    let block = hand.block(0);
    let module = hand.module(block, "m", Vis::Private);
    let meaning = hand.item(0, "S", Kind::UnitStruct, Vis::Private);
    Example {
        title: "a name from outside a `mod` in a block",
        edition: 2021,
        dependency: "",
        source: "struct S; fn o() { mod m { fn p() { let _ = S; } } }",
        error: "E0425",
        workspace: hand.w,
        viewer: module,
        meaning,
        ns: 1,
        prefix: 1,
        line: "misleads S",
        any_path: "crate::S",
    }
}

fn variant_of_a_hidden_enum() -> Example {
    let mut hand = Hand::with_dependency(2021);
    let variant = hand.name("V");
    let meaning = hand.item(0, "E", Kind::Enum(vec![variant]), Vis::Public);
    hand.hide(meaning);
    let Meaning::Item(item) = meaning else { unreachable!() };
    Example {
        title: "a variant of a hidden enum of a dependency",
        edition: 2021,
        dependency: "#[doc(hidden)] pub enum E { V(u8) }",
        source: "fn p() { let _ = dep::V { 0: 1 }; }",
        error: "E0422",
        workspace: hand.w,
        viewer: 1,
        meaning: Meaning::Variant(item, 0),
        ns: 0,
        prefix: 1,
        line: "misleads dep::V",
        any_path: "::dep::E::V",
    }
}

fn private_in_a_module_of_a_block() -> Example {
    let mut hand = Hand::new(&[2021]);
    let block = hand.block(0);
    let module = hand.module(block, "m", Vis::Private);
    let inner = hand.block(block);
    let meaning = hand.item(module, "S", Kind::UnitStruct, Vis::Private);
    Example {
        title: "private in a `mod` of a block, seen from another block",
        edition: 2021,
        dependency: "",
        source: "fn o() { mod m { struct S; } fn p() { fn q() {} let _ = m::S; } }",
        error: "E0603",
        workspace: hand.w,
        viewer: inner,
        meaning,
        ns: 1,
        prefix: 1,
        line: "found m::S",
        any_path: "none",
    }
}

fn private_constructor() -> Example {
    let mut hand = Hand::new(&[2021]);
    let home = hand.module(0, "x", Vis::Private);
    let module = hand.module(0, "m", Vis::Private);
    let meaning = hand.item(home, "S", Kind::TupleStruct(Vis::Private), Vis::Public);
    hand.import(module, "super::x::S", Meaning::Module(home), "S", "S", Vis::Private);
    Example {
        title: "an import of a private constructor",
        edition: 2021,
        dependency: "",
        source: "mod x { pub struct S(u8); } mod m { use super::x::S; fn p() { let _ = S; } }",
        error: "E0423",
        workspace: hand.w,
        viewer: module,
        meaning,
        ns: 1,
        prefix: 1,
        line: "found S",
        any_path: "none",
    }
}

fn variants_of_a_private_enum() -> Example {
    let mut hand = Hand::new(&[2021]);
    let module = hand.module(0, "m", Vis::Private);
    let variant = hand.name("V");
    let meaning = hand.item(module, "E", Kind::Enum(vec![variant]), Vis::Private);
    hand.glob(module, "self::E", meaning, Vis::Public);
    let Meaning::Item(item) = meaning else { unreachable!() };
    Example {
        title: "variants of a private enum by a glob",
        edition: 2021,
        dependency: "",
        source: "mod m { enum E { V(u8) } pub use self::E::*; } fn p() { let _ = m::V; }",
        error: "E0603",
        workspace: hand.w,
        viewer: 0,
        meaning: Meaning::Variant(item, 0),
        ns: 1,
        prefix: 1,
        line: "found m::V",
        any_path: "none",
    }
}

/// The path compiles as an expression; in 2015 the `use` line is refused.
fn use_line_of_2015() -> Example {
    let mut hand = Hand::new(&[2015]);
    let m = hand.module(0, "m", Vis::Private);
    let n = hand.module(m, "n", Vis::Public);
    let meaning = hand.item(n, "S", Kind::UnitStruct, Vis::Public);
    Example {
        title: "edition 2015, where the path of a `use` line begins at the crate's root",
        edition: 2015,
        dependency: "",
        source: "mod m { pub mod n { pub struct S; } use n::S; }",
        error: "E0432",
        workspace: hand.w,
        viewer: m,
        meaning,
        ns: 1,
        prefix: 1,
        line: "found n::S",
        any_path: "self::n::S",
    }
}

fn hidden_item() -> Example {
    let mut hand = Hand::with_dependency(2021);
    let meaning = hand.item(0, "S", Kind::UnitStruct, Vis::Public);
    hand.hide(meaning);
    Example {
        title: "a hidden item of a dependency",
        edition: 2021,
        dependency: "#[doc(hidden)] pub struct S;",
        source: "fn p() { let _ = ::dep::S; }",
        error: "",
        workspace: hand.w,
        viewer: 1,
        meaning,
        ns: 1,
        prefix: 1,
        line: "none -",
        any_path: "::dep::S",
    }
}

fn own_name_of_a_hidden_item() -> Example {
    let mut hand = Hand::with_dependency(2021);
    let meaning = hand.item(0, "S", Kind::UnitStruct, Vis::Public);
    hand.hide(meaning);
    let module = hand.module(1, "m", Vis::Private);
    hand.import(module, "::dep::S", Meaning::Module(0), "S", "T", Vis::Public);
    Example {
        title: "a dependency's item under a name of the own crate",
        edition: 2021,
        dependency: "#[doc(hidden)] pub struct S;",
        source: "mod m { pub use ::dep::S as T; } fn p() { let _ = self::m::T; }",
        error: "",
        workspace: hand.w,
        viewer: 1,
        meaning,
        ns: 1,
        prefix: 1,
        line: "none -",
        any_path: "self::m::T",
    }
}

fn module_of_a_block() -> Example {
    let mut hand = Hand::new(&[2021]);
    let block = hand.block(0);
    let outer = hand.module(block, "a", Vis::Private);
    let inner = hand.module(outer, "b", Vis::Private);
    let meaning = hand.item(outer, "S", Kind::UnitStruct, Vis::Private);
    Example {
        title: "below a `mod` in a block",
        edition: 2021,
        dependency: "",
        source: "fn o() { mod a { struct S; mod b { fn p() { let _ = super::S; } } } }",
        error: "",
        workspace: hand.w,
        viewer: inner,
        meaning,
        ns: 1,
        prefix: 1,
        line: "none -",
        any_path: "super::S",
    }
}

fn later_entry() -> Example {
    let mut hand = Hand::new(&[2021]);
    let p = hand.module(0, "p", Vis::Private);
    let x = hand.module(p, "x", Vis::Private);
    let a = hand.module(p, "a", Vis::Public);
    let v = hand.module(0, "v", Vis::Private);
    let meaning = hand.item(x, "S", Kind::UnitStruct, Vis::Public);
    hand.import(a, "super::x::S", Meaning::Module(x), "S", "A", Vis::Private);
    hand.import(a, "super::x::S", Meaning::Module(x), "S", "B", Vis::Public);
    Example {
        title: "an item whose first entry in a module may not be used there, and a later one may",
        edition: 2021,
        dependency: "",
        source: "mod p { mod x { pub struct S; } pub mod a { use super::x::S as A; pub use super::x::S as B; } } \
                 mod v { fn q() { let _ = crate::p::a::B; } }",
        error: "",
        workspace: hand.w,
        viewer: v,
        meaning,
        ns: 1,
        prefix: 1,
        line: "none -",
        any_path: "crate::p::a::B",
    }
}

fn dropped_name_hides_nothing() -> Example {
    let mut hand = Hand::new(&[2021]);
    let x = hand.module(0, "x", Vis::Private);
    let c = hand.module(0, "c", Vis::Private);
    hand.module(x, "a", Vis::Private);
    let block = hand.block(0);
    hand.item(x, "a", Kind::Constant, Vis::Public);
    let meaning = hand.item(c, "S", Kind::UnitStruct, Vis::Public);
    hand.import(block, "crate::x::a", Meaning::Module(x), "a", "c", Vis::Private);
    Example {
        title: "a name that rustc drops from a `use` hides nothing",
        edition: 2021,
        dependency: "",
        source: "mod x { mod a {} pub const a: u8 = 0; } mod c { pub struct S; } \
                 fn o() { use crate::x::a as c; let _ = c::S; }",
        error: "",
        workspace: hand.w,
        viewer: block,
        meaning,
        ns: 1,
        prefix: 1,
        line: "misleads c::S",
        any_path: "self::c::S",
    }
}

fn dropped_and_imported_back() -> Example {
    let mut hand = Hand::new(&[2021]);
    let x = hand.module(0, "x", Vis::Private);
    let before = hand.name("A");
    assert!(before < hand.name("S"));
    let meaning = hand.item(x, "S", Kind::TupleStruct(Vis::Private), Vis::Public);
    hand.import(0, "self::x::S", Meaning::Module(x), "S", "T", Vis::Private);
    hand.import(x, "super::T", Meaning::Module(0), "T", "A", Vis::Private);
    Example {
        title: "a name that rustc drops from a `use`, imported back",
        edition: 2021,
        dependency: "",
        source: "mod x { pub struct S(u8); use super::T as A; fn p() { let _ = self::A; } } use self::x::S as T;",
        error: "E0423",
        workspace: hand.w,
        viewer: x,
        meaning,
        ns: 1,
        prefix: 0,
        line: "found self::S",
        any_path: "self::A",
    }
}
