// What find_path needs from outside its files: ids, the crate graph, names, paths, sets. Filled from a snapshot.
use base_db::{Crate, SourceDatabase};
use hir_expand::name::Name;
use nameres::{DefMap, LocalDefMap, block_def_map, crate_def_map, crate_local_def_map};

pub mod tracing {
    macro_rules! info_span {
        ($($any:tt)*) => {
            super::tracing::Span
        };
    }
    macro_rules! warning {
        ($($any:tt)*) => {};
    }
    pub(crate) use {info_span, warning as warn};
    pub struct Span;
    impl Span {
        pub fn entered(self) {}
    }
}

pub mod cov_mark {
    macro_rules! hit {
        ($any:tt) => {};
    }
    pub(crate) use hit;
}

pub mod base_db {
    use super::fill::Store;

    pub trait SourceDatabase {
        fn store(&self) -> &Store;
    }

    #[derive(Clone, Copy, PartialEq, Eq, Hash, Debug)]
    pub struct Crate(pub usize);

    impl Crate {
        pub fn data<'db>(self, db: &'db dyn SourceDatabase) -> &'db CrateData {
            &db.store().crates[self.0]
        }
    }

    pub struct CrateData {
        pub origin: CrateOrigin,
        pub dependencies: Vec<Dependency>,
        pub supports_no_std: bool,
    }

    pub enum CrateOrigin {
        Ordinary,
        Lang(LangCrateOrigin),
    }

    impl CrateOrigin {
        pub fn is_lang(&self) -> bool {
            matches!(self, CrateOrigin::Lang(_))
        }
    }

    #[derive(Clone, Copy, PartialEq, Eq)]
    pub enum LangCrateOrigin {
        Core,
        Alloc,
        Std,
        Other,
    }

    pub struct Dependency {
        pub crate_id: Crate,
        pub sysroot: bool,
    }

    impl Dependency {
        pub fn is_sysroot(&self) -> bool {
            self.sysroot
        }
    }
}

pub mod hir_expand {
    use super::base_db::SourceDatabase;

    pub trait Lookup {
        type Data;
        fn lookup(&self, db: &dyn SourceDatabase) -> Self::Data;
    }

    pub mod name {
        use std::rc::Rc;

        /// A name is its text. Its bytes may be any.
        #[derive(Clone, PartialEq, Eq, PartialOrd, Ord, Hash, Debug)]
        pub struct Name(pub Rc<[u8]>);

        impl Name {
            pub fn as_str(&self) -> &[u8] {
                &self.0
            }
        }

        impl PartialEq<super::super::intern::Symbol> for Name {
            fn eq(&self, symbol: &super::super::intern::Symbol) -> bool {
                &*self.0 == symbol.0.as_bytes()
            }
        }

        pub trait AsName {
            fn as_name(&self) -> Name;
        }
    }

    pub mod mod_path {
        use super::super::base_db::Crate;
        use super::name::Name;

        #[derive(Clone, Copy, PartialEq, Eq, Debug)]
        pub enum PathKind {
            Plain,
            Super(u8),
            Crate,
            Abs,
            DollarCrate(Crate),
        }

        impl PathKind {
            pub const SELF: PathKind = PathKind::Super(0);
        }

        #[derive(Clone, Debug)]
        pub struct ModPath {
            pub kind: PathKind,
            pub segments: Vec<Name>,
        }

        impl ModPath {
            pub fn from_segments(kind: PathKind, segments: impl IntoIterator<Item = Name>) -> ModPath {
                ModPath { kind, segments: segments.into_iter().collect() }
            }

            pub fn push_segment(&mut self, name: Name) {
                self.segments.push(name);
            }

            /// Document 01: names, plus 1 for `crate`, plus s for `Super(s)`.
            pub fn len(&self) -> usize {
                let kind = match self.kind {
                    PathKind::Crate => 1,
                    PathKind::Super(s) => s as usize,
                    _ => 0,
                };
                kind + self.segments.len()
            }
        }
    }
}

pub mod intern {
    pub struct Symbol(pub &'static str);

    #[allow(non_upper_case_globals)]
    pub mod sym {
        pub const prelude: super::Symbol = super::Symbol("prelude");
    }
}

pub mod rustc_hash {
    use std::hash::Hash;

    /// A set that counts what is put in, so that a search can be given up.
    pub struct FxHashSet<T>(crate::tables::Set<T>);

    impl<T> Default for FxHashSet<T> {
        fn default() -> Self {
            FxHashSet(Default::default())
        }
    }

    impl<T: Hash + Eq> FxHashSet<T> {
        pub fn insert(&mut self, value: T) -> bool {
            crate::budget::step();
            self.0.insert(value)
        }
        pub fn contains(&self, value: &T) -> bool {
            self.0.contains(value)
        }
        pub fn remove(&mut self, value: &T) -> bool {
            self.0.remove(value)
        }
    }
}

pub mod attrs {
    use super::base_db::{Crate, SourceDatabase};

    pub fn crate_supports_no_std(db: &dyn SourceDatabase, krate: Crate) -> bool {
        krate.data(db).supports_no_std
    }
}

pub mod per_ns {
    use super::item_scope::ImportOrExternCrate;
    use super::visibility::Visibility;
    use super::{MacroId, ModuleDefId};

    /// An entry of a scope. Declared where it came by no import.
    #[derive(Clone, Copy, Debug)]
    pub struct Item<Def> {
        pub def: Def,
        pub vis: Visibility,
        pub import: Option<ImportOrExternCrate>,
        pub deprecated: bool,
    }

    pub type TypesItem = Item<ModuleDefId>;
    pub type ValuesItem = Item<ModuleDefId>;
    pub type MacrosItem = Item<MacroId>;

    pub struct PerNs {
        pub types: Option<TypesItem>,
        pub values: Option<ValuesItem>,
        pub macros: Option<MacrosItem>,
    }

    /// Document 01: these give the entry's definition.
    impl PerNs {
        pub fn take_types(self) -> Option<ModuleDefId> {
            self.types.map(|item| item.def)
        }
        pub fn take_values(self) -> Option<ModuleDefId> {
            self.values.map(|item| item.def)
        }
        pub fn take_macros(self) -> Option<MacroId> {
            self.macros.map(|item| item.def)
        }
    }
}

/// A module, by its number.
#[derive(Clone, Copy, PartialEq, Eq, Hash, Debug)]
pub struct ModuleIdLt<'db>(pub usize, pub std::marker::PhantomData<&'db ()>);
pub type ModuleId = ModuleIdLt<'static>;

/// A block, by the number of its map.
#[derive(Clone, Copy, PartialEq, Eq, Hash, Debug)]
pub struct BlockIdLt<'db>(pub usize, pub std::marker::PhantomData<&'db ()>);
pub type BlockId = BlockIdLt<'static>;

pub fn module_id(number: usize) -> ModuleId {
    ModuleIdLt(number, std::marker::PhantomData)
}

impl<'db> BlockIdLt<'db> {
    pub fn module(self, db: &'db dyn SourceDatabase) -> ModuleIdLt<'db> {
        db.store().blocks[self.0].expect("a block's parent")
    }
}

impl<'db> ModuleIdLt<'db> {
    pub unsafe fn to_static(self) -> ModuleId {
        module_id(self.0)
    }
    pub unsafe fn to_db<'other>(self, _db: &'other dyn SourceDatabase) -> ModuleIdLt<'other> {
        module_id(self.0)
    }
    pub fn krate(self, db: &dyn SourceDatabase) -> Crate {
        db.store().modules[self.0].krate
    }
    pub fn block(self, db: &dyn SourceDatabase) -> Option<BlockId> {
        crate::budget::step();
        db.store().modules[self.0].block
    }
    pub fn containing_module_inside_def_map(self, db: &dyn SourceDatabase) -> Option<ModuleId> {
        db.store().modules[self.0].parent
    }
}

/// Definitions, by number: a module by its own, every other kind by that of its record.
#[derive(Clone, Copy, PartialEq, Eq, Hash, Debug)]
pub enum ModuleDefId {
    ModuleId(ModuleId),
    EnumVariantId(EnumVariantId),
    BuiltinType(BuiltinType),
    Other(EnumId),
    MacroId(MacroId),
}

#[derive(Clone, Copy, PartialEq, Eq, Hash, Debug)]
pub struct EnumVariantId(pub usize);
#[derive(Clone, Copy, PartialEq, Eq, Hash, Debug)]
pub struct EnumId(pub usize);
#[derive(Clone, Copy, PartialEq, Eq, Hash, Debug)]
pub struct MacroId(pub usize);
/// A builtin, by its place in the list of their names.
#[derive(Clone, Copy, PartialEq, Eq, Hash, Debug)]
pub struct BuiltinType(pub usize);

impl hir_expand::name::AsName for BuiltinType {
    fn as_name(&self) -> Name {
        Name(crate::check::BUILTINS[self.0].as_bytes().into())
    }
}

pub struct EnumVariantLoc {
    pub parent: EnumId,
    pub name: Name,
}

impl hir_expand::Lookup for EnumVariantId {
    type Data = EnumVariantLoc;
    fn lookup(&self, db: &dyn SourceDatabase) -> EnumVariantLoc {
        let (parent, name) = db.store().variants[self.0].clone().expect("a variant");
        EnumVariantLoc { parent, name }
    }
}

impl From<ModuleId> for ModuleDefId {
    fn from(id: ModuleId) -> ModuleDefId {
        ModuleDefId::ModuleId(id)
    }
}

impl From<EnumId> for ModuleDefId {
    fn from(id: EnumId) -> ModuleDefId {
        ModuleDefId::Other(id)
    }
}

/// Document 01: an item's home is the definition's module; a module's is itself; a variant's is its parent's; a builtin has none.
impl ModuleDefId {
    pub fn module(&self, db: &dyn SourceDatabase) -> Option<ModuleId> {
        match self {
            ModuleDefId::ModuleId(id) => Some(*id),
            ModuleDefId::EnumVariantId(EnumVariantId(d)) | ModuleDefId::Other(EnumId(d)) | ModuleDefId::MacroId(MacroId(d)) => {
                db.store().homes[*d]
            }
            ModuleDefId::BuiltinType(_) => None,
        }
    }
}

impl MacroId {
    pub fn module(&self, db: &dyn SourceDatabase) -> ModuleId {
        db.store().homes[self.0].expect("a macro's module")
    }
}
