//! Numbers that never stand in for one another.

macro_rules! id {
    ($(#[$doc:meta])* $name:ident) => {
        $(#[$doc])*
        #[derive(Clone, Copy, Debug, PartialEq, Eq, PartialOrd, Ord, Hash)]
        pub struct $name(
            /// The number, from 0 among the records of its kind.
            pub u32,
        );
    };
}

id! {
    /// A name of a snapshot, by its number.
    NameId
}
id! {
    /// A crate of a snapshot, by its number.
    CrateId
}
id! {
    /// A definition map of a snapshot, a crate's own or a block's, by its number.
    MapId
}
id! {
    /// A module of a snapshot, by its number.
    ModuleId
}
id! {
    /// A definition of a snapshot, by its number.
    DefinitionId
}

/// The namespace in which an item is asked for.
#[derive(Clone, Copy, Debug, PartialEq, Eq, Hash)]
pub enum Namespace {
    /// Modules, types, traits, builtins.
    Types = 0,
    /// Functions, constants, statics, constructors.
    Values = 1,
    /// Macros alone.
    Macros = 2,
}
