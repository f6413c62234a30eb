//! Whether any path names an item.
use std::fmt;

use crate::area::{self, WorkArea};
use crate::ids::{DefinitionId, ModuleId, NameId, Namespace};
use crate::names::PathNames;
use crate::path::PathKind;
use crate::refusal::Refusal;
use crate::snapshot::Snapshot;
use crate::sys;
use crate::text::Text;

/// What [`Snapshot::any_path`] found out.
#[derive(Clone, Debug, PartialEq, Eq, Hash)]
#[non_exhaustive]
pub enum AnyPath {
    /// A path that names the item; none has fewer names. Of those with as many, one that begins with a keyword or `::` where there is one.
    Found(ShortestPath),
    /// Paths name the item, and each has more than sixteen names.
    Longer,
    /// No path of any length names the item there.
    Nowhere,
}

/// A shortest path, as the compiler reads it in the viewing module. It prints as it would stand there, keywords of its crate's edition with `r#`.
/// It outlives its snapshot. Two are the same where they are written the same and came about in the same way, also of two snapshots.
#[derive(Clone, PartialEq, Eq, Hash)]
pub struct ShortestPath {
    kind: PathKind,
    supers: usize,
    names: PathNames,
    route: Box<[u32]>,
}

impl ShortestPath {
    fn new(snapshot: &Snapshot, from: ModuleId, any: &sys::Any) -> Self {
        let [_, kind, supers, count] = any.head;
        let number = |number: usize| u32::try_from(number).expect("a number of a snapshot");
        let names = PathNames::new(snapshot, from, any.names.map(number), count);
        let route = any.route[..count].iter().map(|place| number(*place)).collect();
        ShortestPath { kind: PathKind::from_number(number(kind)), supers, names, route }
    }

    /// What it begins with; [`PathKind::Super`] may stand there several times.
    #[must_use]
    pub fn kind(&self) -> PathKind {
        self.kind
    }

    /// How many times `super` stands at its start.
    #[must_use]
    pub fn supers(&self) -> usize {
        self.supers
    }

    /// The numbers of its names in its snapshot.
    #[must_use]
    pub fn ids(&self) -> impl ExactSizeIterator<Item = NameId> + '_ {
        self.names.ids()
    }

    /// The texts of its names, without `r#`.
    #[must_use]
    pub fn names(&self) -> impl ExactSizeIterator<Item = &Text> + '_ {
        self.names.texts()
    }

    /// Its names as they are written in the viewing module, keywords with `r#`.
    pub fn written(&self) -> impl ExactSizeIterator<Item = &[u8]> + '_ {
        self.names.written()
    }

    /// How it is read: for each name the word at which the record begins that it is read by, a scope or extern record, or for a variant its
    /// definition.
    #[must_use]
    pub fn route(&self) -> impl ExactSizeIterator<Item = u32> + '_ {
        self.route.iter().copied()
    }

    /// What stands before its names: `self`, `crate`, `super` so many times, or nothing before a leading `::`.
    #[must_use]
    pub fn start(&self) -> Vec<&'static str> {
        match self.kind {
            PathKind::Plain => Vec::new(),
            PathKind::SelfModule => vec!["self"],
            PathKind::Super => vec!["super"; self.supers],
            PathKind::Crate => vec!["crate"],
            PathKind::Absolute => vec![""],
        }
    }

    /// The path as it is written.
    #[must_use]
    pub fn to_bytes(&self) -> Vec<u8> {
        self.names.after(self.start())
    }
}

impl fmt::Display for ShortestPath {
    fn fmt(&self, f: &mut fmt::Formatter<'_>) -> fmt::Result {
        f.pad(&String::from_utf8_lossy(&self.to_bytes()))
    }
}

impl fmt::Debug for ShortestPath {
    fn fmt(&self, f: &mut fmt::Formatter<'_>) -> fmt::Result {
        write!(f, "ShortestPath({self})")
    }
}

impl Snapshot {
    /// Whether any path names a definition in a module, as the compiler reads paths, of any kind and any number of names: a second opinion on
    /// [`Outcome::NoPath`](crate::Outcome::NoPath), which says that the rules of the search find none. Ask it before an item is made public. No fuel
    /// and no limit play a part.
    ///
    /// # Errors
    ///
    /// 23 for a definition or a module that the snapshot does not have, 24 for the macros namespace with a definition that is no macro.
    ///
    /// ```
    /// use kelumavor::{AnyPath, DefinitionId, ModuleId, Namespace, Snapshot};
    ///
    /// # let words = [
    /// #     0x10000001, 0x61, 0x10000001, 0x66, 0x20000000, 2021, 0x40000000, 0, 0, 0x50000000, 0, 0x50000000, 1, 0x60000000, 1,
    /// #     0x80000001, 1, 0, 0x80000004, 1, 0, 0x90000000, 0, 0, 0, 0, 0, 1, 0, 0x90000001, 1, 1, 1, 0, 0, 1, 0,
    /// # ];
    /// // A crate with a module `a` that holds a function `f`.
    /// let snapshot = Snapshot::check(&words)?;
    /// match snapshot.any_path(Namespace::Values, DefinitionId(1), ModuleId(0))? {
    ///     AnyPath::Found(path) => {
    ///         assert_eq!(path.to_string(), "self::a::f");
    ///         // `a` by the scope record at word 21, `f` by the one at word 29.
    ///         assert_eq!(path.route().collect::<Vec<u32>>(), [21, 29]);
    ///     }
    ///     other => panic!("{other:?}"),
    /// }
    /// assert_eq!(snapshot.any_path(Namespace::Types, DefinitionId(1), ModuleId(0))?, AnyPath::Nowhere);
    /// # Ok::<(), kelumavor::Refusal>(())
    /// ```
    pub fn any_path(&self, namespace: Namespace, definition: DefinitionId, from: ModuleId) -> Result<AnyPath, Refusal> {
        area::lent(|area| self.any_path_in(namespace, definition, from, area))
    }

    /// The same, in a work area of the caller's.
    ///
    /// # Errors
    ///
    /// Those of [`Snapshot::any_path`].
    pub fn any_path_in(
        &self,
        namespace: Namespace,
        definition: DefinitionId,
        from: ModuleId,
        area: &mut WorkArea,
    ) -> Result<AnyPath, Refusal> {
        let question = [namespace as u32, definition.0, from.0];
        let any = sys::any_path(self.words(), area.words(), &question).map_err(|number| Refusal::by(number, None))?;
        Ok(match any.head[0] {
            sys::ANY_FOUND => AnyPath::Found(ShortestPath::new(self, from, &any)),
            sys::ANY_NOWHERE => AnyPath::Nowhere,
            sys::ANY_LONGER => AnyPath::Longer,
            _ => unreachable!("the library gives no other outcome"),
        })
    }
}
