//! A path.
use std::fmt;
use std::hash::{Hash, Hasher};

use crate::ids::NameId;
use crate::names::PathNames;
use crate::route::Step;
use crate::text::Text;

/// What a path begins with.
#[derive(Clone, Copy, Debug, PartialEq, Eq, Hash)]
pub enum PathKind {
    /// Its first name.
    Plain = 0,
    /// `self`
    SelfModule = 1,
    /// `super`
    Super = 2,
    /// `crate`
    Crate = 3,
    /// `::`
    Absolute = 4,
}

impl PathKind {
    pub(crate) fn from_number(number: u32) -> Self {
        match number {
            0 => Self::Plain,
            1 => Self::SelfModule,
            2 => Self::Super,
            3 => Self::Crate,
            4 => Self::Absolute,
            _ => unreachable!("the library gives no other kind"),
        }
    }

    /// The first part of the path, empty before a leading `::`; a plain path has none but its names.
    fn part(self) -> Option<&'static str> {
        match self {
            Self::Plain => None,
            Self::SelfModule => Some("self"),
            Self::Super => Some("super"),
            Self::Crate => Some("crate"),
            Self::Absolute => Some(""),
        }
    }
}

impl fmt::Display for PathKind {
    fn fmt(&self, f: &mut fmt::Formatter<'_>) -> fmt::Result {
        f.pad(match self {
            Self::Plain => "plain",
            Self::SelfModule => "self",
            Self::Super => "super",
            Self::Crate => "crate",
            Self::Absolute => "absolute",
        })
    }
}

/// A path that names the item of a question. It prints as it would stand in the viewing module, keywords of its crate's edition with
/// `r#`. It outlives its snapshot, whose names it shares: no text is copied, and the first to ask for one has it read.
#[derive(Clone)]
pub struct Path {
    names: PathNames,
    kind: PathKind,
    steps: u8,
    route: [u32; Path::MAX_STEPS],
}

impl Path {
    /// Names of a path, at most.
    pub const MAX_NAMES: usize = 16;

    /// Steps of its route, at most.
    pub const MAX_STEPS: usize = 17;

    /// A path with so many steps of the route.
    pub(crate) fn new(names: PathNames, kind: u32, route: [u32; Path::MAX_STEPS], steps: u32) -> Self {
        let steps = u8::try_from(steps).expect("as many steps as a route may have");
        Path { names, kind: PathKind::from_number(kind), steps, route }
    }

    fn route_words(&self) -> &[u32] {
        &self.route[..self.steps as usize]
    }

    /// What it begins with.
    #[must_use]
    pub fn kind(&self) -> PathKind {
        self.kind
    }

    /// The numbers of its names in its snapshot.
    #[must_use]
    pub fn ids(&self) -> impl ExactSizeIterator<Item = NameId> + '_ {
        self.names.ids()
    }

    /// The texts of its names, without `r#`.
    #[must_use]
    pub fn names(&self) -> impl ExactSizeIterator<Item = &Text> + '_ {
        self.names.texts()
    }

    /// Its names as they are written in the viewing module, keywords with `r#`.
    pub fn written(&self) -> impl ExactSizeIterator<Item = &[u8]> + '_ {
        self.names.written()
    }

    /// How it came about: a step for its start, which is a keyword without names, or its first name with any prefix; then one for
    /// each further name.
    #[must_use]
    pub fn route(&self) -> impl ExactSizeIterator<Item = Step> + '_ {
        self.route_words().iter().map(|word| Step::new(*word))
    }

    /// Whether `use` and the path make a line: not where it is `self`, `super` or `crate` alone, which brings in no name.
    #[must_use]
    pub fn is_use_line(&self) -> bool {
        self.names.ids().len() != 0
    }

    /// The path as the path printer prints it.
    #[must_use]
    pub fn to_bytes(&self) -> Vec<u8> {
        self.names.after(self.kind.part())
    }
}

/// Paths are the same where they are written the same and came about in the same way, also of two snapshots.
impl PartialEq for Path {
    fn eq(&self, other: &Self) -> bool {
        self.kind == other.kind && self.route_words() == other.route_words() && self.names == other.names
    }
}

impl Eq for Path {}

impl Hash for Path {
    fn hash<H: Hasher>(&self, state: &mut H) {
        (self.kind, &self.names, self.route_words()).hash(state);
    }
}

impl fmt::Display for Path {
    fn fmt(&self, f: &mut fmt::Formatter<'_>) -> fmt::Result {
        f.pad(&String::from_utf8_lossy(&self.to_bytes()))
    }
}

impl fmt::Debug for Path {
    fn fmt(&self, f: &mut fmt::Formatter<'_>) -> fmt::Result {
        write!(f, "Path({self})")
    }
}
