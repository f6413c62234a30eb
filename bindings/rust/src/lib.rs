//! Which path names an item in a module, for programs that rewrite Rust code.
//!
//! A [`Snapshot`] of a workspace is checked once, and keeps what the check found out; a [`Question`] asks for the path of an item as seen from a
//! module, as rust-analyzer's `find_path` does. [`Snapshot::find_paths`] answers the questions of a whole file at once. The answers come from
//! proved code in a static library; this crate adds the types.
//!
//! [`Outcome`] keeps apart what the Rust does not: [`Outcome::NoPath`] says that the whole search found no path (under a smaller limit than
//! [`Question::MAX_LIMIT`], none of that length), [`Outcome::TankEmpty`] that the fuel ran out before the search was through, which
//! says nothing about the item. The rules of the search pass some paths over: [`Snapshot::any_path`] says whether any path at all names an
//! item, and is to be asked before one is made public. With [`Options::read_back`] it tells [`Outcome::Misleads`] from [`Outcome::Found`]
//! too: a path that means another thing where it is to be written.
//!
//! ```
//! use kelumavor::record::{Crate, Map};
//! use kelumavor::{Entry, Namespace, Options, Outcome, Question, Snapshot, SnapshotWords};
//!
//! // A crate with a module `a` that holds a function `f`.
//! let mut words = SnapshotWords::new();
//! let krate = words.add_crate(Crate::default());
//! let map = words.add_map(Map { krate, block_in: None, no_std: false });
//! let root = words.module(map, None);
//! let module = words.module(map, Some(root));
//! words.child(root, module);
//! let a_module = words.module_definition(module);
//! let f_function = words.other_definition(module);
//! let [a, f] = ["a", "f"].map(|text| words.name(text));
//! words.add_entry(Entry::new(root, Namespace::Types, a, a_module));
//! words.add_entry(Entry::new(module, Namespace::Values, f, f_function));
//!
//! let snapshot = Snapshot::check(words.as_words())?;
//! let options = Options { read_back: true, ..Options::default() };
//! let report = snapshot.find_path(&Question::new(Namespace::Values, f_function, root).options(options));
//! match report.outcome {
//!     Outcome::Found(path) => assert_eq!(path.to_string(), "a::f"),
//!     Outcome::NoPath => panic!("the search finds no path: `any_path` says whether there is one at all"),
//!     Outcome::TankEmpty(_) => panic!("not known: the search needs more fuel"),
//!     Outcome::Misleads(path) => panic!("{path} means another thing here"),
//!     Outcome::Refused(refusal) => return Err(refusal),
//!     other => panic!("nothing is known of {other:?}"),
//! }
//! # Ok::<(), kelumavor::Refusal>(())
//! ```
#![deny(missing_debug_implementations, missing_docs)]

mod any;
mod area;
mod edits;
mod ids;
mod imports;
mod join;
mod names;
mod path;
mod question;
mod reach;
pub mod record;
mod refusal;
mod report;
mod route;
mod snapshot;
mod sys;
mod text;
mod version;
mod windows;
mod words;

pub use any::{AnyPath, ShortestPath};
pub use area::WorkArea;
pub use edits::{EditedWords, Entry};
pub use ids::{CrateId, DefinitionId, MapId, ModuleId, NameId, Namespace};
pub use imports::{Import, ImportList, with_import_lists};
pub use join::{Joined, Moved, join};
pub use path::{Path, PathKind};
pub use question::{Options, Prefix, Question};
pub use reach::{Reach, Viewer};
pub use refusal::{Refusal, RefusalKind};
pub use report::{FirstEmpty, Outcome, Report};
pub use route::{Rule, Step};
pub use snapshot::{Counts, Snapshot};
pub use text::Text;
pub use version::VERSION;
pub use windows::Windows;
pub use words::{Edition, MemberKind, Origin, SnapshotWords, Visibility};
