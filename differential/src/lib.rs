//! The text of rust-analyzer's `find_path` over stand-ins, and what compares a path printer with it.

pub mod any_path;
pub mod budget;
pub mod check;
pub mod compare;
pub mod damage;
pub mod encode;
pub mod examples;
pub mod generate;
pub mod import_cases;
pub mod import_lists;
pub mod import_rule;
pub mod import_snapshots;
pub mod judge;
pub mod keywords;
#[cfg(feature = "library")]
pub mod library;
pub mod printer;
pub mod question;
pub mod random;
pub mod reach;
pub mod reading;
pub mod route;
pub mod rules;
pub mod show;
pub mod shrink;
pub mod snapshots;
pub mod stored;
pub mod tables;
pub mod usage;
pub mod workspace;
pub mod workspaces;
pub mod wrongs;

/// The text as it is, with the changes that `build.rs` names.
#[allow(dead_code, unused_unsafe, unused_imports)]
pub mod right {
    include!(concat!(env!("OUT_DIR"), "/right.rs"));
    include!(concat!(env!("OUT_DIR"), "/collect.rs"));
}

pub use question::{Answer, Answers, Path, Question};
