//! The version of what goes in and out of the library. The build compares it with the library's own.

/// Words of a report.
pub const REPORT: usize = 42;

/// The format of snapshots, questions and states.
pub const FORMAT: usize = 2;

/// What `kelumavor_version` answers.
pub const VERSION: usize = 65_536 * FORMAT + REPORT;
