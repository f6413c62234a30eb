use super::base_db::{Crate, SourceDatabase};
use super::nameres::DefMap;
use super::{ModuleId, ModuleIdLt};

#[derive(Debug, Copy, Clone, PartialEq, Eq, Hash)]
pub enum VisibilityExplicitness {
    Explicit,
    Implicit,
}
