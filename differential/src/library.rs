//! The import lists of the static library, which the bindings link, and its paths as those of `any_path.rs`.
use kelumavor::{PathKind, ShortestPath};

use crate::any_path::{AnyPath, Start};
use crate::import_lists::ImportLists;

unsafe extern "C" {
    fn kelumavor_import_list(
        words: *const u32,
        words_len: usize,
        area: *mut u32,
        area_len: usize,
        krate: usize,
        target: *mut u32,
        target_len: usize,
        count: *mut usize,
    ) -> usize;
}

pub struct Library;

impl ImportLists for Library {
    fn write(&mut self, words: &[u32], area: &mut [u32], krate: usize, target: &mut [u32]) -> (usize, usize) {
        let mut count = usize::MAX;
        // SAFETY: each pointer and length is that of a reference, and the references do not overlap.
        let refusal = unsafe {
            kelumavor_import_list(
                words.as_ptr(),
                words.len(),
                area.as_mut_ptr(),
                area.len(),
                krate,
                target.as_mut_ptr(),
                target.len(),
                &mut count,
            )
        };
        (refusal, count)
    }
}

/// A path of the library.
pub fn path_of(path: &ShortestPath) -> AnyPath {
    let start = match path.kind() {
        PathKind::Plain => Start::Plain,
        PathKind::SelfModule => Start::SelfModule,
        PathKind::Super => Start::Super(path.supers()),
        PathKind::Crate => Start::Crate,
        PathKind::Absolute => Start::Extern,
    };
    AnyPath { start, names: path.ids().map(|name| name.0 as usize).collect() }
}
