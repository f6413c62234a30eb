//! A question on a checked snapshot allocates nothing, and a path's texts are read once a snapshot.
mod common;

use std::alloc::{GlobalAlloc, Layout, System};
use std::cell::Cell;

use common::{WORKED, build};
use kelumavor::{DefinitionId, ModuleId, Namespace, Options, Question, Snapshot, WorkArea};

/// Counts the allocations of each thread.
struct Counting;

thread_local! {
    static ALLOCATED: Cell<usize> = const { Cell::new(0) };
}

// SAFETY: each call is handed on as it comes.
unsafe impl GlobalAlloc for Counting {
    unsafe fn alloc(&self, layout: Layout) -> *mut u8 {
        ALLOCATED.set(ALLOCATED.get() + 1);
        unsafe { System.alloc(layout) }
    }

    unsafe fn dealloc(&self, place: *mut u8, layout: Layout) {
        unsafe { System.dealloc(place, layout) }
    }
}

#[global_allocator]
static ALLOCATOR: Counting = Counting;

/// How often a call allocates.
fn allocations<R>(call: impl FnOnce() -> R) -> usize {
    let before = ALLOCATED.get();
    drop(std::hint::black_box(call()));
    ALLOCATED.get() - before
}

#[test]
fn questions() {
    let mut area = WorkArea::new();
    let snapshot = Snapshot::check_in(&WORKED, &mut area).unwrap();
    let question = Question::new(Namespace::Values, DefinitionId(1), ModuleId(0));
    for question in [question, question.fuel(0), question.limit(1), question.limit(0)] {
        assert_eq!(allocations(|| snapshot.find_path_in(&question, &mut area)), 0);
    }
    let read_back = Options { read_back: true, ..Options::default() };
    let build::Hiding { words, block, outer, .. } = build::hiding();
    let other = Snapshot::check_in(&words, &mut area).unwrap();
    let misleads = Question::new(Namespace::Values, outer, block).options(read_back);
    assert_eq!(allocations(|| other.find_path_in(&misleads, &mut area)), 0);
    // the thread's own area, at its first question
    assert_eq!(allocations(|| snapshot.find_path(&question)), 1);
    assert_eq!(allocations(|| snapshot.find_path(&question)), 0);
    assert_eq!(allocations(|| snapshot.find_path(&question).path().cloned()), 0);
}

#[test]
fn texts() {
    let snapshot = Snapshot::check(&WORKED).unwrap();
    let question = Question::new(Namespace::Values, DefinitionId(1), ModuleId(0));
    let report = snapshot.find_path(&question);
    let path = report.path().unwrap();
    // paths of one snapshot are compared by their numbers
    assert_eq!(allocations(|| assert_eq!(&report, &snapshot.find_path(&question))), 0);
    assert_ne!(allocations(|| path.names().count()), 0);
    assert_eq!(allocations(|| path.written().count()), 0);
    assert_eq!(allocations(|| snapshot.find_path(&question).path().unwrap().names().count()), 0);
    let clone = snapshot.clone();
    assert_eq!(allocations(|| clone.find_path(&question).path() == Some(path)), 0);
    assert_eq!(allocations(|| clone.find_path(&question).path().unwrap().names().count()), 0);
}
