//! Windows that share one search: order, refusals, idle turns, and what each call leaves.
mod common;

use common::WORKED;
use kelumavor::{DefinitionId, ModuleId, Namespace, Question, RefusalKind, Snapshot, Windows};

unsafe extern "C" {
    fn kelumavor_place(state: *mut [u32; 65], window: usize, question: *const [u32; 7]) -> usize;
    fn kelumavor_turn(
        state: *mut [u32; 65],
        words: *const u32,
        words_len: usize,
        area: *mut u32,
        area_len: usize,
        report: *mut u32,
        report_len: usize,
    ) -> usize;
}

fn place(state: &mut [u32; 65], window: usize, question: [u32; 7]) -> usize {
    // SAFETY: the pointers are those of references.
    unsafe { kelumavor_place(state, window, &question) }
}

fn turn(state: &mut [u32; 65], area: &mut [u32], report: &mut [u32]) -> usize {
    let (words, report_len) = (&WORKED, report.len());
    // SAFETY: each pointer and length is that of a reference.
    unsafe {
        kelumavor_turn(
            state,
            words.as_ptr(),
            words.len(),
            area.as_mut_ptr(),
            area.len(),
            report.as_mut_ptr(),
            report_len,
        )
    }
}

/// The function `f` from the root.
const ASKED: [u32; 7] = [1, 1, 0, 1, 0, 9, 15];

/// The state with the next window and the questions that wait.
fn state(next: u32, waiting: &[(usize, [u32; 7])]) -> [u32; 65] {
    let mut state = [0; 65];
    state[0] = next;
    for (window, question) in waiting {
        let row = &mut state[1 + 8 * window..][..8];
        row[0] = 1;
        row[1..].copy_from_slice(question);
    }
    state
}

#[test]
fn placed_and_refused() {
    let mut windows = [0; 65];
    for window in 0..8 {
        assert_eq!(place(&mut windows, window, [window as u32; 7]), 0);
    }
    let full: Vec<_> = (0..8).map(|window| (window, [window as u32; 7])).collect();
    assert_eq!(windows, state(0, &full));
    for window in 0..8 {
        assert_eq!(place(&mut windows, window, ASKED), 50);
    }
    for window in [8, 9, 1 << 32, usize::MAX] {
        assert_eq!(place(&mut windows, window, ASKED), 49);
    }
    assert_eq!(windows, state(0, &full));
}

#[test]
fn served_round() {
    let (mut area, mut report) = (vec![7; 16_390], [7; 42]);
    let mut windows = state(6, &[(2, ASKED), (5, ASKED), (7, ASKED)]);
    assert_eq!(turn(&mut windows, &mut area, &mut report), 7);
    assert_eq!(windows, state(0, &[(2, ASKED), (5, ASKED)]));
    assert!(area[..16_384].iter().all(|word| *word == 0) && area[16_384..].iter().all(|word| *word == 7));
    assert_eq!((report[0], report[4], report[19], report[20]), (0, 1, 2, 1));
    // a small area is a refusal of the question, which is served so
    assert_eq!(turn(&mut windows, &mut [7; 9], &mut report), 2);
    assert_eq!(windows, state(3, &[(5, ASKED)]));
    assert_eq!(report[..2], [2, 20]);
    assert_eq!(turn(&mut windows, &mut area, &mut report), 5);
    assert_eq!(windows, state(6, &[]));
}

#[test]
fn idle() {
    let (mut area, mut report) = (vec![7; 16_384], [7; 42]);
    for next in [0, 7, 8, u32::MAX] {
        let mut windows = state(next, &[]);
        assert_eq!(turn(&mut windows, &mut area, &mut report), 8);
        assert_eq!(windows, state(next, &[]));
    }
    assert!(area.iter().chain(&report).all(|word| *word == 7));
}

/// Without room for its report no question is served, and nothing is changed.
#[test]
fn a_report_that_is_too_short() {
    let (mut area, mut report) = (vec![7; 16_384], [7; 43]);
    let asked = state(0, &[(3, ASKED)]);
    let mut windows = asked;
    for length in [0, 1, 41] {
        assert_eq!(turn(&mut windows, &mut area, &mut report[..length]), 9);
    }
    assert_eq!(windows, asked);
    assert!(area.iter().chain(&report).all(|word| *word == 7));
    assert_eq!(turn(&mut windows, &mut area, &mut report), 3);
    assert_eq!((report[0], report[42], windows), (0, 7, state(4, &[])));
}

/// Any words are a state: word 0 counts modulo 8, and any word but 0 waits.
#[test]
fn any_state() {
    let (mut area, mut report) = (vec![0; 16_384], [0; 42]);
    let mut windows = [u32::MAX; 65];
    for window in [7, 0, 1, 2, 3, 4, 5, 6, 8] {
        assert_eq!(turn(&mut windows, &mut area, &mut report), window);
    }
    assert_eq!(windows, state(7, &[]));
}

/// Whatever the others place, a question is served within eight turns, with the report that it gets alone.
#[test]
fn within_eight_turns() {
    let snapshot = Snapshot::check(&WORKED).unwrap();
    let question = Question::new(Namespace::Values, DefinitionId(1), ModuleId(0));
    for window in 0..Windows::COUNT {
        for turns in 0..Windows::COUNT {
            let mut windows = Windows::new();
            for other in (0..Windows::COUNT).filter(|other| *other != window) {
                windows.place(other, &question.fuel(0)).unwrap();
            }
            for _ in 0..turns {
                let (served, _) = windows.turn(&snapshot).unwrap();
                windows.place(served, &question.fuel(0)).unwrap();
            }
            windows.place(window, &question).unwrap();
            assert_eq!(windows.place(window, &question).unwrap_err().kind(), RefusalKind::WindowWaits);
            assert_eq!(windows.place(8, &question).unwrap_err().kind(), RefusalKind::NoSuchWindow);
            let mut count = 0;
            loop {
                let (served, report) = windows.turn(&snapshot).unwrap();
                count += 1;
                if served == window {
                    assert_eq!(report.to_string(), snapshot.find_path(&question).to_string());
                    break;
                }
                assert_eq!(report.to_string(), "none - 0 1");
                windows.place(served, &question.fuel(0)).unwrap();
            }
            assert!(count <= 8);
        }
    }
}
