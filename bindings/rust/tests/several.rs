//! Several questions in one call of the library: what refuses the whole call, and what that leaves.
mod common;

use common::WORKED;
use kelumavor as _;

unsafe extern "C" {
    fn kelumavor_find_paths(
        words: *const u32,
        words_len: usize,
        area: *mut u32,
        area_len: usize,
        questions: *const u32,
        questions_len: usize,
        reports: *mut u32,
        reports_len: usize,
    ) -> usize;
}

/// What a call gives and leaves.
struct Called {
    number: usize,
    area: Vec<u32>,
    reports: Vec<u32>,
}

/// Calls with so many words of each; the questions are all zero but for the fuel, which is too much.
fn called(area: usize, questions: usize, reports: usize) -> Called {
    let mut area = vec![7; area];
    let questions: Vec<u32> = (0..questions).map(|place| if place % 7 == 5 { 10_001 } else { 0 }).collect();
    let mut reports = vec![7; reports];
    // SAFETY: each pointer and length is that of a vector.
    let number = unsafe {
        kelumavor_find_paths(
            WORKED.as_ptr(),
            WORKED.len(),
            area.as_mut_ptr(),
            area.len(),
            questions.as_ptr(),
            questions.len(),
            reports.as_mut_ptr(),
            reports.len(),
        )
    };
    Called { number, area, reports }
}

/// The call is refused by the number, and leaves the reports, and the area but for so many words.
#[track_caller]
fn refused(area: usize, questions: usize, reports: usize, number: usize, cleared: usize) {
    let called = called(area, questions, reports);
    assert_eq!(called.number, number);
    assert!(called.reports.iter().all(|word| *word == 7));
    assert!(called.area[..cleared].iter().all(|word| *word == 0));
    assert!(called.area[cleared..].iter().all(|word| *word == 7));
}

#[test]
fn refused_whole() {
    refused(16_383, 7, 42, 20, 0);
    refused(0, 0, 0, 20, 0);
    // 20 comes before 44
    refused(16_383, 65 * 7, 65 * 42, 20, 0);
    refused(16_384, 65 * 7, 65 * 42, 44, 16_384);
    refused(16_400, 64 * 7, 64 * 42 - 1, 44, 16_384);
    refused(16_384, 7, 41, 44, 16_384);
    for part in 1..7 {
        refused(16_384, part, 100, 44, 16_384);
        refused(16_384, 14 + part, 100, 44, 16_384);
    }
}

#[test]
fn answered() {
    for (count, area) in [(0, 16_384), (1, 16_384), (64, 16_390)] {
        let called = called(area, 7 * count, 42 * count + 3);
        assert_eq!(called.number, 0);
        let (reports, rest) = called.reports.split_at(42 * count);
        assert!(reports.chunks(42).all(|report| report[..2] == [2, 21] && report[2..].iter().all(|word| *word == 0)));
        assert_eq!(rest, [7; 3]);
        assert!(called.area[..16_384].iter().all(|word| *word == 0));
        assert!(called.area[16_384..].iter().all(|word| *word == 7));
    }
}
