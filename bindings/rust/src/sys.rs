//! The functions of the static library. They keep no state but what is lent to them, and take any lengths and numbers but for the two on
//! checked words, which are unsafe here; a slice is a pointer and a length.

pub use crate::version::REPORT;

/// Numbers that the check answers: the refusal, its place, and a count for each of the twelve kinds of records.
pub const CHECKED: usize = 14;

/// Words of a question.
pub const QUESTION: usize = 7;

/// Questions of a call, at most.
pub const QUESTIONS: usize = 64;

/// Windows that share one search.
pub const WINDOWS: usize = 8;

/// Words of the windows' state.
pub const STATE: usize = 1 + WINDOWS * (1 + QUESTION);

/// Words of an import record.
pub const IMPORT: usize = 6;

/// Words of an entry of a scope.
pub const ENTRY: usize = 8;

/// Words of who asks for a reach.
pub const VIEWER: usize = 5;

/// Counts of a reach.
pub const REACH: usize = 21;

/// Names of a path, at most.
pub const NAMES: usize = 16;

/// Outcomes of any path.
pub const ANY_FOUND: usize = 0;
pub const ANY_NOWHERE: usize = 1;
pub const ANY_LONGER: usize = 3;

mod raw {
    unsafe extern "C" {
        pub fn kelumavor_check(
            words: *const u32,
            words_len: usize,
            area: *mut u32,
            area_len: usize,
            answer: *mut [usize; super::CHECKED],
        ) -> usize;

        pub fn kelumavor_name(
            words: *const u32,
            words_len: usize,
            tables: *const u32,
            tables_len: usize,
            name: usize,
            out: *mut u8,
            out_len: usize,
        ) -> usize;

        pub fn kelumavor_is_raw(
            words: *const u32,
            words_len: usize,
            tables: *const u32,
            tables_len: usize,
            name: usize,
            edition: usize,
        ) -> bool;

        pub fn kelumavor_table_words() -> usize;

        pub fn kelumavor_find_path_checked(
            words: *const u32,
            words_len: usize,
            area: *mut u32,
            area_len: usize,
            counts: *const [usize; super::CHECKED],
            question: *const [u32; super::QUESTION],
            report: *mut u32,
            report_len: usize,
        ) -> bool;

        pub fn kelumavor_find_paths_checked(
            words: *const u32,
            words_len: usize,
            area: *mut u32,
            area_len: usize,
            counts: *const [usize; super::CHECKED],
            questions: *const u32,
            questions_len: usize,
            reports: *mut u32,
            reports_len: usize,
        ) -> usize;

        pub fn kelumavor_place(
            state: *mut [u32; super::STATE],
            window: usize,
            question: *const [u32; super::QUESTION],
        ) -> usize;

        pub fn kelumavor_turn(
            state: *mut [u32; super::STATE],
            words: *const u32,
            words_len: usize,
            area: *mut u32,
            area_len: usize,
            report: *mut u32,
            report_len: usize,
        ) -> usize;

        pub fn kelumavor_add_entry(
            words: *mut u32,
            words_len: usize,
            count: *mut usize,
            area: *mut u32,
            area_len: usize,
            entry: *const [u32; super::ENTRY],
        ) -> usize;

        pub fn kelumavor_remove_entry(
            words: *mut u32,
            words_len: usize,
            count: *mut usize,
            area: *mut u32,
            area_len: usize,
            module: usize,
            namespace: usize,
            name: usize,
        ) -> usize;

        pub fn kelumavor_import_list(
            words: *const u32,
            words_len: usize,
            area: *mut u32,
            area_len: usize,
            krate: usize,
            target: *mut u32,
            target_len: usize,
            count: *mut usize,
        ) -> usize;

        pub fn kelumavor_join(
            first: *const u32,
            first_len: usize,
            second: *const u32,
            second_len: usize,
            area: *mut u32,
            area_len: usize,
            target: *mut u32,
            target_len: usize,
            count: *mut usize,
        ) -> usize;

        pub fn kelumavor_join_numbers(
            first: *const u32,
            first_len: usize,
            second: *const u32,
            second_len: usize,
            area: *mut u32,
            area_len: usize,
        ) -> usize;

        pub fn kelumavor_new_name(area: *const u32, area_len: usize, name: usize) -> usize;

        pub fn kelumavor_new_definition(area: *const u32, area_len: usize, definition: usize) -> usize;

        pub fn kelumavor_reach(
            words: *const u32,
            words_len: usize,
            area: *mut u32,
            area_len: usize,
            viewer: *const [u32; super::VIEWER],
            counts: *mut [usize; super::REACH],
        ) -> usize;

        pub fn kelumavor_any_path(
            words: *const u32,
            words_len: usize,
            area: *mut u32,
            area_len: usize,
            question: *const [u32; 3],
            head: *mut [usize; 4],
            names: *mut [usize; super::NAMES],
            route: *mut [usize; super::NAMES],
        ) -> usize;
    }
}

pub fn check(words: &[u32], area: &mut [u32]) -> [usize; CHECKED] {
    let mut answer = [0; CHECKED];
    // SAFETY: each pointer and length is that of a reference, and the references do not overlap.
    unsafe { raw::kelumavor_check(words.as_ptr(), words.len(), area.as_mut_ptr(), area.len(), &raw mut answer) };
    answer
}

pub fn name(words: &[u32], tables: &[u32], name: usize, out: &mut [u8]) -> usize {
    // SAFETY: as in `check`.
    unsafe {
        raw::kelumavor_name(
            words.as_ptr(),
            words.len(),
            tables.as_ptr(),
            tables.len(),
            name,
            out.as_mut_ptr(),
            out.len(),
        )
    }
}

pub fn is_raw(words: &[u32], tables: &[u32], name: usize, edition: usize) -> bool {
    // SAFETY: as in `check`.
    unsafe { raw::kelumavor_is_raw(words.as_ptr(), words.len(), tables.as_ptr(), tables.len(), name, edition) }
}

/// Words of the tables that the check leaves at the front of the area.
pub fn table_words() -> usize {
    // SAFETY: it takes nothing.
    unsafe { raw::kelumavor_table_words() }
}

/// Writes the report of a question on words that were checked before.
///
/// # Safety
///
/// The check accepted these words and answered `counts`, and the first [`table_words`] words of the area are those that it left, or that a call
/// on checked words left. The area has as many words as the check needs.
pub unsafe fn find_path_checked(
    words: &[u32],
    area: &mut [u32],
    counts: &[usize; CHECKED],
    question: &[u32; QUESTION],
    report: &mut [u32; REPORT],
) {
    // SAFETY: as in `check`, and by the caller the words are checked.
    let written = unsafe {
        raw::kelumavor_find_path_checked(
            words.as_ptr(),
            words.len(),
            area.as_mut_ptr(),
            area.len(),
            counts,
            question,
            report.as_mut_ptr(),
            report.len(),
        )
    };
    assert!(written, "a report has {REPORT} words");
}

/// The report of each question, of at most `QUESTIONS`, on words that were checked before.
///
/// # Safety
///
/// As for [`find_path_checked`].
pub unsafe fn find_paths_checked(
    words: &[u32],
    area: &mut [u32],
    counts: &[usize; CHECKED],
    questions: &[[u32; QUESTION]],
) -> Vec<[u32; REPORT]> {
    let mut reports = vec![[0; REPORT]; questions.len()];
    let (asked, told) = (questions.as_flattened(), reports.as_flattened_mut());
    // SAFETY: as in `check`, and by the caller the words are checked.
    let refusal = unsafe {
        raw::kelumavor_find_paths_checked(
            words.as_ptr(),
            words.len(),
            area.as_mut_ptr(),
            area.len(),
            counts,
            asked.as_ptr(),
            asked.len(),
            told.as_mut_ptr(),
            told.len(),
        )
    };
    assert_eq!(refusal, 0, "at most {QUESTIONS} questions, with words for the reports");
    reports
}

/// The number of the refusal, 0 for none.
pub fn place(state: &mut [u32; STATE], window: usize, question: &[u32; QUESTION]) -> usize {
    // SAFETY: as in `check`.
    unsafe { raw::kelumavor_place(state, window, question) }
}

/// The window that was served, and its report.
pub fn turn(state: &mut [u32; STATE], words: &[u32], area: &mut [u32]) -> Option<(usize, [u32; REPORT])> {
    let mut report = [0; REPORT];
    // SAFETY: as in `check`.
    let window = unsafe {
        raw::kelumavor_turn(
            state,
            words.as_ptr(),
            words.len(),
            area.as_mut_ptr(),
            area.len(),
            report.as_mut_ptr(),
            report.len(),
        )
    };
    (window < WINDOWS).then_some((window, report))
}

/// The number of the refusal, 0 for none.
pub fn add_entry(words: &mut [u32], count: &mut usize, area: &mut [u32], entry: &[u32; ENTRY]) -> usize {
    // SAFETY: as in `check`.
    unsafe { raw::kelumavor_add_entry(words.as_mut_ptr(), words.len(), count, area.as_mut_ptr(), area.len(), entry) }
}

/// The number of the refusal, 0 for none.
pub fn remove_entry(words: &mut [u32], count: &mut usize, area: &mut [u32], key: [usize; 3]) -> usize {
    let [module, namespace, name] = key;
    // SAFETY: as in `check`.
    unsafe {
        raw::kelumavor_remove_entry(
            words.as_mut_ptr(),
            words.len(),
            count,
            area.as_mut_ptr(),
            area.len(),
            module,
            namespace,
            name,
        )
    }
}

/// The number of words written, or that of the refusal.
pub fn import_list(words: &[u32], area: &mut [u32], krate: usize, target: &mut [u32]) -> Result<usize, usize> {
    let mut count = 0;
    // SAFETY: as in `check`.
    let refusal = unsafe {
        raw::kelumavor_import_list(
            words.as_ptr(),
            words.len(),
            area.as_mut_ptr(),
            area.len(),
            krate,
            target.as_mut_ptr(),
            target.len(),
            &raw mut count,
        )
    };
    if refusal == 0 { Ok(count) } else { Err(refusal) }
}

/// The counts, or the number of the refusal.
pub fn reach(words: &[u32], area: &mut [u32], viewer: &[u32; VIEWER]) -> Result<[usize; REACH], usize> {
    let mut counts = [0; REACH];
    // SAFETY: as in `check`.
    let refusal = unsafe {
        raw::kelumavor_reach(words.as_ptr(), words.len(), area.as_mut_ptr(), area.len(), viewer, &raw mut counts)
    };
    if refusal == 0 { Ok(counts) } else { Err(refusal) }
}

/// The number of words written, or that of the refusal.
pub fn join(first: &[u32], second: &[u32], area: &mut [u32], target: &mut [u32]) -> Result<usize, usize> {
    let mut count = 0;
    // SAFETY: as in `check`.
    let refusal = unsafe {
        raw::kelumavor_join(
            first.as_ptr(),
            first.len(),
            second.as_ptr(),
            second.len(),
            area.as_mut_ptr(),
            area.len(),
            target.as_mut_ptr(),
            target.len(),
            &raw mut count,
        )
    };
    if refusal == 0 { Ok(count) } else { Err(refusal) }
}

/// Leaves the numbers in the area; the number of the refusal, 0 for none.
pub fn join_numbers(first: &[u32], second: &[u32], area: &mut [u32]) -> usize {
    let (one, two) = (first.as_ptr(), second.as_ptr());
    // SAFETY: as in `check`.
    unsafe { raw::kelumavor_join_numbers(one, first.len(), two, second.len(), area.as_mut_ptr(), area.len()) }
}

/// The new number of a name of the second part.
pub fn new_name(area: &[u32], name: usize) -> usize {
    // SAFETY: as in `check`.
    unsafe { raw::kelumavor_new_name(area.as_ptr(), area.len(), name) }
}

/// The new number of a definition of the second part.
pub fn new_definition(area: &[u32], definition: usize) -> usize {
    // SAFETY: as in `check`.
    unsafe { raw::kelumavor_new_definition(area.as_ptr(), area.len(), definition) }
}

/// What was found out about any path.
pub struct Any {
    /// outcome, kind, how many times `super`, how many names
    pub head: [usize; 4],
    pub names: [usize; NAMES],
    /// the words at which the records begin by which the names are read
    pub route: [usize; NAMES],
}

/// Whether any path names a definition; or the number of the refusal.
pub fn any_path(words: &[u32], area: &mut [u32], question: &[u32; 3]) -> Result<Any, usize> {
    let mut any = Any { head: [0; 4], names: [0; NAMES], route: [0; NAMES] };
    // SAFETY: as in `check`.
    let refusal = unsafe {
        raw::kelumavor_any_path(
            words.as_ptr(),
            words.len(),
            area.as_mut_ptr(),
            area.len(),
            question,
            &raw mut any.head,
            &raw mut any.names,
            &raw mut any.route,
        )
    };
    if refusal == 0 { Ok(any) } else { Err(refusal) }
}
