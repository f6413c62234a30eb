//! Edits of a snapshot in a lent slice: where the record goes, what is left past the end, refusals, and reports after them.
mod common;

use common::WORKED;
use kelumavor::{
    DefinitionId, EditedWords, Entry, ModuleId, NameId, Namespace, Question, RefusalKind, Snapshot, Visibility,
};

unsafe extern "C" {
    fn kelumavor_add_entry(
        words: *mut u32,
        words_len: usize,
        count: *mut usize,
        area: *mut u32,
        area_len: usize,
        entry: *const [u32; 8],
    ) -> usize;
    fn kelumavor_remove_entry(
        words: *mut u32,
        words_len: usize,
        count: *mut usize,
        area: *mut u32,
        area_len: usize,
        module: usize,
        namespace: usize,
        name: usize,
    ) -> usize;
}

/// The number, the new count and the slice after an addition.
fn add(words: &[u32], slice: usize, area: usize, entry: [u32; 8]) -> (usize, usize, Vec<u32>) {
    let (mut lent, mut count) = lend(words, slice);
    let mut area = vec![9; area];
    let (lent_len, area_len) = (lent.len(), area.len());
    // SAFETY: each pointer and length is that of a reference.
    let number =
        unsafe { kelumavor_add_entry(lent.as_mut_ptr(), lent_len, &mut count, area.as_mut_ptr(), area_len, &entry) };
    left_clear(&area);
    (number, count, lent)
}

fn remove(words: &[u32], slice: usize, area: usize, key: [usize; 3]) -> (usize, usize, Vec<u32>) {
    let (mut lent, mut count) = lend(words, slice);
    let mut area = vec![9; area];
    let (lent_len, area_len) = (lent.len(), area.len());
    let [module, ns, name] = key;
    // SAFETY: as above.
    let number = unsafe {
        kelumavor_remove_entry(lent.as_mut_ptr(), lent_len, &mut count, area.as_mut_ptr(), area_len, module, ns, name)
    };
    left_clear(&area);
    (number, count, lent)
}

/// The words in a slice of some length, the rest of which is not zero.
fn lend(words: &[u32], slice: usize) -> (Vec<u32>, usize) {
    let mut lent = words.to_vec();
    lent.resize(slice, 7);
    (lent, words.len())
}

fn left_clear(area: &[u32]) {
    let kept = if area.len() < 16384 { 0 } else { 16384 };
    assert!(area[..kept].iter().all(|word| *word == 0));
    assert!(area[kept..].iter().all(|word| *word == 9));
}

fn padded(words: &[u32], slice: usize) -> Vec<u32> {
    let mut words = words.to_vec();
    words.resize(slice, 0);
    words
}

/// The function `f` in the root, its record, and records of the kinds after scopes.
const ENTRY: [u32; 8] = [0, 1, 1, 1, 3, 0, 2, 1];
const RECORD: [u32; 8] = [0x90000000, 1, 1, 1, 3, 0, 2, 1];
const LATER: [u32; 14] = [0xA0000000, 1, 1, 1, 1, 0, 0xB0000000, 0, 1, 0xD0000001, 0, 1, 1, 0];

#[test]
fn placed_after_the_last_scope() {
    for (front, back) in
        [(&WORKED[..], &LATER[..]), (&WORKED[..], &[]), (&WORKED[..21], &LATER[..]), (&WORKED[..21], &[])]
    {
        let before = [front, back].concat();
        let after = [front, &RECORD, back].concat();
        for room in [0, 1, 5, 40] {
            let slice = after.len() + room;
            assert_eq!(add(&before, slice, 16384, ENTRY), (0, after.len(), padded(&after, slice)));
            assert_eq!(remove(&after, slice, 16390, [0, 1, 1]), (0, before.len(), padded(&before, slice)));
        }
    }
}

#[test]
fn removed_from_the_middle() {
    let words = [&WORKED[..], &LATER].concat();
    let after = [&WORKED[..21], &WORKED[29..], &LATER].concat();
    assert_eq!(remove(&words, words.len(), 16384, [0, 0, 0]), (0, after.len(), padded(&after, words.len())));
}

#[test]
fn refused_unchanged() {
    let changed = |field: usize, value: u32| {
        let mut entry = ENTRY;
        entry[field] = value;
        entry
    };
    let there = [1, 1, 1, 1, 0, 0, 0, 0];
    for (words, slice, area, entry, number) in [
        (&WORKED[..], 45, 16383, ENTRY, 20),
        (&WORKED[..], 36, 16384, ENTRY, 30),
        (&WORKED[..36], 45, 16384, ENTRY, 31),
        (&WORKED[..], 45, 16384, changed(1, 3), 32),
        (&WORKED[..], 45, 16384, changed(6, 4), 32),
        (&WORKED[..], 45, 16384, changed(7, 4), 32),
        (&WORKED[..], 45, 16384, changed(0, 2), 33),
        (&WORKED[..], 45, 16384, changed(0, 1 << 28), 33),
        (&WORKED[..], 45, 16384, changed(1, 2), 35),
        (&WORKED[..], 45, 16384, there, 47),
        (&WORKED[..], 44, 16384, there, 47),
        (&WORKED[..], 44, 16384, ENTRY, 48),
    ] {
        // a count above the slice: lend a shorter slice than the count says
        let (mut lent, mut count) = lend(words, slice.max(words.len()));
        lent.truncate(slice);
        let before = lent.clone();
        let mut area = vec![9; area];
        let (lent_len, area_len) = (lent.len(), area.len());
        // SAFETY: as above.
        let answer = unsafe {
            kelumavor_add_entry(lent.as_mut_ptr(), lent_len, &mut count, area.as_mut_ptr(), area_len, &entry)
        };
        assert_eq!((answer, count, lent), (number, words.len(), before));
        left_clear(&area);
    }
    assert_eq!(remove(&WORKED, 44, 16384, [0, 1, 1]), (47, 37, lend(&WORKED, 44).0));
    assert_eq!(remove(&WORKED, 44, 16384, [1 << 28, 0, 0]), (47, 37, lend(&WORKED, 44).0));
}

#[test]
fn reports_of_words_written_afresh() {
    let entry = |module, name| Entry {
        module: ModuleId(module),
        namespace: Namespace::Values,
        name: NameId(name),
        definition: DefinitionId(1),
        visibility: Visibility::Public,
        declared: false,
        deprecated: false,
        hidden: false,
        unstable: false,
    };
    let question = Question::new(Namespace::Values, DefinitionId(1), ModuleId(0));
    let told = |edited: &EditedWords| Snapshot::check(edited.words()).unwrap().find_path(&question).to_string();
    let mut edited = EditedWords::new(&WORKED);
    assert_eq!(told(&edited), "found a::f 1 0");
    edited.add(&entry(0, 0)).unwrap();
    assert_eq!(told(&edited), "found a 0 0");
    edited.add(&entry(0, 1)).unwrap();
    assert_eq!(edited.add(&entry(0, 1)).unwrap_err().kind(), RefusalKind::EntryThereOrNot);
    edited.remove(ModuleId(0), Namespace::Values, NameId(0)).unwrap();
    assert_eq!(told(&edited), "found f 0 0");
    let afresh = [&WORKED[..], &[0x90000000, 1, 1, 1, 0, 0, 0, 0]].concat();
    assert_eq!(edited.words(), afresh);
    edited.remove(ModuleId(0), Namespace::Values, NameId(1)).unwrap();
    assert_eq!(edited.words(), WORKED);
}
