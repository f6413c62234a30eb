//! Two snapshots joined: every line of either part stays, and what refuses a join.
mod common;

use common::{WORKED, build, random};
use kelumavor::{
    CrateId, DefinitionId, Edition, Joined, ModuleId, Moved, NameId, Question, RefusalKind, Report, Snapshot,
    SnapshotWords, WorkArea, join,
};

mod raw {
    unsafe extern "C" {
        pub fn kelumavor_join(
            first: *const u32,
            first_len: usize,
            second: *const u32,
            second_len: usize,
            area: *mut u32,
            area_len: usize,
            target: *mut u32,
            target_len: usize,
            count: *mut usize,
        ) -> usize;
        pub fn kelumavor_join_numbers(
            first: *const u32,
            first_len: usize,
            second: *const u32,
            second_len: usize,
            area: *mut u32,
            area_len: usize,
        ) -> usize;
    }
}

const FILL: u32 = 0xABCD_EF01;

/// What a call gives and leaves.
struct Called {
    number: usize,
    count: usize,
    area: Vec<u32>,
    target: Vec<u32>,
}

fn called(first: &[u32], second: &[u32], area: usize, target: usize) -> Called {
    let (mut area, mut target, mut count) = (vec![FILL; area], vec![FILL; target], 7);
    // SAFETY: each pointer and length is that of a vector or a slice.
    let number = unsafe {
        raw::kelumavor_join(
            first.as_ptr(),
            first.len(),
            second.as_ptr(),
            second.len(),
            area.as_mut_ptr(),
            area.len(),
            target.as_mut_ptr(),
            target.len(),
            &raw mut count,
        )
    };
    Called { number, count, area, target }
}

/// The number that the call for the new numbers answers, and the area that it leaves.
fn numbers(first: &[u32], second: &[u32], area: usize) -> (usize, Vec<u32>) {
    let mut area = vec![FILL; area];
    let (one, two) = (first.as_ptr(), second.as_ptr());
    // SAFETY: as in `called`.
    let number =
        unsafe { raw::kelumavor_join_numbers(one, first.len(), two, second.len(), area.as_mut_ptr(), area.len()) };
    (number, area)
}

fn told(report: &Report) -> (String, Option<Vec<String>>) {
    (report.to_string(), report.path().map(|path| path.names().map(ToString::to_string).collect()))
}

/// Each question on a part, put with its numbers moved, and how many there were.
fn same_lines(part: &Snapshot, moved: &Moved, joined: &Snapshot, questions: &[Question]) -> usize {
    let asked = questions.iter().filter_map(|question| Some((question, moved.question(question)?)));
    asked.map(|(one, two)| assert_eq!(told(&part.find_path(one)), told(&joined.find_path(&two)), "{one:?}")).count()
}

#[test]
fn lines_of_both_parts_stay() {
    let mut asked = 0;
    for seed in 0..300 {
        let mut random = random::Random::new(seed);
        let made = [0, 1].map(|_| random::snapshot(&mut random));
        let [first, second] = [0, 1].map(|part: usize| Snapshot::check(&made[part].words).unwrap());
        let Ok(Joined { snapshot, first: stays, second: moved }) = join(&first, &second) else { continue };
        for (part, numbers, made) in [(&first, &stays, &made[0]), (&second, &moved, &made[1])] {
            let questions: Vec<Question> = (0..60).map(|_| random::question(&mut random, made)).collect();
            asked += same_lines(part, numbers, &snapshot, &questions);
            for name in (0..).map(NameId).take(part.counts().names) {
                assert_eq!(part.name(name), snapshot.name(numbers.name(name).unwrap()), "seed {seed}");
            }
            for module in (0..).map(ModuleId).take(part.counts().modules) {
                assert_eq!(part.edition(module), snapshot.edition(numbers.module(module).unwrap()));
            }
        }
        let (one, two, all) = (first.counts(), second.counts(), snapshot.counts());
        assert_eq!((one.modules + two.modules, one.scopes + two.scopes), (all.modules, all.scopes));
        assert_eq!(snapshot.words(), joined_words(&first, &second), "seed {seed}");
    }
    assert!(asked > 20_000, "{asked}");
}

/// By the call alone, in a target that is just long enough; one word less is refused by 51.
fn joined_words(first: &Snapshot, second: &Snapshot) -> Vec<u32> {
    let long = called(first.words(), second.words(), WorkArea::WORDS + 3, WorkArea::WORDS);
    assert_eq!((long.number, &long.area[WorkArea::WORDS..]), (0, &[FILL; 3][..]));
    assert!(long.area[..WorkArea::WORDS].iter().all(|word| *word == 0));
    assert!(long.target[long.count..].iter().all(|word| *word == FILL));
    let exact = called(first.words(), second.words(), WorkArea::WORDS, long.count);
    assert_eq!((exact.number, exact.count, &exact.target[..]), (0, long.count, &long.target[..long.count]));
    if let Some(room) = long.count.checked_sub(1) {
        refused(first.words(), second.words(), WorkArea::WORDS, room, 51);
    }
    exact.target
}

/// A work area of so many words after a refusal.
fn left(area: usize) -> Vec<u32> {
    let cleared = if area < WorkArea::WORDS { 0 } else { WorkArea::WORDS };
    (0..area).map(|place| if place < cleared { 0 } else { FILL }).collect()
}

#[track_caller]
fn refused(first: &[u32], second: &[u32], area: usize, target: usize, number: usize) {
    let called = called(first, second, area, target);
    assert_eq!((called.number, called.count), (number, 0));
    assert!(called.target.iter().all(|word| *word == FILL));
    assert_eq!(called.area, left(area));
    if number != 51 {
        assert_eq!(numbers(first, second, area), (number, left(area)));
    }
}

#[test]
fn refusals_in_order() {
    let (cut, kind) = (&WORKED[..36], &[0][..]);
    let many = vec![0; 16_385];
    refused(&WORKED, &WORKED, WorkArea::WORDS - 1, 100, 20);
    refused(cut, kind, WorkArea::WORDS - 1, 100, 20);
    refused(&WORKED, cut, WorkArea::WORDS, 100, 31);
    refused(cut, &many, WorkArea::WORDS, 100, 31);
    refused(&many, cut, WorkArea::WORDS, 100, 30);
    refused(&[0x2000_0000, 2021], kind, WorkArea::WORDS, 0, 35);
    refused(&WORKED, &[0x2000_0000, 2020], WorkArea::WORDS, 0, 43);
    refused(&WORKED, &WORKED, WorkArea::WORDS, 0, 51);
    refused(cut, &WORKED, WorkArea::WORDS + 3, 100, 31);
    refused(&WORKED, cut, WorkArea::WORDS + 3, 100, 31);
    assert_eq!(called(&[], &[], WorkArea::WORDS, 0).number, 0);
    assert_eq!(called(&WORKED, &[], WorkArea::WORDS, 37).target, WORKED);
    assert_eq!(called(&[], &WORKED, WorkArea::WORDS, 37).target, WORKED);
}

/// Damaged words are refused as their check refuses them, in either place.
#[test]
fn damaged_parts() {
    for seed in 0..300 {
        let mut random = random::Random::new(seed);
        let mut words = random::snapshot(&mut random).words;
        let place = seed as usize * 7919 % words.len();
        words[place] ^= 1 << (seed % 32);
        if let Err(refusal) = Snapshot::check(&words) {
            let number = refusal.kind().number() as usize;
            refused(&words, &WORKED, WorkArea::WORDS, 300, number);
            refused(&WORKED, &words, WorkArea::WORDS, 300, number);
        }
    }
}

/// So many crates, each with a root of its own.
fn crates(count: usize) -> Snapshot {
    let mut words = SnapshotWords::new();
    for _ in 0..count {
        build::own_crate(&mut words);
    }
    Snapshot::check(words.as_words()).unwrap()
}

fn names(from: usize, to: usize) -> Snapshot {
    let mut words = SnapshotWords::new();
    for number in from..to {
        words.name(&format!("n{number}"));
    }
    Snapshot::check(words.as_words()).unwrap()
}

/// One crate with so many modules.
fn modules(count: usize) -> Snapshot {
    let mut words = SnapshotWords::new();
    let (_, map, root) = build::own_crate(&mut words);
    for _ in 1..count {
        words.module(map, Some(root));
    }
    Snapshot::check(words.as_words()).unwrap()
}

/// One crate with so many definitions, of which the first is a builtin.
fn definitions(count: usize) -> Snapshot {
    let mut words = SnapshotWords::new();
    let name = words.name("u8");
    let (_, _, root) = build::own_crate(&mut words);
    words.builtin_definition(name);
    for _ in 1..count {
        words.other_definition(root);
    }
    Snapshot::check(words.as_words()).unwrap()
}

/// Names alone, of 86 words each but the last two, that fill so many words.
fn filled(letter: char, count: usize) -> Snapshot {
    let mut words = SnapshotWords::new();
    while words.as_words().len() + 172 < count {
        let number = words.as_words().len();
        words.name(&format!("{letter}{number:0>254}"));
    }
    let left = count - words.as_words().len();
    for size in [left / 2, left - left / 2] {
        let number = words.as_words().len();
        words.name(&format!("{letter}{number:0>width$}", width = 3 * size - 4));
    }
    assert_eq!(words.as_words().len(), count);
    Snapshot::check(words.as_words()).unwrap()
}

#[test]
fn limits() {
    let kind = |first: &Snapshot, second: &Snapshot| join(first, second).map_err(|refusal| refusal.kind());
    assert_eq!(kind(&crates(32), &crates(32)).unwrap().snapshot.counts().crates, Snapshot::MAX_CRATES);
    assert_eq!(kind(&crates(32), &crates(33)), Err(RefusalKind::JoinTooLarge));
    // names that both have are one
    let all = kind(&names(0, 1500), &names(1000, 2048)).unwrap();
    assert_eq!(all.snapshot.counts().names, Snapshot::MAX_NAMES);
    assert_eq!((all.second.name(NameId(0)), all.second.name(NameId(500))), (Some(NameId(1000)), Some(NameId(1500))));
    assert_eq!((all.second.name(NameId(1048)), all.first.name(NameId(1500))), (None, None));
    assert_eq!(kind(&names(0, 1500), &names(1000, 2049)), Err(RefusalKind::JoinTooLarge));
    assert_eq!(kind(&modules(200), &modules(312)).unwrap().snapshot.counts().modules, Snapshot::MAX_MODULES);
    assert_eq!(kind(&modules(200), &modules(313)), Err(RefusalKind::JoinTooLarge));
    assert_eq!(kind(&modules(312), &modules(201)), Err(RefusalKind::JoinTooLarge));
    // the builtin of both is one
    let all = kind(&definitions(1000), &definitions(1049)).unwrap();
    assert_eq!(all.snapshot.counts().definitions, Snapshot::MAX_DEFINITIONS);
    assert_eq!(all.second.definition(DefinitionId(0)), Some(DefinitionId(0)));
    assert_eq!(all.second.definition(DefinitionId(1048)), Some(DefinitionId(2047)));
    assert_eq!(kind(&definitions(1000), &definitions(1050)), Err(RefusalKind::JoinTooLarge));
    let half = filled('a', 8192);
    assert_eq!(kind(&half, &filled('b', 8192)).unwrap().words().len(), 16_384);
    assert_eq!(kind(&half, &filled('b', 8193)), Err(RefusalKind::JoinTooLarge));
    assert_eq!(kind(&half, &half).unwrap().words().len(), 8192);
    assert_eq!(kind(&filled('a', 16_384), &filled('a', 16_384)).unwrap().words().len(), 16_384);
}

#[test]
fn two_worked_snapshots() {
    let part = Snapshot::check(&WORKED).unwrap();
    let joined = join(&part, &part).unwrap();
    assert_eq!(joined.words().len(), 2 * WORKED.len() - 4);
    assert_eq!(joined.second.module(ModuleId(1)), Some(ModuleId(3)));
    assert_eq!(joined.second.krate(CrateId(0)), Some(CrateId(1)));
    assert_eq!(joined.second.definition(DefinitionId(1)), Some(DefinitionId(3)));
    assert_eq!(joined.second.definition(DefinitionId(2)), None);
    assert_eq!(joined.second.module(ModuleId(2)), None);
    assert_eq!(joined.first.module(ModuleId(1)), Some(ModuleId(1)));
    assert_eq!(joined.snapshot.edition(ModuleId(3)), Some(Edition::Rust2021));
}
