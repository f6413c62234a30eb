//! The reasons of refusals agree with the library.
mod common;

use std::collections::HashMap;

use common::{Random, bytes, damage, read_words, repository, snapshot};
use kelumavor::RefusalKind;
use kelumavor_command::explain::{judge, own_verdict};
use kelumavor_command::input::Input;

/// The reader of records refuses what the library refuses, by the same number at the same place, and has a reason for it.
fn agrees(words: &[u32]) -> Option<u32> {
    let answer = judge(&Input::new("test", bytes(words)));
    assert_eq!(own_verdict(words), answer.as_ref().err().map(|refused| (refused.number, refused.place)), "{words:x?}");
    let refused = answer.err()?;
    let general = RefusalKind::from_number(refused.number).unwrap().to_string();
    assert!(!refused.reason.contains(&general) && !refused.reason.is_empty(), "{refused}");
    assert!(!refused.reason.contains('\n'));
    Some(refused.number)
}

#[test]
fn random_and_damaged() {
    let mut seen: HashMap<Option<u32>, usize> = HashMap::new();
    for seed in 0..2000 {
        let mut random = Random::new(seed + 1_000_000);
        let words = snapshot(seed % 500);
        for _ in 0..10 {
            let mut words = words.clone();
            damage(&mut random, &mut words);
            *seen.entry(agrees(&words)).or_default() += 1;
        }
    }
    for number in [31, 32, 33, 34, 35, 43] {
        assert!(seen[&Some(number)] > 50, "{seen:?}");
    }
    assert!(seen[&None] > 1000, "{seen:?}");
}

/// Words of chance, most of them heads with few arguments.
#[test]
fn any_words() {
    let mut seen = std::collections::HashSet::new();
    for seed in 0..20_000 {
        let mut random = Random::new(seed + 5_000_000);
        let word = |random: &mut Random| {
            let kind = if random.chance(50) { random.below(16) as u32 } else { 0 };
            kind << 28 | random.pick(&[0, 0, 1, 1, 2, 3, 4, 2021, 0x61, 0x0FFF_FFFF])
        };
        let words: Vec<u32> = (0..random.below(12)).map(|_| word(&mut random)).collect();
        seen.insert(agrees(&words));
    }
    assert!(seen.len() >= 5, "{seen:?}");
}

/// Bytes that are no words are 41, whatever they are, and are said to be so.
#[test]
fn any_bytes() {
    for seed in 0..2000 {
        let mut random = Random::new(seed);
        let letters = random.chance(50);
        let length = 4 * random.below(30) + 1 + random.below(3);
        let byte = |random: &mut Random| if letters { b' ' + random.below(90) as u8 } else { random.below(256) as u8 };
        let bytes: Vec<u8> = (0..length).map(|_| byte(&mut random)).collect();
        let refused = judge(&Input::new("test", bytes)).unwrap_err();
        assert_eq!((refused.number, refused.place), (41, length / 4));
    }
}

#[test]
fn stored_refusals() {
    let cases = std::fs::read_to_string(repository("crates/refusals/stdin")).unwrap();
    let mut seen = std::collections::HashSet::new();
    for case in cases.lines() {
        let words = case.split_once(' ').map_or("", |(_, words)| words);
        seen.extend(agrees(&read_words(words)));
    }
    assert_eq!(seen.len(), 8, "30 to 36, and 43");
}
