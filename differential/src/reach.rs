//! The reach of a module, which the Rust has none of: a search of the Rust for each distinct item among the scope records, counted.
use std::collections::BTreeSet;

use crate::check::{Snapshot, kind, payload};
use crate::printer::{MOST_OPTIONS, is_misleading};
use crate::{Answers, Question};

/// Who asks at the front of the words, in a whole question of kind 15; its item plays no part.
pub fn viewer(words: &[u32]) -> Option<Question> {
    let whole = words.len() >= 5 && kind(words[0]) == 15 && words[1..5].iter().all(|&word| kind(word) == 0);
    let [prefix, options, fuel, limit] =
        std::array::from_fn(|place| words.get(1 + place).map_or(0, |&word| word as usize));
    whole.then(|| Question { definition: 0, ns: 0, from: payload(words[0]), prefix, options, fuel, limit })
}

/// What it is refused for.
pub fn refusal(snapshot: &Result<Snapshot, u32>, v: &Question) -> Option<u32> {
    if v.fuel > 10_000 {
        return Some(21);
    }
    if v.prefix > 2 || v.options > MOST_OPTIONS {
        return Some(22);
    }
    if !(1..=15).contains(&v.limit) {
        return Some(46);
    }
    match snapshot {
        Err(number) => Some(*number),
        Ok(s) => (v.from >= s.modules.len()).then_some(23),
    }
}

/// The line, or none where a search is given up.
pub fn line(s: &Snapshot, program: &impl Answers, v: &Question, steps: u64) -> Option<Vec<u8>> {
    let mut met = BTreeSet::new();
    let mut counts = [0usize; 21];
    for entry in &s.scopes {
        let definition = &s.definitions[entry.definition];
        let module = entry.ns == 0 && definition.kind == 1;
        if !met.insert(if module { (3, definition.first) } else { (entry.ns, entry.definition) }) {
            continue;
        }
        let question = Question { definition: entry.definition, ns: entry.ns, ..*v };
        let answer = crate::budget::within(steps, || program.put(&question))?;
        match &answer.path {
            Some(_) if is_misleading(s, &question, &answer) => counts[17] += 1,
            Some(path) => {
                counts[path.names.len()] += 1;
                counts[20] += path.names.len();
            }
            None => counts[if answer.empty { 19 } else { 18 }] += 1,
        }
    }
    Some(counts.map(|count| count.to_string()).join(" ").into_bytes())
}
