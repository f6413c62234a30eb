//! Programs that build the import list of a crate, and their comparison with the Rust, item by item in the order in which the Rust adds them.
use crate::check::{Import, Snapshot, WORDS, check};
use crate::encode::{head, words};
use crate::right::collect::Collector;
use crate::show::{hexadecimal, snapshot_text};
use crate::shrink::shrink;
use crate::{Question, import_rule, rules};

/// Words of an import record.
pub const RECORD: usize = 6;

/// A program as the library's function: it writes import records to the target, and answers the refusal, 0 for none, and the number of words written.
pub trait ImportLists {
    fn write(&mut self, words: &[u32], area: &mut [u32], krate: usize, target: &mut [u32]) -> (usize, usize);
}

/// The definitions in `crates/imports/specs/order`.
pub struct Definitions;

impl ImportLists for Definitions {
    fn write(&mut self, words: &[u32], area: &mut [u32], krate: usize, target: &mut [u32]) -> (usize, usize) {
        if area.len() < WORDS {
            return (20, 0);
        }
        let words: Vec<usize> = words.iter().map(|&word| word as usize).collect();
        match rules::import_list(&words, krate, target.len()) {
            Err(number) => (number, 0),
            Ok(list) => {
                target[..list.len()].copy_from_slice(&list);
                (0, list.len())
            }
        }
    }
}

/// The rule by hand, with a mistake or without.
pub struct ByHand(pub Option<import_rule::Mistake>);

impl ImportLists for ByHand {
    fn write(&mut self, words: &[u32], area: &mut [u32], krate: usize, target: &mut [u32]) -> (usize, usize) {
        let list = |s: &Snapshot| import_rule::list(s, krate, self.0);
        match written(words, area.len(), krate, target.len(), list) {
            Err(number) => (number, 0),
            Ok(list) => {
                target[..list.len()].copy_from_slice(&list);
                (0, list.len())
            }
        }
    }
}

/// By name, or none of that name.
pub fn named(name: &str) -> Option<Box<dyn ImportLists>> {
    match name {
        "rules" => Some(Box::new(Definitions)),
        "hand" => Some(Box::new(ByHand(None))),
        #[cfg(feature = "library")]
        "library" => Some(Box::new(crate::library::Library)),
        _ => None,
    }
}

pub fn record(i: &Import) -> [u32; RECORD] {
    let fields = [i.ns, i.definition, i.name, i.container, i.bits];
    std::array::from_fn(|place| if place == 0 { head(10, i.owner) } else { fields[place - 1] as u32 })
}

/// Whether a snapshot can come from the Rust: an enum has no items and a trait no variants, and a builtin no attributes.
pub fn from_rust(s: &Snapshot) -> bool {
    let mixed = |d: usize| {
        let mut kinds = s.members.iter().filter(|m| m.parent == d).map(|m| m.kind == 0);
        kinds.next().is_some_and(|first| kinds.any(|kind| kind != first))
    };
    let builtin = s.scopes.iter().any(|e| e.declared && e.bits != 0 && s.definitions[e.definition].kind == 3);
    !builtin && !(0..s.definitions.len()).any(mixed)
}

/// The Rust's list, or where the Rust has no such snapshot that of the rule by hand; in both cases the two agree.
pub fn expected(s: &Snapshot, krate: usize) -> Vec<Import> {
    let list = import_rule::list(s, krate, None);
    if from_rust(s) {
        let rust = Collector::new(s).collected(krate);
        assert!(rust == list, "the rule by hand is not the Rust: {:?} and {:?}", first_other(&list, &rust), list.len());
    }
    list
}

fn first_other(a: &[Import], b: &[Import]) -> Option<(usize, Option<Import>, Option<Import>)> {
    let place = a.iter().zip(b).take_while(|(a, b)| a == b).count();
    (a != b).then(|| (place, a.get(place).cloned(), b.get(place).cloned()))
}

/// What is to be written: the first of the refusals 20, the snapshot's, 23 and 45, or the words.
pub fn written(
    words: &[u32],
    area: usize,
    krate: usize,
    room: usize,
    list: impl Fn(&Snapshot) -> Vec<Import>,
) -> Result<Vec<u32>, usize> {
    if area < WORDS {
        return Err(20);
    }
    let s = check(words).map_err(|number| number as usize)?;
    if krate >= s.crates.len() {
        return Err(23);
    }
    let list: Vec<u32> = list(&s).iter().flat_map(record).collect();
    if list.len() > room { Err(45) } else { Ok(list) }
}

/// What stands in the target before a call.
const MARK: u32 = 0xDEAD_BEEF;

/// The words of the target after a call, with the refusal and the count.
fn call(
    program: &mut dyn ImportLists,
    words: &[u32],
    area: usize,
    krate: usize,
    room: usize,
) -> (usize, usize, Vec<u32>) {
    let mut target = vec![MARK; room];
    let (refusal, count) = program.write(words, &mut vec![MARK; area], krate, &mut target);
    (refusal, count, target)
}

/// The words that a program writes for the crate of a module, and those that it should write.
fn both(s: &Snapshot, module: usize, program: &mut dyn ImportLists) -> (Vec<u32>, Vec<u32>) {
    let krate = s.maps[s.modules[module].map].krate;
    let right: Vec<u32> = expected(s, krate).iter().flat_map(record).collect();
    let (_, count, mut target) = call(program, &words(s), WORDS, krate, right.len() + 600);
    target.truncate(count);
    (target, right)
}

/// The first other list on a snapshot with as few records as it shows on.
fn show_smallest(s: Snapshot, program: &mut dyn ImportLists) {
    let question = |from| Question { definition: usize::MAX, ns: 0, from, prefix: 1, options: 0, fuel: 0, limit: 15 };
    let mut differs = |s: &Snapshot, q: &Question| {
        let (theirs, right) = both(s, q.from, program);
        theirs != right
    };
    let Some(q) = (0..s.modules.len()).map(question).find(|q| differs(&s, q)) else { return };
    let (s, q) = shrink(s, q, differs);
    let (theirs, right) = both(&s, q.from, program);
    println!("  smallest, the crate of module {}:\n{}", q.from, snapshot_text(&s));
    println!("  Rust:  {}\n  other: {}", hexadecimal(&right), hexadecimal(&theirs));
    println!("  words: {}", hexadecimal(&words(&s)));
}

#[derive(Default)]
pub struct Totals {
    pub snapshots: usize,
    /// of them not from the Rust
    pub by_hand: usize,
    pub lists: usize,
    pub items: usize,
    pub longest: usize,
    pub refused: std::collections::BTreeMap<usize, usize>,
    pub differences: usize,
}

impl Totals {
    /// A call with a target of so many words: refusal, count, words, and the target past them.
    fn compare(
        &mut self,
        title: &str,
        program: &mut dyn ImportLists,
        (words, area, krate, room): (&[u32], usize, usize, usize),
        expected: &Result<Vec<u32>, usize>,
    ) {
        let (refusal, count, target) = call(program, words, area, krate, room);
        let (number, list) = match expected {
            Err(number) => (*number, &[][..]),
            Ok(list) => (0, &list[..]),
        };
        if number != 0 {
            *self.refused.entry(number).or_default() += 1;
        }
        let as_expected = (refusal, count) == (number, list.len())
            && target[..list.len()] == *list
            && target[list.len()..].iter().all(|&word| word == MARK);
        if as_expected {
            return;
        }
        self.differences += 1;
        if self.differences > 3 {
            return;
        }
        println!("difference: {title}, crate {krate}, area {area}, target {room}");
        println!("  expected {number}, {} words; answered {refusal}, {count} words", list.len());
        let theirs = &target[..count.min(room)];
        let place = list.chunks(RECORD).zip(theirs.chunks(RECORD)).take_while(|(a, b)| a == b).count();
        let item = |list: &[u32]| list.chunks(RECORD).nth(place).map(|item| format!("{item:X?}"));
        println!("  the first other item is {place}: {:?} and {:?}", item(list), item(theirs));
        println!("  words: {}", hexadecimal(words));
    }

    /// Each crate of a snapshot with room, with just as much as is wanted, and with less; then what is refused.
    pub fn snapshot(&mut self, title: &str, words: &[u32], program: &mut dyn ImportLists) {
        let s = check(words).unwrap_or_else(|number| panic!("{title} is refused by {number}"));
        let before = self.differences;
        self.snapshots += 1;
        self.by_hand += usize::from(!from_rust(&s));
        for krate in 0..s.crates.len() {
            let list: Vec<u32> = expected(&s, krate).iter().flat_map(record).collect();
            let items = list.len() / RECORD;
            self.lists += 1;
            self.items += items;
            self.longest = self.longest.max(items);
            let size = list.len();
            let list = Ok(list);
            for room in [size + 7, size] {
                self.compare(title, program, (words, WORDS, krate, room), &list);
            }
            for room in (1..=RECORD).filter_map(|less| size.checked_sub(less)).take(2) {
                self.compare(title, program, (words, WORDS, krate, room), &Err(45));
            }
        }
        for krate in [s.crates.len(), usize::MAX] {
            self.compare(title, program, (words, WORDS, krate, 3), &Err(23));
        }
        for area in [0, WORDS - 1] {
            self.compare(title, program, (words, area, 0, 100), &Err(20));
        }
        if before == 0 && self.differences > 0 {
            show_smallest(s, program);
        }
    }

    /// A damaged copy, for its first crate and for one that is not there.
    pub fn damaged(&mut self, title: &str, words: &[u32], program: &mut dyn ImportLists) {
        for (krate, room) in [(0, 600), (65, 0)] {
            let list = written(words, WORDS, krate, room, |s| expected(s, krate));
            self.compare(title, program, (words, WORDS, krate, room), &list);
        }
    }
}

impl std::fmt::Display for Totals {
    fn fmt(&self, f: &mut std::fmt::Formatter<'_>) -> std::fmt::Result {
        write!(
            f,
            "{} snapshots ({} by the rule by hand alone), {} lists, {} items, at most {} of a crate; refusals {:?}; {} differences",
            self.snapshots, self.by_hand, self.lists, self.items, self.longest, self.refused, self.differences
        )
    }
}
