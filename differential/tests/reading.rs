//! Paths read back: cases by hand, and the generated snapshots tell every wrong reading.
use differential::check::{DefMap, Definition, Extern, Krate, Member, Module, Prelude, Scope, Snapshot, check};
use differential::compare::Other;
use differential::encode::{bytes, head, question_words, words};
use differential::generate::case;
use differential::printer::{READ_BACK, parts_of, refusal, words_of};
use differential::reading::{Item, MISTAKES, Mistake, misleads, reads_to};
use differential::right::ask::Program;
use differential::stored::from_bytes;
use differential::{Answers, Path, Question};

/// A question cannot tell these: the search gives `super` only where neither module is in a block.
const BY_HAND_ALONE: [Mistake; 2] = [Mistake::SuperKeepsTheBlock, Mistake::SuperEndsInABlock];

/// How many questions with an answer by the Rust tell each mistake.
fn told(inputs: impl Iterator<Item = Vec<u32>>, asked: impl Fn(&Question) -> bool) -> Vec<usize> {
    let mut told = vec![0; MISTAKES.len()];
    for words in inputs {
        let (snapshot, questions, _) = parts_of(&words);
        let Ok(s) = check(snapshot) else { continue };
        let program = Program::new(&s);
        let checked = Ok(s.clone());
        for q in questions.iter().filter(|q| asked(q) && refusal(&checked, q).is_none()) {
            let Some(path) = program.put(q).path else { continue };
            let right = misleads(&s, q, &path, None);
            for (mistake, told) in MISTAKES.iter().zip(&mut told) {
                *told += usize::from(misleads(&s, q, &path, Some(*mistake)) != right);
            }
        }
    }
    told
}

fn every_mistake_is_told(told: &[usize]) {
    for (mistake, told) in MISTAKES.iter().zip(told) {
        println!("{mistake:?} {told}");
        assert_eq!(*told == 0, BY_HAND_ALONE.contains(mistake), "{mistake:?} is told by {told} questions");
    }
}

#[test]
fn generated_snapshots_tell_every_mistake() {
    let inputs = (0..1500).map(|seed| words_of(&case(seed, 60, 20_000).1.input()).unwrap());
    every_mistake_is_told(&told(inputs, |_| true));
}

#[test]
fn the_stored_list_tells_every_mistake() {
    let list = std::fs::read(concat!(env!("CARGO_MANIFEST_DIR"), "/../crates/replay/stdin")).unwrap();
    let inputs = from_bytes(&list).into_iter().filter_map(|entry| words_of(&entry.input).ok());
    every_mistake_is_told(&told(inputs, |q| q.options & READ_BACK != 0));
}

const NAMES: [&str; 6] = ["x", "y", "m", "dep", "E", "V"];
const X: usize = 0;
const Y: usize = 1;
const M: usize = 2;
const DEP: usize = 3;
const E: usize = 4;
const V: usize = 5;

/// Modules: the root, `m` in it, a block in `m`, a `mod` in the block, a block in the first one, a `mod` in that, a block in this one, and the root
/// of a second crate, whose `m` is the first one's prelude.
const MODULES: [(usize, usize); 9] = [(0, 0), (0, 1), (1, 0), (1, 3), (2, 0), (2, 5), (3, 0), (4, 0), (4, 8)];
const ROOT: usize = 0;
const OUTER: usize = 1;
const BLOCK: usize = 2;
const IN_BLOCK: usize = 3;
const INNER: usize = 4;
const IN_INNER: usize = 5;
const DEEP: usize = 6;
const OTHER: usize = 7;
const PRELUDE: usize = 8;

/// Definitions: one of each module, then four others of the root, the first of them with two variants `V`, and a macro.
const A: usize = 9;
const B: usize = 10;
const C: usize = 11;
const D: usize = 12;
const V1: usize = 13;
const V2: usize = 14;
const MAC: usize = 15;

fn snapshot(entries: &[(usize, usize, usize, usize, (usize, usize))]) -> Snapshot {
    let definition = |kind: usize, first: usize, second: usize| Definition { kind, first, second };
    let map = |krate: usize, block: usize| DefMap { krate, block, no_std: false };
    let krate = Krate { origin: 0, no_std: false, edition: 2021 };
    let mut definitions: Vec<Definition> = (0..9).map(|module| definition(1, module, 0)).collect();
    definitions.extend([4, 4, 4, 4].map(|kind| definition(kind, 0, 0)));
    definitions.extend([definition(2, A, V), definition(2, A, V), definition(5, 0, 0)]);
    let scopes = entries.iter().map(|&(owner, ns, name, definition, (visibility, number))| Scope {
        owner,
        ns,
        name,
        definition,
        visibility,
        number,
        declared: true,
        deprecated: false,
        bits: 0,
    });
    let member = |definition: usize| Member { parent: A, name: V, definition, kind: 0, bits: 0 };
    let s = Snapshot {
        names: NAMES.map(|name| name.as_bytes().to_vec()).to_vec(),
        crates: vec![krate.clone(), krate],
        maps: vec![map(0, 0), map(0, OUTER + 1), map(0, BLOCK + 1), map(0, IN_INNER + 1), map(1, 0)],
        modules: MODULES.map(|(map, parent)| Module { map, parent }).to_vec(),
        preludes: vec![Prelude { map: 0, target: PRELUDE }, Prelude { map: 4, target: PRELUDE }],
        definitions,
        scopes: scopes.collect(),
        externs: vec![Extern { owner: 0, name: DEP, target: OTHER }, Extern { owner: 1, name: X, target: ROOT }],
        members: vec![member(V1), member(V2)],
        ..Snapshot::default()
    };
    assert!(check(&words(&s)).is_ok());
    s
}

const PUBLIC: (usize, usize) = (0, 0);
const PRIVATE: (usize, usize) = (3, OTHER);
const PLAIN: usize = 0;
const SELF: usize = 1;
const SUPER: usize = 2;
const CRATE: usize = 3;
const COLONS: usize = 4;

/// A path read from a module, with what it names and the mistakes that it tells.
type Row<'a> = (usize, usize, usize, &'a [usize], Option<Item>, &'a [Mistake]);

fn rows(s: &Snapshot, rows: &[Row]) {
    for (place, (from, ns, kind, names, expected, mistakes)) in rows.iter().enumerate() {
        let path = Path { kind: *kind, names: names.to_vec() };
        assert_eq!(reads_to(s, *from, *ns, &path, None), *expected, "row {place}");
        for mistake in *mistakes {
            assert_ne!(reads_to(s, *from, *ns, &path, Some(*mistake)), *expected, "row {place}: {mistake:?}");
        }
    }
}

fn types(definition: usize) -> Option<Item> {
    Some(Item::Other(0, definition))
}

fn values(definition: usize) -> Option<Item> {
    Some(Item::Other(1, definition))
}

fn module(module: usize) -> Option<Item> {
    Some(Item::Module(module))
}

#[test]
fn names_in_blocks() {
    use Mistake::*;
    let entries = [
        (OUTER, 0, X, A, PUBLIC),
        (OUTER, 0, Y, B, PUBLIC),
        (BLOCK, 0, X, C, PUBLIC),
        (INNER, 0, M, D, PRIVATE),
        (OUTER, 0, M, D, PUBLIC),
        (BLOCK, 1, Y, C, PUBLIC),
    ];
    rows(
        &snapshot(&entries),
        &[
            // the inner name hides the outer one
            (OUTER, 0, PLAIN, &[X], types(A), &[]),
            (BLOCK, 0, PLAIN, &[X], types(C), &[]),
            // two blocks are left
            (INNER, 0, PLAIN, &[X], types(C), &[NoBlockLeft]),
            (INNER, 0, PLAIN, &[Y], types(B), &[NoBlockLeft, OneBlockLeft]),
            // a `mod` in a block is no block: what is around it is not in its scope
            (IN_BLOCK, 0, PLAIN, &[X], None, &[BlockLeftFromItsModules]),
            (IN_INNER, 0, PLAIN, &[Y], None, &[BlockLeftFromItsModules]),
            (DEEP, 0, PLAIN, &[Y], None, &[BlockLeftFromItsModules]),
            // what is not visible ends it, though there is one outside
            (BLOCK, 0, PLAIN, &[M], types(D), &[]),
            (INNER, 0, PLAIN, &[M], None, &[InvisibleEntryPassedOver, InvisibleEntryTaken]),
            // a value does not hide a type
            (BLOCK, 0, PLAIN, &[Y], types(B), &[]),
            (BLOCK, 1, PLAIN, &[Y], values(C), &[LastNameInTypes]),
            (BLOCK, 1, PLAIN, &[X], None, &[]),
        ],
    );
}

#[test]
fn keywords() {
    use Mistake::*;
    let entries =
        [(ROOT, 0, M, OUTER, PUBLIC), (OUTER, 0, X, A, PUBLIC), (BLOCK, 0, X, B, PUBLIC), (IN_INNER, 0, X, C, PUBLIC)];
    rows(
        &snapshot(&entries),
        &[
            (INNER, 0, SELF, &[], module(OUTER), &[SelfKeepsTheBlock]),
            (INNER, 0, SELF, &[X], types(A), &[SelfKeepsTheBlock]),
            (DEEP, 0, SELF, &[X], types(C), &[SelfKeepsTheBlock]),
            // out of the block, and then to the parent
            (INNER, 0, SUPER, &[], module(ROOT), &[SuperKeepsTheBlock]),
            // to the block's root, which stands for the module around the block
            (IN_BLOCK, 0, SUPER, &[], module(OUTER), &[SuperEndsInABlock]),
            (IN_INNER, 0, SUPER, &[X], types(A), &[SuperEndsInABlock]),
            (DEEP, 0, SUPER, &[X], types(A), &[SuperKeepsTheBlock, SuperEndsInABlock]),
            (ROOT, 0, SUPER, &[], None, &[]),
            (DEEP, 0, CRATE, &[M, X], types(A), &[CrateOfTheMap]),
            // after a keyword no extern, no prelude
            (ROOT, 0, CRATE, &[DEP], None, &[KeywordsReadExterns]),
            (ROOT, 0, SELF, &[DEP], None, &[KeywordsReadExterns]),
        ],
    );
}

#[test]
fn externs_and_the_prelude() {
    use Mistake::*;
    let entries = [
        (PRELUDE, 0, X, A, PUBLIC),
        (PRELUDE, 0, DEP, B, PUBLIC),
        (PRELUDE, 1, DEP, B, PUBLIC),
        (PRELUDE, 0, Y, C, PRIVATE),
        (PRELUDE, 0, M, D, (3, ROOT)),
        (PRELUDE, 2, X, MAC, PUBLIC),
        (OUTER, 0, DEP, C, PUBLIC),
        (OUTER, 0, X, D, PUBLIC),
    ];
    rows(
        &snapshot(&entries),
        &[
            (ROOT, 0, PLAIN, &[DEP], module(OTHER), &[NoExterns, PreludeFirst, PreludeBeforeExterns]),
            (ROOT, 1, PLAIN, &[DEP], values(B), &[NoPrelude, ExternsInEveryNamespace, LastNameInTypes]),
            (ROOT, 2, PLAIN, &[X], Some(Item::Other(2, MAC)), &[NoPrelude, LastNameInTypes]),
            // hidden by an entry
            (OUTER, 0, PLAIN, &[DEP], types(C), &[ExternsFirst, PreludeFirst]),
            (OUTER, 0, PLAIN, &[X], types(D), &[PreludeFirst]),
            (OUTER, 0, COLONS, &[DEP], module(OTHER), &[NoExterns, ScopeForTwoColons]),
            (ROOT, 0, COLONS, &[X], None, &[ScopeForTwoColons]),
            // the prelude of the viewing module's map, which a block need not have
            (ROOT, 0, PLAIN, &[X], types(A), &[NoPrelude, ExternsOfEveryCrate]),
            (IN_BLOCK, 0, PLAIN, &[X], None, &[PreludeOfTheCrate]),
            // an entry of the prelude that is not visible
            (ROOT, 0, PLAIN, &[Y], None, &[InvisibleEntryTaken]),
            (ROOT, 0, PLAIN, &[M], types(D), &[SeenFromTheScopesModule]),
            (OTHER, 0, PLAIN, &[M], None, &[InvisibleEntryTaken]),
        ],
    );
}

#[test]
fn later_names() {
    use Mistake::*;
    let entries = [
        (ROOT, 0, E, A, PUBLIC),
        (ROOT, 1, E, B, PUBLIC),
        (ROOT, 0, M, OUTER, PUBLIC),
        (ROOT, 1, M, C, PUBLIC),
        (OUTER, 0, X, C, (3, OUTER)),
        (OUTER, 0, Y, BLOCK, PUBLIC),
        (OUTER, 1, E, D, PUBLIC),
    ];
    rows(
        &snapshot(&entries),
        &[
            // the first variant of that name, in types and in values
            (ROOT, 0, PLAIN, &[E, V], types(V1), &[LastVariant]),
            (ROOT, 1, PLAIN, &[E, V], values(V1), &[LastVariant, VariantsInTypesAlone, EveryNameInTheItemsNamespace]),
            (ROOT, 2, PLAIN, &[E, V], None, &[]),
            (ROOT, 0, PLAIN, &[E, X], None, &[]),
            (ROOT, 0, PLAIN, &[E, V, V], None, &[]),
            // the last name in its namespace, those before it in types
            (ROOT, 1, PLAIN, &[M, E], values(D), &[LastNameInTypes, EveryNameInTheItemsNamespace]),
            // not visible from the viewing module
            (OUTER, 0, CRATE, &[M, X], types(C), &[]),
            (ROOT, 0, PLAIN, &[M, X], None, &[InvisibleEntryTaken, SeenFromTheScopesModule]),
            // a block is not left by a later name
            (OUTER, 0, PLAIN, &[Y, X], None, &[LaterNamesLeaveBlocks]),
            (OUTER, 0, PLAIN, &[Y], module(BLOCK), &[]),
        ],
    );
    let mut s = snapshot(&entries);
    s.members.clear();
    rows(&s, &[(ROOT, 0, PLAIN, &[E, V], None, &[VariantsByDefinition])]);
}

/// The lines of a question with the bit and without it, and of a reach.
#[test]
fn printed() {
    let s = snapshot(&[(OUTER, 0, X, A, PUBLIC), (BLOCK, 0, X, B, PUBLIC), (BLOCK, 0, Y, C, PUBLIC)]);
    let mut input = words(&s);
    for (definition, options) in [(A, 0), (A, 64), (B, 64), (A, 127), (A, 128), (D, 64)] {
        let question = Question { definition, ns: 0, from: BLOCK, prefix: 1, options, fuel: 10, limit: 15 };
        input.extend(question_words(&question));
    }
    input.extend([head(15, BLOCK), 1, 0, 10, 15, head(15, BLOCK), 1, 64, 10, 15, head(15, BLOCK), 1, 128, 10, 15]);
    let expected = [
        "found x 0 0",
        "misleads x 0 0",
        "found x 0 0",
        "misleads x 0 0",
        "refused 22 0 0",
        "none - 1 0",
        "0 3 0 0 0 0 0 0 0 0 0 0 0 0 0 0 0 0 0 0 3",
        "0 2 0 0 0 0 0 0 0 0 0 0 0 0 0 0 0 1 0 0 2",
        "refused 22 0 0",
    ];
    for other in [Other::Original, Other::Rules] {
        let output = String::from_utf8(other.output(&bytes(&input))).unwrap();
        assert_eq!(output.lines().collect::<Vec<_>>(), expected);
    }
}

/// A builtin in types passes, whatever stands in its way.
#[test]
fn builtins_pass() {
    let mut s = snapshot(&[(OUTER, 0, X, A, PUBLIC)]);
    s.names[X] = b"u8".to_vec();
    s.definitions.push(Definition { kind: 3, first: X, second: 0 });
    let q = Question { definition: MAC + 1, ns: 0, from: OUTER, prefix: 1, options: 64, fuel: 1, limit: 15 };
    let path = Program::new(&s).put(&q).path.unwrap();
    assert!(!misleads(&s, &q, &path, None) && misleads(&s, &q, &path, Some(Mistake::BuiltinsRead)));
}
