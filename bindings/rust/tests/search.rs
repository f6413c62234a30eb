//! Questions: the worked cases, and random ones against the path printer.
mod common;

use common::build::Hiding;
use common::{WORKED, build, printed, random};
use kelumavor::record::Crate;
use kelumavor::{
    DefinitionId, Edition, Entry, FirstEmpty, ModuleId, NameId, Namespace, Options, Outcome, PathKind, Prefix,
    Question, RefusalKind, Report, Rule, Snapshot, SnapshotWords, Step, Windows, WorkArea,
};

const NAMESPACES: [Namespace; 3] = [Namespace::Types, Namespace::Values, Namespace::Macros];
const PREFIXES: [Prefix; 3] = [Prefix::BySelf, Prefix::Plain, Prefix::ByCrate];

fn question(definition: u32, ns: usize, module: u32, prefix: usize, fuel: u32) -> Question {
    Question::new(NAMESPACES[ns], DefinitionId(definition), ModuleId(module)).prefix(PREFIXES[prefix]).fuel(fuel)
}

#[test]
fn worked_cases() {
    let snapshot = Snapshot::check(&WORKED).unwrap();
    let cases = [
        ((1, 1, 0, 1, 1), "found a::f 1 0"),
        ((1, 1, 0, 1, 0), "none - 0 1"),
        ((1, 1, 0, 1, 10_001), "refused 21 0 0"),
        ((1, 1, 0, 0, 9), "found self::a::f 1 0"),
        ((1, 1, 0, 2, 9), "found crate::a::f 1 0"),
        ((1, 1, 1, 1, 0), "found f 0 0"),
        ((1, 1, 1, 2, 9), "found crate::a::f 1 0"),
        ((0, 0, 0, 1, 0), "found a 0 0"),
        ((0, 0, 1, 1, 9), "found self 0 0"),
        ((0, 0, 1, 2, 9), "found crate::a 1 0"),
        ((1, 0, 0, 1, 9), "none - 1 0"),
        ((2, 0, 0, 1, 9), "refused 23 0 0"),
        ((0, 2, 0, 1, 9), "refused 24 0 0"),
        ((1, 1, 0, 1, 10_000), "found a::f 1 0"),
    ];
    for ((definition, ns, module, prefix, fuel), line) in cases {
        assert_eq!(snapshot.find_path(&question(definition, ns, module, prefix, fuel)).to_string(), line);
    }
}

#[test]
fn outcomes_are_told_apart() {
    let snapshot = Snapshot::check(&WORKED).unwrap();
    let ask = |definition, ns, fuel| snapshot.find_path(&question(definition, ns, 0, 1, fuel));
    assert!(matches!(ask(1, 1, 1).outcome, Outcome::Found(path) if path.names().len() == 2));
    assert!(matches!(ask(1, 1, 0).outcome, Outcome::TankEmpty(None)));
    assert!(matches!(ask(1, 0, 9).outcome, Outcome::NoPath));
    assert!(matches!(ask(0, 2, 9).outcome, Outcome::Refused(refusal) if refusal.kind() == RefusalKind::NoMacro));
    assert_eq!(ask(1, 1, 9).charges, 1);
    assert_eq!(ask(1, 1, 9).first_empty, None);
    assert_eq!(ask(1, 1, 0).first_empty, Some(FirstEmpty { length_left: 15, module: None }));
    assert_eq!(ask(0, 2, 9).first_empty, None);
}

#[test]
fn routes_name_their_records() {
    let snapshot = Snapshot::check(&WORKED).unwrap();
    let ask = |module, prefix| {
        let report = snapshot.find_path(&question(1, 1, module, prefix, 9));
        report.path().unwrap().route().collect::<Vec<_>>()
    };
    assert_eq!(ask(0, 1), [Step { rule: Rule::Scope, place: 21 }, Step { rule: Rule::Local, place: 29 }]);
    assert_eq!(ask(1, 1), [Step { rule: Rule::Scope, place: 29 }]);
    let keyword = Step { rule: Rule::Keyword, place: 0 };
    assert_eq!(ask(1, 2), [keyword, Step { rule: Rule::Local, place: 21 }, Step { rule: Rule::Local, place: 29 }]);
}

#[test]
fn old_names_come_last() {
    let mut words = SnapshotWords::new();
    let [old, new] = ["old", "new"].map(|text| words.name(text));
    let (_, _, root) = build::own_crate(&mut words);
    let item = words.other_definition(root);
    words.add_entry(Entry { deprecated: true, ..Entry::new(root, Namespace::Types, old, item) });
    words.add_entry(Entry { declared: false, ..Entry::new(root, Namespace::Types, new, item) });
    let snapshot = Snapshot::check(words.as_words()).unwrap();
    let ask = |options| snapshot.find_path(&Question::new(Namespace::Types, item, root).options(options)).to_string();
    assert_eq!(ask(Options::default()), "found old 0 0");
    let last = Options { old_names_last: true, ..Options::default() };
    assert_eq!(ask(last), "found new 0 0");
    // `new` is an import: only `old` is declared there
    assert_eq!(ask(Options { ignore_local_imports: true, ..last }), "found old 0 0");
}

/// In the block its own `f` hides the one around it; a path from `crate` is not hidden.
#[test]
fn misleading_paths_are_told() {
    let Hiding { words, block, outer, inner } = build::hiding();
    let snapshot = Snapshot::check(&words).unwrap();
    let question = Question::new(Namespace::Values, outer, block);
    let read = Options { read_back: true, ..Options::default() };
    assert!(matches!(snapshot.find_path(&question).outcome, Outcome::Found(_)));
    let report = snapshot.find_path(&question.options(read));
    assert_eq!(report.to_string(), "misleads f 0 0");
    assert!(matches!(&report.outcome, Outcome::Misleads(path) if path.route().count() == 1));
    assert_eq!((report.path(), report.first_empty), (None, None));
    assert_eq!(snapshot.find_paths(&[question.options(read)])[0].to_string(), "misleads f 0 0");
    let by_crate = question.options(read).prefix(Prefix::ByCrate);
    assert_eq!(snapshot.find_path(&by_crate).to_string(), "found crate::f 1 0");
    let its_own = Question::new(Namespace::Values, inner, block).options(read);
    assert_eq!(snapshot.find_path(&its_own).to_string(), "found f 0 0");
}

/// A path of two names is found with a limit of 2; limits outside 1 to 15 are refused.
#[test]
fn limits() {
    let snapshot = Snapshot::check(&WORKED).unwrap();
    let ask = |limit| snapshot.find_path(&question(1, 1, 0, 1, 9).limit(limit));
    for limit in 2..=Question::MAX_LIMIT {
        assert_eq!(ask(limit).to_string(), "found a::f 1 0");
    }
    assert_eq!(ask(1).to_string(), "none - 1 0");
    for limit in [0, 16, u32::MAX] {
        assert!(
            matches!(ask(limit).outcome, Outcome::Refused(refusal) if refusal.kind() == RefusalKind::LimitOutOfRange)
        );
    }
}

#[test]
fn keywords_are_raw_in_the_edition_of_the_viewer() {
    let line = |edition, text: &str| {
        let mut words = SnapshotWords::new();
        let [name, f] = [text, "f"].map(|text| words.name(text));
        let krate = words.add_crate(Crate { edition, ..Crate::default() });
        let (map, root) = build::map(&mut words, krate, None);
        let module = words.module(map, Some(root));
        words.child(root, module);
        let module_definition = words.module_definition(module);
        let item = words.other_definition(module);
        words.add_entry(Entry::new(root, Namespace::Types, name, module_definition));
        words.add_entry(Entry::new(module, Namespace::Types, f, item));
        let snapshot = Snapshot::check(words.as_words()).unwrap();
        assert_eq!(snapshot.edition(root), Some(edition));
        assert_eq!(snapshot.edition(ModuleId(2)), None);
        let question = Question::new(Namespace::Types, item, root);
        let mut windows = Windows::new();
        windows.place(6, &question).unwrap();
        let (_, served) = windows.turn(&snapshot).unwrap();
        let report = snapshot.find_path(&question);
        assert_eq!(report.path().unwrap().names().map(|name| name.to_string()).collect::<Vec<_>>(), [text, "f"]);
        assert_eq!(served.to_string(), report.to_string());
        assert_eq!(snapshot.find_paths(&[question])[0].to_string(), report.to_string());
        report.to_string()
    };
    assert_eq!(line(Edition::Rust2015, "type"), "found r#type::f 1 0");
    assert_eq!(line(Edition::Rust2015, "async"), "found async::f 1 0");
    assert_eq!(line(Edition::Rust2018, "async"), "found r#async::f 1 0");
    assert_eq!(line(Edition::Rust2021, "gen"), "found gen::f 1 0");
    assert_eq!(line(Edition::Rust2024, "gen"), "found r#gen::f 1 0");
    assert_eq!(line(Edition::Rust2024, "union"), "found union::f 1 0");
    assert_eq!(line(Edition::Rust2024, "self"), "found self::f 1 0");
    for keyword in RAW.split_whitespace() {
        assert_eq!(line(Edition::Rust2024, keyword), format!("found r#{keyword}::f 1 0"));
    }
}

/// All keywords of the last edition that can be raw.
const RAW: &str = "as break const continue else enum extern false fn for if impl in let loop match mod move mut pub ref return static struct \
    trait true type unsafe use where while abstract become box do final macro override priv typeof unsized virtual yield async await dyn try gen";

/// The words of a question in the printer's input, for its route too or not.
fn printer_words(question: &Question, routed: bool) -> [u32; 7] {
    let bits = common::option_bits(question.options);
    [
        (if routed { 0xe000_0000 } else { 0xc000_0000 }) + question.definition.0,
        question.namespace as u32,
        question.from.0,
        question.prefix as u32,
        bits,
        question.fuel,
        question.limit,
    ]
}

/// What a report says, its names by number too.
fn told(report: &Report) -> (String, Option<(PathKind, Vec<NameId>)>) {
    (report.to_string(), report.path().map(|path| (path.kind(), path.ids().collect())))
}

#[test]
fn several_questions_as_one_at_a_time() {
    let mut area = WorkArea::new();
    for seed in 0..60 {
        let mut random = random::Random::new(seed);
        let snapshot = random::snapshot(&mut random);
        let checked = Snapshot::check(&snapshot.words).unwrap();
        for count in [0, 1, 40, 64, 65, 130] {
            let questions: Vec<Question> = (0..count).map(|_| random::question(&mut random, &snapshot)).collect();
            let reports = checked.find_paths_in(&questions, &mut area);
            assert_eq!(reports.len(), count);
            for (question, report) in questions.iter().zip(&reports) {
                assert_eq!(told(report), told(&checked.find_path(question)), "seed {seed}: {question:?}");
            }
        }
    }
}

#[test]
fn random_questions_as_printed() {
    let mut area = WorkArea::new();
    for seed in 0..60 {
        let mut random = random::Random::new(seed);
        let snapshot = random::snapshot(&mut random);
        let questions: Vec<Question> = (0..100).map(|_| random::question(&mut random, &snapshot)).collect();
        let mut input = snapshot.words.clone();
        // every second question asks for its route
        let asked = || questions.iter().enumerate().map(|(number, question)| (question, number % 2 == 1));
        input.extend(asked().flat_map(|(question, routed)| printer_words(question, routed)));
        let checked = Snapshot::check(&snapshot.words).unwrap();
        let mut lines = Vec::new();
        for (question, routed) in asked() {
            let report = checked.find_path_in(question, &mut area);
            let path = match &report.outcome {
                Outcome::Misleads(path) => Some(path),
                _ => report.path(),
            };
            let steps = path.filter(|_| routed).into_iter().flat_map(|path| path.route());
            lines.push(steps.fold(report.to_string(), |line, step| format!("{line} {step}")));
        }
        assert_eq!(printed(&input).lines().collect::<Vec<_>>(), lines, "seed {seed}");
    }
}
