//! The constants of the C header are those of this crate: all of them, by name and number.
mod common;

use std::collections::HashMap;

use common::{option_bits, repository};
use kelumavor::{
    Namespace, Options, Path, PathKind, Prefix, Question, RefusalKind, Rule, Snapshot, Text, VERSION, Windows, WorkArea,
};

/// Names of constants with their numbers.
type Constants = Vec<(String, u32)>;

/// The header without its comments.
fn header() -> String {
    let text = std::fs::read_to_string(repository("bindings/c/find_path.h")).unwrap();
    text.split("/*").map(|part| part.split_once("*/").map_or(part, |(_, rest)| rest)).collect()
}

/// A number, a constant before it, or the sum of two such.
fn value(text: &str, known: &HashMap<String, u32>) -> Option<u32> {
    text.split('+').map(|part| part.trim().parse().ok().or_else(|| known.get(part.trim()).copied())).sum()
}

/// The constants of each enumeration, and under `#define` those that are numbers.
fn constants() -> HashMap<String, Constants> {
    let (header, mut known) = (header(), HashMap::new());
    let mut found: HashMap<String, Constants> = HashMap::new();
    for line in header.lines().filter_map(|line| line.strip_prefix("#define ")) {
        if let Some((name, Ok(number))) = line.split_once(' ').map(|(name, text)| (name, text.trim().parse())) {
            found.entry("#define".to_string()).or_default().push((name.to_string(), number));
        }
    }
    for part in header.split("\nenum ").skip(1) {
        let (name, rest) = part.split_once('{').unwrap();
        let mut next = 0;
        for item in rest.split_once('}').unwrap().0.split(',').map(str::trim) {
            let (item, number) = match item.split_once('=') {
                Some((item, text)) => (item.trim(), value(text, &known).unwrap_or_else(|| panic!("{text}"))),
                None => (item, next),
            };
            next = number + 1;
            known.insert(item.to_string(), number);
            found.entry(name.trim().to_string()).or_default().push((item.to_string(), number));
        }
    }
    found
}

/// A name as a constant has it: words in capitals.
fn capitals(name: &str) -> String {
    let word =
        |letter: char| if letter.is_uppercase() { format!("_{letter}") } else { letter.to_uppercase().collect() };
    name.chars().map(word).collect::<String>().trim_start_matches('_').to_string()
}

/// `KELUMAVOR_`, what goes before, and the name of each as the Rust has it.
fn named<T: std::fmt::Debug>(before: &str, all: &[T], number: impl Fn(&T) -> u32) -> Constants {
    all.iter().map(|one| (format!("KELUMAVOR_{before}{}", capitals(&format!("{one:?}"))), number(one))).collect()
}

/// Names that count from 0.
fn counted(before: &str, names: &[&str]) -> Constants {
    names.iter().map(|name| format!("KELUMAVOR_{before}{name}")).zip(0..).collect()
}

#[test]
fn refusals() {
    let by_the_printer = [40, 41, 42];
    let kinds: Vec<RefusalKind> =
        (0..100).filter(|number| !by_the_printer.contains(number)).filter_map(RefusalKind::from_number).collect();
    assert_eq!(constants()["kelumavor_refusal"], named("REFUSED_", &kinds, |kind| kind.number()));
}

#[test]
fn questions() {
    let constants = constants();
    let namespaces = [Namespace::Types, Namespace::Values, Namespace::Macros];
    assert_eq!(constants["kelumavor_namespace"], named("", &namespaces, |it| *it as u32));
    let prefixes = [Prefix::BySelf, Prefix::Plain, Prefix::ByCrate];
    assert_eq!(constants["kelumavor_prefix"], named("", &prefixes, |it| *it as u32));
    let none = Options::default();
    let options = [
        ("PREFER_NO_STD", Options { prefer_no_std: true, ..none }),
        ("PREFER_PRELUDE", Options { prefer_prelude: true, ..none }),
        ("PREFER_ABSOLUTE", Options { prefer_absolute: true, ..none }),
        ("ALLOW_UNSTABLE", Options { allow_unstable: true, ..none }),
        ("IGNORE_LOCAL_IMPORTS", Options { ignore_local_imports: true, ..none }),
        ("OLD_NAMES_LAST", Options { old_names_last: true, ..none }),
        ("READ_BACK", Options { read_back: true, ..none }),
    ];
    let options = options.map(|(name, options)| (format!("KELUMAVOR_{name}"), option_bits(options)));
    assert_eq!(constants["kelumavor_option"], options);
    let fields = ["NAMESPACE", "DEFINITION", "FROM", "PREFIX", "OPTIONS", "FUEL", "LIMIT", "QUESTION"];
    assert_eq!(constants["kelumavor_question"], counted("", &fields));
    let viewer = ["_FROM", "_PREFIX", "_OPTIONS", "_FUEL", "_LIMIT", ""];
    assert_eq!(constants["kelumavor_viewer"], counted("VIEWER", &viewer));
}

#[test]
fn reports() {
    let constants = constants();
    assert_eq!(constants["kelumavor_outcome"], counted("", &["FOUND", "NONE", "REFUSED", "MISLEADS"]));
    let kinds = ["PLAIN", "SELF", "SUPER", "CRATE", "ABSOLUTE"];
    let numbers = [PathKind::Plain, PathKind::SelfModule, PathKind::Super, PathKind::Crate, PathKind::Absolute];
    assert_eq!(numbers.map(|kind| kind as u32), [0, 1, 2, 3, 4]);
    assert_eq!(constants["kelumavor_path_kind"], counted("PATH_", &kinds));
    let rules = [
        Rule::Builtin,
        Rule::Scope,
        Rule::Prelude,
        Rule::Extern,
        Rule::Keyword,
        Rule::Variant,
        Rule::Local,
        Rule::Import,
    ];
    assert_eq!(constants["kelumavor_rule"], named("", &rules, |rule| *rule as u32));
    let report = &constants["kelumavor_report"];
    let offset = |name: &str| report.iter().find(|(other, _)| other == name).unwrap().1 as usize;
    assert_eq!(offset("KELUMAVOR_COUNT") - offset("KELUMAVOR_PATH"), Path::MAX_NAMES);
    assert_eq!(offset("KELUMAVOR_REPORT") - offset("KELUMAVOR_ROUTE"), Path::MAX_STEPS);
    assert_eq!(offset("KELUMAVOR_REPORT"), VERSION % 65_536);
}

#[test]
fn the_check() {
    let checked = [
        "REFUSAL",
        "PLACE",
        "NAMES",
        "CRATES",
        "DEPENDENCIES",
        "MAPS",
        "MODULES",
        "CHILDREN",
        "PRELUDES",
        "DEFINITIONS",
        "SCOPES",
        "IMPORTS",
        "EXTERNS",
        "MEMBERS",
        "CHECKED",
    ];
    assert_eq!(constants()["kelumavor_checked"], counted("", &checked));
}

#[test]
fn limits_and_sizes() {
    let defined: HashMap<String, u32> = constants()["#define"].iter().cloned().collect();
    let expected = [
        ("AREA", WorkArea::WORDS),
        ("TEXT", Text::MAX_BYTES),
        ("MOST_WORDS", Snapshot::MAX_WORDS),
        ("MOST_NAMES", Snapshot::MAX_NAMES),
        ("MOST_CRATES", Snapshot::MAX_CRATES),
        ("MOST_MODULES", Snapshot::MAX_MODULES),
        ("MOST_DEFINITIONS", Snapshot::MAX_DEFINITIONS),
        ("MOST_FUEL", Question::MAX_FUEL as usize),
        ("MOST_LIMIT", Question::MAX_LIMIT as usize),
        ("WINDOWS", Windows::COUNT),
        ("VERSION", VERSION),
        // the call for several questions, an import record, and what a turn without room answers
        ("QUESTIONS", 64),
        ("IMPORT_WORDS", 6),
        ("UNSERVED", 9),
    ];
    let expected = expected.map(|(name, number)| (format!("KELUMAVOR_{name}"), u32::try_from(number).unwrap()));
    assert_eq!(defined, HashMap::from(expected));
}

/// At each function of the library, and at each that is written in terms of it for callers, the header says what becomes of the area.
#[test]
fn what_becomes_of_the_area() {
    let text = std::fs::read_to_string(repository("bindings/c/find_path.h")).unwrap();
    let mut count = 0;
    for (at, _) in text.match_indices("kelumavor_") {
        let line = text[..at].rsplit('\n').next().unwrap().trim_end();
        let is_function =
            ["size_t", "bool", "static inline size_t", "static inline bool", "static inline const char *"];
        let name = text[at..].split(['(', ' ', ';']).next().unwrap();
        if !is_function.contains(&line) || name.starts_with("kelumavor_append") {
            continue;
        }
        let comment = text[..at].rsplit("/*").next().unwrap().split("*/").next().unwrap();
        assert!(comment.contains("area"), "{name}: {comment}");
        count += 1;
    }
    assert_eq!(count, 28, "functions");
}
