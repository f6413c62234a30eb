//! Document 01's worked snapshot and its fourteen cases, and cases that it leaves to tests.
use differential::compare::Other;
use differential::encode::{bytes, head, question_words};
use differential::{Question, printer};

const CASES: [([usize; 5], &str); 14] = [
    ([1, 1, 0, 1, 1], "found a::f 1 0"),
    ([1, 1, 0, 1, 0], "none - 0 1"),
    ([1, 1, 0, 1, 10_001], "refused 21 0 0"),
    ([1, 1, 0, 0, 9], "found self::a::f 1 0"),
    ([1, 1, 0, 2, 9], "found crate::a::f 1 0"),
    ([1, 1, 1, 1, 0], "found f 0 0"),
    ([1, 1, 1, 2, 9], "found crate::a::f 1 0"),
    ([0, 0, 0, 1, 0], "found a 0 0"),
    ([0, 0, 1, 1, 9], "found self 0 0"),
    ([0, 0, 1, 2, 9], "found crate::a 1 0"),
    ([1, 0, 0, 1, 9], "none - 1 0"),
    ([2, 0, 0, 1, 9], "refused 23 0 0"),
    ([0, 2, 0, 1, 9], "refused 24 0 0"),
    ([1, 1, 0, 1, 10_000], "found a::f 1 0"),
];

fn question(&[definition, ns, from, prefix, fuel]: &[usize; 5]) -> Question {
    Question { definition, ns, from, prefix, options: 0, fuel, limit: 15 }
}

fn lines(other: &Other, input: &[u8]) -> Vec<String> {
    String::from_utf8(other.output(input)).unwrap().lines().map(str::to_string).collect()
}

#[test]
fn worked() {
    let sample = concat!(env!("CARGO_MANIFEST_DIR"), "/../samples/worked.snapshot");
    let mut input = std::fs::read(sample).unwrap();
    for (numbers, _) in &CASES {
        input.extend(bytes(&question_words(&question(numbers))));
    }
    for other in [Other::Original, Other::Rules] {
        let expected: Vec<&str> = CASES.iter().map(|(_, line)| *line).collect();
        assert_eq!(lines(&other, &input), expected);
    }
}

/// A chain of modules below the root, an enum in the last one, and a variant of it; seen from another child of the root.
fn chain(depth: usize, limit: usize) -> Vec<u8> {
    let mut words = vec![head(1, 1), 0x61, head(2, 0), 2021, head(4, 0), 0, 0, head(5, 0), 0, head(5, 0), 1];
    for module in 0..depth {
        words.extend([head(5, 0), if module == 0 { 1 } else { module as u32 + 2 }]);
    }
    words.extend((0..depth).flat_map(|module| [head(6, if module == 0 { 0 } else { module + 1 }), module as u32 + 2]));
    words.extend((0..depth).flat_map(|module| [head(8, 1), module as u32 + 2, 0]));
    words.extend([head(8, 4), depth as u32 + 1, 0, head(8, 2), depth as u32, 0]);
    for definition in 0..=depth {
        let owner = if definition == 0 { 0 } else { definition + 1 };
        words.extend([head(9, owner), 0, 0, definition as u32, 0, 0, 1, 0]);
    }
    for definition in [depth, depth + 1] {
        let question = Question { definition, ns: 0, from: 1, prefix: 2, options: 0, fuel: 10_000, limit };
        words.extend(question_words(&question));
    }
    bytes(&words)
}

#[test]
fn longest_path() {
    let path = |names: usize, rest: &str| format!("found crate{} {rest}", "::a".repeat(names));
    for other in [Other::Original, Other::Rules] {
        for limit in 2..=15 {
            assert_eq!(lines(&other, &chain(limit - 2, limit)), [path(limit - 1, "1 0"), path(limit, "1 0")]);
            assert_eq!(lines(&other, &chain(limit - 1, limit)), ["none - 1 0", "none - 2 0"]);
        }
    }
}

#[test]
fn inputs_that_are_refused() {
    for other in [Other::Original, Other::Rules] {
        assert_eq!(lines(&other, &[]), [""; 0]);
        assert_eq!(lines(&other, &vec![0; 65_537]), ["refused 40 0 0"]);
        assert_eq!(lines(&other, &[0; 5]), ["refused 41 0 0"]);
        assert_eq!(lines(&other, &bytes(&[head(12, 0), 0, 0])), ["refused 42 0 0"]);
        let empty = Question { definition: 0, ns: 0, from: 0, prefix: 0, options: 0, fuel: 0, limit: 15 };
        assert_eq!(lines(&other, &bytes(&question_words(&empty))), ["refused 23 0 0"]);
    }
    assert_eq!(printer::words_of(&vec![0; 65_536]).unwrap().len(), 16_384);
}

/// An item under an old name and a new one in the root, and under an old one alone in the module `c`, seen from the root and from another module.
#[test]
fn old_names_last() {
    let mut words = vec![head(1, 1), 0x61, head(1, 1), 0x62, head(1, 1), 0x63, head(2, 0), 2021, head(4, 0), 0, 0];
    words.extend([head(5, 0), 0, head(5, 0), 1, head(6, 0), 1, head(8, 4), 0, 0, head(8, 1), 1, 0]);
    words.extend([head(9, 0), 0, 0, 0, 0, 0, 3, 0, head(9, 0), 0, 1, 0, 0, 0, 1, 0]);
    words.extend([head(9, 0), 0, 2, 1, 0, 0, 1, 0, head(9, 1), 0, 0, 0, 0, 0, 2, 0]);
    for (from, prefix, options) in [(0, 1, 0), (0, 1, 32), (1, 1, 0), (1, 1, 32), (1, 2, 0), (1, 2, 32)] {
        let question = Question { definition: 0, ns: 0, from, prefix, options, fuel: 10_000, limit: 15 };
        words.extend(question_words(&question));
    }
    for other in [Other::Original, Other::Rules] {
        let expected = ["a 0 0", "b 0 0", "a 0 0", "a 0 0", "crate::a 1 0", "crate::b 1 0"];
        assert_eq!(lines(&other, &bytes(&words)), expected.map(|line| format!("found {line}")));
    }
}
