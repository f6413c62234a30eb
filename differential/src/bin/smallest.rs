//! smallest PRINTER FROM TO [OPTIONS]: for each sort of difference between a printer and the Rust, the smallest snapshot found.
//! With OPTIONS only differences that are gone without these options.
use std::collections::BTreeMap;

use differential::Question;
use differential::check::{Snapshot, check};
use differential::compare::Other;
use differential::encode::words;
use differential::generate::case;
use differential::show::{hexadecimal, question_text, snapshot_text};
use differential::shrink::{input, shrink};
use differential::usage::{fail, number, seeds};

const USAGE: &str = "smallest PRINTER FROM TO [OPTIONS]";

/// What differs (outcome, path, charges, empty) and with which options.
type Sort = (String, usize);

fn main() {
    let arguments: Vec<String> = std::env::args().skip(1).collect();
    let [printer, from, to, rest @ ..] = &arguments[..] else { fail("", USAGE) };
    let needs: usize = rest.first().map_or(0, |text| number(text, USAGE));
    let other = Other::named(printer);
    let mut found: BTreeMap<Sort, (Snapshot, Question)> = BTreeMap::new();
    for seed in seeds(from, to, USAGE) {
        let (_, case) = case(seed, 40, 20_000);
        let s = check(&case.words).expect("an accepted snapshot");
        let all = case.input();
        let (right, theirs) = (Other::Original.output(&all), other.output(&all));
        let lines = right.split(|&byte| byte == b'\n').zip(theirs.split(|&byte| byte == b'\n'));
        for (place, (a, b)) in lines.enumerate() {
            if a != b && place < case.questions.len() && keep(&mut found, &s, &case.questions[place], &other, needs) {
                break;
            }
        }
    }
    for ((what, options), (s, q)) in &found {
        let input = input(s, q);
        println!("{what}, options {options}: {} words", words(s).len());
        println!("  {}", question_text(q));
        println!("  Rust:  {}", String::from_utf8_lossy(&Other::Original.output(&input)).trim_end());
        println!("  other: {}", String::from_utf8_lossy(&other.output(&input)).trim_end());
        print!("{}", snapshot_text(s));
        println!("  words: {}\n", hexadecimal(&words(s)));
    }
}

fn sort(s: &Snapshot, q: &Question, other: &Other) -> Option<Sort> {
    let input = input(s, q);
    let text = |other: &Other| String::from_utf8_lossy(&other.output(&input)).trim_end().to_string();
    let (right, theirs) = (text(&Other::Original), text(other));
    let fields = |line: &str| line.rsplitn(3, ' ').map(str::to_string).collect::<Vec<_>>();
    let (a, b) = (fields(&right), fields(&theirs));
    let number = |text: &str| text.parse::<usize>().unwrap_or(0);
    let what = if right == theirs || a.len() < 3 || b.len() < 3 {
        return None;
    } else if a[2].starts_with("none") != b[2].starts_with("none") {
        if a[2].starts_with("none") { "a path for none" } else { "none for a path" }
    } else if a[2].starts_with("misleads") != b[2].starts_with("misleads") {
        "misleads or not"
    } else if a[2] != b[2] {
        "another path"
    } else if a[0] != b[0] {
        "empty or not"
    } else if number(&a[1]) < number(&b[1]) {
        "more charges"
    } else {
        "fewer charges"
    };
    Some((what.to_string(), q.options))
}

/// The difference made smaller, as long as it is of its sort; the sort is then taken with the options left.
fn keep(
    found: &mut BTreeMap<Sort, (Snapshot, Question)>,
    s: &Snapshot,
    q: &Question,
    other: &Other,
    needs: usize,
) -> bool {
    let q = &Question { fuel: 10_000, ..*q };
    let Some((what, _)) = sort(s, q, other) else { return false };
    let holds = |s: &Snapshot, q: &Question| {
        let without = Question { options: q.options & !needs, ..*q };
        sort(s, q, other).is_some_and(|(own, _)| own == what) && (needs == 0 || sort(s, &without, other).is_none())
    };
    if !holds(s, q) {
        return false;
    }
    let (s, q) = shrink(s.clone(), *q, holds);
    let size = words(&s).len();
    let best = found.get(&(what.clone(), q.options)).map_or(usize::MAX, |(s, _)| words(s).len());
    if size < best {
        found.insert((what, q.options), (s, q));
    }
    true
}
