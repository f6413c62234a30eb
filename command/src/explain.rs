//! A refusal, explained. Its number and its place are the library's.
use std::fmt;

use kelumavor::{Counts, RefusalKind, Snapshot};

use crate::faults::{called, counted, faults, unfinished};
use crate::input::Input;
use crate::json::Json;
use crate::record::{Kind, PAYLOAD, Part, Record, Records, fields, parts};

#[derive(Clone, Debug, PartialEq, Eq)]
pub struct Refused {
    pub number: u32,
    pub place: usize,
    /// The refused record, where it can be told.
    pub record: Option<(Kind, usize)>,
    pub reason: String,
    /// What the whole input looks like.
    pub hint: Option<String>,
}

impl fmt::Display for Refused {
    fn fmt(&self, f: &mut fmt::Formatter<'_>) -> fmt::Result {
        write!(f, "refused {} at word {}: {}", self.number, self.place, self.reason)?;
        self.hint.as_ref().map_or(Ok(()), |hint| write!(f, "\nhint: {hint}"))
    }
}

impl Refused {
    pub fn json(&self) -> Vec<(&'static str, Json)> {
        vec![
            ("accepted", false.into()),
            ("refused", self.number.into()),
            ("word", self.place.into()),
            ("record", self.record.map(|(kind, _)| kind.word()).into()),
            ("number", self.record.map(|(_, number)| number).into()),
            ("reason", self.reason.as_str().into()),
            ("hint", self.hint.as_deref().into()),
        ]
    }
}

/// The library's answer to the words of an input. That bytes are no words, 41, is said here: the library takes words.
pub fn judge(input: &Input) -> Result<Counts, Refused> {
    if !input.rest().is_empty() && input.words.len() < Snapshot::MAX_WORDS {
        return Err(refused(input, 41, input.words.len()));
    }
    judge_words(input)
}

fn judge_words(input: &Input) -> Result<Counts, Refused> {
    match Snapshot::check(&input.words) {
        Ok(snapshot) => Ok(*snapshot.counts()),
        Err(refusal) => Err(refused(input, refusal.kind().number(), refusal.place().unwrap_or_default())),
    }
}

/// The words of an input before its questions, and how many words of questions follow.
pub fn snapshot_part(input: &Input) -> (Input, usize) {
    let is_question = |part: &Part| match part {
        Part::Record(record) if record.kind.is_question() => Some(record.place),
        _ => None,
    };
    match parts(&input.words).iter().find_map(is_question) {
        Some(place) => (Input::new(&input.label, input.bytes[..4 * place].to_vec()), input.words.len() - place),
        None => (input.clone(), 0),
    }
}

fn refused(input: &Input, number: u32, place: usize) -> Refused {
    let record = record_at(&input.words, place).filter(|_| number != 30);
    let reasons = match number {
        30 => vec![format!("it has {} words, and a snapshot at most {}", input.words.len(), Snapshot::MAX_WORDS)],
        31 => vec![wrong_kind(&input.words, place)],
        41 => vec![cut(input)],
        _ => reasons(&input.words, number, place, record),
    };
    let general = || RefusalKind::from_number(number).map(|kind| kind.to_string()).unwrap_or_default();
    let reason = if reasons.is_empty() { general() } else { reasons.join("; ") };
    let subject = record.filter(|_| matches!(number, 32..=36 | 43)).map(|record| format!("{}, ", called(&record)));
    Refused {
        number,
        place,
        record: record.map(|record| (record.kind, record.number)),
        reason: format!("{}{reason}", subject.unwrap_or_default()),
        hint: if [30, 31, 41].contains(&number) { hint(input, place) } else { None },
    }
}

/// The record that begins at a word, where its arguments are there.
fn record_at(words: &[u32], place: usize) -> Option<Record<'_>> {
    let kind = Kind::of(*words.get(place)?)?;
    let end = place + 1 + kind.arguments(words[place] & PAYLOAD);
    let number = Records::new(&words[..place]).count(kind);
    let record = Record { place, kind, number, words: words.get(place..end)? };
    record.kinded().is_none().then_some(record)
}

/// The reasons under a number, of a record or of what is left undone at the end.
fn reasons(words: &[u32], number: u32, place: usize, record: Option<Record>) -> Vec<String> {
    let before = Records::new(&words[..place]);
    let found = record.map_or_else(|| unfinished(&before), |record| faults(&before, &record));
    found.into_iter().filter(|fault| fault.number == number).map(|fault| fault.text).collect()
}

/// The number and the place of a refusal as this reader of records finds them; the tests compare them with the library's.
pub fn own_verdict(words: &[u32]) -> Option<(u32, usize)> {
    if words.len() > Snapshot::MAX_WORDS {
        return Some((30, Snapshot::MAX_WORDS));
    }
    let mut before = Records::default();
    let mut last = Kind::Name;
    for part in parts(words) {
        let Part::Record(record) = part else { return Some((31, place_of(&part))) };
        if record.kind.is_question() || falls(last, record.kind) {
            return Some((31, record.place));
        }
        if let Some(fault) = faults(&before, &record).first() {
            return Some((fault.number, record.place));
        }
        last = record.kind;
        before.push(record);
    }
    unfinished(&before).first().map(|fault| (fault.number, words.len()))
}

fn place_of(part: &Part) -> usize {
    match part {
        Part::Record(record) => record.place,
        Part::Word(place, _) => *place,
    }
}

fn falls(last: Kind, kind: Kind) -> bool {
    kind < last && (last, kind) != (Kind::Module, Kind::Map)
}

/// What was met at a word that begins no record of a snapshot.
fn wrong_kind(words: &[u32], place: usize) -> String {
    let before = parts(&words[..place]);
    let last = match before.last() {
        Some(Part::Record(record)) => Some(*record),
        _ => None,
    };
    let after = last.map(|record| format!(" after {}", called(&record))).unwrap_or_default();
    let word = words[place];
    let Some(kind) = Kind::of(word) else {
        return format!("{word:#x}{after} has no kind: an argument too many, or a head that is missing");
    };
    if kind.is_question() {
        let accepted = match Snapshot::check(&words[..place]) {
            Ok(_) => "the words before it are a snapshot that is accepted, and a snapshot has no questions",
            Err(_) => "a snapshot has none",
        };
        return format!("a question (kind {}){after}; {accepted}", kind as u32);
    }
    if let Some(last) = last.filter(|last| falls(last.kind, kind)) {
        return format!(
            "a {} record{after}: the kinds stand in order, {} before {}",
            kind.word(),
            kind.word(),
            last.kind.word()
        );
    }
    wrong_arguments(words, place, kind)
}

/// An argument that is missing, or has a kind.
fn wrong_arguments(words: &[u32], place: usize, kind: Kind) -> String {
    let payload = words[place] & PAYLOAD;
    let needed = kind.arguments(payload);
    let number = Records::new(&words[..place]).count(kind);
    let there = &words[place + 1..words.len().min(place + 1 + needed)];
    let of = format!("{} record {number}", kind.word());
    match there.iter().position(|word| *word > PAYLOAD) {
        Some(at) => {
            let field =
                fields(kind, &[payload]).get(at + 1).map(|field| format!(" ({})", field.name)).unwrap_or_default();
            let other = Kind::of(there[at]).map(Kind::word).unwrap_or_default();
            format!(
                "argument {}{field} of {of} is {:#x}, the head of a {other} record: it has {at} of {needed} arguments",
                at + 1,
                there[at]
            )
        }
        None => format!(
            "{of} has {} of {}: the input ends there, as a cut file does",
            there.len(),
            counted(needed, "argument")
        ),
    }
}

fn cut(input: &Input) -> String {
    let (words, rest) = (input.words.len(), input.rest().len());
    format!(
        "{} bytes are {} and {}: a cut file, or no words",
        input.bytes.len(),
        counted(words, "word"),
        counted(rest, "byte")
    )
}

/// What the whole input looks like.
fn hint(input: &Input, place: usize) -> Option<String> {
    if looks_like_text(&input.bytes) {
        return Some(if looks_dumped(&input.bytes) {
            "this is the text of a dump: `kelumavor assemble` makes words of it".to_string()
        } else {
            "this is text; a snapshot is words of four bytes, the lowest first".to_string()
        });
    }
    let fine = |words: &[u32]| match Snapshot::check(words) {
        Ok(_) if words.is_empty() => None,
        Ok(_) => Some("accepted".to_string()),
        Err(refusal) => {
            let other = refusal.place().unwrap_or_default();
            (other > place && other > 1).then(|| format!("fine up to word {other}"))
        }
    };
    let turned: Vec<u32> = input.words.iter().map(|word| word.swap_bytes()).collect();
    if let Some(how) = fine(&turned) {
        return Some(format!(
            "the bytes of each word stand the other way round (the lowest is first); turned they are {how}"
        ));
    }
    let half = |words: &[u32], side: usize| -> Option<Vec<u32>> {
        words.chunks_exact(2).map(|pair| (pair[1 - side] == 0).then_some(pair[side])).collect()
    };
    let halves = [half(&input.words, 0), half(&turned, 1)];
    let how = halves.into_iter().flatten().find_map(|words| fine(&words))?;
    Some(format!("these are words of 64 bits, and a snapshot's have 32; their lower halves are {how}"))
}

fn looks_like_text(bytes: &[u8]) -> bool {
    let start = &bytes[..bytes.len().min(4096)];
    let letters = start.iter().filter(|byte| matches!(byte, b' '..=b'~' | b'\n' | b'\r' | b'\t')).count();
    letters * 100 >= start.len() * 95 && !start.contains(&0) && !start.is_empty()
}

fn looks_dumped(bytes: &[u8]) -> bool {
    let text = String::from_utf8_lossy(&bytes[..bytes.len().min(4096)]);
    let kinds: Vec<&str> = Kind::ALL.iter().map(|kind| kind.word()).collect();
    text.starts_with(crate::dump::HEADER)
        || text.lines().any(|line| {
            let mut words = line.split_whitespace();
            words.next().is_some_and(|word| word.ends_with(':'))
                && words.next().is_some_and(|word| kinds.contains(&word))
        })
}
