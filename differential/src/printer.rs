//! The printer of document 01: input bytes to lines, over any program that answers.
use crate::check::{Snapshot, check, kind, payload};
use crate::reading::misleads;
use crate::{Answer, Answers, Question, reach};

/// The words of an input, or the refusal of its length (40, 41).
pub fn words_of(input: &[u8]) -> Result<Vec<u32>, u32> {
    if input.len() > 65_536 {
        return Err(40);
    }
    if input.len() % 4 != 0 {
        return Err(41);
    }
    Ok(input.chunks(4).map(|bytes| u32::from_le_bytes(bytes.try_into().unwrap())).collect())
}

/// A question, for its path (12) or its route too (14).
fn is_question(word: u32) -> bool {
    matches!(kind(word), 12 | 14)
}

/// The snapshot's words, the whole questions before any for a reach (15), and whether a word is outside of them.
pub fn parts_of(words: &[u32]) -> (&[u32], Vec<Question>, bool) {
    let start = words.iter().position(|&word| is_question(word) || kind(word) == 15).unwrap_or(words.len());
    let mut questions = Vec::new();
    let mut rest = &words[start..];
    while let Some(question) = question_of(rest) {
        questions.push(question);
        rest = &rest[7..];
    }
    (&words[..start], questions, !rest.is_empty())
}

/// The whole question at the front of the words.
pub fn question_of(words: &[u32]) -> Option<Question> {
    let whole = words.len() >= 7 && is_question(words[0]) && words[1..7].iter().all(|&word| kind(word) == 0);
    let [ns, from, prefix, options, fuel, limit] =
        std::array::from_fn(|place| words.get(1 + place).map_or(0, |&word| word as usize));
    whole.then(|| Question { definition: payload(words[0]), ns, from, prefix, options, fuel, limit })
}

/// All bits of the options.
pub const MOST_OPTIONS: usize = 127;

/// Options bit 64 has a found path read back.
pub const READ_BACK: usize = 64;

/// The refusal of a question before any search, for a snapshot that was accepted or refused.
pub fn refusal(snapshot: &Result<Snapshot, u32>, q: &Question) -> Option<u32> {
    if q.fuel > 10_000 {
        return Some(21);
    }
    if q.ns > 2 || q.prefix > 2 || q.options > MOST_OPTIONS {
        return Some(22);
    }
    if !(1..=15).contains(&q.limit) {
        return Some(46);
    }
    let s = match snapshot {
        Err(number) => return Some(*number),
        Ok(s) => s,
    };
    if q.definition >= s.definitions.len() || q.from >= s.modules.len() {
        return Some(23);
    }
    (q.ns == 2 && s.definitions[q.definition].kind != 5).then_some(24)
}

pub fn refused_line(number: u32) -> Vec<u8> {
    format!("refused {number} 0 0").into_bytes()
}

/// A name as it is written in a module.
fn written(s: &Snapshot, from: usize, name: usize) -> Vec<u8> {
    let edition = s.crates[s.maps[s.modules[from].map].krate].edition;
    let text = &s.names[name];
    if crate::keywords::is_raw(text, edition) { [b"r#", &text[..]].concat() } else { text.clone() }
}

/// Whether the question has its path read back, and it names another thing or nothing.
pub fn is_misleading(s: &Snapshot, q: &Question, answer: &Answer) -> bool {
    q.options & READ_BACK != 0 && answer.path.as_ref().is_some_and(|path| misleads(s, q, path, None))
}

/// The line of an answer, with the names as they are written.
pub fn line(written: impl Fn(usize) -> Vec<u8>, answer: &Answer, misleads: bool) -> Vec<u8> {
    let mut line: Vec<u8> = Vec::new();
    match &answer.path {
        None => line.extend(b"none -"),
        Some(path) => {
            line.extend(if misleads { &b"misleads "[..] } else { b"found " });
            let prefix = [None, Some("self"), Some("super"), Some("crate"), Some("")][path.kind];
            let names = path.names.iter().map(|&name| written(name));
            let parts: Vec<Vec<u8>> = prefix.iter().map(|text| text.as_bytes().to_vec()).chain(names).collect();
            line.extend(parts.join(&b"::"[..]));
        }
    }
    line.extend(format!(" {} {}", answer.charges, u8::from(answer.empty)).into_bytes());
    line
}

/// The lines of an input. A program that gives up a question has no line for it.
pub fn lines<A: Answers>(input: &[u8], fill: impl Fn(&Snapshot) -> A, steps: u64) -> Vec<Option<Vec<u8>>> {
    let words = match words_of(input) {
        Err(number) => return vec![Some(refused_line(number))],
        Ok(words) => words,
    };
    let start = parts_of(&words).0.len();
    let snapshot = check(&words[..start]);
    let program = snapshot.as_ref().ok().filter(|_| start < words.len()).map(&fill);
    let mut lines: Vec<Option<Vec<u8>>> = Vec::new();
    let mut rest = &words[start..];
    while !rest.is_empty() {
        let answered = |number: Option<u32>, answer: &dyn Fn(&Snapshot, &A) -> Option<Vec<u8>>| match number {
            Some(number) => Some(refused_line(number)),
            None => answer(snapshot.as_ref().unwrap(), program.as_ref().unwrap()),
        };
        if let Some(viewer) = reach::viewer(rest) {
            lines.push(answered(reach::refusal(&snapshot, &viewer), &|s, program| {
                reach::line(s, program, &viewer, steps)
            }));
            rest = &rest[5..];
        } else if let Some(question) = question_of(rest) {
            lines.push(answered(refusal(&snapshot, &question), &|s, program| {
                let answer = crate::budget::within(steps, || program.put(&question))?;
                let misleads = is_misleading(s, &question, &answer);
                Some(line(|name| written(s, question.from, name), &answer, misleads))
            }));
            rest = &rest[7..];
        } else {
            lines.push(Some(refused_line(42)));
            break;
        }
    }
    lines
}
