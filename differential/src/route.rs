//! Lines of questions of kind 14, for which the Rust has no counterpart: each is the line of kind 12, and for a found or
//! misleading path entries that name records of the input which carry the names of the path.
use crate::check::{kind, payload};

/// The input with its whole questions as kind 14.
pub fn routed(words: &[u32], start: usize, count: usize) -> Vec<u32> {
    let mut words = words.to_vec();
    for question in 0..count {
        let head = &mut words[start + 7 * question];
        *head = 14 << 28 | payload(*head) as u32;
    }
    words
}

/// The text of the name with that number.
fn name(words: &[u32], number: u32) -> Option<Vec<u8>> {
    let mut place = 0;
    for _ in 0..number {
        place += 1 + payload(*words.get(place)?).div_ceil(3);
    }
    let length = payload(*words.get(place)?);
    let text = words.get(place + 1..place + 1 + length.div_ceil(3))?;
    Some(text.iter().flat_map(|word| word.to_le_bytes().into_iter().take(3)).take(length).collect())
}

/// The name that the record at the place carries, if it is one of the kind that the rule uses.
fn carried(words: &[u32], rule: &str, place: usize) -> Option<Vec<u8>> {
    let head = *words.get(place)?;
    let (wanted, field) = match rule {
        "builtin" if payload(head) == 3 => (8, 1),
        "variant" if payload(head) == 2 => (8, 2),
        "scope" | "prelude" | "local" => (9, 2),
        "import" => (10, 3),
        "extern" => (11, 1),
        _ => return None,
    };
    if kind(head) != wanted {
        return None;
    }
    name(words, *words.get(place + field)?)
}

/// The entries after a line, or none where something else stands there.
fn entries(rest: &[u8]) -> Option<Vec<(String, usize)>> {
    let text = std::str::from_utf8(rest).ok()?;
    text.split(' ')
        .skip(1)
        .map(|entry| entry.split_once('@').and_then(|(rule, place)| Some((rule.to_string(), place.parse().ok()?))))
        .collect()
}

/// Whether a keyword begins the path that the entries give, and the names after it.
fn path(words: &[u32], entries: &[(String, usize)]) -> Option<(bool, Vec<Vec<u8>>)> {
    let (start, rest) = entries.split_first()?;
    let keyword = start.0 == "keyword" && start.1 == 0;
    let first = ["builtin", "scope", "prelude", "extern"].contains(&start.0.as_str());
    let mut names = Vec::new();
    if first {
        names.push(carried(words, &start.0, start.1)?);
    } else if !keyword {
        return None;
    }
    for (number, (rule, place)) in rest.iter().enumerate() {
        let last = number + 1 == rest.len();
        if !(rule == "local" || rule == "import" || rule == "variant" && last) {
            return None;
        }
        names.push(carried(words, rule, *place)?);
    }
    Some((keyword, names))
}

/// What stands before the names of a path, each with `r#` or without.
fn before<'t>(mut text: &'t [u8], names: &[Vec<u8>]) -> Option<&'t [u8]> {
    for (place, name) in names.iter().enumerate().rev() {
        text = text.strip_suffix(&name[..])?;
        text = text.strip_suffix(b"r#").unwrap_or(text);
        if place > 0 {
            text = text.strip_suffix(b"::")?;
        }
    }
    Some(text)
}

/// Whether the line of kind 14 is the one of kind 12 with the right entries.
pub fn agrees(words: &[u32], plain: &[u8], routed: &[u8]) -> bool {
    let Some(rest) = routed.strip_prefix(plain) else { return false };
    let found = plain.strip_prefix(b"found ").or(plain.strip_prefix(b"misleads "));
    let Some(found) = found else { return rest.is_empty() };
    // the charges and the flag end the line
    let end = |text: &[u8]| text.iter().rposition(|&byte| byte == b' ').unwrap_or(0);
    let text = &found[..end(&found[..end(found)])];
    let Some((keyword, names)) = entries(rest).and_then(|entries| path(words, &entries)) else { return false };
    let Some(prefix) = before(text, &names) else { return false };
    match (keyword, names.is_empty()) {
        (true, true) => [&b"self"[..], b"super", b"crate"].contains(&prefix),
        (true, false) => [&b"self::"[..], b"super::", b"crate::"].contains(&prefix),
        (false, _) => [&b""[..], b"self::", b"super::", b"crate::", b"::"].contains(&prefix),
    }
}
