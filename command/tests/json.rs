//! Every answer as JSON.
mod common;

use common::{WORKED, bytes, file, kelumavor, out, snapshot};

/// What is left after a value.
fn value(text: &str) -> Result<&str, String> {
    let text = text.trim_start();
    match text.chars().next() {
        Some('{') => items(&text[1..], '}', |text| {
            let text = string(text)?;
            value(text.strip_prefix(':').ok_or("no colon")?)
        }),
        Some('[') => items(&text[1..], ']', value),
        Some('"') => string(text),
        Some('0'..='9') => Ok(text.trim_start_matches(|letter: char| letter.is_ascii_digit())),
        _ => {
            ["true", "false", "null"].iter().find_map(|word| text.strip_prefix(word)).ok_or(format!("no value: {text}"))
        }
    }
}

fn items(text: &str, end: char, item: impl Fn(&str) -> Result<&str, String>) -> Result<&str, String> {
    if let Some(rest) = text.strip_prefix(end) {
        return Ok(rest);
    }
    let mut rest = item(text)?;
    while let Some(more) = rest.strip_prefix(',') {
        rest = item(more)?;
    }
    rest.strip_prefix(end).ok_or(format!("no {end}: {rest}"))
}

fn string(text: &str) -> Result<&str, String> {
    let inner = text.strip_prefix('"').ok_or(format!("no text: {text}"))?;
    let mut letters = inner.char_indices();
    while let Some((at, letter)) = letters.next() {
        match letter {
            '"' => return Ok(&inner[at + 1..]),
            '\\' => {
                let escape = letters.next().map(|(_, letter)| letter);
                if !matches!(escape, Some('"' | '\\' | 'u')) {
                    return Err(format!("escape {escape:?}"));
                }
            }
            '\0'..='\x1f' => return Err("a control character".to_string()),
            _ => (),
        }
    }
    Err("a text without end".to_string())
}

fn valid(args: &[&str]) -> String {
    let text = out(&kelumavor(args));
    for line in text.lines() {
        assert_eq!(value(line).as_deref(), Ok(""), "{args:?}");
    }
    assert!(!text.is_empty(), "{args:?}");
    text
}

#[test]
fn every_answer() {
    let good = file("json-good", &bytes(&WORKED));
    let broken = file("json-broken", &bytes(&WORKED[..36]));
    let text = file("json-text", &kelumavor(&["dump", &good]).stdout);
    let checked = valid(&["check", "--json", &good, &broken]);
    assert_eq!(checked.lines().count(), 2);
    assert!(checked.contains("\"accepted\":true") && checked.contains("\"refused\":31,\"word\":29,\"record\":null"));
    for command in ["dump", "tree"] {
        valid(&[command, "--json", &good]);
        valid(&[command, "--json", &broken]);
    }
    assert!(valid(&["assemble", "--json", &text]).contains("\"bytes\":148,\"words\":[268435457,97,"));
    let ask = ["ask", "--json", &good, "--item", "a::f", "--from", "crate"];
    assert!(valid(&ask).contains("\"outcome\":\"found\",\"path\":\"a::f\",\"use_line\":true"));
    assert!(valid(&[&ask[..], &["--fuel", "0"]].concat()).contains("\"outcome\":\"not known\",\"path\":null"));
    let none = valid(&[&ask[..], &["--namespace", "types"]].concat());
    assert!(none.contains("\"outcome\":\"none\""));
    assert!(none.contains("\"second_opinion\":{\"outcome\":\"none\",\"path\":null,"));
    assert!(valid(&[&ask[..], &["--limit", "16"]].concat()).contains("\"outcome\":\"refused\""));
    valid(&["ask", "--json", &broken, "--item", "a::f", "--from", "crate"]);
    assert!(valid(&["reach", "--json", &good, "--from", "crate"]).starts_with("{\"items\":2,\"found\":[0,1,1,"));
    assert!(valid(&["reach", "--json", &good, "--from", "7"]).starts_with("{\"refused\":23,"));
    assert!(
        valid(&["imports", "--json", &good]).contains("{\"name\":\"f\",\"namespace\":\"values\",\"definition\":1,")
    );
    assert!(valid(&["imports", "--json", &good, "--crate", "7"]).starts_with("{\"refused\":23,"));
    let to = file("json-finished", b"");
    assert_eq!(valid(&["imports", "--json", &good, "-o", &to]), "{\"words\":49,\"imports\":2}\n");
    for command in ["reach", "imports"] {
        valid(&[command, "--json", &broken]);
    }
    assert!(valid(&["join", "--json", &good, &good]).starts_with("{\"count\":70,\"second\":{\"crates\":[1],"));
    assert!(valid(&["join", "--json", &good, &broken]).contains("\"refused\":31,\"word\":29,"));
}

/// Names of any bytes, too.
#[test]
fn random_snapshots() {
    for seed in 0..20 {
        let file = file(&format!("json-{seed}"), &bytes(&snapshot(seed)));
        for command in ["check", "dump", "tree"] {
            valid(&[command, "--json", &file]);
        }
        valid(&["ask", "--json", &file, "--item", "0", "--from", "0"]);
        valid(&["reach", "--json", &file, "--from", "0"]);
        valid(&["imports", "--json", &file]);
    }
}
