//! Damaged inputs, each with its message, in a stored list: a line with its name after `#`, one with its words (as
//! `crates/refusals/stdin` has them) or its bytes, and the lines that `check` prints.
mod common;

use std::collections::HashMap;

use common::{bytes, errors, file, kelumavor, out, read_words};
use kelumavor_command::explain::judge;
use kelumavor_command::input::Input;

const LIST: &str = include_str!("damaged.list");

fn read_bytes(text: &str) -> Vec<u8> {
    let digits: Vec<u8> = text.bytes().filter(|byte| !byte.is_ascii_whitespace()).collect();
    digits.chunks(2).map(|pair| u8::from_str_radix(std::str::from_utf8(pair).unwrap(), 16).unwrap()).collect()
}

/// Name, bytes and message of each.
fn cases() -> Vec<(&'static str, Vec<u8>, &'static str)> {
    let case = |text: &'static str| {
        let (name, rest) = text.split_once('\n').unwrap();
        let (input, message) = rest.split_once('\n').unwrap();
        let (form, data) = input.split_once(' ').unwrap();
        let bytes = if form == "words" { bytes(&read_words(data)) } else { read_bytes(data) };
        (name, bytes, message.trim_end())
    };
    LIST.split("\n\n").map(case).collect()
}

#[test]
fn stored_list() {
    let mut numbers: HashMap<u32, usize> = HashMap::new();
    for (name, bytes, message) in cases() {
        let refused = judge(&Input::new("test", bytes)).expect_err(name);
        assert_eq!(refused.to_string(), message, "{name}");
        *numbers.entry(refused.number).or_default() += 1;
    }
    assert!(numbers.values().sum::<usize>() >= 50);
    for number in [30, 31, 32, 33, 34, 35, 36, 41, 43] {
        assert!(numbers.contains_key(&number), "{number}");
    }
}

/// The command prints the message of each, alone and among others, and its status is that of a refusal.
#[test]
fn stored_list_by_the_command() {
    let cases = cases();
    let files: Vec<String> =
        cases.iter().enumerate().map(|(number, (_, bytes, _))| file(&format!("damaged-{number}"), bytes)).collect();
    let mut all = String::new();
    for ((name, _, message), file) in cases.iter().zip(&files) {
        let output = kelumavor(&["check", file]);
        assert_eq!((output.status.code(), out(&output)), (Some(1), format!("{message}\n")), "{name}");
        assert_eq!(errors(&output), "", "{name}");
        all += &format!("{file}: {message}\n");
    }
    let together: Vec<&str> = ["check"].into_iter().chain(files.iter().map(String::as_str)).collect();
    let output = kelumavor(&together);
    assert_eq!((output.status.code(), out(&output)), (Some(1), all));
}
