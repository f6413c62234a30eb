//! Stored snapshots with the import lists of a crate, as text: a title, the crate, the words in hexadecimal, and a line an import.
use std::fmt::Write;

use crate::check::Import;
use crate::show::hexadecimal;

pub struct ImportCase {
    pub title: String,
    pub krate: usize,
    pub words: Vec<u32>,
    pub list: Vec<Import>,
}

pub fn to_text(cases: &[ImportCase]) -> String {
    let mut text = String::new();
    for case in cases {
        let _ = writeln!(text, "{}\ncrate {}\n{}", case.title, case.krate, hexadecimal(&case.words));
        for i in &case.list {
            let _ = writeln!(text, "{} {} {} {} {}", i.ns, i.definition, i.name, i.container, i.bits);
        }
        text.push('\n');
    }
    text
}

pub fn from_text(text: &str) -> Vec<ImportCase> {
    text.split("\n\n").filter(|part| !part.trim().is_empty()).map(from_part).collect()
}

fn from_part(part: &str) -> ImportCase {
    let mut lines = part.trim().lines();
    let mut line = || lines.next().expect("a title, a crate, and words");
    let title = line().to_string();
    let krate = line().strip_prefix("crate ").and_then(|number| number.parse().ok()).expect("`crate` and its number");
    let words = line().split(' ').map(|word| u32::from_str_radix(word, 16).expect("a word")).collect();
    let import = |line: &str| {
        let fields: Vec<usize> = line.split(' ').map(|field| field.parse().expect("a number")).collect();
        let [ns, definition, name, container, bits] = fields[..] else { panic!("an import has five numbers") };
        Import { owner: krate, ns, definition, name, container, bits }
    };
    ImportCase { title, krate, words, list: lines.map(import).collect() }
}
