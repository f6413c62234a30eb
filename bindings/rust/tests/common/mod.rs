//! Snapshots for the tests.
#![allow(dead_code)]
pub mod build;
pub mod random;

use std::io::Write;
use std::path::{Path, PathBuf};
use std::process::{Command, Stdio};
use std::sync::LazyLock;

use kelumavor::Options;

/// The worked snapshot: a crate with a module `a` that holds a function `f`.
pub const WORKED: [u32; 37] = [
    0x10000001, 0x61, 0x10000001, 0x66, 0x20000000, 2021, 0x40000000, 0, 0, 0x50000000, 0, 0x50000000, 1, 0x60000000,
    1, 0x80000001, 1, 0, 0x80000004, 1, 0, 0x90000000, 0, 0, 0, 0, 0, 1, 0, 0x90000001, 1, 1, 1, 0, 0, 1, 0,
];

/// The words of a line of `crates/refusals/stdin`, of which `crates/streams` says how it is written.
pub fn read_words(text: &str) -> Vec<u32> {
    let mut words = Vec::new();
    for part in text.split_ascii_whitespace() {
        if part != "*" {
            words.push(u32::from_str_radix(part, 16).unwrap());
            continue;
        }
        let [k, n, heads, arguments] = words.split_off(words.len() - 4).try_into().unwrap();
        for _ in 0..n {
            let word = words[words.len() - k as usize];
            words.push(word.wrapping_add(if word < 1 << 28 { arguments } else { heads }));
        }
    }
    words
}

pub fn repository(file: &str) -> PathBuf {
    Path::new(env!("CARGO_MANIFEST_DIR")).join("../..").join(file)
}

/// The number of a question's options.
pub fn option_bits(options: Options) -> u32 {
    let bits = [
        options.prefer_no_std,
        options.prefer_prelude,
        options.prefer_absolute,
        options.allow_unstable,
        options.ignore_local_imports,
        options.old_names_last,
        options.read_back,
    ];
    bits.iter().rev().fold(0, |sum, bit| 2 * sum + u32::from(*bit))
}

/// The path printer, which the toolchain makes where it is missing.
fn path_printer() -> &'static Path {
    static PRINTER: LazyLock<PathBuf> = LazyLock::new(|| {
        let folder = repository("crates/path_printer");
        let printer = folder.join("out/path_printer");
        if !printer.exists() {
            let made = Command::new("rt").arg("run").stdin(Stdio::null()).current_dir(folder).output();
            assert!(made.is_ok_and(|made| made.status.success()), "`rt run` makes the path printer");
        }
        printer
    });
    &PRINTER
}

/// What the path printer prints for these words.
pub fn printed(words: &[u32]) -> String {
    let mut printer = Command::new(path_printer()).stdin(Stdio::piped()).stdout(Stdio::piped()).spawn().unwrap();
    let bytes: Vec<u8> = words.iter().flat_map(|word| word.to_le_bytes()).collect();
    printer.stdin.take().unwrap().write_all(&bytes).unwrap();
    String::from_utf8(printer.wait_with_output().unwrap().stdout).unwrap()
}
