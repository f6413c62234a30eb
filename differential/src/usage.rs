//! Arguments of the programs. What is wrong with them is said on stderr, and the status is 2.
use std::ops::Range;

/// Ends the program with what is wrong and its usage; either may be empty.
pub fn fail(reason: &str, usage: &str) -> ! {
    for text in [reason, usage].into_iter().filter(|text| !text.is_empty()) {
        eprintln!("{text}");
    }
    std::process::exit(2);
}

pub fn number<T: std::str::FromStr>(text: &str, usage: &str) -> T {
    text.parse().unwrap_or_else(|_| fail(&format!("`{text}` is no number"), usage))
}

/// The seeds from one to another, the last one not taken.
pub fn seeds(from: &str, to: &str, usage: &str) -> Range<u64> {
    number(from, usage)..number(to, usage)
}
