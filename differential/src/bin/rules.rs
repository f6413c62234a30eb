//! A path printer that follows the definitions of this repository (see `differential::rules`), to test them.
use std::io::{Read, Write};

fn main() {
    let mut input = Vec::new();
    std::io::stdin().read_to_end(&mut input).unwrap();
    let mut out = Vec::new();
    for line in differential::rules::lines(&input) {
        out.extend(line);
        out.push(b'\n');
    }
    std::io::stdout().write_all(&out).unwrap();
}
