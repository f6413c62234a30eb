//! A path printer that runs the text of rust-analyzer: input as in document 01 on stdin, a line a question on stdout.
use std::io::{Read, Write};

use differential::printer::lines;
use differential::right::ask::Program;

fn main() {
    let mut input = Vec::new();
    std::io::stdin().read_to_end(&mut input).unwrap();
    let mut out = Vec::new();
    for line in lines(&input, Program::new, u64::MAX) {
        out.extend(line.unwrap());
        out.push(b'\n');
    }
    std::io::stdout().write_all(&out).unwrap();
}
