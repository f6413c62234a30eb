//! replay PRINTER FILE: runs a path printer on the stored list and compares its lines.
use differential::compare::Other;
use differential::stored::from_bytes;
use differential::usage::fail;

const USAGE: &str = "replay PRINTER FILE
  PRINTER  a path printer, or `rules`, or `original`";

fn main() {
    let arguments: Vec<String> = std::env::args().skip(1).collect();
    let [printer, file] = &arguments[..] else { fail("", USAGE) };
    let other = Other::named(printer);
    let list = std::fs::read(file).unwrap_or_else(|error| fail(&format!("{file} can not be read: {error}"), USAGE));
    let entries = from_bytes(&list);
    let (mut lines, mut wrong) = (0, 0);
    for (number, entry) in entries.iter().enumerate() {
        lines += entry.output.iter().filter(|&&byte| byte == b'\n').count();
        if other.output(&entry.input) != entry.output {
            wrong += 1;
            println!("input {number} differs");
        }
    }
    println!("{} inputs, {lines} lines, {wrong} inputs differ", entries.len());
    if wrong > 0 {
        std::process::exit(1);
    }
}
