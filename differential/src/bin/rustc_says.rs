//! Prints the examples of docs/DIFFERENCES.md: text, question, answers, and the words of the snapshot.
use differential::examples::{Example, passed_over, refused, untold};
use differential::show::hexadecimal;
use differential::usage::fail;

fn main() {
    if std::env::args().len() > 1 {
        fail("", "rustc_says: takes no arguments");
    }
    for (title, examples) in [("refused", refused()), ("passed over", passed_over()), ("not told", untold())] {
        println!("## {title}\n");
        examples.iter().enumerate().for_each(|(place, example)| print(place + 1, example));
    }
}

fn print(number: usize, example: &Example) {
    let (words, q) = example.question();
    println!(
        "{number}. {} (rustc: {}).\n",
        example.title,
        if example.error.is_empty() { "compiles" } else { example.error }
    );
    if !example.dependency.is_empty() {
        println!("       // dep\n       {}", example.dependency);
    }
    println!("       {}\n", example.source);
    let asked = format!("{}/{}/{}/{}", q.definition, q.ns, q.from, q.prefix);
    println!("   {asked} `{}`; any path: `{}`.\n", example.line, example.any_path);
    for line in words.chunks(12) {
        println!("       {}", hexadecimal(line));
    }
    println!();
}
