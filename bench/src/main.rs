//! Times of the proved code, through the Rust bindings: the check by the size of the snapshot, and questions.
//!
//! `bench` prints tables, `bench questions` that of questions alone, `bench files` that of several questions at once, `bench families` that of inputs
//! made to be slow, `bench any` that of any path, `bench lists` that of import lists (feature `lists`). For a profiler,
//! `bench check SHAPE COUNT` checks one snapshot so many times, `bench ask SHAPE COUNT` puts so many questions to the library on a checked
//! snapshot, `bench recheck SHAPE COUNT` to its function that checks in every call, and `bench family FAMILY SIZE COUNT` puts the question of a
//! family so many times; all print nothing. `bench input` writes an input of the path printer.
mod any;
mod families;
mod library;
#[cfg(feature = "lists")]
mod lists;
#[cfg(feature = "original")]
mod original;
mod questions;
mod shapes;
mod timing;

use std::io::Write;

use kelumavor::{Snapshot, WorkArea};
use shapes::Shape;

const USAGE: &str =
    "bench [questions | files | families | any | lists | check SHAPE COUNT | ask SHAPE COUNT | recheck SHAPE COUNT
    | family FAMILY SIZE COUNT | input SHAPE COUNT | input FAMILY SIZE]
  SHAPE   small, workspace, chain, dependencies, names or scope
  FAMILY  unreached, globs, ignored, shadowed, renamed, layers, clique or repeats, whose search is bounded;
          detour, prelude or preferred, whose search grows with the size;
          charged or hidden, whose search takes all the fuel
  lists   needs the feature `lists`";

fn main() {
    let words: Vec<String> = std::env::args().skip(1).collect();
    match words.iter().map(String::as_str).collect::<Vec<_>>()[..] {
        [] => {
            print_checks("The check, by the size of a workspace", &shapes::growing());
            print_checks("The check, by shape", &shapes::all());
            questions::print_all();
            questions::print_files();
            families::print();
            any::print();
            #[cfg(feature = "lists")]
            lists::print();
        }
        ["questions"] => questions::print_all(),
        ["files"] => questions::print_files(),
        ["families"] => families::print(),
        ["any"] => any::print(),
        #[cfg(feature = "lists")]
        ["lists"] => lists::print(),
        ["check", shape, count] => repeat_check(&named(shape), number(count)),
        ["ask", shape, count] => {
            let shape = named(shape);
            questions::ask(&shape, number(count), &mut library::Library::new(&shape.words));
        }
        ["recheck", shape, count] => {
            let shape = named(shape);
            questions::ask(&shape, number(count), &mut library::Checking::new(&shape.words));
        }
        ["family", name, size, count] => families::ask(name, number(size), number(count)).unwrap_or_else(|| usage()),
        ["input", name, count] => {
            let count = number(count);
            let input = questions::input(name, count).or_else(|| families::input(name, count));
            let input = input.unwrap_or_else(|| usage());
            std::io::stdout().write_all(&input).expect("a place to write to");
        }
        _ => usage(),
    }
}

fn usage() -> ! {
    eprintln!("{USAGE}");
    std::process::exit(2);
}

fn number(text: &str) -> usize {
    text.parse().unwrap_or_else(|_| usage())
}

fn print_checks(title: &str, shapes: &[Shape]) {
    println!("{title}\n");
    println!("| snapshot | words | names | modules | definitions | scopes | imports | µs a check | ns a word |");
    println!("|---|---|---|---|---|---|---|---|---|");
    let mut area = WorkArea::new();
    for shape in shapes {
        let snapshot = Snapshot::check(&shape.words).expect(&shape.name);
        let counts = snapshot.counts();
        let ns = timing::nanoseconds(|| {
            std::hint::black_box(kelumavor::Snapshot::check_in(&shape.words, &mut area)).is_ok()
        });
        println!(
            "| {} | {} | {} | {} | {} | {} | {} | {:.1} | {:.1} |",
            shape.name,
            shape.words.len(),
            counts.names,
            counts.modules,
            counts.definitions,
            counts.scopes,
            counts.imports,
            ns / 1000.0,
            ns / shape.words.len() as f64
        );
    }
    println!();
}

fn named(name: &str) -> Shape {
    shapes::beside(name, 0).unwrap_or_else(|| usage())
}

fn repeat_check(shape: &Shape, count: usize) {
    let mut area = WorkArea::new();
    for _ in 0..count {
        assert!(Snapshot::check_in(&shape.words, &mut area).is_ok());
    }
}
