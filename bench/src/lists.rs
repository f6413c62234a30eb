//! Times of import lists, of all crates of a snapshot one after the other.
use differential::check::check;
use differential::import_lists::{ImportLists, RECORD, record};
use differential::library::Library;
use differential::right::collect::Collector;
use kelumavor::WorkArea;

use crate::shapes::{self, Shape};
use crate::timing;

pub fn print() {
    println!("Import lists of all crates\n");
    println!("| snapshot | crates | imports | µs, the Rust | µs, the library |");
    println!("|---|---|---|---|---|");
    for shape in shapes::all() {
        if check(&shape.words).is_ok_and(|s| !s.crates.is_empty()) {
            print_row(&shape);
        }
    }
    println!();
}

fn print_row(shape: &Shape) {
    let s = check(&shape.words).expect(&shape.name);
    let rust = Collector::new(&s);
    let lists: Vec<Vec<u32>> =
        (0..s.crates.len()).map(|krate| rust.collected(krate).iter().flat_map(record).collect()).collect();
    let imports = lists.iter().map(|list| list.len() / RECORD).sum::<usize>();
    let (mut area, mut target) = (vec![0; WorkArea::WORDS], vec![0; lists.iter().map(Vec::len).max().unwrap_or(0)]);
    for (krate, list) in lists.iter().enumerate() {
        let written = Library.write(&shape.words, &mut area, krate, &mut target);
        assert!(written == (0, list.len()) && target[..list.len()] == list[..], "{}: another list", shape.name);
    }
    let by_rust =
        timing::nanoseconds(|| lists.iter().enumerate().all(|(c, list)| rust.count(c) * RECORD == list.len()));
    let by_library = timing::nanoseconds(|| {
        let mut write = |krate| Library.write(&shape.words, &mut area, krate, &mut target);
        lists.iter().enumerate().all(|(c, list)| write(c) == (0, list.len()))
    });
    println!("| {} | {} | {imports} | {:.1} | {:.1} |", shape.name, lists.len(), by_rust / 1000.0, by_library / 1000.0);
}
