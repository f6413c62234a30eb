//! Whether any path names an item, by shape.
use kelumavor::{AnyPath, DefinitionId, ModuleId, Namespace, Snapshot};

use crate::{shapes, timing};

/// Items that are asked for, at most, evenly spaced among the definitions.
const ITEMS: usize = 12;

/// The least and the most time of a call, with its check of the words, by whether there is a path.
pub fn print() {
    println!("Any path\n");
    println!("| snapshot | words | asked | µs, a path | µs, nowhere |");
    println!("|---|---|---|---|---|");
    for shape in shapes::all() {
        let snapshot = Snapshot::check(&shape.words).expect(&shape.name);
        let (definitions, last) = (snapshot.counts().definitions, snapshot.counts().modules - 1);
        let mut times = [Vec::new(), Vec::new()];
        for definition in (0..definitions).step_by(definitions.div_ceil(ITEMS).max(1)) {
            let (item, from) = (DefinitionId(definition as u32), ModuleId(last as u32));
            let ask = || snapshot.any_path(Namespace::Types, item, from);
            let Ok(answer) = ask() else { continue };
            let ns = timing::nanoseconds(|| std::hint::black_box(ask()).is_ok());
            times[usize::from(answer == AnyPath::Nowhere)].push(ns / 1000.0);
        }
        let [found, nowhere] = times.map(|times| (range(&times), times.len()));
        println!("| {} | {} | {} | {} | {} |", shape.name, shape.words.len(), found.1 + nowhere.1, found.0, nowhere.0);
    }
    println!();
}

fn range(times: &[f64]) -> String {
    let least = times.iter().copied().fold(f64::INFINITY, f64::min);
    let most = times.iter().copied().fold(0.0, f64::max);
    if times.is_empty() { "-".to_owned() } else { format!("{least:.0} to {most:.0}") }
}
