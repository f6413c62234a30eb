//! Is there any path at all: the search breadth first against every path of few names.
use differential::any_path::{Answer, Viewer};
use differential::generate::snapshot;
use differential::reading::item;

#[test]
fn every_path_of_few_names() {
    let (mut found, mut none, mut longer) = (0, 0, 0);
    for seed in 0..1200 {
        let (_, s) = snapshot(seed);
        if s.names.len() > 9 || s.modules.len() > 14 || s.definitions.len() > 30 {
            continue;
        }
        for from in 0..s.modules.len() {
            let viewer = Viewer::new(&s, from);
            for definition in 0..s.definitions.len() {
                for ns in 0..if s.definitions[definition].kind == 5 { 3 } else { 2 } {
                    let answer = viewer.any_path(ns, definition);
                    let shortest = match &answer {
                        Answer::Found(path) => {
                            assert_eq!(viewer.reads_to(ns, path), Some(item(&s, ns, definition)), "seed {seed}");
                            Some(path.names.len())
                        }
                        _ => None,
                    };
                    found += usize::from(shortest.is_some());
                    none += usize::from(answer == Answer::None);
                    longer += usize::from(shortest.is_some_and(|names| names > 3));
                    let tried = viewer.tried(ns, definition, 3);
                    assert_eq!(tried, shortest.filter(|&names| names <= 3), "seed {seed}: {definition} {ns} {from}");
                }
            }
        }
    }
    println!("{found} found, {longer} of them longer than is tried, {none} none");
    assert!(found > 10_000 && none > 10_000, "{found} found, {none} none");
}
