//! The compiler judges the paths of the first workspaces. Without a compiler that takes them nothing is tested.
use differential::compare::Other;
use differential::judge::{Also, Rustc, Totals, judge};
use differential::workspaces::workspace;

/// Workspaces, in two halves.
const WORKSPACES: u64 = 100;

#[test]
fn paths_of_the_first_workspaces() {
    std::thread::scope(|scope| {
        for half in 0..2 {
            scope.spawn(move || judged(half));
        }
    });
}

fn judged(half: u64) {
    let Some(rustc) = Rustc::new(&format!("judge-test-{half}")) else {
        println!("no rustc that takes the workspaces");
        return;
    };
    let mut totals = Totals::new();
    for seed in (half..WORKSPACES).step_by(2) {
        judge(seed, &workspace(seed), &Other::Original, &rustc, Also::default(), &mut totals);
    }
    println!("{totals}");
    assert_eq!(totals.contradictions, [""; 0]);
    assert!(totals.workspaces >= 45, "{} workspaces", totals.workspaces);
    let [later, _] = &totals.counts;
    assert_eq!((later.any_paths_refused, later.nones_taken), (0, 0));
    assert!(later.found > 10_000 && later.misleads > 500 && later.any_paths > 5_000 && later.none_candidates > 5_000);
}
