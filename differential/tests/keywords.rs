//! The generator reaches names that are written in both ways.
use differential::compare::Other;
use differential::generate::case;

#[test]
fn names_are_written_in_both_ways() {
    let mut written = std::collections::HashSet::new();
    for seed in 0..1500 {
        let (_, case) = case(seed, 40, 20_000);
        let lines = Other::Original.output(&case.input());
        for line in lines.split(|&byte| byte == b'\n').filter(|line| line.starts_with(b"found ")) {
            let path = line.split(|&byte| byte == b' ').nth(1).unwrap();
            written.extend(String::from_utf8_lossy(path).split("::").map(str::to_string));
        }
    }
    for name in ["r#type", "r#async", "async", "r#try", "try", "r#gen", "gen", "union", "safe", "Self", "_"] {
        assert!(written.contains(name), "{name} is not reached");
    }
    for name in ["type", "r#union", "r#safe", "r#Self", "r#_", "r#crate", "r#self", "r#super"] {
        assert!(!written.contains(name), "{name}");
    }
}
