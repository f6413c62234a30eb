//! Runs of the command: statuses, streams, and inputs that cannot be read or outputs that cannot be written.
mod common;

use std::io::Write;
use std::process::{Command, Stdio};

use common::{WORKED, bytes, errors, file, kelumavor, out, repository};

fn worked() -> String {
    repository("samples/worked.snapshot").to_str().unwrap().to_string()
}

fn status(args: &[&str]) -> i32 {
    kelumavor(args).status.code().unwrap()
}

/// The command behind a shell's redirections, which see it as `$0`.
fn shell(script: &str) -> (i32, String, String) {
    let output = Command::new("sh").args(["-c", script, env!("CARGO_BIN_EXE_kelumavor")]).output().unwrap();
    (output.status.code().unwrap(), out(&output), errors(&output))
}

#[test]
fn statuses() {
    let (good, broken) = (worked(), file("statuses", &bytes(&WORKED[..36])));
    let (good, broken) = (good.as_str(), broken.as_str());
    let cases: [(&[&str], i32); 24] = [
        (&["check", good], 0),
        (&["check", broken], 1),
        (&["check", good, broken], 1),
        (&["check", good, "no such file"], 2),
        (&["check", broken, "no such file"], 2),
        (&["check"], 2),
        (&["dump", good], 0),
        (&["dump", broken], 1),
        (&["dump", good, good], 2),
        (&["assemble", good], 2),
        (&["tree", good], 0),
        (&["tree", broken], 1),
        (&["tree", good, "--item", "f"], 2),
        (&["tree", good, "--dot", "--json"], 2),
        (&["ask", good, "--item", "a::f", "--from", "crate"], 0),
        (&["ask", good, "--item", "a::f", "--from", "crate", "--namespace", "types"], 1),
        (&["ask", good, "--item", "a::f", "--from", "crate", "--fuel", "0"], 1),
        (&["ask", good, "--item", "a::f", "--from", "crate", "--fuel", "10001"], 1),
        (&["ask", good, "--item", "a::g", "--from", "crate"], 2),
        (&["ask", good, "--item", "a::f"], 2),
        (&["ask", broken, "--item", "a::f", "--from", "crate"], 1),
        (&["--version"], 0),
        (&["explain", good], 2),
        (&[], 2),
    ];
    for (args, expected) in cases {
        assert_eq!(status(args), expected, "{args:?}");
    }
}

#[test]
fn answers_and_errors_go_their_ways() {
    let output = kelumavor(&["check", &file("streams", &bytes(&WORKED[..36]))]);
    assert!(out(&output).starts_with("refused 31 at word 29: "));
    assert_eq!(errors(&output), "");
    let output = kelumavor(&["check", "no such file"]);
    assert_eq!(out(&output), "");
    assert!(errors(&output).starts_with("kelumavor: cannot read no such file: "));
    let output = kelumavor(&["dump", "--jsn", &worked()]);
    assert_eq!(errors(&output), "kelumavor: no option `--jsn` here; these are: --json\n");
}

#[test]
fn help_and_version() {
    assert_eq!(out(&kelumavor(&["--version"])), concat!("kelumavor ", env!("CARGO_PKG_VERSION"), "\n"));
    let help = out(&kelumavor(&["--help"]));
    for word in [
        "check", "dump", "assemble", "ask", "tree", "reach", "imports", "join", "--json", "Status:", "Proved:",
        "Tested:",
    ] {
        assert!(help.contains(word), "{word}");
    }
    assert_eq!(out(&kelumavor(&["ask", "--help"])), help);
    assert!(help.lines().all(|line| line.len() <= 120));
}

#[test]
fn a_directory() {
    let output = kelumavor(&["check", env!("CARGO_MANIFEST_DIR")]);
    assert_eq!(output.status.code(), Some(2));
    assert_eq!(out(&output), "");
    assert!(errors(&output).contains("cannot read"));
    let (status, out, errors) = shell("exec \"$0\" check - < /");
    assert_eq!((status, out.as_str()), (2, ""));
    assert!(errors.contains("cannot read standard input"), "{errors}");
}

#[test]
fn a_closed_or_empty_standard_input() {
    for script in ["exec \"$0\" check - <&-", "exec \"$0\" check - < /dev/null", "exec \"$0\" dump - <&-"] {
        let (status, out, errors) = shell(script);
        assert_eq!((status, out.as_str()), (2, ""), "{script}");
        assert!(errors.contains("standard input has no bytes"), "{errors}");
    }
    let output = kelumavor(&["check", &file("empty", b"")]);
    assert_eq!((output.status.code(), out(&output).as_str()), (Some(0), "accepted, 0 words\n"));
}

#[test]
fn a_full_device() {
    if !std::path::Path::new("/dev/full").exists() {
        return;
    }
    for command in ["check", "dump", "tree", "dump --json"] {
        let (status, _, errors) = shell(&format!("exec \"$0\" {command} '{}' > /dev/full", worked()));
        assert_eq!(status, 2);
        assert!(errors.starts_with("kelumavor: cannot write standard output: "), "{errors}");
    }
    let text = file("full", out(&kelumavor(&["dump", &worked()])).as_bytes());
    let output = kelumavor(&["assemble", &text, "-o", "/dev/full"]);
    assert_eq!(output.status.code(), Some(2));
    assert!(errors(&output).starts_with("kelumavor: cannot write /dev/full: "));
}

#[test]
fn a_closed_pipe() {
    let many: Vec<u32> = (0..2000).flat_map(|number| [0x1000_0003, 0x30_3030 + number]).collect();
    let file = file("pipe", &bytes(&many));
    let mut child = Command::new(env!("CARGO_BIN_EXE_kelumavor"))
        .args(["dump", &file])
        .stdout(Stdio::piped())
        .stderr(Stdio::piped())
        .spawn()
        .unwrap();
    drop(child.stdout.take());
    let output = child.wait_with_output().unwrap();
    assert_eq!(output.status.code(), Some(2));
    assert_eq!(errors(&output), "");
}

/// An input that comes after more than a second: the wait is told on a standard error that is a terminal, and cleared; on another nothing is
/// said. `script` makes the terminal, where it is there.
#[test]
fn a_slow_run_is_told_to_a_terminal() {
    let slow = format!("(sleep 2.3; cat '{}') | '{}' check -", worked(), env!("CARGO_BIN_EXE_kelumavor"));
    let run = |program: &str, args: &[&str]| Command::new(program).args(args).stdin(Stdio::null()).output();
    let quiet = run("sh", &["-c", &slow]).unwrap();
    assert!(out(&quiet).starts_with("accepted, 37 words\n"));
    assert_eq!(errors(&quiet), "");
    let answer = file("slow", b"");
    let Ok(told) = run("script", &["-qec", &format!("{slow} > '{answer}'"), "/dev/null"]) else {
        eprintln!("no script: not tested on a terminal");
        return;
    };
    let told = out(&told);
    assert!(told.starts_with("\rkelumavor: working, 1 s") && told.ends_with(" s\r\u{1b}[K"), "{told:?}");
    assert!(std::fs::read_to_string(answer).unwrap().starts_with("accepted, 37 words\n"));
    let fast = format!("'{}' check '{}' > /dev/null", env!("CARGO_BIN_EXE_kelumavor"), worked());
    assert_eq!(out(&run("script", &["-qec", &fast, "/dev/null"]).unwrap()), "");
}

#[test]
fn standard_input() {
    let mut child = Command::new(env!("CARGO_BIN_EXE_kelumavor"))
        .args(["ask", "-", "--item", "a::f", "--from", "crate"])
        .stdin(Stdio::piped())
        .stdout(Stdio::piped())
        .spawn()
        .unwrap();
    child.stdin.take().unwrap().write_all(&bytes(&WORKED)).unwrap();
    let output = child.wait_with_output().unwrap();
    assert_eq!(out(&output).lines().next(), Some("a::f"));
}

#[test]
fn dump_and_assemble() {
    let text = file("dumped", &kelumavor(&["dump", &worked()]).stdout);
    assert_eq!(kelumavor(&["assemble", &text]).stdout, bytes(&WORKED));
    let words = file("assembled", b"");
    assert_eq!(kelumavor(&["assemble", &text, "-o", &words]).stdout, b"");
    assert_eq!(std::fs::read(words).unwrap(), bytes(&WORKED));
    let wrong = file("wrong", b"name \"a\"\nname b\n");
    let output = kelumavor(&["assemble", &wrong]);
    assert_eq!((output.status.code(), output.stdout.len()), (Some(2), 0));
    assert!(errors(&output).ends_with(", line 2: a name is a text in quotes\n"));
    let refused = file("refused", b"crate origin=core edition=2021\n");
    let output = kelumavor(&["assemble", &refused]);
    assert_eq!((output.status.code(), output.stdout), (Some(1), bytes(&[0x2000_0001, 2021])));
}

#[test]
fn questions_after_a_snapshot_are_dumped_too() {
    let input = repository("samples/worked.input").to_str().unwrap().to_string();
    let output = kelumavor(&["dump", &input]);
    assert_eq!(output.status.code(), Some(0));
    assert!(out(&output).contains("37: question 0 definition=1 namespace=values from=0 prefix=plain options=none"));
    assert_eq!(status(&["check", &input]), 1);
}
