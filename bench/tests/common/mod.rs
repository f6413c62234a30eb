//! Runs of programs on an input.
use std::io::Write;
use std::path::{Path, PathBuf};
use std::process::{Command, Output, Stdio};
use std::sync::OnceLock;
use std::thread;
use std::time::{Duration, Instant};

/// The path printer. The toolchain makes it where it is missing.
pub fn printer() -> &'static Path {
    static PRINTER: OnceLock<PathBuf> = OnceLock::new();
    PRINTER.get_or_init(|| {
        let folder = Path::new(env!("CARGO_MANIFEST_DIR")).join("../crates/path_printer");
        let printer = folder.join("out/path_printer");
        if !printer.exists() {
            let made = Command::new("rt").arg("run").stdin(Stdio::null()).current_dir(folder).output();
            assert!(made.is_ok_and(|made| made.status.success()), "`rt run` makes the path printer");
        }
        printer
    })
}

/// What `bench` writes as an input.
pub fn made(name: &str, count: &str) -> Vec<u8> {
    let output = Command::new(env!("CARGO_BIN_EXE_bench")).args(["input", name, count]).output().unwrap();
    assert_eq!(output.status.code(), Some(0), "{name}: {}", String::from_utf8_lossy(&output.stderr));
    output.stdout
}

/// What a program writes for an input, and the time that it takes. A program that takes longer than it may is ended.
pub fn run(program: &mut Command, input: &[u8], most: Duration) -> (Output, Duration) {
    let piped = program.stdin(Stdio::piped()).stdout(Stdio::piped()).stderr(Stdio::piped());
    let start = Instant::now();
    let mut running = piped.spawn().unwrap();
    running.stdin.take().unwrap().write_all(input).unwrap();
    while running.try_wait().unwrap().is_none() {
        if start.elapsed() > most {
            running.kill().unwrap();
            panic!("{program:?} takes more than {most:?}");
        }
        thread::sleep(Duration::from_millis(1));
    }
    let time = start.elapsed();
    (running.wait_with_output().unwrap(), time)
}
