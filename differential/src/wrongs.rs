//! The program with the wrong programs (package `wrong`), run beside this one.
use std::io::{BufRead, BufReader, Write};
use std::process::{Child, ChildStdin, ChildStdout, Command, Stdio};

use crate::usage::fail;

pub struct Wrongs {
    path: String,
    child: Child,
    stdin: Option<ChildStdin>,
    stdout: BufReader<ChildStdout>,
    /// Names, with the reason where a program can not be told.
    pub programs: Vec<(String, String)>,
}

impl Wrongs {
    pub fn start(path: &str) -> Wrongs {
        let list = Command::new(path)
            .arg("--list")
            .output()
            .unwrap_or_else(|error| fail(&format!("{path} does not run: {error}"), ""));
        let programs = String::from_utf8(list.stdout)
            .unwrap()
            .lines()
            .map(|line| {
                let (name, same) = line.split_once(": ").unwrap();
                (name.to_string(), same.to_string())
            })
            .collect();
        let (child, stdin, stdout) = spawn(Command::new(path));
        Wrongs { path: path.to_string(), child, stdin: Some(stdin), stdout, programs }
    }

    /// Runs from now on only the programs of these numbers.
    pub fn only(&mut self, numbers: &[usize]) {
        self.stop();
        let names: Vec<&str> = numbers.iter().map(|&number| self.programs[number].0.as_str()).collect();
        let mut command = Command::new(&self.path);
        command.args(["--only", &names.join(",")]);
        let (child, stdin, stdout) = spawn(command);
        (self.child, self.stdin, self.stdout) = (child, Some(stdin), stdout);
    }

    fn stop(&mut self) {
        drop(self.stdin.take());
        let _ = self.child.wait();
    }

    /// The programs that answer the input otherwise than the right one, by number, with the lines that differ.
    pub fn told(&mut self, input: &[u8]) -> Vec<(usize, Vec<usize>)> {
        let stdin = self.stdin.as_mut().unwrap();
        stdin.write_all(&(input.len() as u32).to_le_bytes()).unwrap();
        stdin.write_all(input).unwrap();
        stdin.flush().unwrap();
        let mut told = Vec::new();
        loop {
            let mut line = String::new();
            assert!(self.stdout.read_line(&mut line).unwrap() > 0, "the wrong programs have ended");
            let mut parts = line.split_whitespace();
            let Some(name) = parts.next() else { return told };
            let number = self.programs.iter().position(|(own, _)| own == name).unwrap();
            told.push((number, parts.map(|place| place.parse().unwrap()).collect()));
        }
    }
}

impl Drop for Wrongs {
    fn drop(&mut self) {
        self.stop();
    }
}

fn spawn(mut command: Command) -> (Child, ChildStdin, BufReader<ChildStdout>) {
    let mut child = command.stdin(Stdio::piped()).stdout(Stdio::piped()).spawn().expect("the wrong programs");
    let stdin = child.stdin.take().unwrap();
    let stdout = BufReader::new(child.stdout.take().unwrap());
    (child, stdin, stdout)
}

/// A table of counts, a line a program.
pub fn table(programs: &[(String, String)], counts: &[(usize, usize)]) -> String {
    let mut text = String::new();
    for ((name, same), (questions, inputs)) in programs.iter().zip(counts) {
        let note = match (questions, same.as_str()) {
            (0, "") => "  NOT TOLD".to_string(),
            (0, same) => format!("  the same: {same}"),
            (_, "") => String::new(),
            _ => "  TOLD, though said to be the same".to_string(),
        };
        text += &format!("{name:45} {questions:7} {inputs:6}{note}\n");
    }
    text
}
