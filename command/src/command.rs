//! What each command does, and the status it ends with.
use std::ffi::{OsStr, OsString};
use std::fs;
use std::io::Write;

use kelumavor::{Counts, Outcome, Refusal, Report, Snapshot, join, with_import_lists};

use crate::args::Args;
use crate::assemble::assemble;
use crate::explain::{Refused, judge, snapshot_part};
use crate::failure::Failure;
use crate::faults::counted;
use crate::input::{Input, label, read, read_text};
use crate::json::Json;
use crate::progress::during;
use crate::view::View;
use crate::{ask, dot, dump, escape, imports, joined, reach, tree};

pub const FINE: u8 = 0;
/// A snapshot or a question is refused, there is no path, or it misleads.
pub const REFUSED: u8 = 1;
pub const FAILED: u8 = 2;

const HELP: &str = include_str!("help.txt");

/// The answer of a command: its status, what goes to standard output, and what to standard error.
#[derive(Debug, Default)]
pub struct Answer {
    pub status: u8,
    pub out: Vec<u8>,
    pub notes: Vec<String>,
}

impl Answer {
    pub fn new(status: u8, out: impl Into<Vec<u8>>) -> Self {
        Answer { status, out: out.into(), notes: Vec::new() }
    }

    /// A line.
    pub fn line(status: u8, line: impl std::fmt::Display) -> Self {
        Self::new(status, format!("{line}\n"))
    }
}

pub fn run(args: &[OsString], out: &mut dyn Write, errors: &mut dyn Write) -> u8 {
    let written = during("working", || answer(args)).and_then(|answer| {
        let written = out.write_all(&answer.out).and_then(|()| out.flush());
        written.map_err(|error| Failure::writing("standard output", &error))?;
        Ok(answer)
    });
    let (status, notes) = match written {
        Ok(answer) => (answer.status, answer.notes),
        Err(failure) if failure.is_silent() => (FAILED, Vec::new()),
        Err(failure) => (FAILED, vec![failure.to_string()]),
    };
    for note in notes {
        // There is nowhere to say that this failed.
        let _ = writeln!(errors, "kelumavor: {note}");
    }
    status
}

fn answer(args: &[OsString]) -> Result<Answer, Failure> {
    let Some((command, rest)) = args.split_first() else {
        return Err(Failure::new("no command is given; `kelumavor --help` lists them"));
    };
    if rest.iter().take_while(|word| *word != "--").any(|word| word == "--help" || word == "-h") {
        return Ok(Answer::new(FINE, HELP));
    }
    match command.to_str() {
        Some("check") => check(rest),
        Some("dump") => dumped(rest),
        Some("assemble") => assembled(rest),
        Some("ask") => asked(rest),
        Some("tree") => drawn(rest),
        Some("reach") => reached(rest),
        Some("imports") => imported(rest),
        Some("join") => join_files(rest),
        Some("help" | "--help" | "-h") => Ok(Answer::new(FINE, HELP)),
        Some("version" | "--version" | "-V") => {
            Ok(Answer::line(FINE, concat!("kelumavor ", env!("CARGO_PKG_VERSION"))))
        }
        _ => {
            let command = escape::escaped(command.as_encoded_bytes());
            Err(Failure::new(format!("no command `{command}`; `kelumavor --help` lists them")))
        }
    }
}

fn check(words: &[OsString]) -> Result<Answer, Failure> {
    let args = Args::read(words, &["--json"], &[])?;
    if args.files.is_empty() {
        return Err(Failure::new("`check` takes files, or `-` for standard input, and none is given"));
    }
    let mut all = Answer::default();
    for file in &args.files {
        match read(file) {
            Ok(input) => checked(&mut all, &input, args.flag("--json"), args.files.len() > 1),
            Err(failure) => {
                all.status = FAILED;
                all.notes.push(failure.to_string());
            }
        }
    }
    Ok(all)
}

/// Adds the answer to one file.
fn checked(all: &mut Answer, input: &Input, json: bool, several: bool) {
    let judged = judge(input);
    all.status = all.status.max(if judged.is_ok() { FINE } else { REFUSED });
    let file = ("file", input.label.as_str().into());
    let line = match &judged {
        Ok(counts) if json => {
            let counts = Json::Object(counted_kinds(counts).map(|(kind, count)| (kind, count.into())).into());
            Json::Object(vec![file, ("accepted", true.into()), ("words", input.words.len().into()), ("counts", counts)])
                .to_string()
        }
        Err(refused) if json => Json::Object([vec![file], refused.json()].concat()).to_string(),
        Ok(counts) => accepted(input, counts),
        Err(refused) => refused.to_string(),
    };
    let label = if several && !json { format!("{}: ", input.label) } else { String::new() };
    all.out.extend(format!("{label}{line}\n").bytes());
}

fn counted_kinds(counts: &Counts) -> [(&'static str, usize); 12] {
    [
        ("names", counts.names),
        ("crates", counts.crates),
        ("dependencies", counts.dependencies),
        ("maps", counts.maps),
        ("modules", counts.modules),
        ("children", counts.children),
        ("preludes", counts.preludes),
        ("definitions", counts.definitions),
        ("scopes", counts.scopes),
        ("imports", counts.imports),
        ("externs", counts.externs),
        ("members", counts.members),
    ]
}

fn accepted(input: &Input, counts: &Counts) -> String {
    let there = counted_kinds(counts).into_iter().filter(|(_, count)| *count > 0);
    let lines: String = there.map(|(kind, count)| format!("\n{count:>6} {kind}")).collect();
    format!("accepted, {}{lines}", counted(input.words.len(), "word"))
}

fn dumped(words: &[OsString]) -> Result<Answer, Failure> {
    let args = Args::read(words, &["--json"], &[])?;
    let input = read(args.one_file("dump")?)?;
    let out = if args.flag("--json") { format!("{}\n", dump::json(&input)) } else { dump::text(&input) };
    Ok(judged(&input, out.into_bytes()))
}

/// An answer that holds for refused words too: the refusal is a note, and the status says it.
fn judged(input: &Input, out: Vec<u8>) -> Answer {
    match judge(&snapshot_part(input).0) {
        Ok(_) => Answer::new(FINE, out),
        Err(refused) => Answer { status: REFUSED, out, notes: vec![refused.to_string()] },
    }
}

fn assembled(words: &[OsString]) -> Result<Answer, Failure> {
    let args = Args::read(words, &["--json"], &["-o"])?;
    let file = args.one_file("assemble")?;
    let text = read_text(file)?;
    let label_in = label(file);
    let bytes = assemble(&text).map_err(|(line, reason)| Failure::new(format!("{label_in}, line {line}: {reason}")))?;
    let input = Input::new(&label_in, bytes);
    let bytes = match args.target() {
        Some(path) => {
            let written = fs::write(path, &input.bytes);
            written.map_err(|error| Failure::writing(&label(path), &error))?;
            Vec::new()
        }
        None => input.bytes.clone(),
    };
    let mut answer = judged(&input, bytes);
    if args.flag("--json") {
        answer.out = assembled_json(&input, args.target().is_some()).into_bytes();
    }
    Ok(answer)
}

/// The words themselves stand in it where they are written to no file.
fn assembled_json(input: &Input, written: bool) -> String {
    let (snapshot, _) = snapshot_part(input);
    let mut fields =
        judge(&snapshot).map_or_else(|refused: Refused| refused.json(), |_| vec![("accepted", true.into())]);
    fields.push(("bytes", input.bytes.len().into()));
    if !written {
        fields.push(("words", input.words.iter().copied().collect()));
        fields.push(("rest", input.rest().iter().map(|byte| u32::from(*byte)).collect()));
    }
    format!("{}\n", Json::Object(fields))
}

/// The words of a file that the library accepts, or the answer that says why it does not.
fn accepted_words(args: &Args, command: &str) -> Result<Result<Vec<u32>, Answer>, Failure> {
    let input = read(args.one_file(command)?)?;
    Ok(accepted_input(args, &input).map_err(|refused| Answer::line(REFUSED, refused)).map(|()| input.words))
}

/// Why the library refuses an input, in the form that is asked for.
fn accepted_input(args: &Args, input: &Input) -> Result<(), String> {
    judge(input).map(|_| ()).map_err(|refused| match args.flag("--json") {
        true => Json::Object([vec![("file", input.label.as_str().into())], refused.json()].concat()).to_string(),
        false => refused.to_string(),
    })
}

fn asked(words: &[OsString]) -> Result<Answer, Failure> {
    let args = Args::read(words, &["--json"], &ask::VALUES)?;
    let words = match accepted_words(&args, "ask")? {
        Ok(words) => words,
        Err(answer) => return Ok(answer),
    };
    let view = View::new(&words);
    let question = ask::question(&args, &view)?;
    let snapshot = checked_again(&words)?;
    let report = snapshot.find_path(&question);
    let opinion = ask::second_opinion(&snapshot, &question, &report)?;
    let out = match args.flag("--json") {
        true => format!("{}\n", ask::json(&view, &question, &report, opinion.as_ref())),
        false => ask::text(&view, &question, &report, opinion.as_ref()),
    };
    Ok(Answer::new(status(&report), out))
}

fn checked_again(words: &[u32]) -> Result<Snapshot, Failure> {
    Snapshot::check(words).map_err(|refusal| Failure::new(refusal.to_string()))
}

fn status(report: &Report) -> u8 {
    match report.outcome {
        Outcome::Found(_) | Outcome::TankEmpty(Some(_)) => FINE,
        _ => REFUSED,
    }
}

fn reached(words: &[OsString]) -> Result<Answer, Failure> {
    let args = Args::read(words, &["--json"], &reach::VALUES)?;
    let words = match accepted_words(&args, "reach")? {
        Ok(words) => words,
        Err(answer) => return Ok(answer),
    };
    let view = View::new(&words);
    let viewer = reach::viewer(&args, &view)?;
    let snapshot = checked_again(&words)?;
    Ok(match (snapshot.reach(&viewer), args.flag("--json")) {
        (Ok(reach), true) => Answer::line(FINE, reach::json(&view, &viewer, &reach)),
        (Ok(reach), false) => Answer::new(FINE, reach::text(&view, &viewer, &reach)),
        (Err(refusal), json) => refused(&refusal, json),
    })
}

/// A question that is refused.
fn refused(refusal: &Refusal, json: bool) -> Answer {
    let (number, reason) = (refusal.kind().number(), refusal.kind().to_string());
    match json {
        true => Answer::line(REFUSED, Json::Object(vec![("refused", number.into()), ("meaning", reason.into())])),
        false => Answer::line(REFUSED, format!("refused {number}: {reason}")),
    }
}

fn imported(words: &[OsString]) -> Result<Answer, Failure> {
    let args = Args::read(words, &["--json"], &["--crate", "-o"])?;
    let words = match accepted_words(&args, "imports")? {
        Ok(words) => words,
        Err(answer) => return Ok(answer),
    };
    if let Some(path) = args.value("-o") {
        return with_lists(&args, &words, path);
    }
    let view = View::new(&words);
    let snapshot = checked_again(&words)?;
    let lists: Result<Vec<_>, Refusal> =
        imports::crates(&args, &view)?.into_iter().map(|krate| snapshot.import_list(krate)).collect();
    Ok(match (lists, args.flag("--json")) {
        (Ok(lists), true) => Answer::line(FINE, imports::json(&view, &lists)),
        (Ok(lists), false) => Answer::new(FINE, imports::text(&view, &lists)),
        (Err(refusal), json) => refused(&refusal, json),
    })
}

/// Writes the snapshot with the lists of all crates in place of its import records.
fn with_lists(args: &Args, words: &[u32], path: &OsStr) -> Result<Answer, Failure> {
    if args.value("--crate").is_some() {
        return Err(Failure::new("-o writes the lists of all crates: leave --crate out"));
    }
    if path == "-" && args.flag("--json") {
        return Err(Failure::new("--json and `-o -` both write to standard output: give one"));
    }
    let finished = match with_import_lists(words) {
        Ok(finished) => finished,
        Err(refusal) => return Ok(refused(&refusal, args.flag("--json"))),
    };
    let bytes: Vec<u8> = finished.iter().flat_map(|word| word.to_le_bytes()).collect();
    if path == "-" {
        return Ok(Answer::new(FINE, bytes));
    }
    fs::write(path, &bytes).map_err(|error| Failure::writing(&label(path), &error))?;
    let imports = checked_again(&finished)?.counts().imports;
    Ok(match args.flag("--json") {
        true => Answer::line(FINE, Json::Object(vec![("words", finished.len().into()), ("imports", imports.into())])),
        false => Answer::line(
            FINE,
            format!("{}, {} written to {}", counted(finished.len(), "word"), counted(imports, "import"), label(path)),
        ),
    })
}

/// Joins the snapshots of two files.
fn join_files(words: &[OsString]) -> Result<Answer, Failure> {
    let args = Args::read(words, &["--json"], &["-o"])?;
    let [first, second] = &args.files[..] else {
        return Err(Failure::new(format!("`join` takes two files, and {} are given", args.files.len())));
    };
    let inputs = [read(first)?, read(second)?];
    for input in &inputs {
        if let Err(refused) = accepted_input(&args, input) {
            let label = if args.flag("--json") { String::new() } else { format!("{}: ", input.label) };
            return Ok(Answer::line(REFUSED, format!("{label}{refused}")));
        }
    }
    let [one, two] = [checked_again(&inputs[0].words)?, checked_again(&inputs[1].words)?];
    let both = match join(&one, &two) {
        Ok(both) => both,
        Err(refusal) => return Ok(refused(&refusal, args.flag("--json"))),
    };
    let bytes = both.snapshot.to_bytes();
    if let Some(path) = args.target() {
        fs::write(path, &bytes).map_err(|error| Failure::writing(&label(path), &error))?;
    }
    Ok(match (args.flag("--json"), args.target()) {
        (true, path) => Answer::line(FINE, joined::json(&both, two.counts(), path.is_some())),
        (false, Some(path)) => Answer::new(FINE, joined::text(&both, one.counts(), &label(path))),
        (false, None) => Answer::new(FINE, bytes),
    })
}

fn drawn(words: &[OsString]) -> Result<Answer, Failure> {
    let args = Args::read(words, &["--json", "--dot"], &ask::VALUES)?;
    let words = match accepted_words(&args, "tree")? {
        Ok(words) => words,
        Err(answer) => return Ok(answer),
    };
    let view = View::new(&words);
    let wants_path = args.value("--item").is_some() || args.value("--from").is_some();
    match (args.flag("--dot"), args.flag("--json")) {
        (true, true) => Err(Failure::new("--dot and --json are two forms of the tree: give one")),
        (false, _) if wants_path => {
            Err(Failure::new("a path is drawn by --dot alone; `kelumavor ask` gives it in words"))
        }
        (false, true) => Ok(Answer::line(FINE, tree::json(&tree::crates(&view)))),
        (false, false) => Ok(Answer::new(FINE, tree::text(&view))),
        (true, false) if wants_path => routed(&args, &words, &view),
        (true, false) => Ok(Answer::new(FINE, dot::graph(&view, None))),
    }
}

/// The graph with a path; without one it is the graph alone, and a note says why.
fn routed(args: &Args, words: &[u32], view: &View) -> Result<Answer, Failure> {
    let question = ask::question(args, view)?;
    let snapshot = checked_again(words)?;
    let report = snapshot.find_path(&question);
    let graph = dot::graph(view, ask::found(&report).map(|path| (question.from, path)));
    let notes = ask::meaning(view, &question, &report).into_iter().collect();
    Ok(Answer { status: status(&report), out: graph.into_bytes(), notes })
}
