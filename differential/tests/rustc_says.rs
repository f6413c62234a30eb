//! The examples of docs/DIFFERENCES.md: the line of the search, any path, the snapshot in the document, and what the compiler says of the text.
use std::path::Path;
use std::process::Command;

use differential::any_path::{Answer, Viewer, text};
use differential::compare::Other;
use differential::encode::{bytes, question_words};
use differential::examples::{Example, passed_over, refused, untold};
use differential::show::hexadecimal;

/// Texts of the document without a snapshot: edition, text, the compiler's error.
const TEXTS: [(usize, &str, &str); 8] = [
    (2015, "mod m { pub mod n { pub struct S; } use n::S; }", "E0432"),
    (2018, "mod m { pub mod n { pub struct S; } use n::S; }", ""),
    (2015, "fn p() { let _ = ::dep::S; }", "E0433"),
    (2021, "mod a { pub struct S; } mod b { pub struct S; } use a::*; use b::*; fn p(_: S) {}", "E0659"),
    (2021, "#[no_implicit_prelude] mod m { fn p(_: Option<u8>) {} }", "E0425"),
    (2021, "mod m { mod x { pub enum E { V } } pub type A = x::E; } fn p() { let _ = m::A::V; }", ""),
    (2021, "macro_rules! n { () => {} } mod m { n!(); }", ""),
    (2021, "struct S; impl S { fn n() {} } fn p() { S::n() }", ""),
];

fn all() -> Vec<Example> {
    [refused(), passed_over(), untold()].into_iter().flatten().collect()
}

#[test]
fn answers() {
    for example in all() {
        let (snapshot, q) = example.question();
        let input = bytes(&[&snapshot[..], &question_words(&q)].concat());
        for other in [Other::Original, Other::Rules] {
            let line = String::from_utf8(other.output(&input)).unwrap();
            assert!(line.starts_with(&format!("{} ", example.line)), "{}: {line}", example.title);
        }
        let written = example.workspace.snapshot();
        let any = match Viewer::new(&written.s, q.from).any_path(q.ns, q.definition) {
            Answer::Found(path) => text(&path, |name| example.workspace.names[name].clone()),
            other => format!("{other:?}").to_lowercase(),
        };
        assert_eq!(any, example.any_path, "{}", example.title);
    }
}

/// The document has the text of each example, its question and the words of its snapshot, twelve to a line.
#[test]
fn documented() {
    let document = std::fs::read_to_string(concat!(env!("CARGO_MANIFEST_DIR"), "/../docs/DIFFERENCES.md")).unwrap();
    let flat = document.split_whitespace().collect::<Vec<_>>().join(" ");
    for example in all() {
        let (snapshot, q) = example.question();
        let asked = format!("{}/{}/{}/{}", q.definition, q.ns, q.from, q.prefix);
        let said = format!("{} `{}`", asked, example.line);
        let source = example.source.split_whitespace().collect::<Vec<_>>().join(" ");
        for part in [said, source, hexadecimal(&snapshot)] {
            assert!(flat.contains(&part), "{}: {part} is not in the document", example.title);
        }
    }
    for (_, text, _) in TEXTS {
        assert!(flat.contains(text), "{text} is not in the document");
    }
}

/// What the compiler says of a text; the first error's code, or nothing.
fn compile(folder: &Path, name: &str, source: &str, edition: usize) -> Option<String> {
    std::fs::write(folder.join(format!("{name}.rs")), source).unwrap();
    let output = Command::new("rustc")
        .current_dir(folder)
        .args(["--crate-type", "rlib", "--emit=metadata", "--cap-lints", "allow", "--error-format=short"])
        .args(["--edition", &edition.to_string(), "--extern", "dep=libdep.rmeta", &format!("{name}.rs")])
        .output()
        .ok()?;
    let said = String::from_utf8_lossy(&output.stderr).into_owned();
    let code = said.split("error[").nth(1).and_then(|rest| rest.split(']').next()).unwrap_or("");
    Some(if output.status.success() { String::new() } else { code.to_string() })
}

#[test]
fn compiled() {
    let folder = std::env::temp_dir().join(format!("rustc-says-{}", std::process::id()));
    std::fs::create_dir_all(&folder).unwrap();
    for example in all() {
        compile(&folder, "dep", example.dependency, 2021);
        let Some(said) = compile(&folder, "own", example.source, example.edition) else { break };
        assert_eq!(said, example.error, "{}", example.title);
    }
    compile(&folder, "dep", "pub struct S;", 2021);
    for (edition, text, error) in TEXTS {
        let Some(said) = compile(&folder, "own", text, edition) else { break };
        assert_eq!(said, error, "{edition}: {text}");
    }
    std::fs::remove_dir_all(&folder).unwrap();
}
