//! Writes the right program and the wrong ones to OUT_DIR.
use std::fs;
use std::path::Path;

mod programs;
#[allow(dead_code)]
#[path = "../text.rs"]
mod text;
use programs::{SAME_FLIPS, WRONG_PROGRAMS};
use text::Part;

fn main() {
    println!("cargo:rerun-if-changed=build.rs");
    println!("cargo:rerun-if-changed=programs.rs");
    let out = text::out();
    let right = text::right(&Path::new(env!("CARGO_MANIFEST_DIR")).join(".."));
    text::write(&out, "right", &right);
    let mut programs: Vec<(String, &str, Vec<Part>)> = Vec::new();
    for wrong in WRONG_PROGRAMS {
        let mut parts = right.clone();
        for edit in wrong.edits {
            text::apply(&mut parts, edit, wrong.name);
        }
        programs.push((wrong.name.to_string(), wrong.same, parts));
    }
    programs.extend(flips(&right));
    let mut modules = String::new();
    let mut list = String::new();
    for (name, same, parts) in programs {
        text::write_over(&out, &name, &parts, &right);
        modules += &format!("pub mod {name} {{ include!(concat!(env!(\"OUT_DIR\"), \"/{name}.rs\")); }}\n");
        list += &format!("    (\"{name}\", {same:?}, |s| Box::new({name}::ask::Program::new(s))),\n");
    }
    let kind = "&[(&str, &str, fn(&crate::check::Snapshot) -> Box<dyn crate::Answers>)]";
    fs::write(out.join("wrong.rs"), format!("{modules}pub const WRONG: {kind} = &[\n{list}];\n")).unwrap();
}

/// What is flipped, and into what.
const FLIPS: [(&str, &str, &str); 6] = [
    (" == ", " != ", "eq"),
    (" != ", " == ", "ne"),
    (" || ", " && ", "or"),
    (" && ", " || ", "and"),
    ("true", "false", "true"),
    ("false", "true", "false"),
];

/// The functions in which everything is flipped in turn, by part; the search as a whole is named by none.
const FLIPPED: [(&str, &[&str]); 3] = [
    ("find_path", &[]),
    ("visibility", &["is_visible_from", "is_visible_from_def_map_"]),
    ("item_scope", &["name_of", "names_of"]),
];

/// A program for each comparison, `||`, `&&` and truth value of the text. Its name has part, line and place in the line.
fn flips(right: &[Part]) -> Vec<(String, &'static str, Vec<Part>)> {
    let mut programs = Vec::new();
    for (name, functions) in FLIPPED {
        let number = right.iter().position(|part| part.name == name).unwrap();
        let text = &right[number].text;
        let mut start = 0;
        for (line_number, line) in text.split_inclusive('\n').enumerate() {
            let inside = functions.is_empty() || functions.iter().any(|own| text::range(text, own).contains(&start));
            for (old, new, what) in FLIPS {
                for (place, _) in line.match_indices(old) {
                    if inside && flippable(line, place, old) {
                        let flip = format!("flip_{name}_{}_{place}_{what}", line_number + 1);
                        let same = SAME_FLIPS.iter().find(|(own, _)| *own == flip).map_or("", |(_, same)| same);
                        let mut parts = right.to_vec();
                        parts[number].text.replace_range(start + place..start + place + old.len(), new);
                        programs.push((flip, same, parts));
                    }
                }
            }
            start += line.len();
        }
    }
    programs
}

/// No comment, no part of a longer word, and no `let` chain, which knows no `||`.
fn flippable(line: &str, place: usize, old: &str) -> bool {
    let word = |byte: Option<&u8>| byte.is_some_and(|byte| byte.is_ascii_alphanumeric() || *byte == b'_');
    let code = line.find("//").is_none_or(|comment| place < comment);
    let whole = old.starts_with(' ')
        || !(word(line.as_bytes()[..place].last()) || word(line.as_bytes().get(place + old.len())));
    let chain = old == " && " && (line.contains("let ") || line.trim_start().starts_with("&&"));
    code && whole && !chain
}
