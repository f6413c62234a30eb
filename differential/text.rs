//! The text of rust-analyzer, changed where the stand-ins ask for it. Nothing of that text is kept here: functions are taken
//! by name, and what a change looks for stands exactly as often as it says, or the build fails.
use std::path::{Path, PathBuf};
use std::{env, fs};

const FOLDER: &str = "RUST_ANALYZER_TEXT";

/// What an enum of the text derives.
const DERIVED: &str = "#[derive(Clone, Copy, PartialEq, Eq, Debug, Hash)]";

/// A part of the program: its file, and what has become of its text.
#[derive(Clone)]
pub struct Part {
    pub name: &'static str,
    pub text: String,
}

/// A change of one part, within one function of it or anywhere; what it looks for must stand there so many times.
pub struct Edit {
    pub part: &'static str,
    pub within: &'static str,
    pub times: usize,
    pub old: &'static str,
    pub new: &'static str,
}

/// The program without a mistake. `root` is the folder of the package `differential`.
pub fn right(root: &Path) -> Vec<Part> {
    println!("cargo:rerun-if-env-changed={FOLDER}");
    println!("cargo:rerun-if-changed={}", root.join("text.rs").display());
    println!("cargo:rerun-if-changed={}", root.join("src/stand_ins").display());
    let folder = match env::var(FOLDER) {
        Ok(given) => PathBuf::from(given),
        Err(_) => root.join("../../shared/docs/src"),
    };
    parts(&folder, &root.join("src/stand_ins"))
}

/// The place where the build wants its files.
pub fn out() -> PathBuf {
    PathBuf::from(env::var("OUT_DIR").unwrap())
}

/// A source file, under the name it has in docs/src or in the crate.
fn source(folder: &Path, name: &str) -> String {
    let tried = [folder.join(format!("src--src--{name}.rs.txt")), folder.join(format!("{name}.rs"))];
    for path in &tried {
        if let Ok(text) = fs::read_to_string(path) {
            println!("cargo:rerun-if-changed={}", path.display());
            return text;
        }
    }
    eprintln!(
        "The source text of rust-analyzer is not there: neither {} nor {} can be read.\n\
         Set {FOLDER} to a folder with find_path.rs, visibility.rs, item_scope.rs, nameres.rs, import_map.rs and lib.rs of \
         ra_ap_hir_def 0.0.360.",
        tried[0].display(),
        tried[1].display()
    );
    std::process::exit(1);
}

/// The program: stand-ins with the functions of the Rust in their places, and find_path whole.
fn parts(folder: &Path, stand_ins: &Path) -> Vec<Part> {
    let stand_in = |name: &str| fs::read_to_string(stand_ins.join(format!("{name}.rs"))).unwrap();
    let lib = source(folder, "lib");
    let visibility = source(folder, "visibility");
    let item_scope = source(folder, "item_scope");
    let nameres = source(folder, "nameres");
    let import_map = source(folder, "import_map");

    let modules = with_impl(
        "impl<'db> ModuleIdLt<'db>",
        &lib,
        &["def_map", "local_def_map", "only_local_def_map", "containing_module"],
    );
    let walk = with_impl("impl Visibility", &visibility, &["is_visible_from", "is_visible_from_def_map_"]);
    let scopes = with_impl("impl ItemScope", &item_scope, &["modules_in_scope", "get", "type_", "name_of", "names_of"]);
    let items = item(&item_scope, "pub enum ItemInNs") + "\n" + &item(&item_scope, "impl ItemInNs");
    let maps = with_impl(
        "impl DefMap",
        &nameres,
        &["is_no_std", "krate", "crate_root", "parent", "block_id", "prelude", "with_ancestor_maps"],
    );
    let locals = with_impl("impl LocalDefMap", &nameres, &["extern_prelude"]);
    let index = item(&nameres, "impl std::ops::Index<ModuleIdLt<'_>> for DefMap");
    let root = function(&nameres, "crate_def_map");
    let infos = with_impl("impl ImportMap", &import_map, &["import_info_for"]);

    let mut parts = vec![
        Part { name: "lib", text: stand_in("lib") + &modules },
        Part {
            name: "visibility",
            text: stand_in("visibility") + DERIVED + &item(&visibility, "pub enum Visibility") + &walk,
        },
        Part { name: "item_scope", text: stand_in("item_scope") + DERIVED + &items + &scopes },
        Part { name: "nameres", text: stand_in("nameres") + &index + "\n" + &root + &maps + &locals },
        Part { name: "import_map", text: stand_in("import_map") + &infos },
        Part { name: "old_names", text: stand_in("old_names") },
        Part { name: "find_path", text: source(folder, "find_path") + &stand_in("find_path") },
        Part { name: "fill", text: stand_in("fill") },
        Part { name: "ask", text: stand_in("ask") },
    ];
    for edit in EDITS {
        apply(&mut parts, edit, "right");
    }
    parts
}

/// The program that collects the imports of a crate: its own stand-ins, with the functions of the Rust in their places.
pub fn collect(root: &Path) -> Vec<Part> {
    let folder = match env::var(FOLDER) {
        Ok(given) => PathBuf::from(given),
        Err(_) => root.join("../../shared/docs/src"),
    };
    let stand_in = fs::read_to_string(root.join("src/stand_ins/collect.rs")).unwrap();
    let item_scope = source(&folder, "item_scope");
    let import_map = source(&folder, "import_map");
    let derived = "#[derive(Clone, Copy, PartialEq, Eq, Debug, Hash)]";
    let items =
        item(&item_scope, "pub enum ItemInNs") + &with_impl("impl ItemInNs", &item_scope, &["as_module_def_id"]);
    let scopes = with_impl("impl ItemScope", &item_scope, &["entries", "get"]);
    let names = ["collect_import_map", "collect_enum_variants", "collect_trait_assoc_items"];
    let imports = with_impl("impl ImportMap", &import_map, &names);
    vec![Part { name: "collect", text: stand_in + derived + &items + &scopes + &imports }]
}

/// What changes in the text so that it runs over the stand-ins: imports, the tank, the question's limit, old names last, and document 01's length
/// left.
const EDITS: &[Edit] = &[
    // imports
    Edit { part: "find_path", within: "", times: 1, old: "use base_db::{", new: "use super::base_db::{" },
    Edit { part: "find_path", within: "", times: 1, old: "use hir_expand::{", new: "use super::hir_expand::{" },
    Edit { part: "find_path", within: "", times: 1, old: "use intern::", new: "use super::intern::" },
    Edit { part: "find_path", within: "", times: 1, old: "use rustc_hash::", new: "use super::rustc_hash::" },
    Edit {
        part: "find_path",
        within: "",
        times: 1,
        old: "use crate::{",
        new: "use super::old_names::{names_tried, tried}; use super::{cov_mark, tracing};\nuse super::{",
    },
    // tracing; its spans and the coverage marks are empty macros of the stand-ins
    Edit { part: "find_path", within: "", times: 2, old: "#[tracing::instrument(skip_all)]", new: "" },
    // the tank: the question's fuel, charges counted, an empty tank noted
    Edit { part: "find_path", within: "find_path", times: 1, old: "FIND_PATH_FUEL", new: "db.store().tank.fuel.get()" },
    Edit {
        part: "find_path",
        within: "calculate_best_path",
        times: 1,
        old: "if fuel == 0 {",
        new: "if fuel == 0 {\n        ctx.db.store().tank.empty.set(true);",
    },
    Edit {
        part: "find_path",
        within: "calculate_best_path",
        times: 1,
        old: "ctx.fuel.set(fuel - 1);",
        new: "ctx.fuel.set(fuel - 1);\n    ctx.db.store().tank.charge();",
    },
    // the length left at the start: the question's limit
    Edit { part: "find_path", within: "find_path", times: 1, old: "MAX_PATH_LEN", new: "db.store().limit.get()" },
    // the three lookups of an item's name, each of which goes on where options bit 32 asks for it; the end of a loop is put in before its beginning,
    // so that a function ends within itself
    Edit {
        part: "find_path",
        within: "find_in_scope",
        times: 1,
        old: "def_map[local_id].scope.names_of(item,",
        new: "names_tried(db, &def_map[local_id].scope, item,",
    },
    Edit {
        part: "find_path",
        within: "find_in_prelude",
        times: 1,
        old: "        None\n    }",
        new: "        continue;\n    } } None",
    },
    Edit {
        part: "find_path",
        within: "find_in_prelude",
        times: 1,
        old: "let (name, vis, _declared) = prelude_scope.name_of(item)?;",
        new: "for entry in tried(db, prelude_scope, item) { let (name, vis, _declared) = entry?;",
    },
    Edit { part: "find_path", within: "find_in_prelude", times: 1, old: "return None;", new: "continue;" },
    Edit {
        part: "find_path",
        within: "find_in_prelude",
        times: 1,
        old: "Some(Choice::new(PathKind::Plain, name.clone(), Stable))",
        new: "return Some(Choice::new(PathKind::Plain, name.clone(), Stable));",
    },
    Edit {
        part: "find_path",
        within: "find_local_import_locations",
        times: 1,
        old: "cb(visited_modules, name, module);\n            }\n        }",
        new: "cb(visited_modules, name, module); break;\n            }\n        } }",
    },
    Edit {
        part: "find_path",
        within: "find_local_import_locations",
        times: 1,
        old: "if let Some((name, vis, declared)) = data.scope.name_of(item)",
        new: "for entry in tried(db, &data.scope, item) { if let Some((name, vis, declared)) = entry",
    },
    // the length left
    Edit {
        part: "find_path",
        within: "find_in_dep",
        times: 1,
        old: "max_len - 1",
        new: "length_left(max_len, best_choice)",
    },
    Edit {
        part: "find_path",
        within: "calculate_best_path_local",
        times: 1,
        old: "false, max_len - 1",
        new: "false, length_left(max_len, best_choice)",
    },
];

fn with_impl(head: &str, text: &str, names: &[&str]) -> String {
    let functions: Vec<String> = names.iter().map(|name| function(text, name)).collect();
    format!("\n{head} {{\n{}\n}}\n", functions.join("\n\n"))
}

/// The function of that name, with the line it begins on. There must be one.
fn function(text: &str, name: &str) -> String {
    text[range(text, name)].to_string()
}

pub fn range(text: &str, name: &str) -> std::ops::Range<usize> {
    let places: Vec<usize> = ["(", "<"]
        .iter()
        .flat_map(|after| text.match_indices(&format!("fn {name}{after}")).map(|(place, _)| place).collect::<Vec<_>>())
        .collect();
    assert!(places.len() == 1, "the function {name} stands {} times in the source text, not once", places.len());
    let start = text[..places[0]].rfind('\n').map_or(0, |end| end + 1);
    start..closed(text, places[0])
}

/// The enum or impl with that head.
fn item(text: &str, head: &str) -> String {
    let places: Vec<usize> = text.match_indices(&format!("\n{head} {{")).map(|(place, _)| place).collect();
    assert!(places.len() == 1, "`{head}` stands {} times in the source text, not once", places.len());
    text[places[0]..closed(text, places[0])].to_string()
}

/// The end of the braces that open after a place.
fn closed(text: &str, from: usize) -> usize {
    let mut depth = 0;
    for (place, byte) in text.bytes().enumerate().skip(from) {
        match byte {
            b'{' => depth += 1,
            b'}' => {
                depth -= 1;
                if depth == 0 {
                    return place + 1;
                }
            }
            _ => (),
        }
    }
    panic!("the source text ends inside braces");
}

pub fn apply(parts: &mut [Part], edit: &Edit, program: &str) {
    let part = parts.iter_mut().find(|part| part.name == edit.part).expect("a part of that name");
    let place = if edit.within.is_empty() { 0..part.text.len() } else { range(&part.text, edit.within) };
    let found = part.text[place.clone()].matches(edit.old).count();
    assert!(
        found == edit.times,
        "{program}: `{}` stands {found} times in {} {}, not {}",
        edit.old,
        edit.part,
        edit.within,
        edit.times
    );
    let changed = part.text[place.clone()].replace(edit.old, edit.new);
    part.text.replace_range(place, &changed);
}

pub fn write(out: &Path, name: &str, parts: &[Part]) {
    let text: String = parts.iter().map(module).collect();
    fs::write(out.join(format!("{name}.rs")), text).unwrap();
}

/// The parts that are not as in the right program, over those of the right one.
pub fn write_over(out: &Path, name: &str, parts: &[Part], right: &[Part]) {
    let changed = |part: &Part, right: &Part| part.name == "ask" || part.text != right.text;
    let shared = parts
        .iter()
        .zip(right)
        .all(|(part, right)| matches!(part.name, "find_path" | "ask") || part.text == right.text);
    if !shared {
        return write(out, name, parts);
    }
    let mut text = "pub use crate::right::*;\n".to_string();
    for (part, right) in parts.iter().zip(right) {
        if changed(part, right) {
            text += &module(part);
        }
    }
    fs::write(out.join(format!("{name}.rs")), text).unwrap();
}

fn module(part: &Part) -> String {
    if part.name == "lib" { part.text.clone() } else { format!("\npub mod {} {{\n{}\n}}\n", part.name, part.text) }
}
