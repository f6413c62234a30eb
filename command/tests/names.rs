//! Items and modules by written names, in a workspace of two crates.
mod common;

use common::{errors, file, kelumavor, out};
use kelumavor_command::assemble::assemble;

/// `crate#0` has `mod m` with a struct and a function `both`, an enum `E` with a variant `V`, a macro, a block in `m`, and an extern name
/// `dep` for `crate#1`, which has `mod m` too, with an item `far`.
const WORKSPACE: &str = "
name \"m\"
name \"both\"
name \"E\"
name \"V\"
name \"mac\"
name \"dep\"
name \"far\"
name \"u8\"
name \"line\\nbreak\"
crate origin=ordinary edition=2021
crate origin=ordinary edition=2018
dependency crate=0 on=1 sysroot=no
map crate=0 block=none no_std=no
module map=0 parent=none
module map=0 parent=0
map crate=0 block=1 no_std=no
module map=1 parent=none
map crate=1 block=none no_std=no
module map=2 parent=none
module map=2 parent=3
child owner=0 module=1
child owner=3 module=4
definition 0 kind=module module=1
definition 1 kind=other module=1
definition 2 kind=other module=1
definition 3 kind=other module=1
definition 4 kind=variant parent=3 name=3
definition 5 kind=macro module=0
definition 6 kind=module module=4
definition 7 kind=other module=4
definition 8 kind=builtin name=7
definition 9 kind=other module=0
scope module=0 namespace=types name=0 definition=0 visibility=public marks=declared
scope module=1 namespace=types name=1 definition=1 visibility=public marks=declared
scope module=1 namespace=values name=1 definition=2 visibility=public marks=declared
scope module=1 namespace=types name=2 definition=3 visibility=crate within=0 marks=declared
scope module=0 namespace=macros name=4 definition=5 visibility=public marks=declared
scope module=3 namespace=types name=0 definition=6 visibility=public marks=declared
scope module=4 namespace=values name=6 definition=7 visibility=public marks=declared+deprecated
scope module=0 namespace=values name=8 definition=9 visibility=public marks=declared
import crate=1 namespace=values definition=7 name=6 module=4
import crate=1 namespace=types definition=6 name=0 module=3
extern crate=0 name=5 module=3
";

fn ask(name: &str, item: &str, from: &str, more: &[&str]) -> (i32, String) {
    let file = file(&format!("workspace-{name}"), &assemble(WORKSPACE).unwrap());
    let output = kelumavor(&[&["ask", &file, "--item", item, "--from", from], more].concat());
    (output.status.code().unwrap(), out(&output) + &errors(&output))
}

#[test]
fn items() {
    for (item, more, first, asked) in [
        ("m::E", &[][..], "m::E", "item crate#0::m::E (definition 3) in types"),
        ("m::E::V", &[], "m::E::V", "variant crate#0::m::E::V (definition 4) in types"),
        ("mac", &[], "mac", "macro crate#0::mac (definition 5) in macros"),
        ("dep::m::far", &[], "dep::m::far", "item crate#1::m::far (definition 7) in values"),
        ("::dep::m::far", &["--options", "prefer-absolute"], "::dep::m::far", "item crate#1::m::far (definition 7)"),
        ("crate#1::m::far", &[], "dep::m::far", "item crate#1::m::far (definition 7)"),
        ("7", &[], "dep::m::far", "item crate#1::m::far (definition 7)"),
        ("u8", &[], "u8", "builtin u8 (definition 8) in types"),
        ("m::both", &["--namespace", "types"], "m::both", "(definition 1) in types"),
        ("m::both", &["--namespace", "values"], "m::both", "(definition 2) in values"),
        ("line\\nbreak", &[], "line\\x0abreak", "item crate#0::line\\x0abreak (definition 9)"),
        ("m", &[], "m", "mod crate#0::m (definition 0) in types"),
    ] {
        let (status, told) = ask("items", item, "crate#0", more);
        assert_eq!((status, told.lines().next()), (0, Some(first)), "{item}: {told}");
        assert!(told.contains(asked), "{item}: {told}");
    }
}

#[test]
fn the_routes_words() {
    let (_, told) = ask("routes", "7", "crate#0", &[]);
    let lines: Vec<&str> = told.lines().collect();
    assert!(lines[1].starts_with("  dep: extern name of crate#0, for crate#1, word "), "{told}");
    assert!(lines[2].starts_with("  m: import map of crate#1, held by module crate#1, word "), "{told}");
    assert!(lines[3].starts_with("  far: import map of crate#1, held by module crate#1::m, word "), "{told}");
    let (_, told) = ask("routes", "m::E::V", "crate#0", &[]);
    assert!(told.contains("  E: entry of module crate#0::m, pub(crate), word "), "{told}");
    assert!(told.contains("  V: variant of crate#0::m::E, word "), "{told}");
}

#[test]
fn modules() {
    for (from, module) in [
        ("crate#0::m", "crate#0::m (module 1)"),
        ("crate#1::m", "crate#1::m (module 4)"),
        ("dep::m", "crate#1::m (module 4)"),
        ("crate#0::m::{block 2}", "crate#0::m::{block 2} (module 2)"),
        ("{block 2}", "(module 2)"),
        ("4", "crate#1::m (module 4)"),
    ] {
        let (_, told) = ask("modules", "7", from, &[]);
        assert!(told.contains(&format!("from {module}")) || told.contains(module), "{from}: {told}");
    }
}

/// Every visibility and mark, a block, variants, an extern name and a prelude stand in the tree; the same nodes in that of JSON.
#[test]
fn the_tree_of_a_workspace() {
    let entries = [
        "scope module=1 namespace=values name=6 definition=7 visibility=private within=1",
        "scope module=2 namespace=values name=6 definition=7 visibility=private within=1 attributes=hidden+unstable",
        "scope module=3 namespace=types name=5 definition=6 visibility=crate within=0",
        "scope module=4 namespace=types name=2 definition=3 visibility=module within=3",
        "import crate=1 namespace=values",
    ];
    let text = WORKSPACE
        .replacen("import crate=1 namespace=values", &entries.join("\n"), 1)
        .replace("map crate=1 block=none no_std=no", "map crate=1 block=none no_std=yes")
        .replace("child owner=3 module=4\n", "child owner=3 module=4\nprelude map=2 module=4\n");
    let file = file("workspace-tree", &assemble(&text).unwrap());
    let expected = "\
crate#0: crate 0, ordinary, edition 2021, depends on crate#1
├── extern dep = crate#1 (word 192)
└── root, module 0 (word 32)
    ├── mac: macro, pub, macros, definition 5 (word 116)
    ├── line\\x0abreak: item, pub, values, definition 9 (word 140)
    └── m: mod, pub, module 1 (word 34)
        ├── both: item, pub, types, definition 1 (word 92)
        ├── both: item, pub, values, definition 2 (word 100)
        ├── E: item, pub(crate), types, definition 3 (word 108)
        │   └── V: variant, definition 4 (word 66)
        ├── far: item crate#1::m::far, private, import, values, definition 7 (word 148)
        └── {block 2}, map 1 (word 39)
            └── far: item crate#1::m::far, private to crate#0::m, import, hidden, unstable, values, definition 7 (word 156)
crate#1: crate 1, ordinary, edition 2018
└── root, module 3, no_std, prelude crate#1::m (word 44)
    ├── dep: mod crate#1::m, pub(in crate#0), import, types, definition 6 (word 164)
    └── m: mod, pub, module 4 (word 46)
        ├── far: item, pub, deprecated, values, definition 7 (word 132)
        └── E: item crate#0::m::E, pub(in crate#1), import, types, definition 3 (word 172)
";
    let output = kelumavor(&["tree", &file]);
    assert_eq!((output.status.code(), out(&output).as_str()), (Some(0), expected));
    let json = out(&kelumavor(&["tree", "--json", &file]));
    for line in expected.lines().filter(|line| line.contains("(word ")) {
        let (label, word) = line.trim_start_matches(['├', '└', '│', '─', ' ']).rsplit_once(" (word ").unwrap();
        let word = word.trim_end_matches(')');
        let node = format!("\"word\":{word},\"label\":\"{}\",", label.replace('\\', "\\\\"));
        assert!(json.contains(&node), "{node}");
    }
    for fields in [
        r#""name":"crate#0","origin":"ordinary","edition":2021,"depends":[1],"#,
        r#""name":"dep","module":3,"#,
        r#""map":2,"no_std":true,"prelude":4,"#,
        r#""name":"far","namespace":"values","definition":7,"thing":"item","item":"crate#1::m::far",
           "visibility":"private to crate#0::m","declared":false,"deprecated":false,"hidden":true,"unstable":true,"#,
        r#""name":"m","namespace":"types","definition":6,"thing":"mod","item":"crate#1::m","visibility":"pub",
           "declared":true,"deprecated":false,"hidden":false,"unstable":false,"#,
        r#""name":"V","definition":4,"#,
    ] {
        let fields: String = fields.lines().map(str::trim).collect();
        assert!(json.contains(&fields), "{fields}\n{json}");
    }
}

#[test]
fn what_is_not_clear_is_said() {
    for (item, from, reason) in [
        (
            "m::both",
            "crate#0",
            "`m::both` is more than one item: definition 1 (item crate#0::m::both) in types, definition 2",
        ),
        ("m::none", "crate#0", "there is no item `m::none`"),
        ("7", "crate::m", "`crate::m` may be crate#0::m (module 1) or crate#1::m (module 4): give the number"),
        ("7", "crate::n", "there is no module `crate::n`"),
        ("crate", "crate#0", "`crate` is module 0, which has no definition record to ask for"),
        ("\\q", "crate#0", "`\\q` is no escape"),
        ("super::m", "crate#0", "there is no item `super::m`"),
    ] {
        let (status, told) = ask("unclear", item, from, &[]);
        assert_eq!(status, 2, "{item} from {from}: {told}");
        assert!(told.contains(reason), "{item} from {from}: {told}");
    }
    let (status, told) = ask("unclear", "99", "0", &[]);
    assert_eq!(status, 1, "{told}");
    assert!(told.starts_with("refused 23: "), "{told}");
}
