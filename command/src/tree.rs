//! Crates, modules, blocks and entries as a tree.
use crate::json::Json;
use crate::record::{Kind, NAMESPACES, Record, Role};
use crate::view::View;

/// A node: what it is, its number among those, the word of its record, its text, the same in fields, and what is below it.
pub struct Node {
    kind: &'static str,
    number: usize,
    place: usize,
    label: String,
    fields: Vec<(&'static str, Json)>,
    below: Vec<Node>,
}

pub fn crates(view: &View) -> Vec<Node> {
    view.records.of(Kind::Crate).iter().map(|krate| crate_node(view, krate)).collect()
}

fn crate_node(view: &View, krate: &Record) -> Node {
    let number = krate.number;
    let depends = view.records.of(Kind::Dependency).iter().filter(|record| record.get(0) == number);
    let depends: Vec<usize> = depends.map(|record| record.get(1)).collect();
    let origin = Role::Origin.text(krate.payload());
    let fields = vec![
        ("name", view.krate(number).into()),
        ("origin", origin.as_str().into()),
        ("edition", krate.get(1).into()),
        ("depends", depends.iter().copied().collect()),
    ];
    let depends: Vec<_> = depends.into_iter().map(|other| view.krate(other)).collect();
    let depends = if depends.is_empty() { String::new() } else { format!(", depends on {}", depends.join(", ")) };
    let label = format!("{}: crate {number}, {origin}, edition {}{depends}", view.krate(number), krate.get(1));
    let externs = view.records.of(Kind::Extern).iter().filter(|record| record.get(0) == number);
    let mut below: Vec<Node> = externs.map(|record| extern_node(view, record)).collect();
    let maps = view.records.of(Kind::Map).iter().filter(|map| map.get(0) == number && map.get(1) == 0);
    below.extend(maps.filter_map(|map| root_node(view, map)));
    Node { kind: "crate", number, place: krate.place, label, fields, below }
}

fn extern_node(view: &View, record: &Record) -> Node {
    let label = format!("extern {} = {}", view.name(record.get(1)), view.module(record.get(2)));
    let fields = vec![("name", view.name(record.get(1)).into()), ("module", record.get(2).into())];
    Node { kind: "extern", number: record.number, place: record.place, label, fields, below: Vec::new() }
}

/// The first module of a map, a crate's or a block's.
fn root_node(view: &View, map: &Record) -> Option<Node> {
    let root = view.records.of(Kind::Module).iter().find(|module| module.get(0) == map.number)?;
    let (number, no_std) = (root.number, if map.get(2) == 1 { ", no_std" } else { "" });
    let label = if map.get(1) == 0 {
        format!("root, module {number}{no_std}")
    } else {
        format!("{{block {number}}}, map {}{no_std}", map.number)
    };
    let prelude = view.records.of(Kind::Prelude).iter().find(|prelude| prelude.get(0) == map.number);
    let fields = vec![
        ("map", map.number.into()),
        ("no_std", (map.get(2) == 1).into()),
        ("prelude", prelude.map(|record| record.get(1)).into()),
    ];
    let prelude = prelude.map(|record| format!(", prelude {}", view.module(record.get(1)))).unwrap_or_default();
    let kind = if map.get(1) == 0 { "module" } else { "block" };
    Some(Node { kind, number, place: root.place, label: label + &prelude, fields, below: below(view, number) })
}

/// Entries, modules and blocks of a module.
fn below(view: &View, module: usize) -> Vec<Node> {
    let children: Vec<&Record> =
        view.records.of(Kind::Module).iter().filter(|child| child.get(1) == module + 1).collect();
    let calls: Vec<usize> =
        children.iter().filter_map(|child| view.entry_of(child.number)).map(|entry| entry.number).collect();
    let entries = view.records.of(Kind::Scope).iter().filter(|entry| entry.get(0) == module);
    let mut below: Vec<Node> =
        entries.filter(|entry| !calls.contains(&entry.number)).map(|entry| entry_node(view, entry)).collect();
    below.extend(children.iter().map(|child| module_node(view, child)));
    let blocks = view.records.of(Kind::Map).iter().filter(|map| map.get(1) == module + 1);
    below.extend(blocks.filter_map(|map| root_node(view, map)));
    below
}

fn module_node(view: &View, module: &Record) -> Node {
    let number = module.number;
    let label = match view.entry_of(number) {
        Some(entry) => {
            let (name, visibility) = (view.name(entry.get(2)), view.visibility(entry));
            format!("{name}: mod, {visibility}{}, module {number}", view.marks(entry))
        }
        None => format!("{{module {number}}}: mod without an entry"),
    };
    let fields = view.entry_of(number).map_or_else(Vec::new, |entry| entry_fields(view, entry));
    Node { kind: "module", number, place: module.place, label, fields, below: below(view, number) }
}

/// What an entry says, each under its name.
fn entry_fields(view: &View, entry: &Record) -> Vec<(&'static str, Json)> {
    let (definition, marks, attributes) = (entry.get(3), entry.get(6), entry.get(7));
    vec![
        ("name", view.name(entry.get(2)).into()),
        ("namespace", NAMESPACES[entry.get(1)].into()),
        ("definition", definition.into()),
        ("thing", view.thing(definition).into()),
        ("item", view.definition(definition).into()),
        ("visibility", view.visibility(entry).into()),
        ("declared", (marks & 1 == 1).into()),
        ("deprecated", (marks & 2 == 2).into()),
        ("hidden", (attributes & 1 == 1).into()),
        ("unstable", (attributes & 2 == 2).into()),
    ]
}

fn entry_node(view: &View, entry: &Record) -> Node {
    let (name, definition) = (view.name(entry.get(2)), entry.get(3));
    let (thing, path) = (view.thing(definition), view.definition(definition));
    let (visibility, namespace) = (view.visibility(entry), NAMESPACES[entry.get(1)]);
    let declared = entry.get(6) % 2 == 1;
    let what = if declared { thing.to_string() } else { format!("{thing} {path}") };
    let label = format!("{name}: {what}, {visibility}{}, {namespace}, definition {definition}", view.marks(entry));
    let below = if declared { variants(view, definition) } else { Vec::new() };
    let fields = entry_fields(view, entry);
    Node { kind: "entry", number: entry.number, place: entry.place, label, fields, below }
}

fn variants(view: &View, parent: usize) -> Vec<Node> {
    let variants =
        view.records.of(Kind::Definition).iter().filter(|record| record.get(0) == 2 && record.get(1) == parent);
    variants
        .map(|record| {
            let label = format!("{}: variant, definition {}", view.name(record.get(2)), record.number);
            let fields = vec![("name", view.name(record.get(2)).into()), ("definition", record.number.into())];
            Node { kind: "variant", number: record.number, place: record.place, label, fields, below: Vec::new() }
        })
        .collect()
}

pub fn text(view: &View) -> String {
    let mut out = String::new();
    for node in crates(view) {
        out += &format!("{}\n", node.label);
        draw(&mut out, &node.below, "");
    }
    out
}

fn draw(out: &mut String, nodes: &[Node], indent: &str) {
    for (number, node) in nodes.iter().enumerate() {
        let last = number + 1 == nodes.len();
        let (branch, further) = if last { ("└── ", "    ") } else { ("├── ", "│   ") };
        *out += &format!("{indent}{branch}{} (word {})\n", node.label, node.place);
        draw(out, &node.below, &format!("{indent}{further}"));
    }
}

pub fn json(nodes: &[Node]) -> Json {
    let one = |node: &Node| {
        let start = vec![
            ("kind", node.kind.into()),
            ("number", node.number.into()),
            ("word", node.place.into()),
            ("label", node.label.as_str().into()),
        ];
        Json::Object([start, node.fields.clone(), vec![("below", json(&node.below))]].concat())
    };
    nodes.iter().map(one).collect()
}
