//! The tree as a graph for Graphviz, with the route of a path drawn in it.
use std::collections::BTreeSet;

use kelumavor::{ModuleId, Path, Rule, Step};

use crate::ask::steps;
use crate::record::{Kind, Record};
use crate::view::View;

const ROUTE: &str = "color=red, fontcolor=red, penwidth=2";

/// A quoted text of the dot language.
fn quoted(text: &str) -> String {
    format!("\"{}\"", text.replace('\\', "\\\\").replace('"', "\\\""))
}

/// The node of a definition: its module, or its own.
fn node(view: &View, definition: usize) -> String {
    match view.records.get(Kind::Definition, definition) {
        Some(record) if record.get(0) == 1 => format!("m{}", record.get(1)),
        _ => format!("d{definition}"),
    }
}

/// The graph, with the path that was found from a module.
pub fn graph(view: &View, found: Option<(ModuleId, &Path)>) -> String {
    let route = found.map(|(from, path)| (from.0 as usize, steps(path))).unwrap_or_default();
    let mut lines = vec![
        "digraph snapshot {".to_string(),
        "  rankdir=LR; fontname=\"sans-serif\";".to_string(),
        "  node [fontname=\"sans-serif\"]; edge [fontname=\"sans-serif\", fontsize=11];".to_string(),
    ];
    let items = items(view, &route.1);
    for krate in view.records.of(Kind::Crate) {
        lines.extend(cluster(view, krate.number, &items, found.map(|(from, _)| from.0 as usize)));
    }
    lines.extend(items.iter().filter(|item| home(view, **item).is_none()).map(|item| item_line(view, *item, "  ")));
    lines.extend(blocks(view));
    let drawn: Vec<usize> = route.1.iter().map(|(_, step)| step.place as usize).collect();
    let entries = view.records.of(Kind::Scope).iter().filter(|entry| !drawn.contains(&entry.place));
    lines.extend(entries.map(|entry| entry_line(view, entry)));
    lines.extend(route.1.iter().enumerate().map(|(number, (part, step))| {
        let label = quoted(&format!("{}. {part}", number + 1));
        format!("  {} [label={label}, {ROUTE}];", step_edge(view, route.0, part, *step))
    }));
    lines.push("}".to_string());
    lines.join("\n") + "\n"
}

/// Definitions that are no modules and that an entry or a step of the route leads to, with their enums.
fn items(view: &View, route: &[(String, Step)]) -> BTreeSet<usize> {
    let entered = view.records.of(Kind::Scope).iter().map(|entry| entry.get(3));
    let stepped = route.iter().filter_map(|(_, step)| {
        let record = view.records.at(step.place as usize)?;
        match step.rule {
            Rule::Import => Some(record.get(2)),
            Rule::Variant | Rule::Builtin => Some(record.number),
            _ => None,
        }
    });
    let all: BTreeSet<usize> = entered.chain(stepped).collect();
    let parent = |item: &usize| {
        let record = view.records.get(Kind::Definition, *item)?;
        (record.get(0) == 2).then(|| record.get(1))
    };
    let parents: Vec<usize> = all.iter().filter_map(parent).collect();
    all.into_iter().chain(parents).filter(|item| view.thing(*item) != "mod").collect()
}

/// The module of an item, or of a variant's enum; a builtin has none.
fn home(view: &View, item: usize) -> Option<usize> {
    let record = view.records.get(Kind::Definition, item)?;
    match record.get(0) {
        2 => home(view, record.get(1)),
        3 => None,
        _ => Some(record.get(1)),
    }
}

fn item_line(view: &View, item: usize, indent: &str) -> String {
    let path = view.definition(item);
    let name = path.rsplit("::").next().unwrap_or_default();
    format!("{indent}d{item} [label={}];", quoted(&format!("{name}\n{}", view.thing(item))).replace('\n', "\\n"))
}

fn cluster(view: &View, krate: usize, items: &BTreeSet<usize>, from: Option<usize>) -> Vec<String> {
    let mut lines =
        vec![format!("  subgraph cluster_{krate} {{"), format!("    label={};", quoted(&view.krate(krate)))];
    let own = |module: &&Record| view.crate_of(module.number) == Some(krate);
    lines.extend(view.records.of(Kind::Module).iter().filter(own).map(|module| {
        let viewing = if Some(module.number) == from { ", peripheries=2" } else { "" };
        format!("    m{} [shape=box{viewing}, label={}];", module.number, quoted(&view.module(module.number)))
    }));
    let here = |item: &&usize| home(view, **item).and_then(|module| view.crate_of(module)) == Some(krate);
    lines.extend(items.iter().filter(here).map(|item| item_line(view, *item, "    ")));
    lines.push("  }".to_string());
    lines
}

/// Modules without an entry of their own, and blocks, below what holds them.
fn blocks(view: &View) -> Vec<String> {
    let mut lines = Vec::new();
    for module in view.records.of(Kind::Module) {
        let number = module.number;
        if let Some(outer) = view.block_in(number) {
            lines.push(format!("  m{outer} -> m{number} [label=\"block\", style=dotted];"));
        } else if let (None, Some(parent)) = (view.entry_of(number), view.parent(number)) {
            lines.push(format!("  m{parent} -> m{number} [style=dotted];"));
        }
    }
    lines
}

fn entry_line(view: &View, entry: &Record) -> String {
    let style = if entry.get(6) % 2 == 1 { "" } else { ", style=dashed" };
    let colour = if entry.get(4) == 0 { "" } else { ", color=gray50, fontcolor=gray50" };
    let label = quoted(&format!("{} {}", view.visibility(entry), view.name(entry.get(2))));
    format!("  m{} -> {} [label={label}{style}{colour}];", entry.get(0), node(view, entry.get(3)))
}

/// The edge of a step: from the module that holds its record to what it names.
fn step_edge(view: &View, from: usize, part: &str, step: Step) -> String {
    let top = || std::iter::successors(Some(from), |module| view.parent(*module).or(view.block_in(*module))).last();
    let keyword = match part {
        "self" => from,
        "super" => view.parent(from).unwrap_or(from),
        _ => top().unwrap_or(from),
    };
    let Some(record) = view.records.at(step.place as usize).filter(|_| step.rule != Rule::Keyword) else {
        return format!("m{from} -> m{keyword}");
    };
    match step.rule {
        Rule::Extern => format!("m{from} -> m{}", record.get(2)),
        Rule::Builtin => format!("m{from} -> d{}", record.number),
        Rule::Import => format!("m{} -> {}", record.get(4), node(view, record.get(2))),
        Rule::Variant => format!("{} -> d{}", node(view, record.get(1)), record.number),
        _ => format!("m{} -> {}", record.get(0), node(view, record.get(3))),
    }
}
