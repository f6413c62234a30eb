//! Modules and items by their written names. A path goes through the scope entries, whatever their visibility; which path may be
//! written somewhere is the library's answer.
use crate::escape::unescaped;
use crate::record::{Kind, NAMESPACES, Record};
use crate::view::View;

/// Where a path has come to: a module, or another definition with the namespace of its entry.
#[derive(Clone, Copy, Debug, PartialEq, Eq)]
enum Place {
    Module(usize),
    Definition(usize, Option<usize>),
}

/// A part of a path.
enum Name {
    Text(Vec<u8>),
    /// `{module 3}`, `{block 3}` or `{definition 3}`, as nameless things are printed.
    Number(Place),
}

fn part(text: &str) -> Result<Name, String> {
    let number = |kind: &str| text.strip_prefix(kind)?.strip_suffix('}')?.trim().parse::<usize>().ok();
    if let Some(module) = number("{module ").or_else(|| number("{block ")) {
        return Ok(Name::Number(Place::Module(module)));
    }
    match number("{definition ") {
        Some(definition) => Ok(Name::Number(Place::Definition(definition, None))),
        None => unescaped(text).map(Name::Text),
    }
}

/// The module that is meant.
pub fn module(view: &View, text: &str) -> Result<usize, String> {
    if let Ok(number) = text.parse() {
        return Ok(number);
    }
    let modules: Vec<usize> = walk(view, text, None)?
        .into_iter()
        .filter_map(|place| match place {
            Place::Module(module) => Some(module),
            Place::Definition(..) => None,
        })
        .collect();
    match modules[..] {
        [module] => Ok(module),
        [] => Err(format!("there is no module `{text}`; `kelumavor tree` shows those that are there")),
        _ => {
            let all: Vec<_> =
                modules.iter().map(|module| format!("{} (module {module})", view.module(*module))).collect();
            Err(format!("`{text}` may be {}: give the number", all.join(" or ")))
        }
    }
}

/// The definition that is meant, and the namespace to ask in.
pub fn item(view: &View, text: &str, from: usize, namespace: Option<usize>) -> Result<(usize, usize), String> {
    let mut found = match text.parse::<usize>() {
        Ok(number) => vec![(number, None)],
        Err(_) => definitions(view, text, walk(view, text, Some(from))?)?,
    };
    if namespace.is_some() && found.iter().any(|(_, other)| *other == namespace) {
        found.retain(|(_, other)| *other == namespace);
    }
    let Some((definition, _)) = found.first().copied() else {
        return Err(format!("there is no item `{text}`; `kelumavor tree` shows those that are there"));
    };
    if found.iter().any(|(other, _)| *other != definition) {
        return Err(format!("`{text}` is more than one item: {}", listed(view, &found)));
    }
    let entered = found.iter().filter_map(|(_, namespace)| *namespace).min();
    let namespace = namespace.or(entered).unwrap_or_else(|| usual_namespace(view, definition));
    Ok((definition, namespace))
}

fn listed(view: &View, found: &[(usize, Option<usize>)]) -> String {
    let one = |(definition, namespace): &(usize, Option<usize>)| {
        let namespace = namespace.map(|namespace| format!(" in {}", NAMESPACES[namespace])).unwrap_or_default();
        format!("definition {definition} ({} {}){namespace}", view.thing(*definition), view.definition(*definition))
    };
    let all: Vec<_> = found.iter().map(one).collect();
    format!("{}: give --namespace or the number", all.join(", "))
}

/// The definitions at the end of a path; a module's is its own.
fn definitions(view: &View, text: &str, places: Vec<Place>) -> Result<Vec<(usize, Option<usize>)>, String> {
    let mut found = Vec::new();
    for place in places {
        found.push(match place {
            Place::Definition(definition, namespace) => (definition, namespace),
            Place::Module(module) => {
                let own = |record: &&Record| record.get(0) == 1 && record.get(1) == module;
                let record = view.records.of(Kind::Definition).iter().find(own);
                let missing = || format!("`{text}` is module {module}, which has no definition record to ask for");
                (record.ok_or_else(missing)?.number, Some(0))
            }
        });
    }
    Ok(found)
}

/// The namespace of a definition that no entry gave: the first in which an entry or an import has it, or that of its kind.
fn usual_namespace(view: &View, definition: usize) -> usize {
    let scopes = view.records.of(Kind::Scope).iter().filter(|entry| entry.get(3) == definition);
    let imports = view.records.of(Kind::Import).iter().filter(|import| import.get(2) == definition);
    let used = scopes.chain(imports).map(|record| record.get(1)).min();
    used.unwrap_or(if view.thing(definition) == "macro" { 2 } else { 0 })
}

/// Where a path leads, from each start until one leads somewhere.
fn walk(view: &View, text: &str, from: Option<usize>) -> Result<Vec<Place>, String> {
    let parts: Vec<&str> = text.split("::").collect();
    let names: Vec<Name> = parts.iter().map(|text| part(text)).collect::<Result<_, _>>()?;
    for (starts, taken) in starts(view, &parts, from) {
        let end = names[taken..].iter().fold(starts, |places, name| follow(view, &places, name));
        if !end.is_empty() {
            return Ok(end);
        }
    }
    Ok(Vec::new())
}

/// The places where a path may begin, each with how many of its parts they take.
fn starts(view: &View, parts: &[&str], from: Option<usize>) -> Vec<(Vec<Place>, usize)> {
    let modules = |modules: Vec<usize>| modules.into_iter().map(Place::Module).collect::<Vec<_>>();
    let roots = || modules(roots(view, from.and_then(|from| view.crate_of(from))));
    let numbered = parts[0].strip_prefix("crate#").and_then(|number| number.parse().ok());
    let supers = parts.iter().take_while(|part| **part == "super").count();
    match (parts[0], from) {
        ("crate", _) => vec![(roots(), 1)],
        ("self", Some(from)) => vec![(vec![Place::Module(from)], 1)],
        ("super", Some(from)) => {
            let up = (0..supers).try_fold(from, |module, _| view.parent(module));
            vec![(modules(up.into_iter().collect()), supers)]
        }
        ("", _) => vec![(externs(view, parts.get(1), None), 2.min(parts.len()))],
        _ if numbered.is_some() => vec![(modules(self::roots(view, numbered)), 1)],
        _ if parts[0].starts_with('{') => vec![(numbered_place(view, parts[0]), 1)],
        _ => {
            let mut starts: Vec<_> =
                around(view, from).into_iter().map(|module| (vec![Place::Module(module)], 0)).collect();
            starts.push((externs(view, parts.first(), from.and_then(|from| view.crate_of(from))), 1));
            starts.push((roots(), 0));
            starts.push((externs(view, parts.first(), None), 1));
            starts.push((modules(self::roots(view, None)), 0));
            starts.push((builtins(view, parts[0]), 1));
            starts
        }
    }
}

fn numbered_place(view: &View, text: &str) -> Vec<Place> {
    match part(text) {
        Ok(Name::Number(place)) => follow(view, &[Place::Module(0)], &Name::Number(place)),
        _ => Vec::new(),
    }
}

/// The roots of a crate, or of all.
fn roots(view: &View, krate: Option<usize>) -> Vec<usize> {
    let is_root = |module: &usize| view.parent(*module).is_none() && view.block_in(*module).is_none();
    let of_crate = |module: &usize| krate.is_none() || view.crate_of(*module) == krate;
    (0..view.records.count(Kind::Module)).filter(is_root).filter(of_crate).collect()
}

/// The viewing module, and those around its blocks.
fn around(view: &View, from: Option<usize>) -> Vec<usize> {
    let outer = |module: &usize| {
        let root = std::iter::successors(Some(*module), |module| view.parent(*module)).last()?;
        view.block_in(root)
    };
    std::iter::successors(from, outer).collect()
}

fn externs(view: &View, name: Option<&&str>, krate: Option<usize>) -> Vec<Place> {
    let Some(Ok(Name::Text(text))) = name.map(|name| part(name)) else { return Vec::new() };
    let named = view.records.of(Kind::Extern).iter().filter(|record| is_called(view, record.get(1), &text));
    let mut places = Vec::new();
    for record in named.filter(|record| krate.is_none_or(|krate| record.get(0) == krate)) {
        let place = Place::Module(record.get(2));
        if !places.contains(&place) {
            places.push(place);
        }
    }
    places
}

fn builtins(view: &View, name: &str) -> Vec<Place> {
    let builtins = view.records.of(Kind::Definition).iter().filter(|record| record.get(0) == 3);
    let called = builtins.filter(|record| is_called(view, record.get(1), name.as_bytes()));
    called.map(|record| Place::Definition(record.number, Some(0))).collect()
}

/// A name is written as it is, or with `r#`.
fn is_called(view: &View, name: usize, text: &[u8]) -> bool {
    view.records.name(name).is_some_and(|own| own == text || text.strip_prefix(b"r#") == Some(&own[..]))
}

/// Where a name leads from these places.
fn follow(view: &View, places: &[Place], name: &Name) -> Vec<Place> {
    let mut found = Vec::new();
    for place in places {
        for next in step(view, *place, name) {
            if !found.contains(&next) {
                found.push(next);
            }
        }
    }
    found
}

fn step(view: &View, place: Place, name: &Name) -> Vec<Place> {
    let text = match name {
        Name::Number(Place::Module(module)) if *module >= view.records.count(Kind::Module) => return Vec::new(),
        Name::Number(place) => return vec![*place],
        Name::Text(text) => text,
    };
    let records = &view.records;
    match place {
        Place::Module(module) => {
            let entries = records.of(Kind::Scope).iter().filter(|entry| entry.get(0) == module);
            let called = entries.filter(|entry| is_called(view, entry.get(2), text));
            called.map(|entry| place_of(view, entry.get(3), entry.get(1))).collect()
        }
        Place::Definition(parent, _) => {
            let variants =
                records.of(Kind::Definition).iter().filter(|record| record.get(0) == 2 && record.get(1) == parent);
            let variants = variants.filter(|record| is_called(view, record.get(2), text)).map(|record| record.number);
            let members = records.of(Kind::Member).iter().filter(|record| record.get(0) == parent);
            let members = members.filter(|record| is_called(view, record.get(1), text)).map(|record| record.get(2));
            variants.chain(members).map(|number| Place::Definition(number, None)).collect()
        }
    }
}

fn place_of(view: &View, definition: usize, namespace: usize) -> Place {
    match view.records.get(Kind::Definition, definition) {
        Some(record) if record.get(0) == 1 => Place::Module(record.get(1)),
        _ => Place::Definition(definition, Some(namespace)),
    }
}
