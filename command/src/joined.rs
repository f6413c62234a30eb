//! What a join came to.
use kelumavor::{Counts, CrateId, DefinitionId, Joined, MapId, ModuleId, NameId};

use crate::faults::counted;
use crate::json::Json;

/// Where the words went, and the first numbers of the second part.
pub fn text(joined: &Joined, first: &Counts, file: &str) -> String {
    format!(
        "{} written to {file}\nthe second's crates begin at {}, its maps at {}, its modules at {}; the first's numbers stay\n",
        counted(joined.words().len(), "word"),
        first.crates,
        first.maps,
        first.modules
    )
}

/// The new numbers of the second part, in the order of the old ones; the words themselves where they are written to no file.
pub fn json(joined: &Joined, second: &Counts, written: bool) -> Json {
    let moved = &joined.second;
    let numbers = |count: usize, new: &dyn Fn(u32) -> Option<u32>| (0..).take(count).filter_map(new).collect();
    let second = vec![
        ("crates", numbers(second.crates, &|n| Some(moved.krate(CrateId(n))?.0))),
        ("maps", numbers(second.maps, &|n| Some(moved.map(MapId(n))?.0))),
        ("modules", numbers(second.modules, &|n| Some(moved.module(ModuleId(n))?.0))),
        ("names", numbers(second.names, &|n| Some(moved.name(NameId(n))?.0))),
        ("definitions", numbers(second.definitions, &|n| Some(moved.definition(DefinitionId(n))?.0))),
    ];
    let mut fields = vec![("count", joined.words().len().into()), ("second", Json::Object(second))];
    if !written {
        fields.push(("words", joined.words().iter().copied().collect()));
    }
    Json::Object(fields)
}
