//! How much can be named from a module.
use kelumavor::{ModuleId, Reach, Viewer};

use crate::args::Args;
use crate::ask::{self, counted_of, option_bits};
use crate::failure::Failure;
use crate::faults::counted;
use crate::json::Json;
use crate::record::{OPTIONS, PREFIXES, Role};
use crate::resolve;
use crate::view::View;

/// The options of a reach, with their values.
pub const VALUES: [&str; 5] = ["--from", "--prefix", "--options", "--fuel", "--limit"];

/// Who asks, by the options.
pub fn viewer(args: &Args, view: &View) -> Result<Viewer, Failure> {
    let missing = || Failure::new("--from is missing: a written name, or a number");
    let from = resolve::module(view, args.text("--from")?.ok_or_else(missing)?).map_err(Failure::new)?;
    let mut viewer = Viewer::new(ModuleId(ask::small(from)?));
    ask::how(args, &mut viewer.prefix, &mut viewer.options, &mut viewer.fuel, &mut viewer.limit)?;
    Ok(viewer)
}

fn asked(view: &View, viewer: &Viewer) -> String {
    let from = viewer.from.0 as usize;
    let options = Role::Flags(&OPTIONS).text(option_bits(viewer.options));
    format!(
        "from {} (module {from}); prefix {}, options {options}, fuel {} for each item, limit {}",
        view.module(from),
        PREFIXES[viewer.prefix as usize],
        viewer.fuel,
        viewer.limit
    )
}

pub fn text(view: &View, viewer: &Viewer, reach: &Reach) -> String {
    let found: usize = reach.found.iter().sum();
    let mut lines = vec![format!("{} of {} can be named", found, counted(reach.items(), "item"))];
    let lengths = reach.found.iter().enumerate().filter(|(_, count)| **count > 0);
    lines.extend(lengths.map(|(names, count)| match names {
        0 => format!("{count:>6} by a keyword alone"),
        _ => format!("{count:>6} by {}", counted(names, "name")),
    }));
    let limit = viewer.limit;
    let of_length = if limit < 15 { format!(" of that length (limit {limit})") } else { String::new() };
    let others = [
        (reach.misleading, "by a path that would mislead".to_string()),
        (reach.unreachable, format!("without a path{of_length}")),
        (reach.unknown, "not known: the fuel ran out".to_string()),
    ];
    lines.extend(others.iter().filter(|(count, _)| *count > 0).map(|(count, what)| format!("{count:>6} {what}")));
    if found > 0 {
        lines.push(format!("{} a path on average", counted_of(reach.names, found, "name")));
    }
    lines.push(format!("asked: {}", asked(view, viewer)));
    lines.join("\n") + "\n"
}

pub fn json(view: &View, viewer: &Viewer, reach: &Reach) -> Json {
    Json::Object(vec![
        ("items", reach.items().into()),
        ("found", reach.found.iter().copied().collect()),
        ("misleading", reach.misleading.into()),
        ("unreachable", reach.unreachable.into()),
        ("unknown", reach.unknown.into()),
        ("names", reach.names.into()),
        ("from", viewer.from.0.into()),
        ("module", view.module(viewer.from.0 as usize).into()),
        ("prefix", PREFIXES[viewer.prefix as usize].into()),
        ("options", Role::Flags(&OPTIONS).text(option_bits(viewer.options)).into()),
        ("fuel", viewer.fuel.into()),
        ("limit", viewer.limit.into()),
    ])
}
