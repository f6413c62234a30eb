//! Import lists, built from the maps of a snapshot.
use kelumavor::{CrateId, Import, ImportList};

use crate::args::Args;
use crate::ask::small;
use crate::failure::Failure;
use crate::faults::counted;
use crate::json::Json;
use crate::record::{Kind, NAMESPACES};
use crate::resolve;
use crate::view::View;

/// The crates that are asked for: that of a number or a written module, or all.
pub fn crates(args: &Args, view: &View) -> Result<Vec<CrateId>, Failure> {
    let Some(text) = args.text("--crate")? else {
        return (0..view.records.count(Kind::Crate)).map(|number| Ok(CrateId(small(number)?))).collect();
    };
    let number = match text.parse() {
        Ok(number) => number,
        Err(_) => {
            let module = resolve::module(view, text).map_err(Failure::new)?;
            view.crate_of(module).ok_or_else(|| Failure::new(format!("`{text}` is in no crate")))?
        }
    };
    Ok(vec![CrateId(small(number)?)])
}

fn marks(import: &Import) -> &'static str {
    match (import.hidden, import.unstable) {
        (false, false) => "",
        (true, false) => ", hidden",
        (false, true) => ", unstable",
        (true, true) => ", hidden, unstable",
    }
}

pub fn text(view: &View, lists: &[ImportList]) -> String {
    let mut lines = Vec::new();
    for list in lists {
        let krate = list.krate().0 as usize;
        let count = list.imports().count();
        lines.push(format!("{} (crate {krate}): {}", view.krate(krate), counted(count, "import")));
        lines.extend(list.imports().map(|import| {
            format!(
                "  {} in {}: {} {}, held by module {}{}",
                view.name(import.name.0 as usize),
                NAMESPACES[import.namespace as usize],
                view.thing(import.definition.0 as usize),
                view.definition(import.definition.0 as usize),
                view.module(import.container.0 as usize),
                marks(&import)
            )
        }));
    }
    lines.iter().map(|line| format!("{line}\n")).collect()
}

pub fn json(view: &View, lists: &[ImportList]) -> Json {
    let import = |import: Import| {
        Json::Object(vec![
            ("name", view.name(import.name.0 as usize).into()),
            ("namespace", NAMESPACES[import.namespace as usize].into()),
            ("definition", import.definition.0.into()),
            ("item", view.definition(import.definition.0 as usize).into()),
            ("container", import.container.0.into()),
            ("module", view.module(import.container.0 as usize).into()),
            ("hidden", import.hidden.into()),
            ("unstable", import.unstable.into()),
        ])
    };
    let list = |list: &ImportList| {
        Json::Object(vec![
            ("crate", list.krate().0.into()),
            ("name", view.krate(list.krate().0 as usize).into()),
            ("imports", list.imports().map(import).collect()),
        ])
    };
    lists.iter().map(list).collect()
}
