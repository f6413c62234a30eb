//! Snapshots and questions as text.
use std::fmt::Write;

use crate::Question;
use crate::check::Snapshot;

pub fn question_text(q: &Question) -> String {
    let prefix = ["BySelf", "Plain", "ByCrate"].get(q.prefix).copied().unwrap_or("?");
    format!(
        "definition {} ns {} module {} prefix {} ({prefix}) options {} fuel {} limit {}",
        q.definition, q.ns, q.from, q.prefix, q.options, q.fuel, q.limit
    )
}

/// A line a record, with the names spelled.
pub fn snapshot_text(s: &Snapshot) -> String {
    let name = |n: usize| format!("`{}`", String::from_utf8_lossy(&s.names[n]));
    let plus = |n: usize| n.checked_sub(1).map_or("none".to_string(), |n| n.to_string());
    let mut text = String::new();
    for n in 0..s.names.len() {
        let _ = writeln!(text, "  name {n} {}", name(n));
    }
    for (n, c) in s.crates.iter().enumerate() {
        let _ = writeln!(text, "  crate {n} origin {} no_std {} edition {}", c.origin, c.no_std, c.edition);
    }
    for d in &s.dependencies {
        let _ = writeln!(text, "  dependency of {} on {} sysroot {}", d.owner, d.krate, d.sysroot);
    }
    for (n, m) in s.maps.iter().enumerate() {
        let _ = writeln!(text, "  map {n} crate {} block in {} no_std {}", m.krate, plus(m.block), m.no_std);
    }
    for (n, m) in s.modules.iter().enumerate() {
        let _ = writeln!(text, "  module {n} map {} parent {}", m.map, plus(m.parent));
    }
    for c in &s.children {
        let _ = writeln!(text, "  child of {}: {}", c.owner, c.child);
    }
    for p in &s.preludes {
        let _ = writeln!(text, "  prelude of map {}: module {}", p.map, p.target);
    }
    for (n, d) in s.definitions.iter().enumerate() {
        let kind = ["?", "module", "variant", "builtin", "other", "macro"][d.kind];
        let rest = match d.kind {
            2 => format!("of {} {}", d.first, name(d.second)),
            3 => name(d.first),
            _ => format!("module {}", d.first),
        };
        let _ = writeln!(text, "  definition {n} {kind} {rest}");
    }
    for e in &s.scopes {
        let visibility = ["public", "crate", "module explicit", "module implicit"][e.visibility];
        let _ = writeln!(
            text,
            "  scope of {}: ns {} {} definition {} {visibility} {} declared {} deprecated {} bits {}",
            e.owner,
            e.ns,
            name(e.name),
            e.definition,
            e.number,
            e.declared,
            e.deprecated,
            e.bits
        );
    }
    for i in &s.imports {
        let _ = writeln!(
            text,
            "  import of crate {}: ns {} definition {} {} in module {} hidden {} unstable {}",
            i.owner,
            i.ns,
            i.definition,
            name(i.name),
            i.container,
            i.bits & 1,
            i.bits >> 1
        );
    }
    for e in &s.externs {
        let _ = writeln!(text, "  extern of crate {}: {} module {}", e.owner, name(e.name), e.target);
    }
    for m in &s.members {
        let kind = ["variant", "function", "constant", "type alias"][m.kind];
        let _ = writeln!(
            text,
            "  member of {}: {kind} {} definition {} bits {}",
            m.parent,
            name(m.name),
            m.definition,
            m.bits
        );
    }
    text
}

/// Words as document 01 writes them.
pub fn hexadecimal(words: &[u32]) -> String {
    words.iter().map(|word| format!("{word:08X}")).collect::<Vec<_>>().join(" ")
}
