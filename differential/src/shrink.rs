//! A smaller snapshot and question on which something still holds.
use crate::Question;
use crate::check::{Snapshot, check};
use crate::encode::{bytes, question_words, words};

/// The input with that one question.
pub fn input(s: &Snapshot, q: &Question) -> Vec<u8> {
    let mut all = words(s);
    all.extend(question_words(q));
    bytes(&all)
}

/// Records are left out one by one while the snapshot stays accepted and the test holds.
pub fn shrink(
    mut s: Snapshot,
    mut q: Question,
    mut holds: impl FnMut(&Snapshot, &Question) -> bool,
) -> (Snapshot, Question) {
    loop {
        let before = words(&s).len() + q.options.count_ones() as usize;
        for kind in [13, 9, 10, 11, 7, 6, 3, 8, 5, 4, 2, 1] {
            let mut number = count(&s, kind);
            while number > 0 {
                number -= 1;
                let Some((smaller, question)) = without(&s, &q, kind, number) else { continue };
                if check(&words(&smaller)).is_ok() && holds(&smaller, &question) {
                    (s, q) = (smaller, question);
                }
            }
        }
        plainer(&mut s, &mut q, &mut holds);
        if words(&s).len() + q.options.count_ones() as usize == before {
            return (s, q);
        }
    }
}

/// Fields set to plain values, names to single letters.
fn plainer(s: &mut Snapshot, q: &mut Question, holds: &mut impl FnMut(&Snapshot, &Question) -> bool) {
    for bit in [1, 2, 4, 8, 16, 32, 64] {
        let question = Question { options: q.options & !bit, ..*q };
        if question != *q && holds(s, &question) {
            *q = question;
        }
    }
    for question in
        [Question { prefix: 1, ..*q }, Question { limit: 15, ..*q }, Question { prefix: 1, limit: 15, ..*q }]
    {
        if question != *q && holds(s, &question) {
            *q = question;
        }
    }
    let mut attempt = |s: &mut Snapshot, change: &dyn Fn(&mut Snapshot)| {
        let mut changed = s.clone();
        change(&mut changed);
        if check(&words(&changed)).is_ok() && holds(&changed, q) {
            *s = changed;
        }
    };
    for e in 0..s.scopes.len() {
        attempt(s, &|s| (s.scopes[e].visibility, s.scopes[e].number) = (0, 0));
        attempt(s, &|s| s.scopes[e].declared = true);
        attempt(s, &|s| s.scopes[e].deprecated = false);
        attempt(s, &|s| s.scopes[e].bits = 0);
    }
    for i in 0..s.imports.len() {
        attempt(s, &|s| s.imports[i].bits = 0);
    }
    for m in 0..s.maps.len() {
        attempt(s, &|s| s.maps[m].no_std = false);
    }
    for c in 0..s.crates.len() {
        attempt(s, &|s| s.crates[c].no_std = false);
        attempt(s, &|s| s.crates[c].origin = 0);
        attempt(s, &|s| s.crates[c].edition = 2021);
    }
    for n in 0..s.names.len() {
        attempt(s, &|s| s.names[n] = vec![b'a' + (n % 26) as u8]);
    }
}

fn count(s: &Snapshot, kind: usize) -> usize {
    match kind {
        1 => s.names.len(),
        2 => s.crates.len(),
        3 => s.dependencies.len(),
        4 => s.maps.len(),
        5 => s.modules.len(),
        6 => s.children.len(),
        7 => s.preludes.len(),
        8 => s.definitions.len(),
        9 => s.scopes.len(),
        10 => s.imports.len(),
        11 => s.externs.len(),
        _ => s.members.len(),
    }
}

/// The numbers above one that is gone.
fn lower(number: &mut usize, gone: usize) {
    if *number > gone {
        *number -= 1;
    }
}

/// The snapshot without a record and what names it.
fn without(s: &Snapshot, q: &Question, kind: usize, gone: usize) -> Option<(Snapshot, Question)> {
    let (mut s, mut q) = (s.clone(), *q);
    match kind {
        1 => without_name(&mut s, gone)?,
        2 => without_crate(&mut s, gone)?,
        3 => drop(s.dependencies.remove(gone)),
        4 => without_map(&mut s, gone)?,
        5 => without_module(&mut s, &mut q, gone)?,
        6 => drop(s.children.remove(gone)),
        7 => drop(s.preludes.remove(gone)),
        8 => without_definition(&mut s, &mut q, gone)?,
        9 => drop(s.scopes.remove(gone)),
        10 => drop(s.imports.remove(gone)),
        11 => drop(s.externs.remove(gone)),
        _ => drop(s.members.remove(gone)),
    }
    Some((s, q))
}

fn without_name(s: &mut Snapshot, gone: usize) -> Option<()> {
    let used = s.scopes.iter().any(|e| e.name == gone)
        || s.imports.iter().any(|i| i.name == gone)
        || s.externs.iter().any(|e| e.name == gone)
        || s.members.iter().any(|m| m.name == gone)
        || s.definitions.iter().any(|d| (d.kind == 2 && d.second == gone) || (d.kind == 3 && d.first == gone));
    if used {
        return None;
    }
    s.names.remove(gone);
    s.scopes.iter_mut().for_each(|e| lower(&mut e.name, gone));
    s.imports.iter_mut().for_each(|i| lower(&mut i.name, gone));
    s.externs.iter_mut().for_each(|e| lower(&mut e.name, gone));
    s.members.iter_mut().for_each(|m| lower(&mut m.name, gone));
    for d in &mut s.definitions {
        match d.kind {
            2 => lower(&mut d.second, gone),
            3 => lower(&mut d.first, gone),
            _ => (),
        }
    }
    Some(())
}

fn without_crate(s: &mut Snapshot, gone: usize) -> Option<()> {
    if s.maps.iter().any(|m| m.krate == gone) {
        return None;
    }
    s.crates.remove(gone);
    s.dependencies.retain(|d| d.owner != gone && d.krate != gone);
    s.imports.retain(|i| i.owner != gone);
    s.externs.retain(|e| e.owner != gone);
    s.scopes.retain(|e| e.visibility != 1 || e.number != gone);
    for d in &mut s.dependencies {
        lower(&mut d.owner, gone);
        lower(&mut d.krate, gone);
    }
    s.maps.iter_mut().for_each(|m| lower(&mut m.krate, gone));
    s.imports.iter_mut().for_each(|i| lower(&mut i.owner, gone));
    s.externs.iter_mut().for_each(|e| lower(&mut e.owner, gone));
    s.scopes.iter_mut().filter(|e| e.visibility == 1).for_each(|e| lower(&mut e.number, gone));
    Some(())
}

/// An own map goes with its crate, so the crate is left without one until it goes too: both in one step.
fn without_map(s: &mut Snapshot, gone: usize) -> Option<()> {
    if s.modules.iter().any(|m| m.map == gone) {
        return None;
    }
    let krate = s.maps[gone].krate;
    let own = s.maps[gone].block == 0;
    s.maps.remove(gone);
    s.preludes.retain(|p| p.map != gone);
    s.preludes.iter_mut().for_each(|p| lower(&mut p.map, gone));
    s.modules.iter_mut().for_each(|m| lower(&mut m.map, gone));
    if own { without_crate(s, krate) } else { Some(()) }
}

/// A map's only module goes with the map.
fn without_module(s: &mut Snapshot, q: &mut Question, gone: usize) -> Option<()> {
    let map = s.modules[gone].map;
    let used =
        q.from == gone || s.modules.iter().any(|m| m.parent == gone + 1) || s.maps.iter().any(|m| m.block == gone + 1);
    if used {
        return None;
    }
    let mut d = s.definitions.len();
    while d > 0 {
        d -= 1;
        if matches!(s.definitions[d].kind, 1 | 4 | 5) && s.definitions[d].first == gone {
            without_definition(s, q, d)?;
        }
    }
    s.modules.remove(gone);
    s.children.retain(|c| c.child != gone);
    s.preludes.retain(|p| p.target != gone);
    s.scopes.retain(|e| e.owner != gone && (e.visibility < 2 || e.number != gone));
    s.imports.retain(|i| i.container != gone);
    s.externs.retain(|e| e.target != gone);
    s.modules.iter_mut().for_each(|m| lower(&mut m.parent, gone + 1));
    s.maps.iter_mut().for_each(|m| lower(&mut m.block, gone + 1));
    for c in &mut s.children {
        lower(&mut c.owner, gone);
        lower(&mut c.child, gone);
    }
    s.preludes.iter_mut().for_each(|p| lower(&mut p.target, gone));
    s.definitions.iter_mut().filter(|d| matches!(d.kind, 1 | 4 | 5)).for_each(|d| lower(&mut d.first, gone));
    for e in &mut s.scopes {
        lower(&mut e.owner, gone);
        if e.visibility >= 2 {
            lower(&mut e.number, gone);
        }
    }
    s.imports.iter_mut().for_each(|i| lower(&mut i.container, gone));
    s.externs.iter_mut().for_each(|e| lower(&mut e.target, gone));
    lower(&mut q.from, gone);
    if s.modules.iter().any(|m| m.map == map) { Some(()) } else { without_map(s, map) }
}

fn without_definition(s: &mut Snapshot, q: &mut Question, gone: usize) -> Option<()> {
    if q.definition == gone || s.definitions.iter().any(|d| d.kind == 2 && d.first == gone) {
        return None;
    }
    s.definitions.remove(gone);
    s.scopes.retain(|e| e.definition != gone);
    s.imports.retain(|i| i.definition != gone);
    s.members.retain(|m| m.definition != gone && m.parent != gone);
    s.definitions.iter_mut().filter(|d| d.kind == 2).for_each(|d| lower(&mut d.first, gone));
    s.scopes.iter_mut().for_each(|e| lower(&mut e.definition, gone));
    s.imports.iter_mut().for_each(|i| lower(&mut i.definition, gone));
    for m in &mut s.members {
        lower(&mut m.definition, gone);
        lower(&mut m.parent, gone);
    }
    lower(&mut q.definition, gone);
    Some(())
}
