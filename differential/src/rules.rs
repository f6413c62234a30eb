//! The definitions of the check, the lookups and the search (`crates/*/specs`), written out in Rust function by function
//! and under their names, in camel case. It follows the definitions and not the text of rust-analyzer, so a difference between the two is a
//! fault of one of them. Lists are scanned as the definitions say: it is slow. The reading of paths is `reading`, which follows the request and no
//! definition.
#![allow(non_snake_case)]
use crate::check::check;
use crate::printer::{is_misleading, parts_of, question_of, refused_line, words_of};
use crate::{Answer as Report, Path, Question};

// Records.antt, Tests.antt, Steps.antt, Verdict.antt

#[derive(Clone, PartialEq)]
struct Name {
    bytes: usize,
    text: Vec<usize>,
}
struct Crate {
    origin: usize,
    noStd: usize,
    edition: usize,
}
#[derive(Clone, Copy)]
struct Dependency {
    owner: usize,
    krate: usize,
    sysroot: usize,
}
struct Map {
    krate: usize,
    block: usize,
    noStd: usize,
}
struct Module {
    map: usize,
    parent: usize,
}
struct Child {
    owner: usize,
    child: usize,
}
struct Prelude {
    map: usize,
    target: usize,
}
struct Definition {
    kind: usize,
    first: usize,
    second: usize,
}
struct Scope {
    owner: usize,
    ns: usize,
    name: usize,
    definition: usize,
    visibility: usize,
    number: usize,
    declared: usize,
    bits: usize,
}
struct Import {
    owner: usize,
    ns: usize,
    definition: usize,
    name: usize,
    container: usize,
    bits: usize,
}
struct Extern {
    owner: usize,
    name: usize,
    target: usize,
}
struct Member {
    parent: usize,
    name: usize,
    definition: usize,
    kind: usize,
    bits: usize,
}

#[derive(Default)]
pub struct Snapshot {
    names: Vec<Name>,
    crates: Vec<Crate>,
    dependencies: Vec<Dependency>,
    maps: Vec<Map>,
    modules: Vec<Module>,
    children: Vec<Child>,
    preludes: Vec<Prelude>,
    definitions: Vec<Definition>,
    scopes: Vec<Scope>,
    imports: Vec<Import>,
    externs: Vec<Extern>,
    members: Vec<Member>,
}

type Next = Result<(), usize>;

fn need(test: bool, number: usize) -> Next {
    if test { Ok(()) } else { Err(number) }
}

fn judge(range: bool, defined: bool, repeated: bool, placed: impl FnOnce() -> bool, room: bool) -> Next {
    need(range, 32)?;
    need(defined, 33)?;
    need(!repeated, 34)?;
    need(placed(), 35)?;
    need(room, 36)
}

fn getD(list: &[usize], place: usize) -> usize {
    list.get(place).copied().unwrap_or(0)
}

fn kindOf(word: usize) -> usize {
    word / 268435456
}

fn payOf(word: usize) -> usize {
    word % 268435456
}

fn argumentsOf(kind: usize, pay: usize) -> usize {
    if kind == 1 { (pay + 2) / 3 } else { getD(&[0, 0, 1, 2, 2, 1, 1, 1, 2, 7, 5, 2, 0, 4], kind) }
}

fn textBound(bytes: usize) -> usize {
    [1, 256, 65536, 16777216][bytes.min(3)]
}

fn padded(bytes: usize, text: &[usize]) -> bool {
    text.iter().enumerate().all(|(place, &word)| word < textBound(bytes.saturating_sub(3 * place)))
}

fn spelled(text: &str) -> Name {
    let text = text.as_bytes();
    let pack = |part: &[u8]| part.iter().rev().fold(0, |sum, &byte| sum * 256 + byte as usize);
    Name { bytes: text.len(), text: text.chunks(3).map(pack).collect() }
}

fn isEdition(e: usize) -> bool {
    e == 2015 || e == 2018 || e == 2021 || e == 2024
}

fn isBuiltin(name: &Name) -> bool {
    let builtins = [
        "char", "bool", "str", "isize", "i8", "i16", "i32", "i64", "i128", "usize", "u8", "u16", "u32", "u64", "u128",
        "f16", "f32", "f64", "f128",
    ];
    builtins.iter().any(|builtin| spelled(builtin) == *name)
}

impl Snapshot {
    fn recordStep(&mut self, kind: usize, W: &[usize], at: usize) -> Next {
        let pay = payOf(getD(W, at));
        let arg = |place: usize| getD(W, at + 1 + place);
        match kind {
            1 => self.nameStep(Name { bytes: pay, text: (0..(pay + 2) / 3).map(arg).collect() }),
            2 => self.crateStep(Crate { origin: pay % 8, noStd: pay / 8, edition: arg(0) }),
            3 => self.dependencyStep(Dependency { owner: pay, krate: arg(0), sysroot: arg(1) }),
            4 => self.mapStep(Map { krate: pay, block: arg(0), noStd: arg(1) }),
            5 => self.moduleStep(Module { map: pay, parent: arg(0) }),
            6 => self.childStep(Child { owner: pay, child: arg(0) }),
            7 => self.preludeStep(Prelude { map: pay, target: arg(0) }),
            8 => self.definitionStep(Definition { kind: pay, first: arg(0), second: arg(1) }),
            9 => self.scopeStep(Scope {
                owner: pay,
                ns: arg(0),
                name: arg(1),
                definition: arg(2),
                visibility: arg(3),
                number: arg(4),
                declared: arg(5),
                bits: arg(6),
            }),
            10 => self.importStep(Import {
                owner: pay,
                ns: arg(0),
                definition: arg(1),
                name: arg(2),
                container: arg(3),
                bits: arg(4),
            }),
            11 => self.externStep(Extern { owner: pay, name: arg(0), target: arg(1) }),
            _ => self.memberStep(Member { parent: pay, name: arg(0), definition: arg(1), kind: arg(2), bits: arg(3) }),
        }
    }

    fn nameStep(&mut self, x: Name) -> Next {
        let range = 1 <= x.bytes && x.bytes <= 255 && padded(x.bytes, &x.text);
        judge(range, true, self.names.iter().any(|y| x == *y), || true, self.names.len() < 2048)?;
        self.names.push(x);
        Ok(())
    }

    fn crateStep(&mut self, x: Crate) -> Next {
        need(x.origin <= 4 && x.noStd <= 1, 32)?;
        need(isEdition(x.edition), 43)?;
        need(self.crates.len() < 64, 36)?;
        self.crates.push(x);
        Ok(())
    }

    fn dependencyStep(&mut self, x: Dependency) -> Next {
        let defined = x.owner < self.crates.len() && x.krate < self.crates.len();
        judge(x.sysroot <= 1, defined, false, || true, true)?;
        self.dependencies.push(x);
        Ok(())
    }

    fn isOwn(krate: usize, x: &Map) -> bool {
        x.krate == krate && x.block == 0
    }

    fn mapStep(&mut self, x: Map) -> Next {
        let defined = x.krate < self.crates.len() && x.block <= self.modules.len();
        let repeated = x.block == 0 && self.maps.iter().any(|y| Self::isOwn(x.krate, y));
        let placed = || x.block == 0 || crateOf(self, x.block - 1) == x.krate;
        judge(x.noStd <= 1, defined, repeated, placed, true)?;
        self.maps.push(x);
        Ok(())
    }

    fn moduleStep(&mut self, x: Module) -> Next {
        let defined = x.map < self.maps.len() && x.parent <= self.modules.len();
        let placed = || {
            let later = self.modules.iter().any(|y| y.map == x.map);
            x.map + 1 == self.maps.len()
                && (later || x.parent == 0)
                && (!later || x.parent != 0)
                && (x.parent == 0 || mapNo(self, x.parent - 1) == x.map)
        };
        judge(true, defined, false, placed, self.modules.len() < 512)?;
        self.modules.push(x);
        Ok(())
    }

    fn childStep(&mut self, x: Child) -> Next {
        let defined = x.owner < self.modules.len() && x.child < self.modules.len();
        let repeated = self.children.iter().any(|y| x.child == y.child);
        let placed = || mapNo(self, x.child) == mapNo(self, x.owner) && parentOf(self, x.child) == x.owner + 1;
        judge(true, defined, repeated, placed, true)?;
        self.children.push(x);
        Ok(())
    }

    fn preludeStep(&mut self, x: Prelude) -> Next {
        let defined = x.map < self.maps.len() && x.target < self.modules.len();
        judge(true, defined, self.preludes.iter().any(|y| x.map == y.map), || true, true)?;
        self.preludes.push(x);
        Ok(())
    }

    fn definitionStep(&mut self, x: Definition) -> Next {
        let range = 1 <= x.kind
            && x.kind <= 5
            && (x.kind == 2 || x.second == 0)
            && (x.kind != 3 || self.names.len() <= x.first || isBuiltin(&self.names[x.first]));
        let defined = (x.kind != 2 || x.first < self.definitions.len() && x.second < self.names.len())
            && (x.kind != 3 || x.first < self.names.len())
            && (x.kind == 2 || x.kind == 3 || x.first < self.modules.len());
        let repeated =
            (x.kind == 1 || x.kind == 3) && self.definitions.iter().any(|y| x.kind == y.kind && x.first == y.first);
        let placed = || x.kind != 2 || definitionKind(self, x.first) == 4;
        judge(range, defined, repeated, placed, self.definitions.len() < 2048)?;
        self.definitions.push(x);
        Ok(())
    }

    fn nsPlaced(&self, ns: usize, definition: usize) -> bool {
        ns != 2 || definitionKind(self, definition) == 5
    }

    fn scopeStep(&mut self, x: Scope) -> Next {
        let range =
            x.ns <= 2 && x.visibility <= 3 && (x.visibility != 0 || x.number == 0) && x.declared <= 3 && x.bits <= 3;
        let defined = x.owner < self.modules.len()
            && x.name < self.names.len()
            && x.definition < self.definitions.len()
            && (x.visibility != 1 || x.number < self.crates.len())
            && (x.visibility <= 1 || x.number < self.modules.len());
        let repeated = self.scopes.iter().any(|y| x.owner == y.owner && x.ns == y.ns && x.name == y.name);
        judge(range, defined, repeated, || self.nsPlaced(x.ns, x.definition), true)?;
        self.scopes.push(x);
        Ok(())
    }

    fn importStep(&mut self, x: Import) -> Next {
        let range = x.ns <= 2 && x.bits <= 3;
        let defined = x.owner < self.crates.len()
            && x.definition < self.definitions.len()
            && x.name < self.names.len()
            && x.container < self.modules.len();
        judge(range, defined, false, || self.nsPlaced(x.ns, x.definition), true)?;
        self.imports.push(x);
        Ok(())
    }

    fn externStep(&mut self, x: Extern) -> Next {
        let defined = x.owner < self.crates.len() && x.name < self.names.len() && x.target < self.modules.len();
        let repeated = self.externs.iter().any(|y| x.owner == y.owner && x.name == y.name);
        judge(true, defined, repeated, || true, true)?;
        self.externs.push(x);
        Ok(())
    }

    fn memberStep(&mut self, x: Member) -> Next {
        let range = x.kind <= 3 && x.bits <= 3;
        let defined =
            x.parent < self.definitions.len() && x.name < self.names.len() && x.definition < self.definitions.len();
        let isMember = |d: &Definition| {
            (x.kind != 0 || d.kind == 2 && d.first == x.parent && d.second == x.name) && (x.kind == 0 || d.kind == 4)
        };
        let placed = || definitionKind(self, x.parent) == 4 && isMember(&self.definitions[x.definition]);
        judge(range, defined, false, placed, true)?;
        self.members.push(x);
        Ok(())
    }

    fn stepAt(&mut self, W: &[usize], at: usize, last: usize) -> Next {
        let kind = kindOf(W[at]);
        need(1 <= kind && kind <= 13 && kind != 12 && (last <= kind || last == 5 && kind == 4), 31)?;
        let count = argumentsOf(kind, payOf(W[at]));
        need((at + 1..at + 1 + count).all(|i| i < W.len() && kindOf(W[i]) == 0), 31)?;
        self.recordStep(kind, W, at)
    }
}

pub fn verdict(W: &[usize]) -> Result<Snapshot, usize> {
    need(W.len() <= 16384, 30)?;
    let mut s = Snapshot::default();
    let (mut at, mut last) = (0, 0);
    while at < W.len() {
        s.stepAt(W, at, last)?;
        last = kindOf(W[at]);
        at += 1 + argumentsOf(last, payOf(W[at]));
    }
    let mapsFilled = (0..s.maps.len()).all(|k| s.modules.iter().any(|x| x.map == k));
    let cratesOwn = (0..s.crates.len()).all(|c| s.maps.iter().any(|x| Snapshot::isOwn(c, x)));
    need(mapsFilled && cratesOwn, 35)?;
    Ok(s)
}

// Items.antt, Modules.antt

#[derive(Clone, Copy, PartialEq)]
enum Item {
    Mod(usize),
    Def(usize, usize),
}
use Item::{Def, Mod};

fn mapNo(s: &Snapshot, m: usize) -> usize {
    s.modules.get(m).map_or(0, |x| x.map)
}
fn crateOf(s: &Snapshot, m: usize) -> usize {
    s.maps.get(mapNo(s, m)).map_or(0, |x| x.krate)
}
fn parentOf(s: &Snapshot, m: usize) -> usize {
    s.modules.get(m).map_or(0, |x| x.parent)
}
fn blockOf(s: &Snapshot, m: usize) -> usize {
    s.maps.get(mapNo(s, m)).map_or(0, |x| x.block)
}
fn inBlock(s: &Snapshot, m: usize) -> bool {
    blockOf(s, m) != 0
}
fn definitionKind(s: &Snapshot, d: usize) -> usize {
    s.definitions.get(d).map_or(0, |x| x.kind)
}
fn definitionFirst(s: &Snapshot, d: usize) -> usize {
    s.definitions.get(d).map_or(0, |x| x.first)
}
fn rootOf(s: &Snapshot, k: usize) -> usize {
    s.modules.iter().position(|x| x.map == k).unwrap_or(s.modules.len())
}
fn ownMap(s: &Snapshot, c: usize) -> usize {
    s.maps.iter().position(|x| x.krate == c && x.block == 0).unwrap_or(s.maps.len())
}
fn crateRoot(s: &Snapshot, m: usize) -> usize {
    rootOf(s, ownMap(s, crateOf(s, m)))
}
fn containing(s: &Snapshot, m: usize) -> usize {
    if parentOf(s, m) == 0 { blockOf(s, m) } else { parentOf(s, m) }
}
fn isLang(s: &Snapshot, c: usize) -> bool {
    s.crates.get(c).map_or(0, |x| x.origin) != 0
}
fn itemOf(s: &Snapshot, ns: usize, d: usize) -> Item {
    if ns == 0 && definitionKind(s, d) == 1 { Mod(definitionFirst(s, d)) } else { Def(ns, d) }
}
fn nsOf(item: Item) -> usize {
    match item {
        Mod(_) => 0,
        Def(ns, _) => ns,
    }
}
fn homeOf(s: &Snapshot, item: Item) -> usize {
    match item {
        Mod(m) => m + 1,
        Def(_, d) => match definitionKind(s, d) {
            3 => 0,
            2 => definitionFirst(s, definitionFirst(s, d)) + 1,
            _ => definitionFirst(s, d) + 1,
        },
    }
}

// Visibility.antt

fn climb(s: &Snapshot, k: usize, mut t: usize) -> usize {
    let step = |t| if mapNo(s, t) == k { 0 } else { blockOf(s, t) };
    for _ in 0..t {
        match step(t) {
            0 => break,
            next => t = next - 1,
        }
    }
    t
}

fn met(s: &Snapshot, mut v: usize, t: usize) -> bool {
    for _ in 0..v {
        if v == t {
            return true;
        }
        match containing(s, v) {
            0 => return false,
            next => v = next - 1,
        }
    }
    v == t
}

fn inModule(s: &Snapshot, v: usize, t: usize) -> bool {
    v == t || crateOf(s, v) == crateOf(s, t) && met(s, v, climb(s, mapNo(s, v), t))
}

fn sees(s: &Snapshot, v: usize, e: &Scope) -> bool {
    match e.visibility {
        0 => true,
        1 => crateOf(s, v) == e.number,
        _ => inModule(s, v, e.number),
    }
}

// ItemScope.antt

fn isDeclared(e: &Scope) -> bool {
    e.declared % 2 == 1
}
fn isDeprecated(e: &Scope) -> bool {
    2 <= e.declared
}
fn isFor(s: &Snapshot, m: usize, item: Item, e: &Scope) -> bool {
    e.owner == m && itemOf(s, e.ns, e.definition) == item
}
fn nameOf(s: &Snapshot, m: usize, item: Item) -> Option<&Scope> {
    s.scopes.iter().find(|e| isFor(s, m, item, e))
}
fn namesOf<'a>(s: &'a Snapshot, m: usize, item: Item, p: &dyn Fn(&Scope) -> bool) -> Option<&'a Scope> {
    s.scopes.iter().find(|e| isFor(s, m, item, e) && p(e))
}
fn preferred<'a>(
    fresh: bool,
    s: &'a Snapshot,
    m: usize,
    item: Item,
    p: &dyn Fn(&Scope) -> bool,
    old: Option<&'a Scope>,
) -> Option<&'a Scope> {
    if fresh { namesOf(s, m, item, &|e| p(e) && !isDeprecated(e)).or(old) } else { old }
}
fn get(s: &Snapshot, m: usize, ns: usize, name: usize) -> Option<&Scope> {
    s.scopes.iter().find(|e| e.owner == m && e.ns == ns && e.name == name)
}

// Nameres.antt

fn steps(s: &Snapshot, step: fn(&Snapshot, usize) -> usize, m: usize) -> Vec<usize> {
    let mut reached = Vec::new();
    let mut at = m;
    for _ in 0..m {
        match step(s, at) {
            0 => break,
            next => {
                at = next - 1;
                reached.push(at);
            }
        }
    }
    reached
}

fn ancestorMaps(s: &Snapshot, m: usize) -> Vec<usize> {
    let mut modules = vec![m];
    modules.extend(steps(s, blockOf, m));
    modules
}

fn scopeEntry(s: &Snapshot, m: usize, item: Item, declaredOnly: bool, fresh: bool) -> Option<&Scope> {
    let counts = |e: &Scope| isDeclared(e) || !declaredOnly;
    ancestorMaps(s, m).into_iter().find_map(|a| preferred(fresh, s, a, item, &counts, namesOf(s, a, item, &counts)))
}

fn entryNamed(s: &Snapshot, m: usize, ns: usize, name: usize) -> Option<&Scope> {
    ancestorMaps(s, m).into_iter().find_map(|a| get(s, a, ns, name))
}

fn occupied(s: &Snapshot, from: usize, m: usize, name: usize) -> bool {
    let isOther = |e: Option<&Scope>| e.is_some_and(|e| itemOf(s, e.ns, e.definition) != Mod(m));
    ancestorMaps(s, from).into_iter().any(|a| isOther(get(s, a, 0, name)))
}

fn dependenciesOf(s: &Snapshot, c: usize) -> Vec<Dependency> {
    s.dependencies.iter().filter(|d| d.owner == c).copied().collect()
}

fn langOf(s: &Snapshot, c: usize, lang: usize) -> Option<Dependency> {
    let origin = |d: &Dependency| s.crates.get(d.krate).map_or(0, |x| x.origin);
    dependenciesOf(s, c).into_iter().find(|d| d.sysroot == 1 && origin(d) == lang)
}

fn sysrootFirst(s: &Snapshot, c: usize) -> Vec<Dependency> {
    let (mut first, rest): (Vec<_>, Vec<_>) = dependenciesOf(s, c).into_iter().partition(|d| d.sysroot == 1);
    first.extend(rest);
    first
}

// Choices.antt

#[derive(Clone)]
struct Choice {
    found: bool,
    kind: usize,
    names: Vec<usize>,
    text: usize,
    stable: bool,
    prelude: bool,
}

fn nothing() -> Choice {
    Choice { found: false, kind: 0, names: Vec::new(), text: 0, stable: false, prelude: false }
}

fn nameLen(s: &Snapshot, n: usize) -> usize {
    s.names.get(n).map_or(0, |x| x.bytes)
}

fn isPrelude(s: &Snapshot, n: usize) -> bool {
    nameLen(s, n) == 7 && s.names[n].text == [0x657270, 0x64756C, 0x65]
}

fn pathKindLen(kind: usize) -> usize {
    getD(&[0, 4, 5, 5, 2], kind)
}

fn pathLen(c: &Choice) -> usize {
    getD(&[0, 0, 1, 1, 0], c.kind) + c.names.len()
}

fn keyword(kind: usize) -> Choice {
    Choice { found: true, kind, names: Vec::new(), text: pathKindLen(kind), stable: true, prelude: false }
}

fn choiceNew(s: &Snapshot, kind: usize, n: usize) -> Choice {
    let text = pathKindLen(kind) + nameLen(s, n);
    Choice { found: true, kind, names: vec![n], text, stable: true, prelude: isPrelude(s, n) }
}

fn extended(s: &Snapshot, mut c: Choice, n: usize, flag: bool) -> Choice {
    c.found = true;
    c.names.push(n);
    c.text += nameLen(s, n);
    c.prelude = flag;
    c
}

fn push(s: &Snapshot, c: Choice, n: usize) -> Choice {
    let flag = c.prelude || isPrelude(s, n);
    extended(s, c, n, flag)
}

fn better(s: &Snapshot, prefer: bool, current: &Choice, other: &Choice, n: usize) -> bool {
    let comparePrelude = if prefer { other.prelude.cmp(&current.prelude) } else { current.prelude.cmp(&other.prelude) };
    let order =
        other.stable.cmp(&current.stable).then(comparePrelude).then(pathLen(current).cmp(&(pathLen(other) + 1)));
    match order {
        std::cmp::Ordering::Less => false,
        std::cmp::Ordering::Equal => other.text + nameLen(s, n) < current.text,
        std::cmp::Ordering::Greater => true,
    }
}

fn trySelect(s: &Snapshot, prefer: bool, current: Choice, other: Choice, n: usize) -> Choice {
    if !current.found {
        push(s, other, n)
    } else if better(s, prefer, &current, &other, n) {
        let flag = other.prelude;
        extended(s, other, n, flag)
    } else {
        current
    }
}

fn lengthLeft(left: usize, best: &Choice) -> usize {
    if best.found { left.min(pathLen(best)) - 1 } else { left - 1 }
}

// Rules.antt

struct FindPathCtx {
    prefix: usize,
    nostd: bool,
    prelude: bool,
    absolute: bool,
    unstable: bool,
    declared: bool,
    fresh: bool,
    limit: usize,
    std: bool,
    from: usize,
    krate: usize,
    root: usize,
}

fn bit(n: usize, value: usize) -> bool {
    n / value % 2 == 1
}

fn contextOf(s: &Snapshot, q: &Question, home: usize) -> FindPathCtx {
    FindPathCtx {
        prefix: if inBlock(s, home) { 1 } else { q.prefix },
        nostd: bit(q.options, 1)
            || s.maps.get(mapNo(s, q.from)).map_or(0, |x| x.noStd) == 1
            || s.crates.get(crateOf(s, q.from)).map_or(0, |x| x.noStd) == 1,
        prelude: bit(q.options, 2),
        absolute: bit(q.options, 4),
        unstable: bit(q.options, 8),
        declared: bit(q.options, 16),
        fresh: bit(q.options, 32),
        limit: q.limit,
        std: isLang(s, crateOf(s, home)),
        from: q.from,
        krate: crateOf(s, q.from),
        root: crateRoot(s, q.from),
    }
}

type Answer = Option<usize>;

struct Rules<'a> {
    s: &'a Snapshot,
    x: FindPathCtx,
}

impl Rules<'_> {
    fn single(&self, kind: usize, answer: Answer) -> Choice {
        answer.map_or(nothing(), |n| choiceNew(self.s, kind, n))
    }

    fn scopeRule(&self, item: Item) -> Choice {
        let mayBeInScope = self.x.prefix != 2 || self.x.root == self.x.from;
        if mayBeInScope {
            let entry = scopeEntry(self.s, self.x.from, item, self.x.declared, self.x.fresh);
            self.single(getD(&[1, 0, 3], self.x.prefix), entry.map(|e| e.name))
        } else {
            nothing()
        }
    }

    fn preludeRule(&self, item: Item) -> Choice {
        let (s, from) = (self.s, self.x.from);
        let prelude = s.preludes.iter().find(|p| p.map == mapNo(s, from));
        let sameHere = |e: Option<&Scope>| e.is_none_or(|e| itemOf(s, e.ns, e.definition) == item);
        let isUsable = |e: &Scope| sees(s, from, e) && sameHere(entryNamed(s, from, nsOf(item), e.name));
        let entry =
            prelude.and_then(|p| preferred(self.x.fresh, s, p.target, item, &isUsable, nameOf(s, p.target, item)));
        self.single(0, entry.filter(|e| isUsable(e)).map(|e| e.name))
    }

    fn rootRule(&self, maybeExtern: bool, m: usize) -> Choice {
        if crateRoot(self.s, m) != m {
            return nothing();
        }
        if !maybeExtern || m == self.x.root {
            return keyword(3);
        }
        match self.s.externs.iter().rev().find(|e| e.owner == self.x.krate && e.target == m) {
            None => nothing(),
            Some(e) => {
                let absolute = occupied(self.s, self.x.from, m, e.name) || self.x.absolute;
                choiceNew(self.s, if absolute { 4 } else { 0 }, e.name)
            }
        }
    }

    fn isKwKindRelativeToFrom(&self, m: usize) -> Answer {
        let (s, from) = (self.s, self.x.from);
        if crateOf(s, m) != crateOf(s, from) || inBlock(s, m) || inBlock(s, from) {
            return None;
        }
        if m == from {
            return Some(1);
        }
        match parentOf(s, from) {
            0 => None,
            parent if parent - 1 == m => Some(if m == rootOf(s, mapNo(s, from)) { 3 } else { 2 }),
            _ => None,
        }
    }

    fn keywordOf(&self, kind: Answer) -> Choice {
        match kind {
            Some(kind) if self.x.prefix != 2 || kind == 3 => keyword(kind),
            _ => nothing(),
        }
    }

    fn moduleRules(&self, maybeExtern: bool, m: usize) -> Choice {
        let c = self.rootRule(maybeExtern, m);
        if c.found {
            return c;
        }
        let c = self.scopeRule(Mod(m));
        if c.found {
            return c;
        }
        let c = self.keywordOf(self.isKwKindRelativeToFrom(m));
        if c.found {
            return c;
        }
        self.preludeRule(Mod(m))
    }
}

// Walk.antt

#[derive(Clone)]
struct Level {
    item: Item,
    modules: Vec<usize>,
}

fn visited(ls: &[Level], item: Item, m: usize) -> bool {
    ls.iter().any(|l| l.item == item && l.modules.contains(&m))
}

impl Rules<'_> {
    fn startFrom(&self) -> Vec<usize> {
        let children = self.s.children.iter().filter(|c| c.owner == self.x.from).map(|c| c.child);
        children.chain(steps(self.s, containing, self.x.from)).collect()
    }

    fn leadsTo(&self, m: usize) -> Vec<usize> {
        let (s, from) = (self.s, self.x.from);
        s.scopes
            .iter()
            .filter(|e| e.owner == m && e.ns == 0 && definitionKind(s, e.definition) == 1)
            .filter(|e| crateOf(s, definitionFirst(s, e.definition)) == crateOf(s, from) && sees(s, from, e))
            .map(|e| definitionFirst(s, e.definition))
            .collect()
    }

    fn findLocalImportLocations(&self, seen: impl Fn(usize) -> bool) -> Vec<usize> {
        let mut ws = self.startFrom();
        let budget = ws.len() + self.s.scopes.len();
        let mut done: Vec<usize> = Vec::new();
        let mut place = 0;
        for _ in 0..budget {
            let Some(&m) = ws.get(place) else { break };
            place += 1;
            if seen(m) || done.contains(&m) {
                continue;
            }
            done.push(m);
            ws.extend(self.leadsTo(m).into_iter().filter(|&m| !(seen(m) || done.contains(&m))));
        }
        done
    }
}

// Local.antt

impl Rules<'_> {
    fn offer(&self, best: Choice, c: Choice, n: usize) -> Choice {
        if c.found { trySelect(self.s, self.x.prelude, best, c, n) } else { best }
    }

    fn importableName(&self, item: Item, m: usize) -> Answer {
        let s = self.s;
        let isImportable = |e: &Scope| sees(s, self.x.from, e) && (isDeclared(e) || e.visibility != 3);
        let entry = preferred(self.x.fresh, s, m, item, &isImportable, nameOf(s, m, item))?;
        isImportable(entry).then_some(entry.name)
    }

    fn calculateBestPathLocal(&self, left: usize, ls: &[Level], item: Item) -> Choice {
        let mut best = nothing();
        let locations = self.findLocalImportLocations(|m| visited(ls, item, m));
        for (place, &m) in locations.iter().enumerate() {
            if let Some(n) = self.importableName(item, m) {
                let mut levels = vec![Level { item, modules: locations[..=place].to_vec() }];
                levels.extend_from_slice(ls);
                let c = self.findPathForModuleLocal(lengthLeft(left, &best), &levels, m);
                best = self.offer(best, c, n);
            }
        }
        best
    }

    fn findPathForModuleLocal(&self, left: usize, ls: &[Level], m: usize) -> Choice {
        if left == 0 {
            return nothing();
        }
        let c = self.moduleRules(false, m);
        if c.found { c } else { self.calculateBestPathLocal(left, ls, Mod(m)) }
    }
}

// Meters.antt, Charged.antt, Search.antt; the meter is the tank

#[derive(Clone, Copy)]
struct Tank {
    fuel: usize,
    spent: usize,
    empty: bool,
}

fn fromTank(t: &mut Tank) -> bool {
    if t.fuel == 0 {
        t.empty = true;
        false
    } else {
        t.fuel -= 1;
        t.spent += 1;
        true
    }
}

impl Rules<'_> {
    fn findInDep(&self, left: usize, item: Item, mut best: Choice, t: &mut Tank, d: Dependency) -> Choice {
        let s = self.s;
        for i in s.imports.iter().filter(|i| i.owner == d.krate && itemOf(s, i.ns, i.definition) == item) {
            if i.bits % 2 == 1 {
                continue;
            }
            let mut c = self.findPathForModule(lengthLeft(left, &best), i.container, t);
            let isUnstable = i.bits / 2 % 2 == 1;
            if isUnstable {
                if self.x.unstable {
                    c.stable = false;
                    best = self.offer(best, c, i.name);
                }
            } else {
                best = self.offer(best, c, i.name);
            }
        }
        best
    }

    fn findInSysroot(&self, left: usize, item: Item, t: &mut Tank) -> Choice {
        let mut best = nothing();
        for lang in if self.x.nostd { [1, 2, 3] } else { [3, 1, 2] } {
            if let Some(d) = langOf(self.s, self.x.krate, lang) {
                best = self.findInDep(left, item, best, t, d);
            }
            if best.found && best.stable {
                return best;
            }
        }
        for d in sysrootFirst(self.s, self.x.krate) {
            best = self.findInDep(left, item, best, t, d);
        }
        best
    }

    fn calculateBestPath(&self, left: usize, item: Item, t: &mut Tank) -> Choice {
        if !fromTank(t) {
            return nothing();
        }
        let home = homeOf(self.s, item);
        if home != 0 && crateOf(self.s, home - 1) == self.x.krate {
            self.calculateBestPathLocal(left, &[], item)
        } else if self.x.std {
            self.findInSysroot(left, item, t)
        } else {
            let dependencies = dependenciesOf(self.s, self.x.krate);
            dependencies.into_iter().fold(nothing(), |best, d| self.findInDep(left, item, best, t, d))
        }
    }

    fn findPathForModule(&self, left: usize, m: usize, t: &mut Tank) -> Choice {
        if left == 0 {
            return nothing();
        }
        let c = self.moduleRules(true, m);
        if c.found { c } else { self.calculateBestPath(left, Mod(m), t) }
    }

    fn findPathInner(&self, depth: usize, item: Item, t: &mut Tank) -> Choice {
        if depth == 0 {
            return nothing();
        }
        if let (Mod(m), false) = (item, self.x.std) {
            return self.findPathForModule(self.x.limit, m, t);
        }
        let mut c = self.scopeRule(item);
        if !c.found {
            c = self.preludeRule(item);
        }
        if c.found {
            return c;
        }
        if let Def(_, d) = item
            && definitionKind(self.s, d) == 2
        {
            let v = &self.s.definitions[d];
            let c = self.findPathInner(depth - 1, itemOf(self.s, 0, v.first), t);
            if c.found {
                return push(self.s, c, v.second);
            }
        }
        self.calculateBestPath(self.x.limit, item, t)
    }
}

fn findPath(s: &Snapshot, q: &Question, t: &mut Tank) -> Choice {
    if q.ns == 0 && definitionKind(s, q.definition) == 3 {
        return choiceNew(s, 0, definitionFirst(s, q.definition));
    }
    let item = itemOf(s, q.ns, q.definition);
    match homeOf(s, item) {
        0 => nothing(),
        home => Rules { s, x: contextOf(s, q, home - 1) }.findPathInner(2, item, t),
    }
}

// Report.antt, Line.antt

/// The snapshot as the reading takes it.
type Readable = Result<crate::check::Snapshot, u32>;

fn lineOf(snapshot: &Result<Snapshot, usize>, readable: &Readable, q: &Question) -> Vec<u8> {
    let refused = |n: usize| refused_line(n as u32);
    if q.fuel > 10000 {
        return refused(21);
    }
    if 2 < q.ns || 2 < q.prefix || 127 < q.options {
        return refused(22);
    }
    if q.limit == 0 || 15 < q.limit {
        return refused(46);
    }
    let s = match snapshot {
        Err(n) => return refused(*n),
        Ok(s) => s,
    };
    if !(q.definition < s.definitions.len() && q.from < s.modules.len()) {
        return refused(23);
    }
    if q.ns == 2 && definitionKind(s, q.definition) != 5 {
        return refused(24);
    }
    let answer = reportOf(s, q);
    let misleads = is_misleading(readable.as_ref().unwrap(), q, &answer);
    let e = s.crates.get(crateOf(s, q.from)).map_or(0, |x| x.edition);
    let written = |n: usize| writtenOf(e, &s.names[n]);
    crate::printer::line(written, &answer, misleads)
}

fn reportOf(s: &Snapshot, q: &Question) -> Report {
    let mut t = Tank { fuel: q.fuel, spent: 0, empty: false };
    let c = findPath(s, q, &mut t);
    let path = c.found.then(|| Path { kind: c.kind, names: c.names });
    Report { path, charges: t.spent, empty: t.empty }
}

// Keywords.antt

fn keywords() -> Vec<(Name, usize)> {
    let strict = [
        "as", "break", "const", "continue", "crate", "else", "enum", "extern", "false", "fn", "for", "if", "impl",
        "in", "let", "loop", "match", "mod", "move", "mut", "pub", "ref", "return", "self", "Self", "static", "struct",
        "super", "trait", "true", "type", "unsafe", "use", "where", "while", "_",
    ];
    let reserved = [
        "abstract", "become", "box", "do", "final", "macro", "override", "priv", "typeof", "unsized", "virtual",
        "yield",
    ];
    let always = strict.into_iter().chain(reserved).map(|text| (text, 2015));
    let later = [("async", 2018), ("await", 2018), ("dyn", 2018), ("try", 2018), ("gen", 2024)];
    always.chain(later).map(|(text, since)| (spelled(text), since)).collect()
}

fn isRaw(e: usize, x: &Name) -> bool {
    let isKeyword = keywords().iter().any(|(name, since)| *since <= e && x == name);
    isKeyword && !["_", "crate", "self", "super", "Self"].iter().any(|word| spelled(word) == *x)
}

fn writtenOf(e: usize, name: &Name) -> Vec<u8> {
    if isRaw(e, name) { [b"r#", &textOf(name)[..]].concat() } else { textOf(name) }
}

fn textOf(name: &Name) -> Vec<u8> {
    let unpacked = name.text.iter().flat_map(|word| [word % 256, word / 256 % 256, word / 65536 % 256]);
    unpacked.map(|byte| byte as u8).take(name.bytes).collect()
}

// Reach.antt, Printed.antt

fn reachLine(snapshot: &Result<Snapshot, usize>, readable: &Readable, v: &Question) -> Vec<u8> {
    let refused = |n: usize| refused_line(n as u32);
    if v.fuel > 10000 {
        return refused(21);
    }
    if 2 < v.prefix || 127 < v.options {
        return refused(22);
    }
    if v.limit == 0 || 15 < v.limit {
        return refused(46);
    }
    let s = match snapshot {
        Err(n) => return refused(*n),
        Ok(s) => s,
    };
    if v.from >= s.modules.len() {
        return refused(23);
    }
    let mut counts = [0; 21];
    for (k, e) in s.scopes.iter().enumerate() {
        let item = itemOf(s, e.ns, e.definition);
        if s.scopes[..k].iter().any(|d| itemOf(s, d.ns, d.definition) == item) {
            continue;
        }
        let q = Question { ns: e.ns, definition: e.definition, ..*v };
        let answer = reportOf(s, &q);
        match &answer.path {
            None => counts[18 + usize::from(answer.empty)] += 1,
            Some(_) if is_misleading(readable.as_ref().unwrap(), &q, &answer) => counts[17] += 1,
            Some(path) => {
                counts[path.names.len()] += 1;
                counts[20] += path.names.len();
            }
        }
    }
    counts.map(|count: usize| count.to_string()).join(" ").into_bytes()
}

// Collect.antt

fn textBefore(x: &[u8], y: &[u8]) -> bool {
    match (x, y) {
        (_, []) => false,
        ([], _) => true,
        ([a, xs @ ..], [b, ys @ ..]) => a < b || a == b && textBefore(xs, ys),
    }
}

fn keyBefore(a: &[u8], m: usize, b: &[u8], n: usize) -> bool {
    textBefore(a, b) || !textBefore(b, a) && m < n
}

fn entryBefore(s: &Snapshot, x: &Scope, y: &Scope) -> bool {
    keyBefore(&textOf(&s.names[x.name]), x.ns, &textOf(&s.names[y.name]), y.ns)
}

fn entriesOf(s: &Snapshot, m: usize) -> Vec<&Scope> {
    let mut sorted: Vec<&Scope> = Vec::new();
    for e in s.scopes.iter().filter(|e| e.owner == m && e.visibility == 0) {
        let place = sorted.iter().position(|y| entryBefore(s, e, y)).unwrap_or(sorted.len());
        sorted.insert(place, e);
    }
    sorted
}

fn modulesFrom(s: &Snapshot, c: usize) -> Vec<usize> {
    let own = s.maps.iter().position(|map| map.krate == c && map.block == 0).unwrap();
    let mut pile = vec![s.modules.iter().position(|module| module.map == own).unwrap()];
    let mut seen = Vec::new();
    for _ in 0..s.scopes.len() + 1 {
        let Some(m) = pile.pop() else { break };
        if !seen.contains(&m) {
            seen.push(m);
            let modules = entriesOf(s, m).into_iter().filter(|e| definitionKind(s, e.definition) == 1);
            pile.extend(modules.map(|e| s.definitions[e.definition].first));
        }
    }
    seen
}

/// The imports of a crate: namespace, definition, name, container, bits.
fn collected(s: &Snapshot, c: usize) -> Vec<[usize; 5]> {
    let mut all = Vec::new();
    for m in modulesFrom(s, c) {
        for e in entriesOf(s, m) {
            for x in s.members.iter().filter(|x| x.parent == e.definition && x.kind != 3) {
                all.push([if x.kind == 0 { 0 } else { e.ns }, x.definition, x.name, e.owner, x.bits]);
            }
            all.push([e.ns, e.definition, e.name, e.owner, e.bits]);
        }
    }
    all
}

/// The words of a crate's imports, or the refusal, for a target of so many words.
pub fn import_list(W: &[usize], c: usize, room: usize) -> Result<Vec<u32>, usize> {
    let s = verdict(W)?;
    need(c < s.crates.len(), 23)?;
    let importWords = |[ns, d, n, m, bits]: [usize; 5]| [0xA0000000 + c, ns, d, n, m, bits].map(|word| word as u32);
    let wordsOf: Vec<u32> = collected(&s, c).into_iter().flat_map(importWords).collect();
    need(wordsOf.len() <= room, 45)?;
    Ok(wordsOf)
}

/// The lines of an input.
pub fn lines(input: &[u8]) -> Vec<Vec<u8>> {
    let words = match words_of(input) {
        Err(number) => return vec![refused_line(number)],
        Ok(words) => words,
    };
    let start = parts_of(&words).0.len();
    let snapshot: Vec<usize> = words[..start].iter().map(|&word| word as usize).collect();
    let snapshot = verdict(&snapshot);
    let readable = check(&words[..start]);
    let mut lines: Vec<Vec<u8>> = Vec::new();
    let mut rest = &words[start..];
    while !rest.is_empty() {
        if let Some(v) = crate::reach::viewer(rest) {
            lines.push(reachLine(&snapshot, &readable, &v));
            rest = &rest[5..];
        } else if let Some(q) = question_of(rest) {
            lines.push(lineOf(&snapshot, &readable, &q));
            rest = &rest[7..];
        } else {
            lines.push(refused_line(42));
            break;
        }
    }
    lines
}
