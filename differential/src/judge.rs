//! The compiler as a judge of paths: each is put into the module that asked, on a line that compiles only where it names the item.
use std::collections::BTreeMap;
use std::fmt;
use std::path::{Path, PathBuf};
use std::process::Command;

use crate::any_path::{self, Answer, AnyPath, Start, Viewer, text};
use crate::check::Snapshot;
use crate::compare::Other;
use crate::encode::{bytes, question_words, words};
use crate::printer::READ_BACK;
use crate::reading::{self, Item, item, misleads};
use crate::snapshots::{PROBES, Probe, Written};
use crate::tables::Map;
use crate::workspace::{Kind, Meaning, Workspace};
use crate::{Question, usage};

pub struct Rustc {
    folder: PathBuf,
}

impl Rustc {
    /// A folder for the sources, with the crate for the probes; none where there is no compiler that takes it.
    pub fn new(name: &str) -> Option<Rustc> {
        let folder = std::env::temp_dir().join(format!("{name}-{}", std::process::id()));
        std::fs::create_dir_all(&folder).ok()?;
        std::fs::write(folder.join("__m.rs"), PROBES).ok()?;
        let rustc = Rustc { folder };
        let errors = rustc.run("__m", 2021, &[])?;
        errors.is_empty().then_some(rustc)
    }

    /// The lines with an error, as the compiler gives them; none if it does not run.
    fn run(&self, name: &str, edition: usize, externs: &[(String, String)]) -> Option<Vec<String>> {
        let mut command = Command::new("rustc");
        command.current_dir(&self.folder).env("RUSTC_BOOTSTRAP", "1");
        command.args(["--crate-type", "rlib", "--emit=metadata", "--cap-lints", "allow", "--error-format=short"]);
        command.args(["--edition", &edition.to_string(), "--crate-name", name, "-L", "."]);
        for (name, file) in externs {
            command.args(["--extern", &format!("{name}=lib{file}.rmeta")]);
        }
        let output = command.arg(format!("{name}.rs")).output().ok()?;
        let said = String::from_utf8_lossy(&output.stderr).into_owned();
        let mut errors: Vec<String> =
            said.lines().filter(|line| line.contains(": error")).map(str::to_string).collect();
        if !output.status.success() && errors.is_empty() {
            errors.push(said);
        }
        Some(errors)
    }

    /// Which probes compile, or what the compiler says of the workspace itself.
    pub fn judge(&self, w: &Workspace, probes: &[Probe]) -> Result<Vec<bool>, String> {
        let mut compiles = vec![true; probes.len()];
        for krate in 0..w.editions.len() {
            let name = format!("k{krate}");
            let mut externs = vec![("__m".to_string(), "__m".to_string())];
            externs.extend(w.externs[krate].iter().map(|&(other, name)| (w.names[name].clone(), format!("k{other}"))));
            let own = |probe: usize| w.scopes[probes[probe].scope].krate == krate;
            loop {
                let kept: Vec<usize> = (0..probes.len()).filter(|&probe| compiles[probe] && own(probe)).collect();
                let (source, lines) = w.source(krate, probes, &kept);
                std::fs::write(self.folder.join(format!("{name}.rs")), source).unwrap();
                let errors = self.run(&name, w.editions[krate], &externs).expect("the compiler runs");
                if errors.is_empty() {
                    break;
                }
                for error in errors {
                    let line = error.split(':').nth(1).and_then(|line| line.parse::<usize>().ok());
                    match line.and_then(|line| lines.get(line - 1).copied().flatten()) {
                        Some(probe) => compiles[probe] = false,
                        None => return Err(error),
                    }
                }
            }
        }
        Ok(compiles)
    }

    pub fn folder(&self) -> &Path {
        &self.folder
    }
}

impl Drop for Rustc {
    fn drop(&mut self) {
        let _ = std::fs::remove_dir_all(&self.folder);
    }
}

/// The namespaces of what a definition is.
fn namespaces(w: &Workspace, meaning: Meaning) -> &'static [usize] {
    match meaning {
        Meaning::Module(_) => &[0],
        Meaning::Variant(..) => &[0, 1],
        Meaning::Item(item) => match w.items[item].kind {
            Kind::UnitStruct | Kind::TupleStruct(_) => &[0, 1],
            Kind::Enum(_) | Kind::Module(_) => &[0],
            Kind::Function | Kind::Constant => &[1],
        },
    }
}

/// What asked for a probe.
#[derive(Clone)]
enum Asked {
    /// the search with a prefix: its path, and whether it misleads
    Search {
        misleads: bool,
        read: bool,
        question: Question,
        path: crate::Path,
    },
    AnyPath,
    Candidate,
    /// any path with a mistake gives another path, or none
    Mistaken {
        mistake: usize,
        none: bool,
    },
}

struct Put {
    pair: usize,
    probe: usize,
    path: String,
    asked: Asked,
}

/// An item in a namespace and who asks for it.
#[derive(Clone, Copy)]
struct Pair {
    scope: usize,
    definition: usize,
    ns: usize,
}

#[derive(Default, Clone)]
pub struct Counts {
    pub pairs: usize,
    pub found: usize,
    /// found, and refused by the compiler: by the reading of any path too, or not
    pub found_refused: usize,
    pub found_refused_unread: usize,
    pub misleads: usize,
    /// misleading, and taken by the compiler: by the reading of any path too, or not
    pub misleads_taken: usize,
    pub misleads_taken_read: usize,
    pub any_paths: usize,
    pub any_paths_refused: usize,
    pub nones: usize,
    pub none_candidates: usize,
    pub nones_taken: usize,
    /// pairs without a path by the search with any prefix, and with any path
    pub search_nones: usize,
    pub search_nones_with_a_path: usize,
}

#[derive(Default)]
pub struct Totals {
    pub workspaces: usize,
    /// found paths as `use` lines, and those refused, for each prefix; from 2018 on, and in 2015
    pub uses: [[(usize, usize); 3]; 2],
    pub refused: BTreeMap<String, usize>,
    /// from 2018 on, and in 2015
    pub counts: [Counts; 2],
    pub contradictions: Vec<String>,
    /// paths and nones that only the names dropped by the compiler explain
    pub dropped: usize,
    /// by how many paths the compiler tells each mistake of the reading and of any path
    pub misread: Vec<usize>,
    pub mistaken: Vec<usize>,
}

impl Totals {
    pub fn new() -> Totals {
        Totals {
            misread: vec![0; reading::MISTAKES.len()],
            mistaken: vec![0; any_path::MISTAKES.len()],
            ..Totals::default()
        }
    }

    /// A line for each mistake with the paths that tell it.
    pub fn told(&self) -> Vec<(String, usize)> {
        let misread = reading::MISTAKES.iter().map(|mistake| format!("reading: {mistake:?}"));
        let mistaken = any_path::MISTAKES.iter().map(|mistake| format!("any path: {mistake:?}"));
        misread.zip(self.misread.iter().copied()).chain(mistaken.zip(self.mistaken.iter().copied())).collect()
    }
}

impl fmt::Display for Totals {
    fn fmt(&self, f: &mut fmt::Formatter<'_>) -> fmt::Result {
        let refused: usize = self.refused.values().sum();
        writeln!(f, "{} workspaces, {refused} more that the compiler refuses", self.workspaces)?;
        for (title, c) in ["2018 and later", "2015"].iter().zip(&self.counts) {
            writeln!(f, "{title}: {} pairs", c.pairs)?;
            writeln!(
                f,
                "  search: {} found ({} refused by the compiler, {} of them by the reading of any path too), \
                 {} misleading ({} taken by the compiler, {} of them by the reading of any path too)",
                c.found, c.found_refused, c.found_refused_unread, c.misleads, c.misleads_taken, c.misleads_taken_read
            )?;
            let uses: Vec<String> = ["by self", "plain", "by crate"]
                .iter()
                .zip(&self.uses[usize::from(*title == "2015")])
                .filter(|(_, (all, _))| *all > 0)
                .map(|(prefix, (all, refused))| format!("{prefix} {all} ({refused} refused)"))
                .collect();
            if !uses.is_empty() {
                writeln!(f, "  found paths as `use` lines: {}", uses.join(", "))?;
            }
            writeln!(
                f,
                "  any path: {} given ({} refused), {} none ({} candidates, {} nones with one that compiles)",
                c.any_paths, c.any_paths_refused, c.nones, c.none_candidates, c.nones_taken
            )?;
            writeln!(
                f,
                "  none by the search with every prefix: {}, {} of them with a path that compiles",
                c.search_nones, c.search_nones_with_a_path
            )?;
        }
        write!(
            f,
            "{} contradictions, {} more by names that the compiler drops from a `use`",
            self.contradictions.len(),
            self.dropped
        )
    }
}

struct Asking<'w> {
    w: &'w Workspace,
    written: &'w Written,
    pairs: Vec<Pair>,
    probes: Vec<Probe>,
    /// the probes by pair and path
    lines: Map<(usize, String), usize>,
    asked: Vec<Put>,
    none: Vec<bool>,
    search_none: Vec<bool>,
}

/// What is judged beside the paths.
#[derive(Default, Clone, Copy)]
pub struct Also {
    /// found paths as `use` lines
    pub uses: bool,
    /// wrong programs for any path
    pub mistakes: bool,
}

/// The paths of a printer and of any path for every pair of a workspace, judged.
pub fn judge(seed: u64, w: &Workspace, printer: &Other, rustc: &Rustc, also: Also, totals: &mut Totals) {
    let written = w.snapshot();
    let mut asking = Asking {
        w,
        written: &written,
        pairs: Vec::new(),
        probes: Vec::new(),
        lines: Map::default(),
        asked: Vec::new(),
        none: Vec::new(),
        search_none: Vec::new(),
    };
    asking.pairs();
    asking.search(printer);
    asking.any_paths(also.mistakes);
    match rustc.judge(w, &asking.probes) {
        Err(error) => {
            let code = error.split("error").nth(1).unwrap_or("").split(':').next().unwrap_or("").to_string();
            *totals.refused.entry(code).or_default() += 1;
        }
        Ok(compiles) => {
            totals.workspaces += 1;
            asking.count(seed, &compiles, totals);
            if also.uses {
                asking.count_uses(rustc, totals);
            }
        }
    }
}

impl Asking<'_> {
    fn pairs(&mut self) {
        for scope in 0..self.w.scopes.len() {
            for (definition, &meaning) in self.written.meanings.iter().enumerate() {
                let pair = |&ns: &usize| Pair { scope, definition, ns };
                self.pairs.extend(namespaces(self.w, meaning).iter().map(pair));
            }
        }
    }

    fn ask(&mut self, pair: usize, path: String, asked: Asked) {
        let Pair { scope, definition, ns } = self.pairs[pair];
        let known = self.lines.get(&(pair, path.clone())).copied();
        let probe = known.unwrap_or(self.probes.len());
        if known.is_none() {
            self.probes.push(self.w.probe(scope, self.written.meanings[definition], ns, &path));
            self.lines.insert((pair, path.clone()), probe);
        }
        self.asked.push(Put { pair, probe, path, asked });
    }

    fn search(&mut self, printer: &Other) {
        let s = &self.written.s;
        let snapshot = words(s);
        self.search_none = vec![true; self.pairs.len()];
        for prefix in 0..3 {
            for from in (0..self.pairs.len()).step_by(1000) {
                let range = from..self.pairs.len().min(from + 1000);
                let question = |&Pair { scope, definition, ns }: &Pair| {
                    let from = self.written.modules[scope];
                    Question { definition, ns, from, prefix, options: READ_BACK, fuel: 10_000, limit: 15 }
                };
                let questions: Vec<Question> = self.pairs[range.clone()].iter().map(question).collect();
                let mut input = snapshot.clone();
                input.extend(questions.iter().flat_map(question_words));
                let output = String::from_utf8(printer.output(&bytes(&input))).unwrap();
                let lines: Vec<&str> = output.lines().collect();
                if lines.len() != range.len() {
                    usage::fail(&format!("{} lines for {} questions", lines.len(), range.len()), "");
                }
                for ((pair, line), question) in range.zip(lines).zip(questions) {
                    let mut words = line.split(' ');
                    let (outcome, path) = (words.next().unwrap(), words.next().unwrap_or("").to_string());
                    let misleads = match outcome {
                        "found" => false,
                        "misleads" => true,
                        "none" => continue,
                        _ => usage::fail(&format!("the printer says `{line}`"), ""),
                    };
                    self.search_none[pair] = false;
                    let read = self.reads_back(s, pair, &path);
                    let numbers = self.parsed(&path).1;
                    self.ask(pair, path, Asked::Search { misleads, read, question, path: numbers });
                }
            }
        }
    }

    /// A written path in numbers, as any path has it and as a report has it.
    fn parsed(&self, path: &str) -> (AnyPath, crate::Path) {
        let parts: Vec<&str> = path.split("::").collect();
        let supers = parts.iter().take_while(|&&part| part == "super").count();
        let (start, kind, skipped) = match parts[0] {
            "self" => (Start::SelfModule, 1, 1),
            "super" => (Start::Super(supers), 2, supers),
            "crate" => (Start::Crate, 3, 1),
            "" => (Start::Extern, 4, 1),
            _ => (Start::Plain, 0, 0),
        };
        let number = |text: &&str| self.w.names.iter().position(|name| name == text.trim_start_matches("r#")).unwrap();
        let names: Vec<usize> = parts[skipped..].iter().map(number).collect();
        (AnyPath { start, names: names.clone() }, crate::Path { kind, names })
    }

    /// Whether a written path reads to the item of the pair, by any path's reading of a snapshot.
    fn reads_back(&self, s: &Snapshot, pair: usize, path: &str) -> bool {
        let Pair { scope, definition, ns } = self.pairs[pair];
        let viewer = Viewer::new(s, self.written.modules[scope]);
        viewer.reads_to(ns, &self.parsed(path).0) == Some(item(s, ns, definition))
    }

    /// The library's own answer.
    #[cfg(feature = "library")]
    fn any_path(&self, scope: usize, ns: usize, definition: usize) -> Answer {
        use kelumavor::{DefinitionId, ModuleId, Namespace};
        let snapshot = kelumavor::Snapshot::check(&words(&self.written.s)).expect("an accepted snapshot");
        let namespace = [Namespace::Types, Namespace::Values, Namespace::Macros][ns];
        let from = ModuleId(self.written.modules[scope] as u32);
        match snapshot.any_path(namespace, DefinitionId(definition as u32), from) {
            Ok(kelumavor::AnyPath::Found(path)) => Answer::Found(crate::library::path_of(&path)),
            Ok(kelumavor::AnyPath::Longer) => Answer::Longer,
            _ => Answer::None,
        }
    }

    #[cfg(not(feature = "library"))]
    fn any_path(&self, scope: usize, ns: usize, definition: usize) -> Answer {
        Viewer::new(&self.written.s, self.written.modules[scope]).any_path(ns, definition)
    }

    fn any_paths(&mut self, mistakes: bool) {
        self.none = vec![false; self.pairs.len()];
        for pair in 0..self.pairs.len() {
            let Pair { scope, definition, ns } = self.pairs[pair];
            let krate = self.w.scopes[scope].krate;
            let written = |path: &AnyPath| text(path, |name| self.w.written(name, krate));
            let right = self.any_path(scope, ns, definition);
            for (mistake, &one) in any_path::MISTAKES.iter().enumerate().filter(|_| mistakes) {
                let from = self.written.modules[scope];
                match (&right, Viewer::mistaken(&self.written.s, from, one).any_path(ns, definition)) {
                    (Answer::Found(right), Answer::None) => {
                        self.ask(pair, written(right), Asked::Mistaken { mistake, none: true });
                    }
                    (right, Answer::Found(path)) if *right != Answer::Found(path.clone()) => {
                        self.ask(pair, written(&path), Asked::Mistaken { mistake, none: false });
                    }
                    _ => (),
                }
            }
            match right {
                Answer::Found(path) => self.ask(pair, written(&path), Asked::AnyPath),
                Answer::Longer => (),
                Answer::None => {
                    self.none[pair] = true;
                    let tried = candidates(&self.written.s, self.written.modules[scope], ns, definition);
                    for path in tried.iter().map(written).collect::<Vec<_>>() {
                        self.ask(pair, path, Asked::Candidate);
                    }
                }
            }
        }
    }

    /// Whether the pair's viewer is of edition 2015.
    fn old(&self, pair: usize) -> usize {
        usize::from(self.w.editions[self.w.scopes[self.pairs[pair].scope].krate] == 2015)
    }

    /// Each found path that does not mislead, as a `use` line of the viewing module.
    fn count_uses(&self, rustc: &Rustc, totals: &mut Totals) {
        let mut asked: Vec<(usize, usize)> = Vec::new();
        let mut probes = Vec::new();
        for Put { pair, path, asked: one, .. } in &self.asked {
            if let Asked::Search { misleads: false, question, .. } = one {
                let Pair { scope, definition, ns } = self.pairs[*pair];
                let name = format!("__u{}", probes.len());
                let mut probe = self.w.probe(scope, self.written.meanings[definition], ns, &name);
                probe.before = Some(format!("use {path} as {name};"));
                probes.push(probe);
                asked.push((self.old(*pair), question.prefix));
            }
        }
        let Ok(compiles) = rustc.judge(self.w, &probes) else { return };
        for ((old, prefix), compiles) in asked.into_iter().zip(compiles) {
            let (all, refused) = &mut totals.uses[old][prefix];
            *all += 1;
            *refused += usize::from(!compiles);
        }
    }

    fn count(&self, seed: u64, compiles: &[bool], totals: &mut Totals) {
        let later = |pair: usize| self.old(pair);
        let mut has_path = vec![false; self.pairs.len()];
        let mut taken = vec![false; self.pairs.len()];
        for pair in 0..self.pairs.len() {
            let c = &mut totals.counts[later(pair)];
            c.pairs += 1;
            c.nones += usize::from(self.none[pair]);
            c.search_nones += usize::from(self.search_none[pair]);
        }
        for Put { pair, probe, path, asked } in &self.asked {
            let compiles = compiles[*probe];
            let c = &mut totals.counts[later(*pair)];
            let count = |counter: &mut usize, counts: bool| *counter += usize::from(counts);
            let mut wrong = "";
            if let Asked::Search { misleads: right, question, path, .. } = asked {
                for (told, &mistake) in totals.misread.iter_mut().zip(&reading::MISTAKES) {
                    let said = misleads(&self.written.s, question, path, Some(mistake));
                    *told += usize::from(said != *right && said == compiles);
                }
            }
            match *asked {
                Asked::Mistaken { mistake, none } => totals.mistaken[mistake] += usize::from(none == compiles),
                Asked::Search { misleads: true, read, .. } => {
                    c.misleads += 1;
                    count(&mut c.misleads_taken, compiles);
                    count(&mut c.misleads_taken_read, compiles && read);
                    if compiles && !read {
                        wrong = "misleads, and compiles";
                    }
                }
                Asked::Search { misleads: false, read, .. } => {
                    c.found += 1;
                    count(&mut c.found_refused, !compiles);
                    count(&mut c.found_refused_unread, !compiles && !read);
                    if !compiles && read {
                        wrong = "found, and does not compile";
                    }
                }
                Asked::AnyPath => {
                    c.any_paths += 1;
                    count(&mut c.any_paths_refused, !compiles);
                    has_path[*pair] |= compiles;
                    if !compiles {
                        wrong = "any path, and does not compile";
                    }
                }
                Asked::Candidate => {
                    c.none_candidates += 1;
                    has_path[*pair] |= compiles;
                    if compiles && !taken[*pair] {
                        taken[*pair] = true;
                        c.nones_taken += 1;
                        wrong = "none, and compiles";
                    }
                }
            }
            if !wrong.is_empty() && self.reads_back(&self.written.real, *pair, path) == compiles {
                totals.dropped += 1;
            } else if !wrong.is_empty() {
                let Pair { scope, definition, ns } = self.pairs[*pair];
                let edition = self.w.editions[self.w.scopes[scope].krate];
                let what = self.written.meanings[definition];
                totals
                    .contradictions
                    .push(format!("seed {seed}, edition {edition}, scope {scope}, {what:?} ns {ns}: `{path}` {wrong}"));
            }
        }
        for pair in 0..self.pairs.len() {
            totals.counts[later(pair)].search_nones_with_a_path +=
                usize::from(self.search_none[pair] && has_path[pair]);
        }
    }
}

/// Names of a candidate, candidates of a pair, and paths that are looked at for them, at most.
const MOST_NAMES: usize = 5;
const MOST_CANDIDATES: usize = 20;
const MOST_LOOKED_AT: usize = 600;

/// Paths that lead to the item where nothing is hidden and everything visible; short ones first.
fn candidates(s: &Snapshot, from: usize, ns: usize, definition: usize) -> Vec<AnyPath> {
    let wanted = item(s, ns, definition);
    let viewer = Viewer::new(s, from);
    let mut found: Vec<AnyPath> = Vec::new();
    let mut reached: Vec<(Item, AnyPath)> = Vec::new();
    for start in viewer.keywords() {
        let path = AnyPath { start, names: Vec::new() };
        reached.extend(viewer.reads_to(0, &path).map(|module| (module, path)));
    }
    let mut firsts: Vec<(Start, usize, usize, Item)> = Vec::new();
    let krate = s.maps[s.modules[from].map].krate;
    for e in s.externs.iter().filter(|e| e.owner == krate) {
        firsts.extend([Start::Extern, Start::Plain].map(|start| (start, 0, e.name, Item::Module(e.target))));
    }
    let mut at = Some(from);
    let prelude = s.preludes.iter().find(|prelude| prelude.map == s.modules[from].map).map(|prelude| prelude.target);
    let mut around: Vec<usize> = prelude.into_iter().collect();
    while let Some(module) = at {
        around.push(module);
        let parent = s.modules[module].parent;
        at = if parent != 0 { Some(parent - 1) } else { s.maps[s.modules[module].map].block.checked_sub(1) };
    }
    for e in s.scopes.iter().filter(|e| around.contains(&e.owner)) {
        firsts.push((Start::Plain, e.ns, e.name, item(s, e.ns, e.definition)));
    }
    let mut offer = |path: AnyPath, ns_of: usize, to: Item, reached: &mut Vec<(Item, AnyPath)>| {
        if to == wanted && ns_of == ns && !found.contains(&path) {
            found.push(path.clone());
        }
        if ns_of == 0 && path.names.len() < MOST_NAMES {
            reached.push((to, path));
        }
    };
    for (start, ns_of, name, to) in firsts {
        offer(AnyPath { start, names: vec![name] }, ns_of, to, &mut reached);
    }
    let mut place = 0;
    while place < reached.len().min(MOST_LOOKED_AT) {
        let (at, path) = reached[place].clone();
        place += 1;
        let longer = |name: usize| AnyPath { start: path.start, names: [&path.names[..], &[name]].concat() };
        match at {
            Item::Module(module) => {
                for e in s.scopes.iter().filter(|e| e.owner == module) {
                    offer(longer(e.name), e.ns, item(s, e.ns, e.definition), &mut reached);
                }
            }
            Item::Other(_, parent) => {
                for (d, variant) in s.definitions.iter().enumerate() {
                    if variant.kind == 2 && variant.first == parent {
                        for ns in [0, 1] {
                            offer(longer(variant.second), ns, item(s, ns, d), &mut reached);
                        }
                    }
                }
            }
        }
    }
    found.sort_by_key(|path| path.names.len());
    found.truncate(MOST_CANDIDATES);
    found
}
