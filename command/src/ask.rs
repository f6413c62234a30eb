//! A question, its answer, and what that means.
use kelumavor::{
    AnyPath, DefinitionId, ModuleId, Namespace, Options, Outcome, Path, PathKind, Prefix, Question, Report, Rule,
    ShortestPath, Snapshot, Step,
};

use crate::args::Args;
use crate::escape::in_path;
use crate::failure::Failure;
use crate::faults::counted;
use crate::json::Json;
use crate::record::{Kind, NAMESPACES, OPTIONS, PREFIXES, Record, Role};
use crate::resolve;
use crate::view::View;

/// The options of a question, with their values.
pub const VALUES: [&str; 7] = ["--item", "--from", "--namespace", "--prefix", "--options", "--fuel", "--limit"];

/// The question that the options ask.
pub fn question(args: &Args, view: &View) -> Result<Question, Failure> {
    let needed = |option: &str| {
        let missing = || Failure::new(format!("{option} is missing: a written name, or a number"));
        args.text(option)?.ok_or_else(missing)
    };
    let from = resolve::module(view, needed("--from")?).map_err(Failure::new)?;
    let namespace = value(args, "--namespace", Role::Word(&NAMESPACES))?.map(|number| number as usize);
    let item = needed("--item")?;
    let (definition, namespace) = resolve::item(view, item, from, namespace).map_err(Failure::new)?;
    let namespace = [Namespace::Types, Namespace::Values, Namespace::Macros][namespace];
    let mut question = Question::new(namespace, DefinitionId(small(definition)?), ModuleId(small(from)?));
    how(args, &mut question.prefix, &mut question.options, &mut question.fuel, &mut question.limit)?;
    Ok(question)
}

/// The options that say how to search: each stays as it is where it is not given.
pub fn how(
    args: &Args,
    prefix: &mut Prefix,
    preferred: &mut Options,
    fuel: &mut u32,
    limit: &mut u32,
) -> Result<(), Failure> {
    if let Some(number) = value(args, "--prefix", Role::Word(&PREFIXES))? {
        *prefix = [Prefix::BySelf, Prefix::Plain, Prefix::ByCrate][number as usize];
    }
    if let Some(bits) = value(args, "--options", Role::Flags(&OPTIONS))? {
        *preferred = options(bits);
    }
    *fuel = value(args, "--fuel", Role::Any)?.unwrap_or(*fuel);
    *limit = value(args, "--limit", Role::Any)?.unwrap_or(*limit);
    Ok(())
}

/// So many things over so many others, with two digits.
pub fn counted_of(things: usize, others: usize, thing: &str) -> String {
    let hundredths = (200 * things + others) / (2 * others);
    let (whole, rest) = (hundredths / 100, hundredths % 100);
    if rest == 0 { counted(whole, thing) } else { format!("{whole}.{rest:02} {thing}s") }
}

pub fn small(number: usize) -> Result<u32, Failure> {
    number.try_into().map_err(|_| Failure::new(format!("{number} is no number of a snapshot")))
}

/// The value of an option: a word, words with `,` or `+` between them, or their number.
fn value(args: &Args, option: &str, role: Role) -> Result<Option<u32>, Failure> {
    let Some(text) = args.text(option)? else { return Ok(None) };
    let (number, known) = match role {
        Role::Word(words) => (
            role.number(text).filter(|number| (*number as usize) < words.len()),
            format!("one of {}", words.join(", ")),
        ),
        Role::Flags(words) => {
            let number = role.number(&text.replace(',', "+")).filter(|number| *number < 1 << words.len());
            (number, format!("words with commas between them, of {}", words.join(", ")))
        }
        _ => (text.parse().ok(), "a number".to_string()),
    };
    number.map(Some).ok_or_else(|| Failure::new(format!("{option} takes {known}; `{text}` is none")))
}

fn options(bits: u32) -> Options {
    let bit = |place: u32| bits >> place & 1 == 1;
    Options {
        prefer_no_std: bit(0),
        prefer_prelude: bit(1),
        prefer_absolute: bit(2),
        allow_unstable: bit(3),
        ignore_local_imports: bit(4),
        old_names_last: bit(5),
        read_back: bit(6),
    }
}

pub fn option_bits(options: Options) -> u32 {
    let set = [
        options.prefer_no_std,
        options.prefer_prelude,
        options.prefer_absolute,
        options.allow_unstable,
        options.ignore_local_imports,
        options.old_names_last,
        options.read_back,
    ];
    set.iter().rev().fold(0, |bits, set| 2 * bits + u32::from(*set))
}

/// A path as it would be written, with all that is no letter of a name escaped.
pub fn path_text(path: &Path) -> String {
    let mut parts: Vec<String> = start(path.kind()).map(str::to_string).into_iter().collect();
    parts.extend(path.written().map(in_path));
    parts.join("::")
}

/// The same for a shortest path.
fn shortest_text(path: &ShortestPath) -> String {
    let mut parts: Vec<String> = path.start().into_iter().map(str::to_string).collect();
    parts.extend(path.written().map(in_path));
    parts.join("::")
}

/// Whether any path names the item, where the whole search found none.
pub fn second_opinion(snapshot: &Snapshot, question: &Question, report: &Report) -> Result<Option<AnyPath>, Failure> {
    if report.outcome != Outcome::NoPath {
        return Ok(None);
    }
    let asked = snapshot.any_path(question.namespace, question.definition, question.from);
    asked.map(Some).map_err(|refusal| Failure::new(refusal.to_string()))
}

/// A second opinion in words.
fn opinion_text(opinion: &AnyPath) -> String {
    match opinion {
        AnyPath::Found(path) => format!(
            "the compiler takes `{}` for it here: the rules of the search pass that path over, so nothing has to be made public",
            shortest_text(path)
        ),
        AnyPath::Longer => "the compiler has paths for it here, each of more than sixteen names".to_string(),
        AnyPath::Nowhere => "the compiler has no path for it here either, of any length".to_string(),
        other => format!("an answer that this command has no words for: {other:?}"),
    }
}

fn start(kind: PathKind) -> Option<&'static str> {
    match kind {
        PathKind::Plain => None,
        PathKind::SelfModule => Some("self"),
        PathKind::Super => Some("super"),
        PathKind::Crate => Some("crate"),
        PathKind::Absolute => Some(""),
    }
}

/// The steps of a path's route, each with the part of the path that it gave.
pub fn steps(path: &Path) -> Vec<(String, Step)> {
    let names: Vec<String> = path.written().map(in_path).collect();
    let keyword = path.route().next().is_some_and(|step| step.rule == Rule::Keyword);
    let start = start(path.kind());
    let mut parts = Vec::new();
    if keyword {
        parts.extend(start.map(str::to_string));
        parts.extend(names);
    } else {
        parts.extend(names);
        if let (Some(start), Some(first)) = (start, parts.first_mut()) {
            *first = format!("{start}::{first}");
        }
    }
    parts.into_iter().zip(path.route()).collect()
}

fn keyword_text(view: &View, from: ModuleId, part: &str) -> String {
    let meaning = match part {
        "self" => "the viewing module itself".to_string(),
        "super" => "the parent of the viewing module".to_string(),
        _ => format!("the root of the crate of {}", view.module(from.0 as usize)),
    };
    format!("{part}: a keyword, {meaning}")
}

fn entry_text(view: &View, record: &Record, note: &str) -> String {
    let (module, visibility) = (view.module(record.get(0)), view.visibility(record));
    format!("entry of module {module}{note}, {visibility}{}", view.marks(record))
}

fn extern_text(view: &View, record: &Record) -> String {
    format!("extern name of {}, for {}", view.krate(record.get(0)), view.module(record.get(2)))
}

fn variant_text(view: &View, record: &Record) -> String {
    format!("variant of {}", view.definition(record.get(1)))
}

/// A step in words.
fn step_text(view: &View, from: ModuleId, part: &str, step: Step) -> String {
    let place = step.place as usize;
    let Some(record) = view.records.at(place).filter(|_| step.rule != Rule::Keyword) else {
        return keyword_text(view, from, part);
    };
    let what = match step.rule {
        Rule::Scope | Rule::Local => entry_text(view, record, ""),
        Rule::Prelude => entry_text(view, record, " (the prelude)"),
        Rule::Extern => extern_text(view, record),
        Rule::Builtin => "builtin type".to_string(),
        Rule::Import => {
            format!("import map of {}, held by module {}", view.krate(record.get(0)), view.module(record.get(4)))
        }
        Rule::Variant => variant_text(view, record),
        other => other.to_string(),
    };
    format!("{part}: {what}, word {place}")
}

/// How the compiler reads a shortest path: each part of it with the word at which its record begins, none for keywords, and in words.
fn readings(view: &View, from: ModuleId, path: &ShortestPath) -> Vec<(String, Option<u32>, String)> {
    let start = path.start().join("::");
    let above = format!("{start}: keywords, the module {} above the viewing one", counted(path.supers(), "time"));
    let keywords = if path.supers() > 1 { above } else { keyword_text(view, from, &start) };
    let keywords = (!start.is_empty()).then(|| (start.clone(), None, keywords));
    let colons = if path.kind() == PathKind::Absolute { "::" } else { "" };
    let names = path.written().zip(path.route()).enumerate().map(|(number, (name, place))| {
        let part = format!("{}{}", if number == 0 { colons } else { "" }, in_path(name));
        let what = view.records.at(place as usize).map_or_else(String::new, |record| match record.kind {
            Kind::Extern => extern_text(view, record),
            Kind::Definition => variant_text(view, record),
            _ => entry_text(view, record, ""),
        });
        let text = format!("{part}: {what}, word {place}");
        (part, Some(place), text)
    });
    keywords.into_iter().chain(names).collect()
}

/// The question in words.
pub fn asked(view: &View, question: &Question) -> String {
    let (definition, from) = (question.definition.0 as usize, question.from.0 as usize);
    let item = format!("{} {} (definition {definition})", view.thing(definition), view.definition(definition));
    let namespace = NAMESPACES[question.namespace as usize];
    let prefix = PREFIXES[question.prefix as usize];
    let options = Role::Flags(&OPTIONS).text(option_bits(question.options));
    format!(
        "{item} in {namespace} from {} (module {from}); prefix {prefix}, options {options}, fuel {}, limit {}",
        view.module(from),
        question.fuel,
        question.limit
    )
}

/// What an outcome means, after the path if there is one.
pub fn meaning(view: &View, question: &Question, report: &Report) -> Option<String> {
    let limit = question.limit;
    let empty = || {
        let first = report.first_empty.as_ref()?;
        let sought = first.module.map(|module| format!(" looking for {}", view.module(module.0 as usize)));
        let sought = sought.unwrap_or_else(|| " looking for the item itself".to_string());
        Some(format!(" (first{sought}, with {} left)", counted(first.length_left as usize, "name")))
    };
    match &report.outcome {
        Outcome::Found(_) => None,
        Outcome::NoPath if limit < Question::MAX_LIMIT => Some(format!(
            "the whole search under the limit {limit} found no path: that is a fact about paths of that length alone, and a longer one \
             may be there; ask with --limit {} before acting on it",
            Question::MAX_LIMIT
        )),
        Outcome::NoPath => Some("the whole search found no path".to_string()),
        Outcome::TankEmpty(Some(_)) => Some(format!(
            "the fuel ran out{}: the path names the item, and a search with more fuel may find a better one",
            empty().unwrap_or_default()
        )),
        Outcome::TankEmpty(None) => Some(format!(
            "the fuel ran out{}: that says nothing about the item; ask again with more fuel, at most {}",
            empty().unwrap_or_default(),
            Question::MAX_FUEL
        )),
        Outcome::Misleads(path) => Some(format!(
            "read from {}, `{}` means another thing or nothing, so no use line is to be made of it; ask with another --prefix{}",
            view.module(question.from.0 as usize),
            path_text(path),
            empty().map(|first| format!(", or with more fuel, which ran out{first}")).unwrap_or_default()
        )),
        Outcome::Refused(refusal) => Some(refusal.kind().to_string()),
        other => Some(format!("an outcome that this command has no words for: {other:?}")),
    }
}

/// The word for an outcome.
fn outcome(report: &Report) -> &'static str {
    match &report.outcome {
        Outcome::Found(_) => "found",
        Outcome::NoPath => "none",
        Outcome::TankEmpty(Some(_)) => "found so far",
        Outcome::TankEmpty(None) => "not known",
        Outcome::Misleads(_) => "misleads",
        Outcome::Refused(_) => "refused",
        _ => "unknown",
    }
}

/// The path that was found, misleading or not.
pub fn found(report: &Report) -> Option<&Path> {
    match &report.outcome {
        Outcome::Misleads(path) => Some(path),
        _ => report.path(),
    }
}

/// A path of keywords alone cannot be imported.
fn no_use_line(path: &Path) -> Option<String> {
    let text = path_text(path);
    let note = format!("`{text}` names the module, and `use {text};` is no use line: keywords alone bring in no name");
    (path.names().len() == 0).then_some(note)
}

pub fn text(view: &View, question: &Question, report: &Report, opinion: Option<&AnyPath>) -> String {
    let mut lines = Vec::new();
    let meaning = meaning(view, question, report);
    match report.path() {
        Some(path) => {
            lines.push(path_text(path));
            lines.extend(
                steps(path).iter().map(|(part, step)| format!("  {}", step_text(view, question.from, part, *step))),
            );
            lines.extend(no_use_line(path).map(|note| format!("note: {note}")));
            lines.extend(meaning.map(|meaning| format!("note: {meaning}")));
        }
        None => {
            let number = match &report.outcome {
                Outcome::Refused(refusal) => format!(" {}", refusal.kind().number()),
                _ => String::new(),
            };
            lines.push(format!("{}{number}: {}", outcome(report), meaning.unwrap_or_default()));
            lines.extend(
                found(report)
                    .iter()
                    .flat_map(|path| steps(path))
                    .map(|(part, step)| format!("  {}", step_text(view, question.from, &part, step))),
            );
        }
    }
    lines.extend(opinion.map(|opinion| format!("second opinion: {}", opinion_text(opinion))));
    if let Some(AnyPath::Found(path)) = opinion {
        lines.extend(readings(view, question.from, path).into_iter().map(|(_, _, text)| format!("  {text}")));
    }
    lines.push(format!("asked: {}; {}", asked(view, question), counted(report.charges as usize, "charge")));
    lines.join("\n") + "\n"
}

/// Which answer a second opinion is, its path, how that is read, and its words.
fn opinion_json(view: &View, from: ModuleId, opinion: &AnyPath) -> Json {
    let (outcome, path) = match opinion {
        AnyPath::Found(path) => ("found", Some(path)),
        AnyPath::Longer => ("longer", None),
        AnyPath::Nowhere => ("none", None),
        _ => ("unknown", None),
    };
    let step = |(part, word, text): (String, Option<u32>, String)| {
        Json::Object(vec![("part", part.into()), ("word", word.into()), ("text", text.into())])
    };
    let route = path.map_or(Json::List(Vec::new()), |path| readings(view, from, path).into_iter().map(step).collect());
    Json::Object(vec![
        ("outcome", outcome.into()),
        ("path", path.map(shortest_text).into()),
        ("route", route),
        ("meaning", opinion_text(opinion).into()),
    ])
}

pub fn json(view: &View, question: &Question, report: &Report, opinion: Option<&AnyPath>) -> Json {
    let route = |path: &Path| -> Json {
        let step = |(part, step): &(String, Step)| {
            Json::Object(vec![
                ("part", part.as_str().into()),
                ("rule", step.rule.to_string().into()),
                ("word", step.place.into()),
                ("text", step_text(view, question.from, part, *step).into()),
            ])
        };
        steps(path).iter().map(step).collect()
    };
    let refusal = match &report.outcome {
        Outcome::Refused(refusal) => Some(refusal.kind().number()),
        _ => None,
    };
    Json::Object(vec![
        ("outcome", outcome(report).into()),
        ("path", found(report).map(path_text).into()),
        ("use_line", report.path().is_some_and(|path| path.names().len() > 0).into()),
        ("route", found(report).map_or(Json::List(Vec::new()), route)),
        ("refused", refusal.into()),
        ("meaning", meaning(view, question, report).into()),
        ("second_opinion", opinion.map_or(Json::Null, |opinion| opinion_json(view, question.from, opinion))),
        ("charges", report.charges.into()),
        ("tank_empty", report.first_empty.is_some().into()),
        ("question", question_json(view, question)),
    ])
}

fn question_json(view: &View, question: &Question) -> Json {
    Json::Object(vec![
        ("definition", question.definition.0.into()),
        ("item", view.definition(question.definition.0 as usize).into()),
        ("namespace", NAMESPACES[question.namespace as usize].into()),
        ("from", question.from.0.into()),
        ("module", view.module(question.from.0 as usize).into()),
        ("prefix", PREFIXES[question.prefix as usize].into()),
        ("options", Role::Flags(&OPTIONS).text(option_bits(question.options)).into()),
        ("fuel", question.fuel.into()),
        ("limit", question.limit.into()),
    ])
}
