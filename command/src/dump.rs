//! Words as text, a record a line.
use crate::escape::{escaped, quoted};
use crate::explain::{judge, snapshot_part};
use crate::faults::{counted, faults};
use crate::input::Input;
use crate::json::Json;
use crate::record::{Kind, Part, Record, Records, Role, parts};
use crate::view::View;

/// How a dump begins.
pub const HEADER: &str = "# kelumavor dump";

/// The answer of the library in a line, on the words before the questions.
fn heading(input: &Input) -> String {
    let (snapshot, questions) = snapshot_part(input);
    let answer = match judge(&snapshot) {
        Ok(_) => "accepted".to_string(),
        Err(refused) => refused.to_string().replace('\n', "; "),
    };
    let rest =
        if questions == 0 { String::new() } else { format!(", then {} of questions", counted(questions, "word")) };
    format!("{HEADER}: {}{rest}; {answer}", counted(snapshot.words.len(), "word"))
}

/// The whole text. Assembling it gives the bytes of the input, whatever they are.
pub fn text(input: &Input) -> String {
    let view = View::new(&input.words);
    let mut lines = vec![heading(input)];
    for part in parts(&input.words) {
        lines.push(match part {
            Part::Record(record) => line(&view, &record),
            Part::Word(place, word) => format!("{place}: word {word:#x}"),
        });
    }
    if !input.rest().is_empty() {
        let bytes: Vec<_> = input.rest().iter().map(|byte| format!("{byte:#04x}")).collect();
        lines.push(format!("{}: bytes {}", input.words.len(), bytes.join(" ")));
    }
    lines.join("\n") + "\n"
}

fn line(view: &View, record: &Record) -> String {
    let fields = if record.kind == Kind::Name { name_fields(record) } else { fields(record) };
    let start = format!("{}: {} {} {fields}", record.place, record.kind.word(), record.number);
    let comment = view.comment(record);
    if comment.is_empty() { start } else { format!("{start:<60} # {comment}") }
}

/// The text of a name, or the words of one that is no text.
fn name_fields(record: &Record) -> String {
    if faults(&Records::default(), record).is_empty() {
        return quoted(&record.bytes());
    }
    let words: Vec<_> = record.words[1..].iter().map(|word| format!("{word:#x}")).collect();
    format!("length={} words={}", record.payload(), words.join(","))
}

fn fields(record: &Record) -> String {
    let told = record.fields().into_iter().filter(|(field, value)| field.role != Role::Zero || *value != 0);
    told.map(|(field, value)| format!("{}={}", field.name, field.role.text(value))).collect::<Vec<_>>().join(" ")
}

pub fn json(input: &Input) -> Json {
    let (snapshot, _) = snapshot_part(input);
    let mut fields = match judge(&snapshot) {
        Ok(_) => vec![("accepted", true.into())],
        Err(refused) => refused.json(),
    };
    let view = View::new(&input.words);
    let records: Json = parts(&input.words).iter().map(|part| part_json(&view, part)).collect();
    fields.extend([
        ("file", input.label.as_str().into()),
        ("words", input.words.len().into()),
        ("records", records),
        ("bytes", input.rest().iter().map(|byte| u32::from(*byte)).collect()),
    ]);
    Json::Object(fields)
}

fn part_json(view: &View, part: &Part) -> Json {
    let record = match part {
        Part::Word(place, word) => return Json::Object(vec![("word", (*place).into()), ("value", (*word).into())]),
        Part::Record(record) => record,
    };
    let told = if record.kind == Kind::Name {
        vec![("length", record.payload().into()), ("text", escaped(&record.bytes()).into())]
    } else {
        record.fields().into_iter().map(|(field, value)| (field.name, value_json(field.role, value))).collect()
    };
    Json::Object(vec![
        ("word", record.place.into()),
        ("kind", record.kind.word().into()),
        ("number", record.number.into()),
        ("fields", Json::Object(told)),
        ("comment", view.comment(record).into()),
    ])
}

fn value_json(role: Role, value: u32) -> Json {
    match (role, role.text(value)) {
        (Role::ModuleOrNone, text) if text == "none" => Json::Null,
        (_, text) => text.parse::<u32>().map_or(Json::Text(text), Json::from),
    }
}
