//! Text as words: what a dump says, or a person writes.
use crate::escape::unescaped;
use crate::faults::counted;
use crate::record::{Field, Kind, PAYLOAD, Role, fields, text_words};

/// The bytes of a text; or the line that cannot be understood, from 1, and why.
pub fn assemble(text: &str) -> Result<Vec<u8>, (usize, String)> {
    let mut writer = Writer::default();
    for (number, line) in text.lines().enumerate() {
        writer.line(line).map_err(|reason| (number + 1, reason))?;
    }
    let mut bytes: Vec<u8> = writer.words.iter().flat_map(|word| word.to_le_bytes()).collect();
    bytes.extend(writer.rest);
    Ok(bytes)
}

#[derive(Default)]
struct Writer {
    words: Vec<u32>,
    counts: [usize; 16],
    /// Bytes past the last word; no line follows them.
    rest: Vec<u8>,
}

/// The parts of a line, up to its comment. A quoted text is one part, with its quotes.
fn tokens(line: &str) -> Result<Vec<&str>, String> {
    let mut found = Vec::new();
    let mut rest = line.trim_start();
    while !rest.is_empty() && !rest.starts_with('#') {
        let end = if rest.starts_with('"') {
            quote_end(rest).ok_or("a text that does not end")?
        } else {
            rest.find(char::is_whitespace).unwrap_or(rest.len())
        };
        found.push(&rest[..end]);
        rest = rest[end..].trim_start();
    }
    Ok(found)
}

/// Where a quoted text ends, past its second quote.
fn quote_end(text: &str) -> Option<usize> {
    let mut escape = false;
    text.bytes().enumerate().skip(1).find_map(|(at, byte)| {
        let ends = byte == b'"' && !escape;
        escape = byte == b'\\' && !escape;
        ends.then_some(at + 1)
    })
}

/// A number, with `0x` in hexadecimal.
fn number(text: &str) -> Result<u32, String> {
    let parsed = match text.strip_prefix("0x") {
        Some(digits) => u32::from_str_radix(digits, 16),
        None => text.parse(),
    };
    parsed.map_err(|_| format!("`{text}` is no number below 4294967296"))
}

impl Writer {
    fn line(&mut self, line: &str) -> Result<(), String> {
        let tokens = tokens(line)?;
        let mut rest = &tokens[..];
        if rest.first().is_some_and(|first| first.strip_suffix(':').is_some_and(|at| at.parse::<usize>().is_ok())) {
            rest = &rest[1..];
        }
        let Some((kind, rest)) = rest.split_first() else { return Ok(()) };
        if !self.rest.is_empty() {
            return Err("nothing may follow the line of bytes".to_string());
        }
        match *kind {
            "word" => self.words.push(number(one(rest)?)?),
            "bytes" => self.bytes(rest)?,
            _ => self.record(kind, rest)?,
        }
        Ok(())
    }

    fn bytes(&mut self, tokens: &[&str]) -> Result<(), String> {
        if !(1..=3).contains(&tokens.len()) {
            return Err("one to three bytes stand after the last word".to_string());
        }
        for token in tokens {
            self.rest.push(number(token)?.try_into().map_err(|_| format!("`{token}` is no byte"))?);
        }
        Ok(())
    }

    fn record(&mut self, word: &str, mut tokens: &[&str]) -> Result<(), String> {
        let kinds = || Kind::ALL.map(Kind::word).join(", ");
        let kind = Kind::ALL.into_iter().find(|kind| kind.word() == word);
        let kind = kind.ok_or_else(|| format!("`{word}` is no kind of record; these are: {}, word, bytes", kinds()))?;
        let count = &mut self.counts[kind as usize];
        if let Some(number) = tokens.first().and_then(|token| token.parse::<usize>().ok()) {
            if number != *count {
                return Err(format!("this is {word} {count}, and the line says {number}"));
            }
            tokens = &tokens[1..];
        }
        *count += 1;
        if kind == Kind::Name { self.name(tokens) } else { self.fields(kind, tokens) }
    }

    fn name(&mut self, tokens: &[&str]) -> Result<(), String> {
        if let [length, words] = tokens
            && let (Some(length), Some(words)) = (length.strip_prefix("length="), words.strip_prefix("words="))
        {
            let length = Role::Any.number(length).ok_or_else(|| format!("`{length}` is no length"))?;
            let words = words.split(',').filter(|word| !word.is_empty()).map(number).collect::<Result<Vec<_>, _>>()?;
            return self.write(Kind::Name, length, &words);
        }
        let quoted = one(tokens)?;
        let text = quoted.strip_prefix('"').and_then(|text| text.strip_suffix('"'));
        let text = unescaped(text.ok_or("a name is a text in quotes")?)?;
        if !(1..=255).contains(&text.len()) {
            return Err(format!("the text has {}, and a name has 1 to 255", counted(text.len(), "byte")));
        }
        self.write(Kind::Name, text.len() as u32, &text_words(&text))
    }

    fn write(&mut self, kind: Kind, payload: u32, arguments: &[u32]) -> Result<(), String> {
        if arguments.len() != kind.arguments(payload) || arguments.iter().any(|word| *word > PAYLOAD) {
            let needed = counted(kind.arguments(payload), "word");
            return Err(format!("{needed} below {:#x} follow this head, and not {}", PAYLOAD + 1, arguments.len()));
        }
        self.words.push((kind as u32) << 28 | payload);
        self.words.extend_from_slice(arguments);
        Ok(())
    }

    fn fields(&mut self, kind: Kind, tokens: &[&str]) -> Result<(), String> {
        let mut given = Vec::new();
        for token in tokens {
            given.push(token.split_once('=').ok_or_else(|| format!("`{token}` is no field: field=value"))?);
        }
        let mut numbers = Vec::new();
        for place in 0..=kind.arguments(0) {
            let field = fields(kind, &numbers)[place];
            numbers.push(taken(&mut given, field)?);
        }
        match given.first() {
            Some((name, _)) => {
                let known: Vec<_> = fields(kind, &numbers).iter().map(|field| field.name).collect();
                Err(format!("a {} has no further `{name}`; its fields: {}", kind.word(), known.join(", ")))
            }
            None => self.write(kind, numbers[0], &numbers[1..]),
        }
    }
}

/// The number of a field, which is taken from those given. Flags may be left out, and what is 0.
fn taken(given: &mut Vec<(&str, &str)>, field: Field) -> Result<u32, String> {
    let Some(place) = given.iter().position(|(name, _)| *name == field.name) else {
        return match field.role {
            Role::Flags(_) | Role::Zero => Ok(0),
            _ => Err(format!("`{}` is missing", field.name)),
        };
    };
    let (name, value) = given.remove(place);
    field.role.number(value).ok_or_else(|| match field.role {
        Role::Word(words) => format!("`{value}` is no {name}: a number, or {}", shown(words)),
        Role::Flags(words) => format!("`{value}` is no {name}: a number, `none`, or with + between {}", shown(words)),
        _ => format!("`{value}` is no {name}: a number below {}", PAYLOAD + 1),
    })
}

fn shown(words: &[&str]) -> String {
    words.iter().filter(|word| !word.is_empty()).copied().collect::<Vec<_>>().join(", ")
}

fn one<'t>(tokens: &[&'t str]) -> Result<&'t str, String> {
    match tokens {
        [token] => Ok(token),
        _ => Err(format!("one value is expected, and {} are there", tokens.len())),
    }
}
