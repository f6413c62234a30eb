//! Files, or standard input for `-`.
use std::ffi::{OsStr, OsString};
use std::fs::File;
use std::io::{self, Read};

use crate::escape::escaped;
use crate::failure::Failure;

/// Bytes that are read of a snapshot, at most: far more than one may have.
const WORDS: u64 = 1 << 20;

/// Bytes that are read of a text, at most: more than the dump of so many bytes has.
const TEXT: u64 = 1 << 28;

/// The bytes of a file as words.
#[derive(Clone, Debug, Default)]
pub struct Input {
    pub label: String,
    pub bytes: Vec<u8>,
    pub words: Vec<u32>,
}

impl Input {
    pub fn new(label: &str, bytes: Vec<u8>) -> Self {
        let words =
            bytes.chunks_exact(4).map(|word| u32::from_le_bytes(word.try_into().expect("four bytes"))).collect();
        Input { label: label.to_string(), bytes, words }
    }

    /// The bytes past the last whole word.
    pub fn rest(&self) -> &[u8] {
        &self.bytes[4 * self.words.len()..]
    }
}

pub fn label(file: &OsStr) -> String {
    if file == "-" { "standard input".to_string() } else { escaped(file.as_encoded_bytes()) }
}

/// The bytes of a snapshot.
pub fn read(file: &OsString) -> Result<Input, Failure> {
    let bytes = bytes(file, WORDS, ", and a snapshot at most 65536")?;
    Ok(Input::new(&label(file), bytes))
}

/// A text for `assemble`.
pub fn read_text(file: &OsString) -> Result<String, Failure> {
    let bytes = bytes(file, TEXT, "")?;
    String::from_utf8(bytes).map_err(|_| Failure::new(format!("{} is no UTF-8 text", label(file))))
}

fn bytes(file: &OsString, most: u64, further: &str) -> Result<Vec<u8>, Failure> {
    let label = label(file);
    let mut bytes = Vec::new();
    let read = if file == "-" {
        io::stdin().lock().take(most + 1).read_to_end(&mut bytes)
    } else {
        File::open(file).and_then(|file| file.take(most + 1).read_to_end(&mut bytes))
    };
    read.map_err(|error| Failure::new(format!("cannot read {label}: {error}")))?;
    if file == "-" && bytes.is_empty() {
        let reason =
            "it is closed, or what writes to it wrote nothing (an empty snapshot can be given as an empty file)";
        return Err(Failure::new(format!("standard input has no bytes: {reason}")));
    }
    if bytes.len() as u64 > most {
        return Err(Failure::new(format!("{label} has more than {most} bytes{further}")));
    }
    Ok(bytes)
}
