//! The stored list: inputs with the lines of the text of rust-analyzer. One after the other until the end of the file, each
//! as the length of the input in bytes (four bytes, lowest first), the input, the length of the output, the output.

pub struct Entry {
    pub input: Vec<u8>,
    pub output: Vec<u8>,
}

pub fn to_bytes(entries: &[Entry]) -> Vec<u8> {
    let mut bytes = Vec::new();
    for entry in entries {
        for part in [&entry.input, &entry.output] {
            bytes.extend((part.len() as u32).to_le_bytes());
            bytes.extend(part);
        }
    }
    bytes
}

pub fn from_bytes(mut bytes: &[u8]) -> Vec<Entry> {
    let mut part = || {
        let (length, rest) = bytes.split_first_chunk::<4>()?;
        let (part, rest) = rest.split_at(u32::from_le_bytes(*length) as usize);
        bytes = rest;
        Some(part.to_vec())
    };
    let mut entries = Vec::new();
    while let Some(input) = part() {
        entries.push(Entry { input, output: part().expect("an output after each input") });
    }
    entries
}
