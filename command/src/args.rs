//! The words after the command.
use std::ffi::{OsStr, OsString};

use crate::escape::escaped;
use crate::failure::Failure;

/// Files, flags, and options with their values.
#[derive(Debug, Default)]
pub struct Args {
    pub files: Vec<OsString>,
    flags: Vec<&'static str>,
    values: Vec<(&'static str, OsString)>,
}

impl Args {
    /// Reads the words. `flags` and `options` are those that may stand here, with their dashes.
    pub fn read(words: &[OsString], flags: &[&'static str], options: &[&'static str]) -> Result<Args, Failure> {
        let mut args = Args::default();
        let mut words = words.iter();
        while let Some(word) = words.next() {
            let text = word.to_str().unwrap_or_default();
            let (name, value) = text.split_once('=').map_or((text, None), |(name, value)| (name, Some(value)));
            if text == "--" {
                args.files.extend(words.by_ref().cloned());
            } else if let Some(flag) = flags.iter().find(|flag| **flag == text) {
                args.flags.push(flag);
            } else if let Some(option) = options.iter().find(|option| **option == name) {
                let value = value.map(OsString::from).or_else(|| words.next().cloned());
                args.option(option, value)?;
            } else if word.as_encoded_bytes().starts_with(b"-") && text != "-" {
                return Err(unknown(word, flags, options));
            } else {
                args.files.push(word.clone());
            }
        }
        Ok(args)
    }

    fn option(&mut self, option: &'static str, value: Option<OsString>) -> Result<(), Failure> {
        let value = value.ok_or_else(|| Failure::new(format!("{option} needs a value")))?;
        if self.value(option).is_some() {
            return Err(Failure::new(format!("{option} is given twice")));
        }
        self.values.push((option, value));
        Ok(())
    }

    pub fn flag(&self, flag: &str) -> bool {
        self.flags.contains(&flag)
    }

    pub fn value(&self, option: &str) -> Option<&OsStr> {
        self.values.iter().find(|(name, _)| *name == option).map(|(_, value)| value.as_os_str())
    }

    /// The value of an option as text; what is no UTF-8 in it is no value of any option but a file.
    pub fn text(&self, option: &str) -> Result<Option<&str>, Failure> {
        let Some(value) = self.value(option) else { return Ok(None) };
        let text = value.to_str().ok_or_else(|| Failure::new(format!("the value of {option} is no UTF-8")))?;
        Ok(Some(text))
    }

    /// The file after `-o`; none for `-`, which is standard output as where no file is given.
    pub fn target(&self) -> Option<&OsStr> {
        self.value("-o").filter(|path| *path != "-")
    }

    pub fn one_file(&self, command: &str) -> Result<&OsString, Failure> {
        match &self.files[..] {
            [file] => Ok(file),
            files => Err(Failure::new(format!(
                "`{command}` takes one file, or `-` for standard input, and {} are given",
                files.len()
            ))),
        }
    }
}

fn unknown(word: &OsStr, flags: &[&str], options: &[&str]) -> Failure {
    let known = [flags, options].concat().join(", ");
    Failure::new(format!("no option `{}` here; these are: {known}", escaped(word.as_encoded_bytes())))
}
