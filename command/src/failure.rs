//! What keeps the command from an answer: status 2.
use std::fmt;
use std::io;

/// Its message goes to standard error; a pipe that was closed by its reader has none.
#[derive(Debug)]
pub struct Failure {
    message: Option<String>,
}

impl Failure {
    pub fn new(message: impl Into<String>) -> Self {
        Failure { message: Some(message.into()) }
    }

    /// What was written could not be.
    pub fn writing(label: &str, error: &io::Error) -> Self {
        let message = (error.kind() != io::ErrorKind::BrokenPipe).then(|| format!("cannot write {label}: {error}"));
        Failure { message }
    }

    pub fn is_silent(&self) -> bool {
        self.message.is_none()
    }
}

impl fmt::Display for Failure {
    fn fmt(&self, f: &mut fmt::Formatter<'_>) -> fmt::Result {
        f.write_str(self.message.as_deref().unwrap_or_default())
    }
}
