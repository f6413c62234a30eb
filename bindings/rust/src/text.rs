//! The text of a name.
use std::fmt;
use std::str::Utf8Error;

/// The text of a name, as its snapshot has it.
#[derive(Clone, PartialEq, Eq, Hash)]
pub struct Text(pub(crate) Box<[u8]>);

impl Text {
    /// Bytes of a text, at most.
    pub const MAX_BYTES: usize = 255;

    /// The bytes, which may be any.
    #[must_use]
    pub fn as_bytes(&self) -> &[u8] {
        &self.0
    }

    /// The text, where its bytes are UTF-8.
    ///
    /// # Errors
    ///
    /// The check of a snapshot does not look at the bytes of a text, so they may be no UTF-8.
    pub fn to_str(&self) -> Result<&str, Utf8Error> {
        std::str::from_utf8(&self.0)
    }
}

impl AsRef<[u8]> for Text {
    fn as_ref(&self) -> &[u8] {
        &self.0
    }
}

/// Bytes that are no UTF-8 are shown as U+FFFD.
impl fmt::Display for Text {
    fn fmt(&self, f: &mut fmt::Formatter<'_>) -> fmt::Result {
        f.pad(&String::from_utf8_lossy(&self.0))
    }
}

impl fmt::Debug for Text {
    fn fmt(&self, f: &mut fmt::Formatter<'_>) -> fmt::Result {
        fmt::Debug::fmt(&String::from_utf8_lossy(&self.0), f)
    }
}
