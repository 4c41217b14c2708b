//! Short texts, kept in place.

use core::fmt;
use core::ops::Deref;

use crate::error::{checked, Error};

/// The longest text with its zero byte: `FIXED_ANSWER_SIZE`.
const SIZE: usize = 193;

/// A short text without an allocation. It is used as a `str`.
#[derive(Clone, Copy)]
pub struct Text {
    bytes: [u8; SIZE],
    len: usize,
}

impl Text {
    /// The text as a `str`.
    pub fn as_str(&self) -> &str {
        core::str::from_utf8(&self.bytes[..self.len]).unwrap_or_default()
    }
}

/// The text that a call writes into a buffer, given its address, its size and the place of the text's length.
pub(crate) fn written(call: impl FnOnce(*mut u8, usize, *mut usize) -> u32) -> Result<Text, Error> {
    let mut text = Text::default();
    let mut len = 0;
    checked(call(text.bytes.as_mut_ptr(), SIZE, &mut len))?;
    text.len = len;
    Ok(text)
}

impl Default for Text {
    /// The empty text.
    fn default() -> Text {
        Text { bytes: [0; SIZE], len: 0 }
    }
}

impl Deref for Text {
    type Target = str;

    fn deref(&self) -> &str {
        self.as_str()
    }
}

impl AsRef<str> for Text {
    fn as_ref(&self) -> &str {
        self.as_str()
    }
}

impl AsRef<[u8]> for Text {
    fn as_ref(&self) -> &[u8] {
        self.as_str().as_bytes()
    }
}

impl fmt::Display for Text {
    fn fmt(&self, f: &mut fmt::Formatter<'_>) -> fmt::Result {
        f.pad(self.as_str())
    }
}

impl fmt::Debug for Text {
    fn fmt(&self, f: &mut fmt::Formatter<'_>) -> fmt::Result {
        fmt::Debug::fmt(self.as_str(), f)
    }
}

impl PartialEq for Text {
    fn eq(&self, other: &Text) -> bool {
        self.as_str() == other.as_str()
    }
}

impl Eq for Text {}

impl PartialEq<str> for Text {
    fn eq(&self, other: &str) -> bool {
        self.as_str() == other
    }
}

impl PartialEq<&str> for Text {
    fn eq(&self, other: &&str) -> bool {
        self.as_str() == *other
    }
}
