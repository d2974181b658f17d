use crate::alloc::{AllocError, Global};
use std::borrow::Borrow;
use std::fmt;
use std::ops::Deref;

/// A text. What makes it longer answers whether there was memory.
#[derive(Debug, Default, PartialEq, Eq, PartialOrd, Ord, Hash)]
pub struct String {
    text: std::string::String,
}

impl String {
    /// A text of nothing, for which no memory is taken.
    pub const fn new(_alloc: Global) -> String {
        String {
            text: std::string::String::new(),
        }
    }

    /// A copy of this text.
    pub fn from_str(alloc: Global, text: &str) -> Result<String, AllocError> {
        let mut made = String::new(alloc);
        made.push_str(text)?;
        Ok(made)
    }

    /// Puts a text at the end.
    pub fn push_str(&mut self, text: &str) -> Result<(), AllocError> {
        self.text.try_reserve(text.len()).map_err(|_| AllocError)?;
        self.text.push_str(text);
        Ok(())
    }

    /// The text.
    pub fn as_str(&self) -> &str {
        &self.text
    }
}

impl fmt::Write for String {
    fn write_str(&mut self, text: &str) -> fmt::Result {
        self.push_str(text).map_err(|_| fmt::Error)
    }
}

impl fmt::Display for String {
    fn fmt(&self, f: &mut fmt::Formatter<'_>) -> fmt::Result {
        f.write_str(&self.text)
    }
}

impl Deref for String {
    type Target = str;

    fn deref(&self) -> &str {
        &self.text
    }
}

impl Borrow<str> for String {
    fn borrow(&self) -> &str {
        &self.text
    }
}

/// What `format!` makes.
pub fn formatted(alloc: Global, words: fmt::Arguments<'_>) -> Result<String, AllocError> {
    let mut made = String::new(alloc);
    fmt::write(&mut made, words).map_err(|_| AllocError)?;
    Ok(made)
}

/// What has a text.
pub trait AsStr {
    /// The text.
    fn as_str(&self) -> &str;
}

impl AsStr for &str {
    fn as_str(&self) -> &str {
        self
    }
}

impl AsStr for String {
    fn as_str(&self) -> &str {
        &self.text
    }
}
