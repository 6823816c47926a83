use crate::ffi::{self, Text, TEXT_SIZE, TYPES_TEXT_SIZE};
use crate::MatcherType;
use core::fmt;

/// Types of your own, which a text describes, one a line, in the notation of `docs/NOTATION.md`.
#[derive(Debug, Copy, Clone, Eq, PartialEq, Hash)]
pub struct Types<'text> {
    text: &'text [u8],
}

impl<'text> Types<'text> {
    /// The types that the text describes, or its first mistake.
    pub fn new<T: AsRef<[u8]> + ?Sized>(text: &'text T) -> Result<Types<'text>, TypesError> {
        let text = text.as_ref();
        match ffi::types_mistake(text) {
            None => Ok(Types { text }),
            Some((line, column, reason)) => Err(TypesError { line, column, reason }),
        }
    }

    /// The first of these types that stands below what [`crate::get`] answers and accepts the buffer, and the wider answer
    /// if there is none. Nothing is allocated.
    pub fn get(&self, buf: &[u8]) -> Option<Found> {
        let (matcher_type, mime_type, extension) = ffi::types_get(self.text, buf)?;
        Some(Found { matcher_type, mime_type, extension })
    }

    /// The number of the line, from 1, whose type [`Types::get`] gives, and `None` if that is the wider answer. So a type
    /// of your own is told from one of the library that shows the same.
    pub fn line(&self, buf: &[u8]) -> Option<usize> {
        Some(ffi::types_line(self.text, buf)).filter(|line| *line > 0)
    }
}

/// A type that was found: its class, its MIME type and its extension.
#[derive(Copy, Clone, Eq, PartialEq, Hash)]
pub struct Found {
    matcher_type: MatcherType,
    mime_type: Text<TYPES_TEXT_SIZE>,
    extension: Text<TYPES_TEXT_SIZE>,
}

impl Found {
    /// The class.
    pub const fn matcher_type(&self) -> MatcherType {
        self.matcher_type
    }

    /// The MIME type.
    pub fn mime_type(&self) -> &str {
        self.mime_type.as_str()
    }

    /// The extension, without a dot.
    pub fn extension(&self) -> &str {
        self.extension.as_str()
    }
}

impl fmt::Debug for Found {
    fn fmt(&self, f: &mut fmt::Formatter<'_>) -> fmt::Result {
        f.debug_struct("Found")
            .field("matcher_type", &self.matcher_type)
            .field("mime_type", &self.mime_type())
            .field("extension", &self.extension())
            .finish()
    }
}

/// The MIME type, with the width and the fill that are asked for.
impl fmt::Display for Found {
    fn fmt(&self, f: &mut fmt::Formatter<'_>) -> fmt::Result {
        fmt::Display::fmt(self.mime_type(), f)
    }
}

/// The first mistake of a text that describes no types.
#[derive(Copy, Clone, Eq, PartialEq, Hash)]
pub struct TypesError {
    line: usize,
    column: usize,
    reason: Text<TEXT_SIZE>,
}

impl TypesError {
    /// The line, from 1.
    pub const fn line(&self) -> usize {
        self.line
    }

    /// The column, from 1, which counts bytes.
    pub const fn column(&self) -> usize {
        self.column
    }

    /// What is wrong, in words.
    pub fn reason(&self) -> &str {
        self.reason.as_str()
    }
}

impl fmt::Debug for TypesError {
    fn fmt(&self, f: &mut fmt::Formatter<'_>) -> fmt::Result {
        f.debug_struct("TypesError").field("line", &self.line).field("column", &self.column).field("reason", &self.reason()).finish()
    }
}

impl fmt::Display for TypesError {
    fn fmt(&self, f: &mut fmt::Formatter<'_>) -> fmt::Result {
        write!(f, "line {}, column {}: {}", self.line, self.column, self.reason())
    }
}

impl core::error::Error for TypesError {}

/// The older name of [`TypesError`].
#[deprecated(note = "the next version has `TypesError` alone")]
pub type Mistake = TypesError;
