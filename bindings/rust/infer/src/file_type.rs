use core::fmt;

/// Tells whether a buffer is of a type.
pub type Matcher = fn(buf: &[u8]) -> bool;

/// The class of a type.
#[derive(Debug, Copy, Clone, Eq, PartialEq, Hash)]
pub enum MatcherType {
    /// A program, such as "exe".
    App,
    /// An archive, such as "zip", and a few others, such as "pdf".
    Archive,
    /// A sound, such as "mp3".
    Audio,
    /// A book, such as "mobi".
    Book,
    /// A document of Office or OpenDocument, such as "docx".
    Doc,
    /// A font, such as "woff".
    Font,
    /// An image, such as "png".
    Image,
    /// A film, such as "mp4".
    Video,
    /// A text, such as "html".
    Text,
    /// A type that the caller added.
    Custom,
}

/// A type: its class, its MIME type and its usual extension.
#[derive(Copy, Clone, Eq, PartialEq, Hash)]
pub struct Type {
    matcher_type: MatcherType,
    mime_type: &'static str,
    extension: &'static str,
}

impl Type {
    /// A type of these values. The matcher is neither kept nor called.
    pub const fn new(matcher_type: MatcherType, mime_type: &'static str, extension: &'static str, _matcher: Matcher) -> Type {
        Type::of(matcher_type, mime_type, extension)
    }

    pub(crate) const fn of(matcher_type: MatcherType, mime_type: &'static str, extension: &'static str) -> Type {
        Type { matcher_type, mime_type, extension }
    }

    /// The class.
    pub const fn matcher_type(&self) -> MatcherType {
        self.matcher_type
    }

    /// The MIME type.
    pub const fn mime_type(&self) -> &'static str {
        self.mime_type
    }

    /// The usual extension, without a dot.
    pub const fn extension(&self) -> &'static str {
        self.extension
    }
}

impl fmt::Debug for Type {
    fn fmt(&self, f: &mut fmt::Formatter<'_>) -> fmt::Result {
        f.debug_struct("Type")
            .field("matcher_type", &self.matcher_type)
            .field("mime_type", &self.mime_type)
            .field("extension", &self.extension)
            .finish_non_exhaustive()
    }
}

/// The MIME type, with the width and the fill that are asked for.
impl fmt::Display for Type {
    fn fmt(&self, f: &mut fmt::Formatter<'_>) -> fmt::Result {
        fmt::Display::fmt(self.mime_type, f)
    }
}
