use crate::ffi;
use core::fmt;

/// How a text is encoded.
#[derive(Debug, Copy, Clone, Eq, PartialEq, Hash)]
#[non_exhaustive]
pub enum Encoding {
    /// All bytes are below 0x80.
    UsAscii,
    /// UTF-8, of which some byte is none of US-ASCII.
    Utf8,
    /// UTF-16 whose byte order mark says that the low byte comes first.
    Utf16Le,
    /// UTF-16 whose byte order mark says that the high byte comes first.
    Utf16Be,
}

impl Encoding {
    const ALL: [Encoding; 4] = [Encoding::UsAscii, Encoding::Utf8, Encoding::Utf16Le, Encoding::Utf16Be];

    /// The name that IANA has registered, such as "utf-8".
    pub const fn name(self) -> &'static str {
        match self {
            Encoding::UsAscii => "us-ascii",
            Encoding::Utf8 => "utf-8",
            Encoding::Utf16Le => "utf-16le",
            Encoding::Utf16Be => "utf-16be",
        }
    }
}

/// The name, with the width and the fill that are asked for.
impl fmt::Display for Encoding {
    fn fmt(&self, f: &mut fmt::Formatter<'_>) -> fmt::Result {
        fmt::Display::fmt(self.name(), f)
    }
}

/// How the text in the buffer is encoded. `None` if the buffer is no text, which has a byte order mark first or none of
/// the bytes 00 to 08, 0B, 0E to 1A and 1C to 1F, or if its encoding is another one. A character that is cut at the end
/// makes no difference.
pub fn encoding(buf: &[u8]) -> Option<Encoding> {
    let mut out = [0; ffi::TEXT_SIZE];
    let told = ffi::encoding(buf, &mut out);
    Encoding::ALL.into_iter().find(|it| it.name().as_bytes() == told)
}
