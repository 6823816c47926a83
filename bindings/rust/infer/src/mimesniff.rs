//! MIME types, and what a browser makes of a header and of first bytes, by the MIME Sniffing Standard.
//!
//! ```
//! use infer::mimesniff::{compute, Supplied};
//!
//! let supplied = Supplied { content_type: b"image/png", ..Supplied::default() };
//! assert_eq!(compute(&supplied, b"GIF89a"), Some(b"image/gif".to_vec()));
//! ```
//!
//! A text is bytes, as a header has them, and each counts as the code point with its number.

use crate::ffi;
use alloc::string::String;
use alloc::vec::Vec;
use core::fmt;

/// What bytes are loaded for.
#[derive(Debug, Copy, Clone, Default, Eq, PartialEq, Hash)]
pub enum Context {
    /// A page.
    #[default]
    Page,
    /// An image.
    Image,
    /// Audio or video.
    AudioOrVideo,
    /// A font.
    Font,
    /// A plugin.
    Plugin,
    /// A style sheet.
    Style,
    /// A script.
    Script,
    /// Subtitles.
    TextTrack,
    /// A manifest of what to keep.
    CacheManifest,
}

/// What a response is fetched for.
#[derive(Debug, Copy, Clone, Eq, PartialEq, Hash)]
pub enum Destination {
    /// Scripts, workers and worklets.
    Script,
    /// A style sheet.
    Style,
    /// Anything else.
    Other,
}

/// A group of MIME types. No parameter counts.
#[derive(Debug, Copy, Clone, Eq, PartialEq, Hash)]
pub enum Group {
    /// Images.
    Image,
    /// Audio and video.
    AudioOrVideo,
    /// Fonts.
    Font,
    /// ZIP archives, and what is by its ending based on one.
    ZipBased,
    /// Archives.
    Archive,
    /// XML, also by its ending.
    Xml,
    /// HTML.
    Html,
    /// Documents that may run scripts: XML, HTML and PDF.
    Scriptable,
    /// JavaScript.
    JavaScript,
    /// JSON, also by its ending.
    Json,
}

/// A MIME type, as the standard writes it.
#[derive(Debug, Clone, Eq, PartialEq, Hash)]
pub struct MimeType {
    text: Vec<u8>,
}

impl MimeType {
    /// The MIME type that the text says. `None` if it says none, has more than 256 parameters, or would take more than 4095
    /// bytes.
    pub fn parse(text: &[u8]) -> Option<MimeType> {
        let text = ffi::mime_parse(text);
        (!text.is_empty()).then_some(MimeType { text })
    }

    /// Its text, such as `text/html;charset=utf-8`.
    pub fn as_bytes(&self) -> &[u8] {
        &self.text
    }

    /// The type and the subtype, such as `text/html`.
    pub fn essence(&self) -> &[u8] {
        self.text.split(|byte| *byte == b';').next().unwrap_or_default()
    }

    /// The value of the parameter with this name, in any ASCII case. `None` if there is none.
    pub fn parameter(&self, name: &[u8]) -> Option<Vec<u8>> {
        ffi::mime_parameter(&self.text, name)
    }

    /// Whether it is in the group.
    pub fn is_in(&self, group: Group) -> bool {
        ffi::mime_groups(&self.text) & 1 << group as u32 != 0
    }

    /// What a browser takes it for that supports it or not, such as `application/json` of `text/json`.
    pub fn minimize(&self, is_supported: bool) -> Option<Vec<u8>> {
        Some(ffi::mime_minimize(&self.text, is_supported)).filter(|text| !text.is_empty())
    }
}

/// The MIME type that the values of Content-Type say together, as Fetch extracts it. If the last of them has no charset, it has
/// that of the first of the values in a row with its type and subtype. Several values are given as one, with ", " between them.
///
/// ```
/// let found = infer::mimesniff::extract(b"text/html;charset=gbk, text/html");
/// assert_eq!(found.unwrap().to_string(), "text/html;charset=gbk");
/// ```
pub fn extract(content_type: &[u8]) -> Option<MimeType> {
    MimeType::parse(&ffi::mime_extract(content_type))
}

/// Each byte as the code point with its number.
impl fmt::Display for MimeType {
    fn fmt(&self, f: &mut fmt::Formatter<'_>) -> fmt::Result {
        f.pad(&self.text.iter().copied().map(char::from).collect::<String>())
    }
}

/// What is known of a resource before its bytes are looked at.
#[derive(Debug, Copy, Clone, Default, Eq, PartialEq, Hash)]
pub struct Supplied<'a> {
    /// The MIME type that was told, and nothing if none was.
    pub content_type: &'a [u8],
    /// Whether sniffing is forbidden, as [`is_nosniff`] tells.
    pub no_sniff: bool,
    /// Whether the header is one that old servers sent of every file, as [`is_old_server`] tells.
    pub old_server: bool,
    /// What the bytes are loaded for.
    pub context: Context,
}

impl Supplied<'_> {
    fn flags(&self) -> u32 {
        u32::from(self.no_sniff) + 2 * u32::from(self.old_server)
    }
}

/// The type that a browser computes of what is known and of the first 1445 bytes. `None` if nothing is told and nothing is
/// found, which is never so of a page.
pub fn compute(supplied: &Supplied<'_>, buf: &[u8]) -> Option<Vec<u8>> {
    let text = ffi::mime_compute(supplied.content_type, supplied.flags(), supplied.context as i32, buf);
    Some(text).filter(|text| !text.is_empty())
}

/// Whether no bytes that may follow change what [`compute`] says of a page, whatever the context is. A yes is certain.
pub fn is_decided(supplied: &Supplied<'_>, buf: &[u8]) -> bool {
    ffi::mime_is_decided(supplied.content_type, supplied.flags(), buf)
}

/// Whether some bytes that may follow make a browser that was told no type run scripts. A no is certain.
pub fn may_be_scriptable(buf: &[u8]) -> bool {
    ffi::mime_may_be_scriptable(buf)
}

/// Whether the value of X-Content-Type-Options forbids to sniff. Several values are given as one, with ", " between them.
pub fn is_nosniff(value: &[u8]) -> bool {
    ffi::mime_is_nosniff(value)
}

/// Whether a response that forbids to sniff is blocked, by the value of Content-Type and what it is fetched for.
pub fn is_blocked(value: &[u8], destination: Destination) -> bool {
    ffi::mime_is_blocked(value, destination as i32)
}

/// Whether the value of the last Content-Type is one that old servers sent of every file.
pub fn is_old_server(value: &[u8]) -> bool {
    ffi::mime_is_old_server(value)
}
