#![cfg_attr(feature = "std", doc = include_str!("../README.md"))]
#![cfg_attr(not(feature = "std"), doc = "The type of a file from its first bytes, without the standard library.")]
#![cfg_attr(not(feature = "std"), no_std)]
#![deny(missing_docs)]

extern crate alloc;

use alloc::string::String;
use alloc::vec::Vec;

pub mod aliases;
mod encoding;
mod evidence;
mod ffi;
mod file_type;
mod matchers;
pub mod mimesniff;
pub mod more;
mod named;
#[cfg(feature = "std")]
mod read;
#[cfg(feature = "serde")]
mod serialized;
mod types;

pub use encoding::{encoding, Encoding};
pub use evidence::{evidence, Evidence, Range};
pub use file_type::{Matcher, MatcherType, Type};
pub use matchers::{app, archive, audio, book, doc, font, image, odf, text, video};
#[cfg(feature = "std")]
#[allow(deprecated)]
pub use named::{named_from_path, named_path};
pub use named::{line, named, oddities, Named, NamedType, Oddities, Standing};
#[cfg(feature = "std")]
pub use read::{get_from_path, get_from_reader, whole};
#[allow(deprecated)]
pub use types::Mistake;
pub use types::{Found, Types, TypesError};

/// The built-in types, and those that the caller added, which are asked first.
#[derive(Default)]
pub struct Infer {
    added: Vec<(Type, Matcher)>,
}

impl Infer {
    /// The built-in types alone.
    pub const fn new() -> Infer {
        Infer { added: Vec::new() }
    }

    /// Adds a type of the class [`MatcherType::Custom`], which is asked after those that were added before it.
    pub fn add(&mut self, mime_type: &'static str, extension: &'static str, matcher: Matcher) {
        self.added.push((Type::new(MatcherType::Custom, mime_type, extension, matcher), matcher));
    }

    /// The first type that accepts the buffer.
    pub fn get(&self, buf: &[u8]) -> Option<Type> {
        self.added.iter().find(|(_, matcher)| matcher(buf)).map(|(found, _)| *found).or_else(|| get(buf))
    }

    /// Whether some type with this extension accepts the buffer. It need not be the first.
    pub fn is(&self, buf: &[u8], extension: &str) -> bool {
        self.adds(buf, |it| it.extension() == extension) || is(buf, extension)
    }

    /// Whether some type with this MIME type accepts the buffer. It need not be the first.
    pub fn is_mime(&self, buf: &[u8], mime_type: &str) -> bool {
        self.adds(buf, |it| it.mime_type() == mime_type) || is_mime(buf, mime_type)
    }

    /// Whether some type has this extension.
    pub fn is_supported(&self, extension: &str) -> bool {
        self.added.iter().any(|(it, _)| it.extension() == extension) || is_supported(extension)
    }

    /// Whether some type has this MIME type.
    pub fn is_mime_supported(&self, mime_type: &str) -> bool {
        self.added.iter().any(|(it, _)| it.mime_type() == mime_type) || is_mime_supported(mime_type)
    }

    /// Whether some type that the caller added accepts the buffer.
    pub fn is_custom(&self, buf: &[u8]) -> bool {
        self.adds(buf, |_| true)
    }

    fn adds(&self, buf: &[u8], wanted: impl Fn(&Type) -> bool) -> bool {
        self.added.iter().any(|(it, matcher)| wanted(it) && matcher(buf))
    }
}

/// The first type that accepts the buffer.
pub fn get(buf: &[u8]) -> Option<Type> {
    ffi::position(buf).map(|row| ffi::all_rows()[row])
}

/// Whether some type with this extension accepts the buffer. It need not be the first.
pub fn is(buf: &[u8], extension: &str) -> bool {
    ffi::is(buf, extension)
}

/// Whether some type with this MIME type accepts the buffer. It need not be the first.
pub fn is_mime(buf: &[u8], mime_type: &str) -> bool {
    ffi::is_mime(buf, mime_type)
}

/// Whether some type has this extension.
pub fn is_supported(extension: &str) -> bool {
    ffi::is_supported(extension)
}

/// Whether some type has this MIME type.
pub fn is_mime_supported(mime_type: &str) -> bool {
    ffi::is_mime_supported(mime_type)
}

/// The first type that accepts the buffer, and whether that is final: no bytes that may follow can change it then.
pub fn verdict(buf: &[u8]) -> (Option<Type>, bool) {
    let (row, is_final) = ffi::verdict(buf);
    (row.map(|row| ffi::all_rows()[row]), is_final)
}

/// Whether no bytes that may follow can change what [`get`] answers, told exactly.
pub fn is_decided(buf: &[u8]) -> bool {
    ffi::is_decided(buf)
}

/// Whether some bytes that may follow make some type with this extension accept the buffer. It need not be the first then.
pub fn may_become(buf: &[u8], extension: &str) -> bool {
    ffi::numbered(types(), extension).any(|row| ffi::may_become(buf, row))
}

/// The types that [`get`] knows, in the order in which they are asked.
pub fn types() -> &'static [Type] {
    ffi::rows()
}

/// The version of the library for C, such as "0.1.0".
pub fn version() -> String {
    ffi::version().as_str().into()
}

macro_rules! class_tests {
    ($($name:ident: $what:literal),*) => {
        $(
            #[doc = concat!("Whether some type of ", $what, " accepts the buffer. It need not be the first.")]
            pub fn $name(buf: &[u8]) -> bool {
                ffi::$name(buf)
            }
        )*

        impl Infer {
            $(
                #[doc = concat!("Whether some built-in type of ", $what, " accepts the buffer. It need not be the first.")]
                pub fn $name(&self, buf: &[u8]) -> bool {
                    $name(buf)
                }
            )*
        }
    };
}

class_tests! {
    is_app: "programs", is_archive: "archives", is_audio: "sounds", is_book: "books", is_document: "documents",
    is_font: "fonts", is_image: "images", is_video: "films"
}
