use crate::ffi::{self, NamedTexts};
use crate::Type;
use alloc::string::String;
use alloc::vec;
use core::fmt;
use core::ops::BitOr;
#[cfg(feature = "std")]
use std::{io, path::Path};

/// What a name did beside the bytes of its file.
#[derive(Debug, Copy, Clone, Eq, PartialEq, Hash)]
pub enum Standing {
    /// The bytes are of the type that the name has.
    Agree,
    /// They may begin a file of the type that the name has, which is told.
    NameRefines,
    /// They are of a finer kind of the type that the name has. Theirs is told.
    BytesRefine,
    /// The name says nothing, and the bytes have a type.
    BytesAlone,
    /// No type accepts the bytes, and they may be of the type that the name has.
    NameAlone,
    /// The bytes are not of a type that the name has.
    Contradicts,
    /// Neither says anything.
    Nothing,
}

/// In words, as "name refines".
impl fmt::Display for Standing {
    fn fmt(&self, f: &mut fmt::Formatter<'_>) -> fmt::Result {
        f.pad(match self {
            Standing::Agree => "agree",
            Standing::NameRefines => "name refines",
            Standing::BytesRefine => "bytes refine",
            Standing::BytesAlone => "bytes alone",
            Standing::NameAlone => "name alone",
            Standing::Contradicts => "contradicts",
            Standing::Nothing => "nothing",
        })
    }
}

fn standing_of(code: i32) -> Standing {
    match code {
        0 => Standing::Agree,
        1 => Standing::NameRefines,
        2 => Standing::BytesRefine,
        3 => Standing::BytesAlone,
        4 => Standing::NameAlone,
        5 => Standing::Contradicts,
        _ => Standing::Nothing,
    }
}

/// A type that [`named`] tells.
#[derive(Copy, Clone, Eq, PartialEq, Hash)]
pub struct NamedType {
    texts: NamedTexts,
}

impl NamedType {
    fn of(texts: NamedTexts) -> Option<NamedType> {
        Some(NamedType { texts }).filter(|it| !it.mime_type().is_empty())
    }

    /// The MIME type.
    pub fn mime_type(&self) -> &str {
        self.texts.mime_type.as_str()
    }

    /// The usual extension, without a dot, and `None` if only names tell of the type.
    pub fn extension(&self) -> Option<&str> {
        Some(self.texts.extension.as_str()).filter(|it| !it.is_empty())
    }

    /// Whether nobody else names the type, so that it tells files apart and is not to be sent.
    pub const fn is_own_name(&self) -> bool {
        self.texts.is_own_name
    }
}

impl fmt::Debug for NamedType {
    fn fmt(&self, f: &mut fmt::Formatter<'_>) -> fmt::Result {
        f.debug_struct("NamedType")
            .field("mime_type", &self.mime_type())
            .field("extension", &self.extension())
            .field("is_own_name", &self.is_own_name())
            .finish()
    }
}

/// The MIME type, with the width and the fill that are asked for.
impl fmt::Display for NamedType {
    fn fmt(&self, f: &mut fmt::Formatter<'_>) -> fmt::Result {
        fmt::Display::fmt(self.mime_type(), f)
    }
}

/// What a name and bytes tell.
#[derive(Debug, Copy, Clone, Eq, PartialEq, Hash)]
pub struct Named {
    /// What the name did.
    pub standing: Standing,
    /// The type, if one is told.
    pub file_type: Option<NamedType>,
    /// The type that the name has first, whatever the bytes are.
    pub type_of_name: Option<NamedType>,
    /// The wider answer, which the bytes have whatever the name is.
    pub type_of_bytes: Option<Type>,
    /// The older name of `file_type`.
    #[deprecated(note = "the next version has `file_type` alone")]
    pub told: Option<NamedType>,
    /// The older name of `type_of_name`.
    #[deprecated(note = "the next version has `type_of_name` alone")]
    pub of_name: Option<NamedType>,
    /// The older name of `type_of_bytes`.
    #[deprecated(note = "the next version has `type_of_bytes` alone")]
    pub of_bytes: Option<Type>,
}

/// What a file's name and its first bytes tell. The bytes win: a name only chooses among what they leave open.
///
/// ```
/// let found = infer::named(b"main.py", b"import os");
/// assert_eq!(found.file_type.unwrap().mime_type(), "text/x-python");
/// ```
#[allow(deprecated)]
pub fn named(name: &[u8], buf: &[u8]) -> Named {
    let found = ffi::named(name, buf);
    let (file_type, type_of_name) = (NamedType::of(found.told), NamedType::of(found.name));
    let type_of_bytes = usize::try_from(found.row).ok().map(|row| ffi::all_rows()[row]);
    Named {
        standing: standing_of(found.standing),
        file_type,
        type_of_name,
        type_of_bytes,
        told: file_type,
        of_name: type_of_name,
        of_bytes: type_of_bytes,
    }
}

/// What is odd about a name. A name with one of the first two misleads whoever sees it, so a gate should refuse it. Honest
/// names have two extensions too, such as `initial.json.gz`.
#[derive(Debug, Copy, Clone, Default, Eq, PartialEq, Hash)]
pub struct Oddities(u32);

impl Oddities {
    /// A control character of ASCII.
    pub const CONTROL: Oddities = Oddities(1);
    /// A mark of writing direction: after one, gnp.exe is shown as exe.png.
    pub const DIRECTION: Oddities = Oddities(2);
    /// A dot or a blank at the end of the base name, which Windows removes.
    pub const END: Oddities = Oddities(4);
    /// Another extension before the last, as in shell.php.jpg.
    pub const TWO_EXTENSIONS: Oddities = Oddities(8);

    /// Whether nothing is odd.
    pub const fn is_empty(self) -> bool {
        self.0 == 0
    }

    /// Whether all of these are among them.
    pub const fn contains(self, other: Oddities) -> bool {
        self.0 & other.0 == other.0
    }
}

impl BitOr for Oddities {
    type Output = Oddities;

    fn bitor(self, other: Oddities) -> Oddities {
        Oddities(self.0 | other.0)
    }
}

/// What is odd about a name. It changes nothing of what [`named`] tells.
///
/// ```
/// assert!(infer::oddities(b"shell.php.jpg").contains(infer::Oddities::TWO_EXTENSIONS));
/// ```
pub fn oddities(name: &[u8]) -> Oddities {
    Oddities(ffi::oddities(name))
}

/// The line that the program `infer_label` prints of a file's name and its first bytes, without its end. Nothing of a name
/// moves a cursor or is hidden.
///
/// ```
/// assert_eq!(infer::line(b"main.py", b"import os"), "main.py: text/x-python py, us-ascii");
/// ```
pub fn line(name: &[u8], buf: &[u8]) -> String {
    let mut out = vec![0; 1 + ffi::line(name, buf, &mut [])];
    let size = ffi::line(name, buf, &mut out);
    out.truncate(size - 1);
    String::from_utf8(out).unwrap_or_default()
}

/// What the path, as a name, and the first 8192 bytes of that regular file tell, or its fault.
#[cfg(feature = "std")]
pub fn named_from_path<P: AsRef<Path>>(path: P) -> io::Result<Named> {
    let front = crate::read::front_of_path(path.as_ref())?;
    Ok(named(path.as_ref().as_os_str().as_encoded_bytes(), &front))
}

/// The older name of [`named_from_path`].
#[cfg(feature = "std")]
#[deprecated(note = "the next version has `named_from_path` alone")]
pub fn named_path<P: AsRef<Path>>(path: P) -> io::Result<Named> {
    named_from_path(path)
}
