//! Other names of the types, from the data file that every language reads. Each leads to the extension of a type.

/// The kind of an alias.
#[derive(Debug, Copy, Clone, Eq, PartialEq, Ord, PartialOrd, Hash)]
pub enum Kind {
    /// Another extension of a type, as "jpeg".
    Extension,
    /// Another MIME type of a type, as "image/jpg".
    MimeType,
    /// The MIME type that browsers want, as "font/woff2".
    Browser,
    /// The extension of a format whose bytes are told as those of a wider one, as "svg", whose bytes are told as "xml".
    BuiltOn,
}

/// Each kind, alias and target, in order.
static ALIASES: &[(Kind, &str, &str)] = include!(concat!(env!("OUT_DIR"), "/aliases.rs"));

/// The extension of the type that an alias leads to.
pub fn target(kind: Kind, alias: &str) -> Option<&'static str> {
    let at = ALIASES.binary_search_by(|it| (it.0, it.1).cmp(&(kind, alias))).ok()?;
    Some(ALIASES[at].2)
}

/// Every alias, with its kind before it and its target after it.
pub fn all() -> impl Iterator<Item = (Kind, &'static str, &'static str)> {
    ALIASES.iter().copied()
}
