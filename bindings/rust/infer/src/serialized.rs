//! How types are written by serde: as `{"mime": "image/gif", "extension": "gif", "class": "image"}`.
use crate::{Encoding, Found, MatcherType, Named, NamedType, Standing, Type};
use serde::ser::{Serialize, SerializeStruct, Serializer};

/// The name of the class, as the other bindings have it.
impl Serialize for MatcherType {
    fn serialize<S: Serializer>(&self, serializer: S) -> Result<S::Ok, S::Error> {
        serializer.serialize_str(match self {
            MatcherType::App => "app",
            MatcherType::Archive => "archive",
            MatcherType::Audio => "audio",
            MatcherType::Book => "book",
            MatcherType::Doc => "doc",
            MatcherType::Font => "font",
            MatcherType::Image => "image",
            MatcherType::Video => "video",
            MatcherType::Text => "text",
            MatcherType::Custom => "custom",
        })
    }
}

/// The name that IANA has registered.
impl Serialize for Encoding {
    fn serialize<S: Serializer>(&self, serializer: S) -> Result<S::Ok, S::Error> {
        serializer.serialize_str(self.name())
    }
}

impl Serialize for Type {
    fn serialize<S: Serializer>(&self, serializer: S) -> Result<S::Ok, S::Error> {
        of_type(serializer, self.mime_type(), self.extension(), self.matcher_type())
    }
}

impl Serialize for Found {
    fn serialize<S: Serializer>(&self, serializer: S) -> Result<S::Ok, S::Error> {
        of_type(serializer, self.mime_type(), self.extension(), self.matcher_type())
    }
}

/// In words.
impl Serialize for Standing {
    fn serialize<S: Serializer>(&self, serializer: S) -> Result<S::Ok, S::Error> {
        serializer.collect_str(self)
    }
}

impl Serialize for NamedType {
    fn serialize<S: Serializer>(&self, serializer: S) -> Result<S::Ok, S::Error> {
        let mut it = serializer.serialize_struct("NamedType", 3)?;
        it.serialize_field("mime", self.mime_type())?;
        it.serialize_field("extension", &self.extension())?;
        it.serialize_field("own", &self.is_own_name())?;
        it.end()
    }
}

impl Serialize for Named {
    fn serialize<S: Serializer>(&self, serializer: S) -> Result<S::Ok, S::Error> {
        let mut it = serializer.serialize_struct("Named", 4)?;
        it.serialize_field("standing", &self.standing)?;
        it.serialize_field("type", &self.file_type)?;
        it.serialize_field("type_of_name", &self.type_of_name)?;
        it.serialize_field("type_of_bytes", &self.type_of_bytes)?;
        it.end()
    }
}

fn of_type<S: Serializer>(serializer: S, mime_type: &str, extension: &str, class: MatcherType) -> Result<S::Ok, S::Error> {
    let mut it = serializer.serialize_struct("Type", 3)?;
    it.serialize_field("mime", mime_type)?;
    it.serialize_field("extension", extension)?;
    it.serialize_field("class", &class)?;
    it.end()
}
