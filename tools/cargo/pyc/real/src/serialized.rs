//! Codes and findings in the formats of serde.

use crate::{Code, Finding, NameKind};
use serde::de::{self, Deserialize, Deserializer, SeqAccess, Visitor};
use serde::ser::{self, Serialize, SerializeStruct, Serializer};
use std::fmt;

/// The bytes of the file of the code.
impl Serialize for Code {
    fn serialize<S: Serializer>(&self, serializer: S) -> Result<S::Ok, S::Error> {
        serializer.serialize_bytes(&self.to_bytes().map_err(ser::Error::custom)?)
    }
}

/// The code that the bytes of a file are, once it is verified.
impl<'de> Deserialize<'de> for Code {
    fn deserialize<D: Deserializer<'de>>(deserializer: D) -> Result<Code, D::Error> {
        deserializer.deserialize_bytes(File)
    }
}

/// Takes the bytes of a file, together or one by one.
struct File;

impl<'de> Visitor<'de> for File {
    type Value = Code;

    fn expecting(&self, f: &mut fmt::Formatter<'_>) -> fmt::Result {
        f.write_str("the bytes of a file of code")
    }

    fn visit_bytes<E: de::Error>(self, file: &[u8]) -> Result<Code, E> {
        Code::from_bytes(file).map_err(E::custom)
    }

    fn visit_seq<A: SeqAccess<'de>>(self, mut bytes: A) -> Result<Code, A::Error> {
        let mut file = Vec::new();
        while let Some(byte) = bytes.next_element()? {
            file.try_reserve(1).map_err(de::Error::custom)?;
            file.push(byte);
        }
        self.visit_bytes(&file)
    }
}

/// The kind as the program writes it, the scope, the name, and the other scope.
impl Serialize for Finding {
    fn serialize<S: Serializer>(&self, serializer: S) -> Result<S::Ok, S::Error> {
        let mut fields = serializer.serialize_struct("Finding", 4)?;
        fields.serialize_field("kind", kind(self.kind))?;
        fields.serialize_field("scope", &self.scope)?;
        fields.serialize_field("name", &self.name)?;
        fields.serialize_field("other", &self.other)?;
        fields.end()
    }
}

fn kind(kind: NameKind) -> &'static str {
    match kind {
        NameKind::Unused => "unused",
        NameKind::Unbound => "unbound",
        NameKind::Shadowed => "shadowed",
        NameKind::Captured => "captured",
    }
}
