//! As much of serde as just's files name. Nothing of it is ever called.
pub(crate) trait Serialize {
    fn serialize<S: Serializer>(&self, serializer: S) -> Result<S::Ok, S::Error>;
}

pub(crate) trait Serializer: Sized {
    type Ok;
    type Error;
    fn serialize_str(self, text: &str) -> Result<Self::Ok, Self::Error>;
}

pub(crate) trait Deserialize<'de>: Sized {
    fn deserialize<D: Deserializer<'de>>(deserializer: D) -> Result<Self, D::Error>;
}

pub(crate) trait Deserializer<'de>: Sized {
    type Error: de::Error;
    fn text(self) -> Result<String, Self::Error>;
}

impl<'de> Deserialize<'de> for String {
    fn deserialize<D: Deserializer<'de>>(deserializer: D) -> Result<Self, D::Error> {
        deserializer.text()
    }
}

pub(crate) mod de {
    pub(crate) trait Error {
        fn custom(message: String) -> Self;
    }
}
