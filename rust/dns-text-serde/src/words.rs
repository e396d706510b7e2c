//! Values that are one string or one number.
use serde::de::{self, Visitor};
use std::fmt;
use std::marker::PhantomData;

/// Parses a string to a value.
struct Words<T, P> {
    expected: &'static str,
    parse: P,
    value: PhantomData<T>,
}

impl<T, P, E> Visitor<'_> for Words<T, P>
where
    P: FnOnce(&str) -> Result<T, E>,
    E: fmt::Display,
{
    type Value = T;

    fn expecting(&self, f: &mut fmt::Formatter<'_>) -> fmt::Result {
        f.write_str(self.expected)
    }

    fn visit_str<R: de::Error>(self, text: &str) -> Result<T, R> {
        (self.parse)(text).map_err(R::custom)
    }
}

/// Deserializes a string by a function.
fn parsed<'de, D, T, E>(
    from: D,
    expected: &'static str,
    parse: impl FnOnce(&str) -> Result<T, E>,
) -> Result<T, D::Error>
where
    D: de::Deserializer<'de>,
    E: fmt::Display,
{
    from.deserialize_str(Words {
        expected,
        parse,
        value: PhantomData,
    })
}

/// A name as a string, as in zone files. Only absolute names end in a dot.
pub mod name {
    use dns_text::Name;
    use serde::{Deserializer, Serializer};

    /// Serializes the text of a name.
    pub fn serialize<S: Serializer>(name: &Name, to: S) -> Result<S::Ok, S::Error> {
        to.collect_str(name)
    }

    /// Deserializes a name from its text.
    pub fn deserialize<'de, D: Deserializer<'de>>(from: D) -> Result<Name, D::Error> {
        super::parsed(from, "a domain name", str::parse::<Name>)
    }
}

/// A character string as a string, in double quotes as in zone files.
pub mod char_str {
    use dns_text::CharStr;
    use serde::{Deserializer, Serializer};

    /// Serializes the quoted text of a string.
    pub fn serialize<S: Serializer>(string: &CharStr, to: S) -> Result<S::Ok, S::Error> {
        to.serialize_str(&string.quoted())
    }

    /// Deserializes a string from its text, with or without double quotes.
    pub fn deserialize<'de, D: Deserializer<'de>>(from: D) -> Result<CharStr, D::Error> {
        super::parsed(from, "a character string", |text| {
            let quoted = text.strip_prefix('"').and_then(|it| it.strip_suffix('"'));
            quoted.unwrap_or(text).parse::<CharStr>()
        })
    }
}

/// A record type or a class as a string.
pub mod word {
    use serde::{Deserializer, Serializer};
    use std::fmt::Display;
    use std::str::FromStr;

    /// Serializes the name, or `TYPE` or `CLASS` and the code.
    pub fn serialize<W: Display, S: Serializer>(word: &W, to: S) -> Result<S::Ok, S::Error> {
        to.collect_str(word)
    }

    /// Deserializes a type or a class from its text.
    pub fn deserialize<'de, W, D>(from: D) -> Result<W, D::Error>
    where
        W: FromStr,
        W::Err: Display,
        D: Deserializer<'de>,
    {
        super::parsed(from, "a record type or a class", str::parse::<W>)
    }
}

/// A TTL as a number of seconds.
pub mod ttl {
    use dns_text::Ttl;
    use serde::de::Error;
    use serde::{Deserialize, Deserializer, Serializer};

    /// Serializes the number of seconds.
    pub fn serialize<S: Serializer>(ttl: &Ttl, to: S) -> Result<S::Ok, S::Error> {
        to.serialize_u32(ttl.seconds())
    }

    /// Deserializes a number of seconds below 2^31.
    pub fn deserialize<'de, D: Deserializer<'de>>(from: D) -> Result<Ttl, D::Error> {
        Ttl::try_from(u32::deserialize(from)?).map_err(D::Error::custom)
    }
}
