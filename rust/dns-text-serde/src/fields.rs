//! RDATA and records, as maps of the fields that `zonetext records --json` prints.
use dns_text::{Class, Name, RecordData, RecordType, Ttl};
use serde::de::{self, Error, MapAccess, Visitor};
use serde::{Deserialize, Deserializer};
use std::fmt;

/// Names of the fields, in order.
const FIELDS: [&str; 5] = ["owner", "ttl", "class", "type", "data"];

/// The values of the fields that were read.
#[derive(Default)]
struct Fields {
    owner: Option<Name>,
    ttl: Option<Ttl>,
    class: Option<Class>,
    record_type: Option<RecordType>,
    data: Option<String>,
}

impl Fields {
    /// Returns the RDATA of type and text. Fails if one is missing, or if the text is not RDATA of the type.
    fn data<E: Error>(&mut self) -> Result<RecordData, E> {
        let record_type = required(self.record_type.take(), "type")?;
        let text = required(self.data.take(), "data")?;
        RecordData::from_text(record_type, text.as_bytes(), None).map_err(E::custom)
    }
}

fn required<T, E: Error>(value: Option<T>, field: &'static str) -> Result<T, E> {
    value.ok_or_else(|| E::missing_field(field))
}

/// Sets a field once.
fn set<T, E: Error>(field: &mut Option<T>, name: &'static str, value: T) -> Result<(), E> {
    match field.replace(value) {
        None => Ok(()),
        Some(_) => Err(E::duplicate_field(name)),
    }
}

/// A value by a function that deserializes it.
macro_rules! by {
    ($name:ident, $value:ty, $module:path) => {
        struct $name($value);

        impl<'de> Deserialize<'de> for $name {
            fn deserialize<D: Deserializer<'de>>(from: D) -> Result<Self, D::Error> {
                use $module as module;
                module::deserialize(from).map($name)
            }
        }
    };
}

by!(Owner, Name, crate::words::name);
by!(Seconds, Ttl, crate::words::ttl);
by!(ClassWord, Class, crate::words::word);
by!(TypeWord, RecordType, crate::words::word);

/// Reads the fields of a map; others are skipped.
struct FieldsVisitor(&'static str);

impl<'de> Visitor<'de> for FieldsVisitor {
    type Value = Fields;

    fn expecting(&self, f: &mut fmt::Formatter<'_>) -> fmt::Result {
        f.write_str(self.0)
    }

    fn visit_map<M: MapAccess<'de>>(self, mut map: M) -> Result<Fields, M::Error> {
        let mut fields = Fields::default();
        while let Some(name) = map.next_key::<String>()? {
            match name.as_str() {
                "owner" => set(&mut fields.owner, "owner", map.next_value::<Owner>()?.0)?,
                "ttl" => set(&mut fields.ttl, "ttl", map.next_value::<Seconds>()?.0)?,
                "class" => set(&mut fields.class, "class", map.next_value::<ClassWord>()?.0)?,
                "type" => set(
                    &mut fields.record_type,
                    "type",
                    map.next_value::<TypeWord>()?.0,
                )?,
                "data" => set(&mut fields.data, "data", map.next_value()?)?,
                _ => {
                    map.next_value::<de::IgnoredAny>()?;
                }
            }
        }
        Ok(fields)
    }
}

/// RDATA as a map: `type`, and `data` in presentation format.
pub mod record_data {
    use super::{FieldsVisitor, FIELDS};
    use dns_text::RecordData;
    use serde::ser::{Error, SerializeStruct};
    use serde::{Deserializer, Serializer};

    /// Serializes type and text of RDATA. Fails for values that the type does not allow.
    pub fn serialize<S: Serializer>(data: &RecordData, to: S) -> Result<S::Ok, S::Error> {
        let text = data.to_text().map_err(S::Error::custom)?;
        let mut map = to.serialize_struct("RecordData", 2)?;
        map.serialize_field("type", &data.record_type().to_string())?;
        map.serialize_field("data", &text)?;
        map.end()
    }

    /// Deserializes RDATA from type and text, in which names are absolute.
    pub fn deserialize<'de, D: Deserializer<'de>>(from: D) -> Result<RecordData, D::Error> {
        let visitor = FieldsVisitor("a record type and its data");
        from.deserialize_struct("RecordData", &FIELDS[3..], visitor)?
            .data()
    }
}

/// A record as a map: `owner`, `ttl`, `class`, `type`, and `data` in presentation format.
pub mod record {
    use super::{required, FieldsVisitor, FIELDS};
    use dns_text::Record;
    use serde::ser::{Error, SerializeStruct};
    use serde::{Deserializer, Serializer};

    /// Serializes the fields of a record. Fails for RDATA with values that the type does not allow.
    pub fn serialize<S: Serializer>(record: &Record, to: S) -> Result<S::Ok, S::Error> {
        let text = record.data.to_text().map_err(S::Error::custom)?;
        let mut map = to.serialize_struct("Record", 5)?;
        map.serialize_field("owner", &record.owner.to_string())?;
        map.serialize_field("ttl", &record.ttl.seconds())?;
        map.serialize_field("class", &record.class.to_string())?;
        map.serialize_field("type", &record.record_type().to_string())?;
        map.serialize_field("data", &text)?;
        map.end()
    }

    /// Deserializes a record, in whose RDATA names are absolute. Its offsets are 0.
    pub fn deserialize<'de, D: Deserializer<'de>>(from: D) -> Result<Record, D::Error> {
        let visitor = FieldsVisitor("a record");
        let mut fields = from.deserialize_struct("Record", &FIELDS, visitor)?;
        let data = fields.data()?;
        let owner = required(fields.owner, "owner")?;
        if !owner.is_absolute() {
            return Err(serde::de::Error::custom("the owner is a relative name"));
        }
        Ok(Record {
            place: 0,
            data_place: 0,
            end: 0,
            owner,
            ttl: required(fields.ttl, "ttl")?,
            class: required(fields.class, "class")?,
            data,
        })
    }
}
