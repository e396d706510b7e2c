//! The error of octets or values that are not RDATA.
use crate::{NameOctetsError, RecordType};
use std::error::Error;
use std::fmt;

/// The error of octets or values that are not RDATA of their type. It displays as
/// `MX: exchange: relative name`.
///
/// ```
/// use dns_text::{BadDataReason, CharStr, RecordData, RecordType};
///
/// let tag = CharStr::from_octets(b"a b".to_vec())?;
/// let error = RecordData::Caa { flags: 0, tag, value: vec![] }.to_octets().unwrap_err();
/// assert_eq!((error.record_type, error.field), (RecordType::CAA, Some("tag")));
/// assert_eq!(error.reason, BadDataReason::BadTag);
/// # Ok::<(), dns_text::LongString>(())
/// ```
#[derive(Clone, Copy, Debug, PartialEq, Eq)]
pub struct BadData {
    /// The type.
    pub record_type: RecordType,
    /// The field, by its name in messages of the library; `None` if the reason belongs to all RDATA.
    pub field: Option<&'static str>,
    /// What is wrong with it.
    pub reason: BadDataReason,
}

/// Why octets or values are not RDATA of their type.
#[derive(Clone, Copy, Debug, PartialEq, Eq)]
#[non_exhaustive]
pub enum BadDataReason {
    /// The octets end before the end of the field.
    ShortInput,
    /// Octets follow the last field.
    TrailingOctets,
    /// More octets than the field can have, or more than 65,535 in all.
    TooLong,
    /// No octets, strings or types, where one is needed.
    Empty,
    /// Octets that are not a name.
    BadName(NameOctetsError),
    /// A name without the root at its end.
    RelativeName,
    /// A tag with other characters than ASCII letters and digits, or without any (RFC 8659 section 4.1).
    BadTag,
    /// A digest, fingerprint or hash of another length than its number requires, which is this one.
    BadLength(usize),
    /// A type bitmap that is not of the form of RFC 4034 section 4.1.2, or the type 0.
    BadBitmap,
    /// Service parameters that are not in ascending order of their keys, or that RFC 9460 doesn't allow.
    BadParameter,
    /// Octets that the library rejects: those that are not RDATA of a type without a variant, and all of a
    /// type that has no RDATA in zones, such as OPT.
    Rejected,
}

impl fmt::Display for BadDataReason {
    fn fmt(&self, f: &mut fmt::Formatter<'_>) -> fmt::Result {
        match self {
            BadDataReason::ShortInput => f.pad("unexpected end of RDATA"),
            BadDataReason::TrailingOctets => f.pad("octets after the RDATA"),
            BadDataReason::TooLong => f.pad("too many octets"),
            BadDataReason::Empty => f.pad("no value"),
            BadDataReason::BadName(error) => error.fmt(f),
            BadDataReason::RelativeName => f.pad("relative name"),
            BadDataReason::BadTag => f.pad("expected ASCII letters and digits"),
            BadDataReason::BadLength(length) => f.pad(&format!("expected {length} octets")),
            BadDataReason::BadBitmap => f.pad("not a bitmap of types"),
            BadDataReason::BadParameter => {
                f.pad("not service parameters in ascending order of keys")
            }
            BadDataReason::Rejected => f.pad("no RDATA of the type"),
        }
    }
}

impl fmt::Display for BadData {
    fn fmt(&self, f: &mut fmt::Formatter<'_>) -> fmt::Result {
        write!(f, "{}: ", self.record_type)?;
        if let Some(field) = self.field {
            write!(f, "{field}: ")?;
        }
        self.reason.fmt(f)
    }
}

impl Error for BadData {}
