//! TTLs, types and classes of records, each of which is one word of a zone file.
use crate::library;
use crate::status::reasons;
use crate::strings::reads_strings;
use dns_text_sys::{
    dnstext_class_print, dnstext_class_read, dnstext_outcome, dnstext_ttl_read, dnstext_type_print,
    dnstext_type_read, DNSTEXT_OK,
};
use std::error::Error;
use std::fmt;
use std::time::Duration;

/// A TTL in seconds, below 2^31 (RFC 2181 section 8). It displays as the number of seconds.
///
/// ```
/// use dns_text::Ttl;
///
/// assert_eq!(Ttl::from_text(b"1h30m")?.seconds(), 5400);
/// assert_eq!("1W2D".parse::<Ttl>()?.to_string(), "777600");
/// assert!(Ttl::from_text(b"2147483648").is_err());
/// assert_eq!(u32::from(Ttl::try_from(60)?), 60);
/// assert!(Ttl::try_from(1 << 31).is_err());
/// # Ok::<(), Box<dyn std::error::Error>>(())
/// ```
#[derive(Clone, Copy, Debug, Default, PartialEq, Eq, PartialOrd, Ord, Hash)]
pub struct Ttl(u32);

impl Ttl {
    /// The maximum TTL, 2^31 - 1 seconds.
    pub const MAX: Ttl = Ttl(0x7FFF_FFFF);

    /// Returns the TTL of a number of seconds, if that is below 2^31.
    #[must_use]
    pub fn from_seconds(seconds: u32) -> Option<Ttl> {
        (seconds <= Ttl::MAX.0).then_some(Ttl(seconds))
    }

    /// Parses a word: a number of seconds, or periods such as `1h30m` with the units `w`, `d`, `h`,
    /// `m` and `s` in either case.
    pub fn from_text(text: &[u8]) -> Result<Ttl, WordError> {
        read(dnstext_ttl_read, text).map(Ttl)
    }

    /// Returns the number of seconds.
    #[must_use]
    pub fn seconds(self) -> u32 {
        self.0
    }
}

impl From<Ttl> for u32 {
    fn from(ttl: Ttl) -> u32 {
        ttl.0
    }
}

impl TryFrom<u32> for Ttl {
    type Error = LongTtl;

    fn try_from(seconds: u32) -> Result<Ttl, LongTtl> {
        Ttl::from_seconds(seconds).ok_or(LongTtl)
    }
}

/// The error of a TTL of 2^31 seconds or more.
#[derive(Clone, Copy, Debug, PartialEq, Eq)]
pub struct LongTtl;

impl fmt::Display for LongTtl {
    fn fmt(&self, f: &mut fmt::Formatter<'_>) -> fmt::Result {
        f.pad("TTL exceeds 2147483647 seconds")
    }
}

impl Error for LongTtl {}

impl From<Ttl> for Duration {
    fn from(ttl: Ttl) -> Duration {
        Duration::from_secs(ttl.0.into())
    }
}

impl fmt::Display for Ttl {
    fn fmt(&self, f: &mut fmt::Formatter<'_>) -> fmt::Result {
        self.0.fmt(f)
    }
}

/// A record type, by its code. It displays as its name in IANA's registry, or without one as `TYPE`
/// and the code (RFC 3597 section 5).
///
/// ```
/// use dns_text::RecordType;
///
/// assert_eq!(RecordType::from_text(b"type15")?, RecordType::MX);
/// assert_eq!("aaaa".parse::<RecordType>()?.to_string(), "AAAA");
/// assert_eq!(RecordType(65280).to_string(), "TYPE65280");
/// assert_eq!(format!("{:?}", RecordType::HTTPS), "RecordType(HTTPS)");
/// assert_eq!((RecordType::from(15), u16::from(RecordType::MX)), (RecordType::MX, 15));
/// let error = RecordType::from_text(b"CNMAE").unwrap_err();
/// assert_eq!(error.to_string(), "unknown record type at 0");
/// # Ok::<(), dns_text::WordError>(())
/// ```
#[derive(Clone, Copy, PartialEq, Eq, PartialOrd, Ord, Hash)]
pub struct RecordType(pub u16);

impl RecordType {
    /// Parses a word: a name of the registry, or `TYPE` and the code, in any case of the letters.
    pub fn from_text(text: &[u8]) -> Result<RecordType, WordError> {
        read(dnstext_type_read, text).map(RecordType)
    }
}

impl fmt::Display for RecordType {
    fn fmt(&self, f: &mut fmt::Formatter<'_>) -> fmt::Result {
        print(dnstext_type_print, self.0, f)
    }
}

/// Shows the name, as it displays.
impl fmt::Debug for RecordType {
    fn fmt(&self, f: &mut fmt::Formatter<'_>) -> fmt::Result {
        write!(f, "RecordType({self})")
    }
}

/// A class, by its code. It displays as `IN`, `CH` or `HS`, and otherwise as `CLASS` and the code
/// (RFC 3597 section 5).
///
/// ```
/// use dns_text::Class;
///
/// assert_eq!(Class::from_text(b"in")?, Class::IN);
/// assert_eq!(Class::from_text(b"CLASS3")?.to_string(), "CH");
/// assert_eq!(Class(254).to_string(), "CLASS254");
/// assert_eq!(format!("{:?}", Class::CH), "Class(CH)");
/// assert_eq!((Class::from(1), u16::from(Class::IN)), (Class::IN, 1));
/// # Ok::<(), dns_text::WordError>(())
/// ```
#[derive(Clone, Copy, PartialEq, Eq, PartialOrd, Ord, Hash)]
pub struct Class(pub u16);

impl Class {
    /// The Internet (RFC 1035 section 3.2.4).
    pub const IN: Class = Class(1);
    /// Chaos (RFC 1035 section 3.2.4).
    pub const CH: Class = Class(3);
    /// Hesiod (RFC 1035 section 3.2.4).
    pub const HS: Class = Class(4);

    /// Parses a word: `IN`, `CH`, `HS`, or `CLASS` and the code, in any case of the letters.
    pub fn from_text(text: &[u8]) -> Result<Class, WordError> {
        read(dnstext_class_read, text).map(Class)
    }
}

impl fmt::Display for Class {
    fn fmt(&self, f: &mut fmt::Formatter<'_>) -> fmt::Result {
        print(dnstext_class_print, self.0, f)
    }
}

/// Shows the name, as it displays.
impl fmt::Debug for Class {
    fn fmt(&self, f: &mut fmt::Formatter<'_>) -> fmt::Result {
        write!(f, "Class({self})")
    }
}

/// Implements the conversions of a code.
macro_rules! codes {
    ($($code:ident,)*) => {$(
        impl From<u16> for $code {
            fn from(code: u16) -> $code {
                $code(code)
            }
        }

        impl From<$code> for u16 {
            fn from(code: $code) -> u16 {
                code.0
            }
        }
    )*};
}

codes! {
    RecordType,
    Class,
}

reads_strings! {
    Ttl: WordError,
    RecordType: WordError,
    Class: WordError,
}

/// Parses a word to a number.
fn read<N: Default>(
    call: unsafe extern "C" fn(*const u8, usize, *mut N, *mut dnstext_outcome) -> u32,
    text: &[u8],
) -> Result<N, WordError> {
    library::check();
    let mut number = N::default();
    let mut outcome = dnstext_outcome::default();
    // SAFETY: the pointer and the length are those of the text, and the call stays within it.
    let status = unsafe { call(text.as_ptr(), text.len(), &mut number, &mut outcome) };
    if status != DNSTEXT_OK {
        return Err(WordError {
            kind: WordErrorKind::of(status),
            place: outcome.place,
        });
    }
    Ok(number)
}

/// Writes the text of a code, at most 10 characters.
fn print(
    call: unsafe extern "C" fn(u16, *mut u8, usize, *mut dnstext_outcome) -> u32,
    code: u16,
    f: &mut fmt::Formatter<'_>,
) -> fmt::Result {
    library::check();
    let mut text = [0; 10];
    let mut outcome = dnstext_outcome::default();
    // SAFETY: the pointer and the length are those of the text, and the call stays within it.
    let status = unsafe { call(code, text.as_mut_ptr(), text.len(), &mut outcome) };
    if status != DNSTEXT_OK {
        return Err(fmt::Error);
    }
    f.pad(&String::from_utf8_lossy(&text[..outcome.length]))
}

/// The error of a word that is not a TTL, type or class.
#[derive(Clone, Copy, Debug, PartialEq, Eq)]
pub struct WordError {
    pub kind: WordErrorKind,
    /// Offset of the error: 0, since the whole word is rejected.
    pub place: usize,
}

reasons! {
    /// Why a word is not a TTL, type or class.
    WordErrorKind {
        /// Not a TTL.
        BadTtl = DNSTEXT_BAD_TTL,
        /// Not a record type.
        UnknownType = DNSTEXT_UNKNOWN_TYPE,
        /// Not a class.
        UnknownClass = DNSTEXT_UNKNOWN_CLASS,
    }
}

impl fmt::Display for WordError {
    fn fmt(&self, f: &mut fmt::Formatter<'_>) -> fmt::Result {
        write!(f, "{} at {}", self.kind.status(), self.place)
    }
}

impl Error for WordError {}
