//! Character strings.
use crate::call::{give, print};
use crate::status::{reasons, Status};
use crate::strings::reads_strings;
use dns_text_sys::{
    dnstext_call, dnstext_charstr_print, dnstext_charstr_print_quoted,
    dnstext_charstr_print_unquoted, dnstext_charstr_read, dnstext_charstr_read_octets,
    DNSTEXT_TOO_LONG,
};
use std::error::Error;
use std::fmt;

/// A character string: at most 255 octets (RFC 1035 section 3.3).
///
/// It displays with the backslash as the only special character. [`quoted`](CharStr::quoted) and
/// [`unquoted`](CharStr::unquoted) return its forms for zone files.
///
/// Equality, order and hash are those of the octets, since in TXT the case of letters counts.
/// [`eq_ignore_ascii_case`](CharStr::eq_ignore_ascii_case) ignores it.
///
/// ```
/// use dns_text::CharStr;
///
/// let string = CharStr::from_text(br"a\;\032b")?;
/// assert_eq!(string.as_octets(), b"a; b");
/// assert_eq!(string.to_string(), "a; b");
/// assert_eq!(string.quoted(), "\"a; b\"");
/// assert_eq!(string.unquoted(), r"a\;\ b");
/// assert_eq!(string, r"a\059\ b".parse()?);
/// assert!(string.eq_ignore_ascii_case(&r"A\;\ B".parse()?));
/// assert_eq!(format!("{string:?}"), "CharStr(\"a; b\")");
/// # Ok::<(), dns_text::ReadError>(())
/// ```
#[derive(Clone, Default, PartialEq, Eq, PartialOrd, Ord, Hash)]
pub struct CharStr {
    octets: Vec<u8>,
}

impl CharStr {
    /// Returns the string with these octets. Fails if there are more than 255.
    ///
    /// ```
    /// use dns_text::CharStr;
    ///
    /// assert_eq!(CharStr::from_octets(vec![0xFF]).unwrap().quoted(), r#""\255""#);
    /// assert!(CharStr::try_from([0; 256].as_slice()).is_err());
    /// ```
    pub fn from_octets(octets: Vec<u8>) -> Result<CharStr, LongString> {
        if octets.len() > 255 {
            return Err(LongString);
        }
        Ok(CharStr { octets })
    }

    /// Parses a text: the octets of its symbols (RFC 1035 section 5.1). A quoted string is passed
    /// without its double quotes.
    ///
    /// Fails for a plain character outside printable ASCII;
    /// [`from_octets_text`](CharStr::from_octets_text) accepts its octets as they are.
    ///
    /// ```
    /// use dns_text::{CharStr, ReadErrorKind};
    ///
    /// let error = CharStr::from_text(br"ab\256").unwrap_err();
    /// assert_eq!((error.kind, error.place), (ReadErrorKind::BadEscape, 2));
    /// ```
    pub fn from_text(text: &[u8]) -> Result<CharStr, ReadError> {
        CharStr::read(dnstext_charstr_read, text)
    }

    /// Parses a text as name servers do: each octet except the backslash is itself, also a tab and
    /// the octets from 0x80 to 0xFF. A quoted string is passed without its double quotes.
    ///
    /// A backslash and three digits are the octet of that number, and a backslash and any octet except
    /// a digit are that octet (RFC 1035 section 5.1). The only errors are `BadEscape`, `ShortInput` and
    /// `TooLong`. A text of printable ASCII is parsed as by [`from_text`](CharStr::from_text).
    ///
    /// ```
    /// use dns_text::{CharStr, ReadErrorKind};
    ///
    /// let string = CharStr::from_octets_text("Zürich\t\\009".as_bytes())?;
    /// assert_eq!(string.as_octets(), "Zürich\t\t".as_bytes());
    /// let error = CharStr::from_octets_text(b"\xFF\\256").unwrap_err();
    /// assert_eq!((error.kind, error.place), (ReadErrorKind::BadEscape, 1));
    /// # Ok::<(), dns_text::ReadError>(())
    /// ```
    pub fn from_octets_text(text: &[u8]) -> Result<CharStr, ReadError> {
        CharStr::read(dnstext_charstr_read_octets, text)
    }

    fn read(call: dnstext_call, text: &[u8]) -> Result<CharStr, ReadError> {
        match give(call, text, text.len().min(255)) {
            Ok(octets) => Ok(CharStr { octets }),
            Err(refused) => Err(ReadError {
                kind: ReadErrorKind::of(refused.status),
                place: refused.place,
            }),
        }
    }

    /// Returns the octets, without the length octet.
    #[must_use]
    pub fn as_octets(&self) -> &[u8] {
        &self.octets
    }

    /// Returns the octets, without the length octet.
    #[must_use]
    pub fn into_octets(self) -> Vec<u8> {
        self.octets
    }

    /// Returns whether two strings differ at most in the case of ASCII letters.
    #[must_use]
    pub fn eq_ignore_ascii_case(&self, other: &CharStr) -> bool {
        self.octets.eq_ignore_ascii_case(&other.octets)
    }

    /// Returns the text in double quotes.
    pub fn quoted(&self) -> String {
        self.printed(dnstext_charstr_print_quoted)
    }

    /// Returns the text as one word of a zone file. The empty string has no such word: the text is empty.
    pub fn unquoted(&self) -> String {
        self.printed(dnstext_charstr_print_unquoted)
    }

    fn printed(&self, call: dnstext_call) -> String {
        print(call, &self.octets, self.octets.len() + 2)
    }
}

reads_strings! {
    CharStr: ReadError,
}

/// The string with these octets, as by [`CharStr::from_octets`].
impl TryFrom<Vec<u8>> for CharStr {
    type Error = LongString;

    fn try_from(octets: Vec<u8>) -> Result<CharStr, LongString> {
        CharStr::from_octets(octets)
    }
}

/// The string with these octets, as by [`CharStr::from_octets`]; a text is parsed by [`CharStr::from_text`].
impl TryFrom<&[u8]> for CharStr {
    type Error = LongString;

    fn try_from(octets: &[u8]) -> Result<CharStr, LongString> {
        if octets.len() > 255 {
            return Err(LongString);
        }
        Ok(CharStr {
            octets: octets.to_vec(),
        })
    }
}

impl AsRef<[u8]> for CharStr {
    fn as_ref(&self) -> &[u8] {
        &self.octets
    }
}

impl fmt::Display for CharStr {
    fn fmt(&self, f: &mut fmt::Formatter<'_>) -> fmt::Result {
        f.pad(&self.printed(dnstext_charstr_print))
    }
}

/// Shows the quoted text.
impl fmt::Debug for CharStr {
    fn fmt(&self, f: &mut fmt::Formatter<'_>) -> fmt::Result {
        write!(f, "CharStr({})", self.quoted())
    }
}

/// A string of more than 255 octets.
#[derive(Clone, Copy, Debug, PartialEq, Eq)]
pub struct LongString;

impl fmt::Display for LongString {
    fn fmt(&self, f: &mut fmt::Formatter<'_>) -> fmt::Result {
        Status(DNSTEXT_TOO_LONG).fmt(f)
    }
}

impl Error for LongString {}

/// The error of a text that is not a character string, with its offset.
#[derive(Clone, Copy, Debug, PartialEq, Eq)]
pub struct ReadError {
    pub kind: ReadErrorKind,
    /// Offset of the rejected symbol.
    pub place: usize,
}

reasons! {
    /// Why a text is not a character string.
    ReadErrorKind {
        /// A backslash that begins no escape.
        BadEscape = DNSTEXT_BAD_ESCAPE,
        /// The text ends inside an escape or a character.
        ShortInput = DNSTEXT_SHORT_INPUT,
        /// Octets that are not UTF-8.
        BadUtf8 = DNSTEXT_BAD_UTF8,
        /// A plain character outside printable ASCII, which has no octet.
        BadSymbol = DNSTEXT_BAD_SYMBOL,
        /// A symbol after 255 octets.
        TooLong = DNSTEXT_TOO_LONG,
    }
}

impl fmt::Display for ReadError {
    fn fmt(&self, f: &mut fmt::Formatter<'_>) -> fmt::Result {
        write!(f, "{} at {}", self.kind.status(), self.place)
    }
}

impl Error for ReadError {}
