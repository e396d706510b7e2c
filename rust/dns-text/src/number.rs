//! Decimal numbers.
use crate::library;
use crate::status::reasons;
use dns_text_sys::{dnstext_number_read, dnstext_outcome, DNSTEXT_OK};
use std::error::Error;
use std::fmt;

/// Parses a token as an unsigned decimal number of at most `greatest`. The empty text is 0.
///
/// ```
/// use dns_text::{number, NumberErrorKind};
///
/// assert_eq!(number(b"3600", u32::MAX.into())?, 3600);
/// let error = number(b"1d", u32::MAX.into()).unwrap_err();
/// assert_eq!((error.kind, error.place), (NumberErrorKind::NoDigit, 1));
/// # Ok::<(), dns_text::NumberError>(())
/// ```
pub fn number(text: &[u8], greatest: u64) -> Result<u64, NumberError> {
    library::check();
    let mut number = 0;
    let mut outcome = dnstext_outcome::default();
    // SAFETY: the pointer and the length are those of the text, and the call stays within it.
    let status = unsafe {
        dnstext_number_read(
            text.as_ptr(),
            text.len(),
            greatest,
            &mut number,
            &mut outcome,
        )
    };
    if status != DNSTEXT_OK {
        return Err(NumberError {
            kind: NumberErrorKind::of(status),
            place: outcome.place,
        });
    }
    Ok(number)
}

/// The error of a token that is not a number, with its offset.
#[derive(Clone, Copy, Debug, PartialEq, Eq)]
pub struct NumberError {
    pub kind: NumberErrorKind,
    /// Offset of the rejected symbol.
    pub place: usize,
}

reasons! {
    /// Why a token is not a number.
    NumberErrorKind {
        /// A symbol other than a plain decimal digit.
        NoDigit = DNSTEXT_NO_DIGIT,
        /// A number above the maximum.
        TooGreat = DNSTEXT_TOO_GREAT,
        /// A backslash that begins no escape.
        BadEscape = DNSTEXT_BAD_ESCAPE,
        /// The text ends inside an escape or a character.
        ShortInput = DNSTEXT_SHORT_INPUT,
        /// Octets that are not UTF-8.
        BadUtf8 = DNSTEXT_BAD_UTF8,
    }
}

impl fmt::Display for NumberError {
    fn fmt(&self, f: &mut fmt::Formatter<'_>) -> fmt::Result {
        write!(f, "{} at {}", self.kind.status(), self.place)
    }
}

impl Error for NumberError {}
